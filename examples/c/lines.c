/* lines.c: a day file in, its lines out, part by part, without a day runner.
 *
 *     lines samples/paper-example.day
 */
#include <stdio.h>
#include "zelvorm.h"

static uint32_t buys[ZELVORM_QUEUES_WORDS], sells[ZELVORM_QUEUES_WORDS], trades[ZELVORM_TRADES_WORDS];
static uint8_t file[ZELVORM_DAY_FILE_BYTES + 1], out[ZELVORM_OUTPUT_BYTES];

int main(int count, char **words) {
    FILE *from = count == 2 ? fopen(words[1], "rb") : NULL;
    if (!from) return fprintf(stderr, "lines: name a day file\n"), 2;
    size_t bytes = fread(file, 1, sizeof file, from);
    fclose(from);

    /* Each part goes out before the next is asked for. A broken file has one part: X 20. */
    zelvorm_printed part = {.more = true, .state = zelvorm_open(file, bytes).state};
    while (part.more) {
        part = zelvorm_lines(file, bytes, part.state, part.next, buys, ZELVORM_QUEUES_WORDS, sells, ZELVORM_QUEUES_WORDS,
                             trades, ZELVORM_TRADES_WORDS, out, sizeof out);
        if (fwrite(out, 1, part.length, stdout) != part.length) return perror("lines"), 1;
    }
    return fflush(stdout) ? perror("lines"), 1 : 0;
}
