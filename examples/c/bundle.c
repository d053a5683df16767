/* bundle.c: a firm's morning orders in one call. One of them is refused, and the others stand.
 *
 *     bundle samples/paper-example.day
 */
#include <stdio.h>
#include "zelvorm.h"

static uint32_t buys[ZELVORM_QUEUES_WORDS], sells[ZELVORM_QUEUES_WORDS], trades[ZELVORM_TRADES_WORDS];
static uint8_t file[ZELVORM_DAY_FILE_BYTES + 1];

#define BUY 0

static zelvorm_record order(uint8_t account, uint8_t flags, uint32_t lots, uint32_t price) {
    return (zelvorm_record){.kind = ZELVORM_KIND_INSERT, .account = account, .contract = 1, .flags = flags, .lots = lots, .price = price};
}

int main(int count, char **words) {
    FILE *from = count == 2 ? fopen(words[1], "rb") : NULL;
    if (!from) return fprintf(stderr, "bundle: name a day file\n"), 2;
    size_t bytes = fread(file, 1, sizeof file, from);
    fclose(from);

    zelvorm_record morning[] = {
        {.kind = ZELVORM_KIND_PHASE, .contract = 1, .flags = ZELVORM_CONTINUOUS},
        order(1, ZELVORM_FLAG_SELL, 5, 102),
        order(1, ZELVORM_FLAG_SELL, 3, 111), /* above the day's high */
        order(1, BUY, 4, 98),
        order(2, BUY, 6, 102),
    };
    enum { COMMANDS = sizeof morning / sizeof *morning };
    zelvorm_answer answers[COMMANDS];
    zelvorm_opened day = zelvorm_open(file, bytes);
    zelvorm_receipt r = zelvorm_bundle(day.state, buys, ZELVORM_QUEUES_WORDS, sells, ZELVORM_QUEUES_WORDS, trades,
                                       ZELVORM_TRADES_WORDS, (const uint8_t *)morning, sizeof morning, (uint32_t *)answers,
                                       4 * COMMANDS);
    printf("bundle: code %u\n", r.code);
    if (r.code != ZELVORM_CODE_ACCEPTED) return 1;
    for (int k = 0; k < COMMANDS; k++)
        printf("command %d: code %u, order %u, traded %u, rested %u\n", k + 1, answers[k].code, answers[k].number,
               answers[k].traded, answers[k].lots);
    printf("resting: %zu buys, %zu sells\n", r.state.buycounts[0], r.state.sellcounts[0]);
    return 0;
}
