/* tomorrow.c: a day is settled and its state written; tomorrow it is read, and trading goes on.
 *
 *     tomorrow samples/paper-example.day
 */
#include <inttypes.h>
#include <stdio.h>
#include "zelvorm.h"

static uint32_t buys[ZELVORM_QUEUES_WORDS], sells[ZELVORM_QUEUES_WORDS], trades[ZELVORM_TRADES_WORDS];
static uint32_t answers[ZELVORM_ANSWER_STRIDE * ZELVORM_MAX_COMMANDS];
static uint8_t file[ZELVORM_DAY_FILE_BYTES + 1], saved[ZELVORM_SAVED_BYTES];

/* The three areas, as each call takes them. */
#define AREAS buys, ZELVORM_QUEUES_WORDS, sells, ZELVORM_QUEUES_WORDS, trades, ZELVORM_TRADES_WORDS

static int told(const char *what, uint32_t code) {
    if (code != ZELVORM_CODE_ACCEPTED) printf("%s: code %u: %s\n", what, code, zelvorm_code_words(code));
    return code != ZELVORM_CODE_ACCEPTED;
}

int main(int count, char **words) {
    FILE *from = count == 2 ? fopen(words[1], "rb") : NULL;
    if (!from) return fprintf(stderr, "tomorrow: name a day file\n"), 2;
    size_t bytes = fread(file, 1, sizeof file, from);
    fclose(from);

    /* The day up to its settlement, which is the last command. */
    zelvorm_opened day = zelvorm_open(file, bytes);
    zelvorm_state state = zelvorm_run(day.state, AREAS, file + day.first, 24 * (day.commands - 1), answers, 4 * day.commands).state;
    told("before the settlement", zelvorm_write(state, AREAS, saved, sizeof saved).code);
    state = zelvorm_execute(state, AREAS, (zelvorm_record){.kind = ZELVORM_KIND_SETTLE}).state;
    zelvorm_saved written = zelvorm_write(state, AREAS, saved, sizeof saved);
    if (told("after it", written.code)) return 1;
    printf("after it: %zu bytes\n", written.length);

    zelvorm_loaded loaded = zelvorm_read(saved, written.length, (zelvorm_state){0}, AREAS);
    if (told("read", loaded.code)) return 1;
    state = loaded.state;
    printf("read: settlements %u\n", state.settlements);
    for (size_t a = 0; a < state.accountcount; a++)
        printf("account %zu: balance %" PRId64 ", long %u, short %u\n", a + 1, state.accounts[a].balance,
               state.accounts[a].holdings[0].long_, state.accounts[a].holdings[0].short_);
    state = zelvorm_execute(state, AREAS, (zelvorm_record){.kind = ZELVORM_KIND_PHASE, .contract = 1, .flags = ZELVORM_CONTINUOUS}).state;
    zelvorm_record offer = {.kind = ZELVORM_KIND_INSERT, .account = 2, .contract = 1, .flags = ZELVORM_FLAG_SELL, .lots = 1, .price = 105};
    zelvorm_answer answer = zelvorm_execute(state, AREAS, offer).answer;
    if (told("sent", answer.code)) return 1;
    printf("sent: order %u, rested %u\n", answer.number, answer.lots);

    told("damaged", zelvorm_read(saved + 1, written.length - 1, (zelvorm_state){0}, AREAS).code);
    return 0;
}
