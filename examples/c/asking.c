/* asking.c: how much could I get? An order is asked about before it is sent.
 *
 *     asking samples/paper-example.day
 */
#include <stdio.h>
#include "zelvorm.h"

static uint32_t buys[ZELVORM_QUEUES_WORDS], sells[ZELVORM_QUEUES_WORDS], trades[ZELVORM_TRADES_WORDS];
static uint8_t file[ZELVORM_DAY_FILE_BYTES + 1];

/* The three areas, as each call takes them. */
#define AREAS buys, ZELVORM_QUEUES_WORDS, sells, ZELVORM_QUEUES_WORDS, trades, ZELVORM_TRADES_WORDS

#define BUY 0

static zelvorm_record order(uint8_t account, uint8_t flags, uint32_t lots, uint32_t price) {
    return (zelvorm_record){.kind = ZELVORM_KIND_INSERT, .account = account, .contract = 1, .flags = flags, .lots = lots, .price = price};
}

static zelvorm_state send(zelvorm_state state, zelvorm_record command) {
    zelvorm_response r = zelvorm_execute(state, AREAS, command);
    printf("sent: code %u, traded %u, rested %u\n", r.answer.code, r.answer.traded, r.answer.lots);
    return r.state;
}

static void ask(zelvorm_state state, zelvorm_record command) {
    zelvorm_reading r = zelvorm_gettable(state, AREAS, command);
    printf("%u lots at %u: code %u, would trade %u, orders read %zu\n", command.lots, command.price, r.code, r.lots, r.read);
}

int main(int count, char **words) {
    FILE *from = count == 2 ? fopen(words[1], "rb") : NULL;
    if (!from) return fprintf(stderr, "asking: name a day file\n"), 2;
    size_t bytes = fread(file, 1, sizeof file, from);
    fclose(from);

    zelvorm_state state = zelvorm_open(file, bytes).state;
    state = send(state, (zelvorm_record){.kind = ZELVORM_KIND_PHASE, .contract = 1, .flags = ZELVORM_CONTINUOUS});
    state = send(state, order(1, ZELVORM_FLAG_SELL, 2, 102));
    state = send(state, order(1, ZELVORM_FLAG_SELL, 4, 103));
    state = send(state, order(1, ZELVORM_FLAG_SELL, 5, 105));
    ask(state, order(2, BUY, 1, 102));
    ask(state, order(2, BUY, 9, 104));
    ask(state, order(2, BUY, 9, 111));
    send(state, order(2, BUY, 9, 104));
    return 0;
}
