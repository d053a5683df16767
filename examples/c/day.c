/* day.c: a day file's commands one by one, and the lines that document 01 prints for them.
 *
 *     day samples/paper-example.day
 */
#include <inttypes.h>
#include <stdio.h>
#include <string.h>
#include "zelvorm.h"

static uint32_t buys[ZELVORM_QUEUES_WORDS], sells[ZELVORM_QUEUES_WORDS], trades[ZELVORM_TRADES_WORDS];
static uint8_t file[ZELVORM_DAY_FILE_BYTES + 1];

/* The trades recorded since there were `before` of them. */
static void print_trades(const zelvorm_state *state, size_t before) {
    for (size_t k = before; k < state->tradecount; k++) {
        zelvorm_trade t;
        memcpy(&t, trades + k * ZELVORM_TRADE_STRIDE, sizeof t);
        printf("T %zu %u %u %u %u %u\n", k + 1, t.contract + 1, t.price, t.lots, t.buyorder, t.sellorder);
    }
}

static void print_settlement(const zelvorm_state *state, const zelvorm_report *report) {
    for (size_t c = 0; c < state->contractcount; c++)
        printf("P %zu %u\n", c + 1, report->prices[c]);
    for (size_t a = 0; a < state->accountcount; a++)
        printf("B %zu %" PRId64 " %" PRId64 " %" PRId64 " %" PRIu64 "\n", a + 1, report->closing[a], report->holding[a],
               state->accounts[a].balance, report->charged[a]);
}

int main(int count, char **words) {
    FILE *from = count == 2 ? fopen(words[1], "rb") : NULL;
    if (!from) return fprintf(stderr, "day: name a day file\n"), 2;
    size_t bytes = fread(file, 1, sizeof file, from);
    fclose(from);

    zelvorm_opened day = zelvorm_open(file, bytes);
    if (day.code != ZELVORM_CODE_ACCEPTED) return printf("X %u\n", day.code), 0;
    zelvorm_state state = day.state;
    for (size_t k = 0; k < day.commands; k++) {
        zelvorm_record command;
        memcpy(&command, file + day.first + k * sizeof command, sizeof command);
        zelvorm_response r = zelvorm_execute(state, buys, ZELVORM_QUEUES_WORDS, sells, ZELVORM_QUEUES_WORDS, trades,
                                             ZELVORM_TRADES_WORDS, command);
        printf("C %zu %u %u %u %u\n", k + 1, r.answer.code, r.answer.number, r.answer.traded, r.answer.lots);
        print_trades(&r.state, state.tradecount);
        state = r.state;
        if (command.kind == ZELVORM_KIND_SETTLE && r.answer.code == ZELVORM_CODE_ACCEPTED)
            print_settlement(&state, &r.report);
    }
    return 0;
}
