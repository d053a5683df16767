/* statement.c: an account's orders posted to its clients, and the statement printed.
 *
 *     statement samples/paper-example.day
 */
#include <inttypes.h>
#include <stdio.h>
#include <string.h>
#include "zelvorm.h"

static uint32_t buys[ZELVORM_QUEUES_WORDS], sells[ZELVORM_QUEUES_WORDS], trades[ZELVORM_TRADES_WORDS];
static uint8_t file[ZELVORM_DAY_FILE_BYTES + 1], out[ZELVORM_STATEMENT_BYTES];

/* The three areas, as each call takes them. */
#define AREAS buys, ZELVORM_QUEUES_WORDS, sells, ZELVORM_QUEUES_WORDS, trades, ZELVORM_TRADES_WORDS

static uint32_t u32_at(const uint8_t *from) {
    uint32_t value;
    memcpy(&value, from, sizeof value);
    return value;
}

static int64_t i64_at(const uint8_t *from) {
    int64_t value;
    memcpy(&value, from, sizeof value);
    return value;
}

/* Trades of 16 bytes, holdings of 8, profits of 16, each section after its count. */
static void print_statement(const uint8_t *at, uint32_t contracts) {
    uint32_t count = u32_at(at);
    for (at += 4; count > 0; count--, at += 16)
        printf("client %u: contract %u, %s %s, %u lots at %u, order %u\n", at[0], at[1], at[2] ? "sell" : "buy",
               at[3] ? "close" : "open", u32_at(at + 8), u32_at(at + 4), u32_at(at + 12));
    count = u32_at(at);
    at += 4;
    for (uint32_t k = 0; k < count; k++, at += 8)
        printf("client %u: contract %u, long %u, short %u\n", k / contracts + 1, k % contracts + 1, u32_at(at), u32_at(at + 4));
    count = u32_at(at);
    at += 4;
    for (uint32_t k = 0; k < count; k++, at += 16)
        printf("client %u: closing profit %" PRId64 ", holding profit %" PRId64 "\n", k + 1, i64_at(at), i64_at(at + 8));
}

int main(int count, char **words) {
    FILE *from = count == 2 ? fopen(words[1], "rb") : NULL;
    if (!from) return fprintf(stderr, "statement: name a day file\n"), 2;
    size_t bytes = fread(file, 1, sizeof file, from);
    fclose(from);

    /* The day up to its settlement, which is the last command. */
    zelvorm_opened day = zelvorm_open(file, bytes);
    static uint32_t answers[4 * ZELVORM_MAX_COMMANDS];
    zelvorm_state state = zelvorm_run(day.state, AREAS, file + day.first, 24 * (day.commands - 1), answers, 4 * day.commands).state;

    /* Account 2 has two clients, without lots in the morning. Order 3 closes what order 2 opened: both are client 1's. */
    uint32_t starts[8 * 2] = {0};
    uint32_t postings[][4] = {{2, 1, 3, 2}, {2, 1, 3, 1}};
    for (int k = 0; k < 2; k++) {
        zelvorm_statement told = zelvorm_client_statement(state, AREAS, 2, 2, starts, 16, postings[k], 4, out, sizeof out);
        if (told.code == ZELVORM_CODE_ACCEPTED)
            print_statement(out, (uint32_t)state.contractcount);
        else
            printf("statement refused, code %u: %s\n", told.code, zelvorm_code_words(told.code));
    }
    return 0;
}
