/* calls.c: so many rounds of the measured commands on a state, in C.
 *
 *     calls FOLDER STATE execute|bundle|run|none ROUNDS
 *
 * Each round begins from a copy of the same state; with "none" it ends there. Prints the number of commands accepted.
 */
#include <stdio.h>
#include <stdlib.h>
#include <string.h>
#include <zelvorm.h>

enum { COMMANDS = ZELVORM_MAX_BUNDLE };

typedef struct exchange {
    zelvorm_state state;
    uint32_t buys[ZELVORM_QUEUES_WORDS], sells[ZELVORM_QUEUES_WORDS], trades[ZELVORM_TRADES_WORDS];
} exchange;

static exchange begun, e;
static uint8_t file[ZELVORM_DAY_FILE_BYTES], commands[24 * COMMANDS];
static uint32_t answers[ZELVORM_ANSWER_STRIDE * ZELVORM_MAX_COMMANDS];

#define AREAS(e) (e).buys, ZELVORM_QUEUES_WORDS, (e).sells, ZELVORM_QUEUES_WORDS, (e).trades, ZELVORM_TRADES_WORDS

static size_t content(const char *folder, const char *name, const char *end, uint8_t *into, size_t most) {
    char path[4096];
    snprintf(path, sizeof path, "%s/%s%s", folder, name, end);
    FILE *from = fopen(path, "rb");
    if (!from) exit((fprintf(stderr, "calls: no file %s\n", path), 2));
    size_t bytes = fread(into, 1, most, from);
    fclose(from);
    return bytes;
}

static size_t accepted(const uint32_t *given, size_t count) {
    size_t found = 0;
    for (size_t k = 0; k < count; k++) found += given[4 * k] == ZELVORM_CODE_ACCEPTED;
    return found;
}

static size_t by_execute(void) {
    size_t found = 0;
    for (size_t k = 0; k < COMMANDS; k++) {
        zelvorm_record command;
        memcpy(&command, commands + 24 * k, sizeof command);
        zelvorm_response r = zelvorm_execute(e.state, AREAS(e), command);
        e.state = r.state;
        found += r.answer.code == ZELVORM_CODE_ACCEPTED;
    }
    return found;
}

static size_t by_bundle(void) {
    e.state = zelvorm_bundle(e.state, AREAS(e), commands, sizeof commands, answers, 4 * COMMANDS).state;
    return accepted(answers, COMMANDS);
}

static size_t by_run(void) {
    e.state = zelvorm_run(e.state, AREAS(e), commands, sizeof commands, answers, 4 * COMMANDS).state;
    return accepted(answers, COMMANDS);
}

static size_t by_none(void) { return 0; }

int main(int count, char **words) {
    if (count != 5) return 2;
    zelvorm_opened day = zelvorm_open(file, content(words[1], words[2], ".day", file, sizeof file));
    content(words[1], words[2], ".commands", commands, sizeof commands);
    begun.state = zelvorm_run(day.state, AREAS(begun), file + day.first, 24 * day.commands, answers, 4 * day.commands).state;
    const char first = words[3][0];
    size_t (*round)(void) = first == 'e' ? by_execute : first == 'b' ? by_bundle : first == 'r' ? by_run : by_none;
    size_t found = 0;
    for (long k = atol(words[4]); k > 0; k--) {
        memcpy(&e, &begun, sizeof e);
        found += round();
    }
    printf("%zu\n", found);
    return 0;
}
