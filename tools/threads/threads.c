/* threads.c: calls on different states at the same time give what they give one after the other.
 *
 *     threads THREADS COMMANDS FILE.day...
 *
 * Each thread plays the days in turn on a state of its own, beginning with another one, until it has sent its share of so many
 * commands. Then one thread does the same for each of them. Prints the commands sent, and ends with 1 where two sums differ.
 */
#include <pthread.h>
#include <stdint.h>
#include <stdio.h>
#include <stdlib.h>
#include <string.h>
#include "zelvorm.h"

enum { MOST_THREADS = 64, MOST_DAYS = 64 };

typedef struct day {
    uint8_t bytes[ZELVORM_DAY_FILE_BYTES];
    size_t length;
} day;

static day days[MOST_DAYS];
static size_t day_count;

/* One thread's own: a state's areas, where it begins, how much it sends, and what came out. */
typedef struct player {
    uint32_t buys[ZELVORM_QUEUES_WORDS], sells[ZELVORM_QUEUES_WORDS], trades[ZELVORM_TRADES_WORDS];
    uint32_t answers[ZELVORM_ANSWER_STRIDE * ZELVORM_MAX_COMMANDS];
    size_t first_day, share, sent;
    uint64_t sum;
} player;

#define AREAS(p) (p)->buys, ZELVORM_QUEUES_WORDS, (p)->sells, ZELVORM_QUEUES_WORDS, (p)->trades, ZELVORM_TRADES_WORDS

static void add(player *p, const void *from, size_t bytes) {
    const uint8_t *at = from;
    for (size_t k = 0; k < bytes; k++) p->sum = (p->sum ^ at[k]) * UINT64_C(1099511628211);
}

/* The state without its padding. */
static void add_state(player *p, const zelvorm_state *state) {
    add(p, state, offsetof(zelvorm_state, settlements) + sizeof state->settlements);
}

/* A command in ten by itself, the others in lists of nine; now and then a question and a state written. */
static void play(player *p, const day *d) {
    zelvorm_opened opened = zelvorm_open(d->bytes, d->length);
    zelvorm_state state = opened.state;
    for (size_t k = 0; k < opened.commands && p->sent < p->share;) {
        zelvorm_record command;
        memcpy(&command, d->bytes + opened.first + 24 * k, sizeof command);
        if (k % 10 == 0) {
            zelvorm_reading reading = zelvorm_gettable(state, AREAS(p), command);
            add(p, &reading.lots, sizeof reading.lots);
            zelvorm_response r = zelvorm_execute(state, AREAS(p), command);
            add(p, &r.answer, sizeof r.answer);
            add(p, &r.report, sizeof r.report);
            state = r.state;
            k++, p->sent++;
        } else {
            size_t most = opened.commands - k < 9 ? opened.commands - k : 9;
            zelvorm_ran ran = zelvorm_run(state, AREAS(p), d->bytes + opened.first + 24 * k, 24 * most, p->answers, 4 * most);
            add(p, p->answers, 16 * ran.played);
            state = ran.state;
            k += ran.played, p->sent += ran.played;
        }
    }
    uint8_t out[ZELVORM_SAVED_BYTES] = {0};
    zelvorm_saved saved = zelvorm_write(state, AREAS(p), out, sizeof out);
    add(p, &saved.code, sizeof saved.code);
    add(p, out, sizeof out);
    add_state(p, &state);
    add(p, p->trades, sizeof p->trades);
}

static void *play_all(void *argument) {
    player *p = argument;
    memset(p->buys, 0, sizeof p->buys);
    memset(p->sells, 0, sizeof p->sells);
    memset(p->trades, 0, sizeof p->trades);
    p->sum = UINT64_C(14695981039346656037), p->sent = 0;
    for (size_t k = p->first_day; p->sent < p->share; k = (k + 1) % day_count) play(p, &days[k]);
    return NULL;
}

int main(int count, char **words) {
    size_t threads = count > 3 ? (size_t)atol(words[1]) : 0, commands = count > 3 ? (size_t)atol(words[2]) : 0;
    if (threads == 0 || threads > MOST_THREADS) return fprintf(stderr, "usage: threads THREADS COMMANDS FILE.day...\n"), 2;
    for (int k = 3; k < count && day_count < MOST_DAYS; k++) {
        FILE *from = fopen(words[k], "rb");
        if (!from) return fprintf(stderr, "threads: no file %s\n", words[k]), 2;
        days[day_count].length = fread(days[day_count].bytes, 1, sizeof days->bytes, from);
        fclose(from);
        day_count++;
    }
    player *players = calloc(threads, sizeof *players);
    if (!players) return 2;
    pthread_t started[MOST_THREADS];
    for (size_t k = 0; k < threads; k++) {
        players[k].first_day = k % day_count, players[k].share = commands / threads;
        if (pthread_create(&started[k], NULL, play_all, &players[k]) != 0) return 2;
    }
    for (size_t k = 0; k < threads; k++) pthread_join(started[k], NULL);
    size_t sent = 0, differ = 0;
    for (size_t k = 0; k < threads; k++) {
        uint64_t together = players[k].sum;
        sent += players[k].sent;
        play_all(&players[k]);
        differ += players[k].sum != together;
    }
    printf("%zu threads, %zu commands, %zu differ\n", threads, sent, differ);
    free(players);
    return differ != 0;
}
