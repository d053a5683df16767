/* host.c: the loop that an exchange needs around the engine, so that nothing is lost when the machine stops.
 *
 *     host begin FOLDER FILE       begins the first day in a folder, from a day file's head or from a saved state
 *     host serve FOLDER [NUMBER]   takes commands from standard input, 24 bytes each, and gives their answers;
 *                                  before that it gives the answers from command NUMBER on once more
 *     host state FOLDER            the state after the last command, in lines
 *     host dayfile FOLDER          the first day as a day file, where it began with one
 *
 * A command is in the journal, and durable, before it is carried out and answered. After a crash the journal is played
 * again. README.md beside this file says what a client does then, and how a journal lies in its file.
 *
 * Exit status: 0 the input has ended; 1 stopped, and standard error says why; 2 not called rightly.
 */
#define _DEFAULT_SOURCE
#include <errno.h>
#include <fcntl.h>
#include <inttypes.h>
#include <signal.h>
#include <stdarg.h>
#include <stdio.h>
#include <stdlib.h>
#include <string.h>
#include <sys/file.h>
#include <sys/stat.h>
#include <unistd.h>
#include "zelvorm.h"

/* A settlement ends a day and a run has at most so many, so a folder has at most so many journals. */
enum { MAX_DAYS = ZELVORM_MAX_SETTLEMENTS + 1 };

/* A journal is a head and then records. A record is a command's number (4), its 24 bytes and a checksum (4). */
enum { RECORD_WIDTH = 32, COMMAND_AT = 4, CHECKSUM_AT = 28 };

/* The head, by the places of its fields. The two texts after the last field have their length (4) before them: the
 * engine's identity, and the file that the day began with. Zeros follow up to a multiple of 32; the head's last four
 * bytes are its checksum. */
enum { LENGTH_AT = 8, DAY_AT = 12, FIRST_AT = 16, ORIGIN_AT = 20, TEXTS_AT = 24 };
enum { MAX_IDENTITY = 512, MAX_HEAD = 4096 };
enum { FROM_DAY_FILE = 1, FROM_SAVED_STATE = 2 };
static const char FORM[] = "ZJOURN01";

/* No command has this number: where answers from it on are told again, none are. */
#define NOTHING_TOLD UINT32_MAX

/* How many commands are read and played at a time. */
enum { BLOCK = 1000 };

/* The exchange: what the engine is lent. */
static zelvorm_state state;
static uint32_t buys[ZELVORM_QUEUES_WORDS], sells[ZELVORM_QUEUES_WORDS], trades[ZELVORM_TRADES_WORDS];
#define AREAS buys, ZELVORM_QUEUES_WORDS, sells, ZELVORM_QUEUES_WORDS, trades, ZELVORM_TRADES_WORDS

/* A day's journal. */
typedef struct {
    int file;
    char name[32];
    unsigned day;       /* from 1 */
    uint32_t first;     /* the number of the day's first command */
    uint32_t commands;  /* how many are in the journal, whole */
    uint32_t checksum;  /* that of the last record, or of the head */
    uint32_t origin;    /* FROM_DAY_FILE or FROM_SAVED_STATE */
    uint32_t settled;   /* how many settlements were made before this day */
    size_t length;      /* of the head */
    const uint8_t *identity, *beginning;
    size_t identity_bytes, beginning_bytes;
    uint8_t head[MAX_HEAD];
} journal;

__attribute__((format(printf, 1, 2))) static _Noreturn void stop(const char *form, ...) {
    va_list words;
    va_start(words, form);
    fputs("host: ", stderr);
    vfprintf(stderr, form, words);
    fputc('\n', stderr);
    va_end(words);
    exit(1);
}

/* Numbers in files are little-endian. */

static uint32_t number_at(const uint8_t *bytes) {
    return bytes[0] | (uint32_t)bytes[1] << 8 | (uint32_t)bytes[2] << 16 | (uint32_t)bytes[3] << 24;
}

static void put_number(uint8_t *bytes, uint32_t number) {
    for (int k = 0; k < 4; k++) bytes[k] = (uint8_t)(number >> 8 * k);
}

/* CRC-32, going on from the checksum before. The top bit is set, so that a record written whole never ends in a zero
 * byte, as the room of a write that was cut off does. */
static uint32_t checksum(uint32_t before, const uint8_t *bytes, size_t count) {
    static uint32_t table[256];
    if (table[1] == 0)
        for (uint32_t k = 0; k < 256; k++) {
            table[k] = k;
            for (int bit = 0; bit < 8; bit++) table[k] = table[k] >> 1 ^ (table[k] & 1 ? 0xEDB88320u : 0);
        }
    uint32_t sum = ~before;
    for (size_t k = 0; k < count; k++) sum = sum >> 8 ^ table[(sum ^ bytes[k]) & 255];
    return ~sum | 0x80000000u;
}

/* ---- Files ---- */

/* As many of the bytes from a place on as there are. */
static size_t read_at(int file, const char *name, uint8_t *bytes, size_t count, off_t place) {
    size_t done = 0;
    while (done < count) {
        ssize_t got = pread(file, bytes + done, count - done, place + (off_t)done);
        if (got < 0) stop("%s cannot be read: %s", name, strerror(errno));
        if (got == 0) break;
        done += (size_t)got;
    }
    return done;
}

/* Whether all bytes were written. */
static bool write_at(int file, const uint8_t *bytes, size_t count, off_t place) {
    while (count > 0) {
        ssize_t put = pwrite(file, bytes, count, place);
        if (put <= 0) return false;
        bytes += put, place += put, count -= (size_t)put;
    }
    return true;
}

static int open_folder(const char *path) {
    int folder = open(path, O_RDONLY | O_DIRECTORY | O_CLOEXEC);
    if (folder < 0) stop("%s: %s", path, strerror(errno));
    if (flock(folder, LOCK_EX | LOCK_NB) == 0) return folder;
    if (errno == EWOULDBLOCK) stop("%s: another host is at work here; nothing was changed", path);
    stop("%s cannot be locked: %s", path, strerror(errno));
}

/* The names in a folder. */
static void make_names_durable(int folder) {
    if (fsync(folder) != 0) stop("the folder cannot be made durable: %s; start again to go on", strerror(errno));
}

/* The folder's own name too. */
static void make_folder_durable(int folder) {
    make_names_durable(folder);
    int above = openat(folder, "..", O_RDONLY | O_DIRECTORY | O_CLOEXEC);
    if (above < 0) stop("the folder above cannot be opened: %s", strerror(errno));
    make_names_durable(above);
    close(above);
}

/* A file with these bytes, whole and durable before it has its name. */
static void put_in_place(int folder, const char *name, const uint8_t *bytes, size_t count) {
    char fresh[40];
    snprintf(fresh, sizeof fresh, "%s.new", name);
    int file = openat(folder, fresh, O_WRONLY | O_CREAT | O_TRUNC | O_CLOEXEC, 0666);
    if (file < 0 || !write_at(file, bytes, count, 0) || fsync(file) != 0 || close(file) != 0 ||
        renameat(folder, fresh, folder, name) != 0)
        stop("%s cannot be written: %s; all answers given stand, start again to go on", name, strerror(errno));
    make_names_durable(folder);
}

/* ---- The journal ---- */

static void name_journal(char name[32], unsigned day) { snprintf(name, 32, "day-%03u.journal", day); }

/* The last day that has a journal, or 0. */
static unsigned last_day(int folder) {
    char name[32];
    for (unsigned day = MAX_DAYS; day > 0; day--) {
        name_journal(name, day);
        if (faccessat(folder, name, F_OK, 0) == 0) return day;
        if (errno != ENOENT) stop("%s: %s", name, strerror(errno));
    }
    return 0;
}

static size_t put_text(uint8_t *at, const void *text, size_t count) {
    put_number(at, (uint32_t)count);
    memcpy(at + 4, text, count);
    return 4 + count;
}

/* Which engine this is, in one line. */
static const char *identity(void) {
    static char text[MAX_IDENTITY];
    zelvorm_identity engine = zelvorm_engine();
    int length = snprintf(text, sizeof text, "zelvorm %s kit %s sources %s", engine.version, engine.kit, engine.sources);
    if (length < 0 || length >= MAX_IDENTITY) stop("the engine's identity is too long for a journal");
    return text;
}

/* Begins a day: its journal with a head and no commands. */
static void put_journal(int folder, unsigned day, uint32_t first, uint32_t origin, const uint8_t *beginning, size_t count) {
    uint8_t head[MAX_HEAD] = {0};
    memcpy(head, FORM, 8);
    put_number(head + DAY_AT, day);
    put_number(head + FIRST_AT, first);
    put_number(head + ORIGIN_AT, origin);
    size_t used = TEXTS_AT;
    used += put_text(head + used, identity(), strlen(identity()));
    used += put_text(head + used, beginning, count);
    size_t length = (used + 4 + RECORD_WIDTH - 1) / RECORD_WIDTH * RECORD_WIDTH;
    put_number(head + LENGTH_AT, (uint32_t)length);
    put_number(head + length - 4, checksum(0, head, length - 4));
    char name[32];
    name_journal(name, day);
    put_in_place(folder, name, head, length);
}

/* A text of the head, and the place after it; 0 where it does not lie in the head. */
static size_t read_text(const journal *j, size_t at, const uint8_t **text, size_t *count) {
    if (at == 0 || at + 8 > j->length) return 0;
    *text = j->head + at + 4;
    *count = number_at(j->head + at);
    return *count <= j->length - at - 8 ? at + 4 + *count : 0;
}

static void read_head(journal *j) {
    size_t there = read_at(j->file, j->name, j->head, sizeof j->head, 0);
    if (there < TEXTS_AT || memcmp(j->head, FORM, 8) != 0) stop("%s is not a journal; nothing was changed", j->name);
    j->length = number_at(j->head + LENGTH_AT);
    if (j->length < RECORD_WIDTH || j->length % RECORD_WIDTH != 0 || j->length > there ||
        checksum(0, j->head, j->length - 4) != number_at(j->head + j->length - 4))
        stop("%s is damaged: the checksum of its head fails; nothing was changed", j->name);
    j->checksum = number_at(j->head + j->length - 4);
    j->first = number_at(j->head + FIRST_AT);
    j->origin = number_at(j->head + ORIGIN_AT);
    size_t at = read_text(j, TEXTS_AT, &j->identity, &j->identity_bytes);
    if (read_text(j, at, &j->beginning, &j->beginning_bytes) == 0)
        stop("%s is damaged: its head does not hold together; nothing was changed", j->name);
    if (number_at(j->head + DAY_AT) != j->day)
        stop("%s is the journal of day %" PRIu32 "; nothing was changed", j->name, number_at(j->head + DAY_AT));
}

static off_t place_of(const journal *j, size_t command) { return (off_t)(j->length + command * RECORD_WIDTH); }

/* Whether a record is the one that comes next in the journal. */
static bool is_next(const journal *j, const uint8_t *record) {
    return number_at(record) == j->first + j->commands &&
           number_at(record + CHECKSUM_AT) == checksum(j->checksum, record, CHECKSUM_AT);
}

/* Counts the records up to the end, or to a write that was cut off: a part of a record, or a last one that ends in a
 * zero byte. Such a command was never answered, and the next one takes its place. */
static void count_commands(journal *j) {
    static uint8_t block[BLOCK * RECORD_WIDTH];
    struct stat found;
    if (fstat(j->file, &found) != 0) stop("%s: %s", j->name, strerror(errno));
    size_t rest = ((size_t)found.st_size - j->length) % RECORD_WIDTH;
    size_t records = ((size_t)found.st_size - j->length) / RECORD_WIDTH;
    while (j->commands < records) {
        size_t read = read_at(j->file, j->name, block, sizeof block, place_of(j, j->commands)) / RECORD_WIDTH;
        for (size_t k = 0; k < read; k++) {
            const uint8_t *record = block + k * RECORD_WIDTH;
            if (!is_next(j, record)) {
                if (j->commands + 1 == records && rest == 0 && record[RECORD_WIDTH - 1] == 0) return;
                stop("%s is damaged: the checksum of command %" PRIu32 " fails, at byte %jd; nothing was changed", j->name,
                     j->first + j->commands, (intmax_t)place_of(j, j->commands));
            }
            j->checksum = number_at(record + CHECKSUM_AT);
            j->commands++;
        }
    }
}

static void open_journal(journal *j, int folder, unsigned day, int access) {
    memset(j, 0, sizeof *j);
    j->day = day;
    name_journal(j->name, day);
    j->file = openat(folder, j->name, access | O_CLOEXEC);
    if (j->file < 0) stop("%s cannot be opened: %s; nothing was changed", j->name, strerror(errno));
    read_head(j);
    count_commands(j);
}

/* Another engine might answer otherwise. */
static void check_engine(const journal *j) {
    const char *own = identity();
    if (j->identity_bytes != strlen(own) || memcmp(j->identity, own, j->identity_bytes) != 0)
        stop("%s is of another engine; nothing was changed\n  the journal's: %.*s\n  this one:      %s", j->name,
             (int)j->identity_bytes, (const char *)j->identity, own);
}

/* The last record may be there without being durable: its host was killed too early, or the disk refused. Then only
 * bytes that are written once more are sure to reach the disk. */
static void make_last_durable(const journal *j) {
    uint8_t record[RECORD_WIDTH];
    if (j->commands == 0) return;
    off_t place = place_of(j, j->commands - 1);
    read_at(j->file, j->name, record, RECORD_WIDTH, place);
    if (!write_at(j->file, record, RECORD_WIDTH, place) || fdatasync(j->file) != 0)
        stop("%s cannot be written: %s; no answer was given", j->name, strerror(errno));
}

/* The journal of the folder's last day, to go on with: all that is in it is durable. */
static void open_last_journal(journal *j, int folder, const char *path) {
    unsigned day = last_day(folder);
    if (day == 0) stop("%s has no journal: host begin makes the first one", path);
    open_journal(j, folder, day, O_RDWR);
    check_engine(j);
    make_last_durable(j);
    make_folder_durable(folder);
}

/* Puts a command at the journal's end and makes it durable. */
static void append(journal *j, const uint8_t *command) {
    uint32_t number = j->first + j->commands;
    uint8_t record[RECORD_WIDTH];
    if (number == NOTHING_TOLD) stop("the numbers of commands are used up: begin in another folder, after a settlement");
    put_number(record, number);
    memcpy(record + COMMAND_AT, command, ZELVORM_COMMAND_WIDTH);
    put_number(record + CHECKSUM_AT, checksum(j->checksum, record, CHECKSUM_AT));
    if (!write_at(j->file, record, RECORD_WIDTH, place_of(j, j->commands)) || fdatasync(j->file) != 0)
        stop("%s cannot be written: %s; all answers given stand, and the next start tells whether command %" PRIu32
             " is carried out", j->name, strerror(errno), number);
    j->checksum = number_at(record + CHECKSUM_AT);
    j->commands++;
}

/* ---- Answers, in the lines of the day runner ---- */

static void print_trades(size_t before) {
    for (size_t k = before; k < state.tradecount; k++) {
        zelvorm_trade t;
        memcpy(&t, trades + k * ZELVORM_TRADE_STRIDE, sizeof t);
        printf("T %zu %u %u %u %u %u\n", k + 1, t.contract + 1, t.price, t.lots, t.buyorder, t.sellorder);
    }
}

static void print_settlement(const zelvorm_report *report) {
    for (size_t c = 0; c < state.contractcount; c++) printf("P %zu %u\n", c + 1, report->prices[c]);
    for (size_t a = 0; a < state.accountcount; a++)
        printf("B %zu %" PRId64 " %" PRId64 " %" PRId64 " %" PRIu64 "\n", a + 1, report->closing[a], report->holding[a],
               state.accounts[a].balance, report->charged[a]);
}

/* What was printed goes out, all of it. */
static void give(void) {
    if (fflush(stdout) != 0) stop("an answer could not be given: %s; what is durable stands", strerror(errno));
}

/* Carries out a command of the journal and gives its answer. */
static void carry_out(uint32_t number, const uint8_t *command) {
    zelvorm_record record;
    memcpy(&record, command, sizeof record);
    zelvorm_response r = zelvorm_execute(state, AREAS, record);
    size_t trades_before = state.tradecount;
    uint32_t settled_before = state.settlements;
    state = r.state;
    printf("C %" PRIu32 " %u %u %u %u\n", number, r.answer.code, r.answer.number, r.answer.traded, r.answer.lots);
    print_trades(trades_before);
    if (state.settlements > settled_before) print_settlement(&r.report);
    give();
}

/* ---- Recovery ---- */

/* Commands from a place of the journal on, one after the other. */
static void read_commands(const journal *j, size_t from, size_t count, uint8_t *commands) {
    static uint8_t block[BLOCK * RECORD_WIDTH];
    read_at(j->file, j->name, block, count * RECORD_WIDTH, place_of(j, from));
    for (size_t k = 0; k < count; k++)
        memcpy(commands + k * ZELVORM_COMMAND_WIDTH, block + k * RECORD_WIDTH + COMMAND_AT, ZELVORM_COMMAND_WIDTH);
}

/* The state that the day began with, by `open` or by `read`. */
static void begin_day(journal *j) {
    uint32_t code;
    if (j->origin == FROM_DAY_FILE) {
        zelvorm_opened opened = zelvorm_open(j->beginning, j->beginning_bytes);
        code = opened.code, state = opened.state;
    } else {
        zelvorm_loaded loaded = zelvorm_read(j->beginning, j->beginning_bytes, state, AREAS);
        code = loaded.code, state = loaded.state;
    }
    if (code != ZELVORM_CODE_ACCEPTED)
        stop("%s begins with a file that is refused, code %u: %s", j->name, code, zelvorm_code_words(code));
    j->settled = state.settlements;
}

/* Plays the journal again: by `run`, and from command `told` on one by one, with the answers. */
static void play(journal *j, uint32_t told) {
    static uint8_t commands[BLOCK * ZELVORM_COMMAND_WIDTH];
    static uint32_t answers[BLOCK * ZELVORM_ANSWER_STRIDE];
    begin_day(j);
    size_t silent = told <= j->first ? 0 : told - j->first;
    if (silent > j->commands) silent = j->commands;
    for (size_t from = 0; from < silent; from += BLOCK) {
        size_t count = silent - from < BLOCK ? silent - from : BLOCK;
        read_commands(j, from, count, commands);
        state = zelvorm_run(state, AREAS, commands, count * ZELVORM_COMMAND_WIDTH, answers, sizeof answers / 4).state;
    }
    for (size_t k = silent; k < j->commands; k++) {
        read_commands(j, k, 1, commands);
        carry_out(j->first + (uint32_t)k, commands);
    }
}

/* Gives the answers of the days before the last one once more, from a command on. */
static void tell_earlier_days(int folder, const journal *last, uint32_t told) {
    static journal j;
    unsigned day = last->day;
    uint32_t first = last->first;
    while (told < first && day > 1) {
        open_journal(&j, folder, --day, O_RDONLY);
        first = j.first;
        close(j.file);
    }
    for (; day < last->day; day++) {
        open_journal(&j, folder, day, O_RDONLY);
        check_engine(&j);
        play(&j, told);
        close(j.file);
    }
}

/* After its settlement a day is saved, and the next day's journal begins with what was saved. */
static void begin_next_day(journal *j, int folder) {
    char name[32];
    uint8_t file[ZELVORM_SAVED_BYTES];
    zelvorm_saved saved = zelvorm_write(state, AREAS, file, sizeof file);
    if (saved.code != ZELVORM_CODE_ACCEPTED)
        stop("day %u cannot be saved, code %u: %s", j->day, saved.code, zelvorm_code_words(saved.code));
    snprintf(name, sizeof name, "day-%03u.saved", j->day);
    put_in_place(folder, name, file, saved.length);
    put_journal(folder, j->day + 1, j->first + j->commands, FROM_SAVED_STATE, file, saved.length);
    close(j->file);
    open_journal(j, folder, j->day + 1, O_RDWR);
    begin_day(j);
}

/* ---- What the host is asked to do ---- */

/* The file's bytes; one that is longer than any day file is cut. */
static size_t read_file(const char *path, uint8_t *bytes, size_t most) {
    int file = open(path, O_RDONLY | O_CLOEXEC);
    if (file < 0) stop("%s: %s", path, strerror(errno));
    size_t count = read_at(file, path, bytes, most, 0);
    close(file);
    return count;
}

static int begin(const char *path, const char *file_path) {
    static uint8_t file[ZELVORM_DAY_FILE_BYTES + 1];
    size_t count = read_file(file_path, file, sizeof file);
    uint32_t origin = FROM_DAY_FILE;
    zelvorm_opened opened = zelvorm_open(file, count);
    if (opened.code == ZELVORM_CODE_ACCEPTED) {
        count = opened.first;
        put_number(file + count - ZELVORM_COUNT_WIDTH, 0);
    } else {
        origin = FROM_SAVED_STATE;
        uint32_t code = zelvorm_read(file, count, state, AREAS).code;
        if (code != ZELVORM_CODE_ACCEPTED)
            stop("%s is neither a day file nor a saved state, code %u: %s", file_path, code, zelvorm_code_words(code));
    }
    if (mkdir(path, 0777) != 0 && errno != EEXIST) stop("%s cannot be made: %s", path, strerror(errno));
    int folder = open_folder(path);
    if (last_day(folder) != 0) stop("%s has a journal already; nothing was changed", path);
    put_journal(folder, 1, 1, origin, file, count);
    make_folder_durable(folder);
    return 0;
}

/* The next command of standard input, if there is one. */
static bool read_command(uint8_t *command, uint32_t number) {
    size_t count = fread(command, 1, ZELVORM_COMMAND_WIDTH, stdin);
    if (ferror(stdin)) stop("standard input cannot be read: %s", strerror(errno));
    if (count != 0 && count != ZELVORM_COMMAND_WIDTH)
        stop("the input ends with %zu bytes that are no command; command %" PRIu32 " is the next one", count, number);
    return count != 0;
}

static int serve(const char *path, uint32_t told) {
    static journal j;
    uint8_t command[ZELVORM_COMMAND_WIDTH];
    int folder = open_folder(path);
    open_last_journal(&j, folder, path);
    if (told > j.first + j.commands && told != NOTHING_TOLD)
        stop("%s ends with command %" PRIu32 ", and answers from %" PRIu32 " on are asked for: something answered is not "
             "here; nothing was changed", j.name, j.first + j.commands - 1, told);
    tell_earlier_days(folder, &j, told);
    play(&j, told);
    for (;;) {
        if (state.settlements > j.settled) begin_next_day(&j, folder);
        uint32_t next = j.first + j.commands;
        printf("N %" PRIu32 "\n", next);
        give();
        if (!read_command(command, next)) return 0;
        append(&j, command);
        carry_out(next, command);
    }
}

/* One side's resting orders, best first. */
static void print_orders(bool sell, size_t contract) {
    zelvorm_part part = zelvorm_side(state, buys, ZELVORM_QUEUES_WORDS, sells, ZELVORM_QUEUES_WORDS, sell, contract);
    for (size_t at = part.first; at < part.first + part.words; at += ZELVORM_ORDER_STRIDE) {
        zelvorm_order o;
        memcpy(&o, (sell ? sells : buys) + at, sizeof o);
        printf("%s %zu %u %u %u %u %u %u %u\n", sell ? "sell" : "buy", contract, o.number, o.account + 1, o.price, o.lots,
               o.close, o.stamp, o.quote);
    }
}

static void print_account(size_t number) {
    const zelvorm_account *a = &state.accounts[number - 1];
    printf("account %zu %" PRId64 " %" PRIu64 "\n", number, a->balance, a->maker);
    for (size_t c = 0; c < state.contractcount; c++) {
        const zelvorm_holding *h = &a->holdings[c];
        printf("holding %zu %zu %u %u %u %u\n", number, c + 1, h->long_, h->short_, h->startlong, h->startshort);
    }
}

/* The lines' fields are those of the records in zelvorm.h; accounts and contracts are numbered from 1. */
static int show_state(const char *path) {
    static journal j;
    open_last_journal(&j, open_folder(path), path);
    play(&j, NOTHING_TOLD);
    for (size_t k = 0; k < state.contractcount; k++) {
        const zelvorm_contract *c = &state.contracts[k];
        printf("contract %zu %u %u %u %u %u %u %u %u %u\n", k + 1, c->multiplier, c->tick, c->reference, c->band, c->limit,
               c->rate, c->method, c->phase, c->last);
        print_orders(false, k + 1);
        print_orders(true, k + 1);
    }
    for (size_t a = 1; a <= state.accountcount; a++) print_account(a);
    for (size_t k = 0; k < state.tradecount; k++) {
        zelvorm_trade t;
        memcpy(&t, trades + k * ZELVORM_TRADE_STRIDE, sizeof t);
        printf("trade %u %u %u %u %u %u %u %u %u\n", t.contract + 1, t.price, t.lots, t.buyorder, t.sellorder, t.buyer + 1,
               t.seller + 1, t.buyclose, t.sellclose);
    }
    printf("next %u %u %u\nN %" PRIu32 "\n", state.next, state.nextstamp, state.settlements, j.first + j.commands);
    give();
    return 0;
}

static int show_day_file(const char *path) {
    static journal j;
    static uint8_t commands[ZELVORM_MAX_COMMANDS * ZELVORM_COMMAND_WIDTH];
    uint8_t count[ZELVORM_COUNT_WIDTH];
    open_journal(&j, open_folder(path), 1, O_RDONLY);
    if (j.origin != FROM_DAY_FILE) stop("%s began with a saved state, so that it is no day file", j.name);
    if (j.commands > ZELVORM_MAX_COMMANDS)
        stop("%s has %" PRIu32 " commands, and a day file has at most %u", j.name, j.commands, ZELVORM_MAX_COMMANDS);
    for (size_t k = 0; k < j.commands; k++) read_commands(&j, k, 1, commands + k * ZELVORM_COMMAND_WIDTH);
    put_number(count, j.commands);
    fwrite(j.beginning, j.beginning_bytes - ZELVORM_COUNT_WIDTH, 1, stdout);
    fwrite(count, sizeof count, 1, stdout);
    fwrite(commands, ZELVORM_COMMAND_WIDTH, j.commands, stdout);
    give();
    return 0;
}

static _Noreturn void usage(void) {
    fputs("usage: host begin FOLDER FILE\n       host serve FOLDER [NUMBER]\n       host state FOLDER\n"
          "       host dayfile FOLDER\n", stderr);
    exit(2);
}

/* A command's number. */
static uint32_t number_in(const char *word) {
    char *end;
    errno = 0;
    unsigned long number = strtoul(word, &end, 10);
    if (*word < '0' || *word > '9' || *end || errno || number == 0 || number >= NOTHING_TOLD) usage();
    return (uint32_t)number;
}

int main(int count, char **words) {
    signal(SIGPIPE, SIG_IGN);
    const char *task = count > 1 ? words[1] : "";
    if (count == 4 && strcmp(task, "begin") == 0) return begin(words[2], words[3]);
    if (count == 3 && strcmp(task, "state") == 0) return show_state(words[2]);
    if (count == 3 && strcmp(task, "dayfile") == 0) return show_day_file(words[2]);
    if (count == 3 && strcmp(task, "serve") == 0) return serve(words[2], NOTHING_TOLD);
    if (count == 4 && strcmp(task, "serve") == 0) return serve(words[2], number_in(words[3]));
    usage();
}
