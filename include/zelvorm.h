/*
 * zelvorm.h. Made by tools/make_header.py from crates/exports and the records that it uses. Do not edit.
 *
 * The engine of a practice futures exchange: order book, accounts, margin and settlement.
 *
 * A state is a record of its own and three areas of 32-bit words, which the caller keeps and lends to each call: the
 * buy queues and the sell queues (QUEUES_WORDS have room for every contract) and the day's trades (TRADES_WORDS). An
 * order and a trade lie there word by word as their records below do. The library keeps nothing between two calls, so
 * that calls on different states may run at the same time; it asks for no memory, and takes up to 100 KB of stack.
 *
 * An area is lent as a pointer and a number of elements; with 0 elements the pointer may be null. What a call writes
 * must not overlap anything else that it is lent. That is all that a call asks for: on any state, any areas, of any
 * length, and any command it answers, with a code where something is wrong, and touches nothing outside the areas.
 *
 * In the records a place counts from 0 and a number from 1; commands name accounts, contracts and orders by number.
 */
#ifndef ZELVORM_H
#define ZELVORM_H

#include <stdbool.h>
#include <stddef.h>
#include <stdint.h>

#ifdef __cplusplus
extern "C" {
#define ZELVORM_ASSERT(test) static_assert(test, #test)
#else
#define ZELVORM_ASSERT(test) _Static_assert(test, #test)
#endif

/* The version that this file belongs to. Programs go on with any library of the same major version. */
#define ZELVORM_VERSION "1.0.0"
#define ZELVORM_VERSION_MAJOR 1
#define ZELVORM_VERSION_MINOR 0
#define ZELVORM_VERSION_PATCH 0

/* "Numbers that bound everything", by the names that they have in specs/ (Bounds, Memory, DayFile). */
#define ZELVORM_MAX_CONTRACTS 4u
#define ZELVORM_MAX_ACCOUNTS 32u
#define ZELVORM_MAX_RESTING 64u
#define ZELVORM_MAX_TRADES 1024u
#define ZELVORM_MAX_SETTLEMENTS 250u
#define ZELVORM_NUMBERS_END 1000000u
#define ZELVORM_MAX_LOTS 1000u
#define ZELVORM_MAX_PRICE 1000000u
#define ZELVORM_MAX_MULTIPLIER 1000u
#define ZELVORM_MAX_TICK 1000u
#define ZELVORM_MAX_LIMIT 100000u
#define ZELVORM_MAX_RATE 10000u
#define ZELVORM_MAX_BALANCE UINT64_C(1000000000000000000)
#define ZELVORM_MAX_AMOUNT UINT64_C(1000000000000000)
#define ZELVORM_MAX_DAY_PROFIT UINT64_C(3000000000000000)
#define ZELVORM_MAX_METHOD 2u
#define ZELVORM_MAX_COMMANDS 2000u

/* How many bytes the count of a section, a contract, an account and a command take in a day file. */
#define ZELVORM_COUNT_WIDTH 4u
#define ZELVORM_CONTRACT_WIDTH 20u
#define ZELVORM_ACCOUNT_WIDTH 8u
#define ZELVORM_COMMAND_WIDTH 24u

/* How many words an order, all the places of one queue, a trade and an answer take in the lent areas. */
#define ZELVORM_ORDER_STRIDE 7u
#define ZELVORM_QUEUE_STRIDE 448u
#define ZELVORM_TRADE_STRIDE 9u
#define ZELVORM_ANSWER_STRIDE 4u

/* How many words the areas of buys and of sells need for every contract, and the area of trades for a day. */
#define ZELVORM_QUEUES_WORDS 1792u
#define ZELVORM_TRADES_WORDS 9216u

/* The words of an order that hold its number and its time stamp. */
#define ZELVORM_NUMBER_WORD 1u
#define ZELVORM_STAMP_WORD 5u

/* A contract's phases, and the largest of them. */
#define ZELVORM_PRE_OPEN 0u
#define ZELVORM_CONTINUOUS 1u
#define ZELVORM_NO_TRADING 2u
#define ZELVORM_CLOSED 3u
#define ZELVORM_AUCTION 4u
#define ZELVORM_MAX_PHASE 4u

/* The flags of an insert: what is not set is a buy, an open, limit and good for day. */
#define ZELVORM_FLAG_SELL 1u
#define ZELVORM_FLAG_CLOSE 2u
#define ZELVORM_FLAG_MARKET 4u
#define ZELVORM_FLAG_BEST 8u
#define ZELVORM_FLAG_IMMEDIATE_OR_CANCEL 16u
#define ZELVORM_FLAG_FILL_OR_KILL 32u

/* The flag of a cancel and of a pull. The flags of a phase command are the phase. */
#define ZELVORM_FLAG_OPERATOR 1u

/* A buffer for a day file's lines: room for the longest lines of one command (134,875 bytes), and for the usual lines
 * of some thousand. */
#define ZELVORM_OUTPUT_BYTES 200000u

/* How many bytes are enough for any day file, for any saved state (write) and for any client statement. */
#define ZELVORM_DAY_FILE_BYTES 48348u
#define ZELVORM_SAVED_BYTES 1428u
#define ZELVORM_STATEMENT_BYTES 33548u

/* How many commands a bundle may have, and how many clients a statement. */
#define ZELVORM_MAX_BUNDLE 100u
#define ZELVORM_MAX_CLIENTS 16u

/* How many bytes are enough for the list of what a mended file lost, by the bytes of the file. */
#define ZELVORM_LIST_BYTES(file_bytes) (8u + 9u * ((file_bytes) / 24u + 1u))

/* The kinds of a command. The fields of its record that a kind does not use are 0: otherwise the code is 1. */

/* uses account, amount */
#define ZELVORM_KIND_DEPOSIT 1u

/* uses account, amount */
#define ZELVORM_KIND_WITHDRAW 2u

/* uses account, contract, flags, lots, price. The flags are those of an insert; a market and a best order have price 0. */
#define ZELVORM_KIND_INSERT 3u

/* uses account, contract, flags, number. `number` is the order's; the flags are 0, or 1 for the operator. */
#define ZELVORM_KIND_CANCEL 4u

/* uses account, contract, flags. The flags are 0, or 1 for the operator. */
#define ZELVORM_KIND_PULL 5u

/* uses contract, flags. The flags are the phase that the contract goes to. */
#define ZELVORM_KIND_PHASE 6u

/* uses no field */
#define ZELVORM_KIND_SETTLE 7u

/* uses account, contract, lots, price, number. `price` is the buy price and `number` the sell price. The answer has the
 * buy's order number; the sell's is 1 more. */
#define ZELVORM_KIND_QUOTE 8u

/* uses account, contract, lots, price, number. `number` is the order's, `lots` its new remaining lots (0 removes it),
 * `price` its new price. */
#define ZELVORM_KIND_CHANGE 9u

/* The codes. Where several apply, the first one in the papers' order is given. */

/* accepted */
#define ZELVORM_CODE_ACCEPTED 0u

/* the kind, a flag or an unused field of the command is wrong */
#define ZELVORM_CODE_MALFORMED 1u

/* no such account */
#define ZELVORM_CODE_NO_ACCOUNT 2u

/* no such contract */
#define ZELVORM_CODE_NO_CONTRACT 3u

/* the contract's state does not permit it now */
#define ZELVORM_CODE_PHASE_FORBIDS 4u

/* fewer than 1 or more than 1,000 lots (a change to 0 lots removes the order) */
#define ZELVORM_CODE_LOTS 5u

/* a market or best order must not be good for day; in auction, every order must be limit good for day */
#define ZELVORM_CODE_CONDITIONS 6u

/* the limit is off the tick or outside the day's low to high; or a market or best order names a price */
#define ZELVORM_CODE_PRICE 7u

/* an open would pass the holding limit; or a close is for more lots than are held and not yet offered */
#define ZELVORM_CODE_HOLDING 8u

/* an open: all charged margin, its lots included, would be above the balance; a withdrawal: less than the charged
 * margin would be left */
#define ZELVORM_CODE_MARGIN 9u

/* the day's order numbers are used up, or its time stamps (of a change, the time stamps alone; a quote needs two of
 * each) */
#define ZELVORM_CODE_NUMBERS_USED_UP 10u

/* fill or kill: not all lots can be filled */
#define ZELVORM_CODE_NOT_FILLABLE 11u

/* it would make more trades than the day has room for: an order, or the match when a contract leaves auction */
#define ZELVORM_CODE_NO_ROOM_FOR_TRADES 12u

/* the order would have to rest, and its side is full (in auction every order rests) */
#define ZELVORM_CODE_SIDE_FULL 13u

/* no such order rests in that contract */
#define ZELVORM_CODE_NO_ORDER 14u

/* the order belongs to another account */
#define ZELVORM_CODE_ORDER_OF_ANOTHER 15u

/* the amount is not 1 to 10^15; or the deposit would lift the balance above 10^18 */
#define ZELVORM_CODE_AMOUNT 16u

/* the contract cannot go from its state to that one */
#define ZELVORM_CODE_PHASE_CHANGE 17u

/* settle: a contract is not closed */
#define ZELVORM_CODE_NOT_CLOSED 18u

/* settle: 250 settlements are made already */
#define ZELVORM_CODE_SETTLEMENTS_USED_UP 19u

/* the day file or the file of a saved state is broken (of a day file printed as X 20, and no command is carried out); a
 * file to be mended: its contracts or its accounts are not whole and in range, or the four bytes of its command count
 * are not whole */
#define ZELVORM_CODE_BROKEN_FILE 20u

/* the state is not well formed (cannot happen in a day file's run) */
#define ZELVORM_CODE_NOT_WELL_FORMED 21u

/* a bundle has more than 100 commands, or the area for their answers is too short */
#define ZELVORM_CODE_BUNDLE 22u

/* a quote: the account is no market maker */
#define ZELVORM_CODE_NOT_A_MAKER 23u

/* a quote: its buy price is not below its sell price */
#define ZELVORM_CODE_QUOTE_PRICES 24u

/* a client statement: more than 16 clients, or their starting lots do not add up to the account's */
#define ZELVORM_CODE_CLIENTS 25u

/* a client statement: an order of the account that traded is posted to no client, twice, or to an unknown one */
#define ZELVORM_CODE_POSTINGS 26u

/* a client statement: a client would close more than it holds */
#define ZELVORM_CODE_CLIENT_HOLDING 27u

/* the state cannot be saved: a contract is not in pre-open, orders or trades exist, an order number or time stamp is
 * used, or a contract's long and short lots are not equal */
#define ZELVORM_CODE_NOT_WRITABLE 28u

/* the area for a client statement, for a mended file, for the list of what it lost or for a saved state is too short;
 * or an area lent for a state to be read has no room for it */
#define ZELVORM_CODE_AREA_TOO_SHORT 29u

/* a saved state: a contract's long and short lots are not equal */
#define ZELVORM_CODE_TOTALS_DIFFER 30u

/* The words of a code, as they stand above it. */
static inline const char *zelvorm_code_words(uint32_t code) {
    switch (code) {
    case ZELVORM_CODE_ACCEPTED:
        return "accepted";
    case ZELVORM_CODE_MALFORMED:
        return "the kind, a flag or an unused field of the command is wrong";
    case ZELVORM_CODE_NO_ACCOUNT:
        return "no such account";
    case ZELVORM_CODE_NO_CONTRACT:
        return "no such contract";
    case ZELVORM_CODE_PHASE_FORBIDS:
        return "the contract's state does not permit it now";
    case ZELVORM_CODE_LOTS:
        return "fewer than 1 or more than 1,000 lots (a change to 0 lots removes the order)";
    case ZELVORM_CODE_CONDITIONS:
        return "a market or best order must not be good for day; in auction, every order must be limit good for day";
    case ZELVORM_CODE_PRICE:
        return "the limit is off the tick or outside the day's low to high; or a market or best order names a price";
    case ZELVORM_CODE_HOLDING:
        return "an open would pass the holding limit; or a close is for more lots than are held and not yet offered";
    case ZELVORM_CODE_MARGIN:
        return "an open: all charged margin, its lots included, would be above the balance; a withdrawal: less than the charged margin would be left";
    case ZELVORM_CODE_NUMBERS_USED_UP:
        return "the day's order numbers are used up, or its time stamps (of a change, the time stamps alone; a quote needs two of each)";
    case ZELVORM_CODE_NOT_FILLABLE:
        return "fill or kill: not all lots can be filled";
    case ZELVORM_CODE_NO_ROOM_FOR_TRADES:
        return "it would make more trades than the day has room for: an order, or the match when a contract leaves auction";
    case ZELVORM_CODE_SIDE_FULL:
        return "the order would have to rest, and its side is full (in auction every order rests)";
    case ZELVORM_CODE_NO_ORDER:
        return "no such order rests in that contract";
    case ZELVORM_CODE_ORDER_OF_ANOTHER:
        return "the order belongs to another account";
    case ZELVORM_CODE_AMOUNT:
        return "the amount is not 1 to 10^15; or the deposit would lift the balance above 10^18";
    case ZELVORM_CODE_PHASE_CHANGE:
        return "the contract cannot go from its state to that one";
    case ZELVORM_CODE_NOT_CLOSED:
        return "settle: a contract is not closed";
    case ZELVORM_CODE_SETTLEMENTS_USED_UP:
        return "settle: 250 settlements are made already";
    case ZELVORM_CODE_BROKEN_FILE:
        return "the day file or the file of a saved state is broken (of a day file printed as X 20, and no command is carried out); a file to be mended: its contracts or its accounts are not whole and in range, or the four bytes of its command count are not whole";
    case ZELVORM_CODE_NOT_WELL_FORMED:
        return "the state is not well formed (cannot happen in a day file's run)";
    case ZELVORM_CODE_BUNDLE:
        return "a bundle has more than 100 commands, or the area for their answers is too short";
    case ZELVORM_CODE_NOT_A_MAKER:
        return "a quote: the account is no market maker";
    case ZELVORM_CODE_QUOTE_PRICES:
        return "a quote: its buy price is not below its sell price";
    case ZELVORM_CODE_CLIENTS:
        return "a client statement: more than 16 clients, or their starting lots do not add up to the account's";
    case ZELVORM_CODE_POSTINGS:
        return "a client statement: an order of the account that traded is posted to no client, twice, or to an unknown one";
    case ZELVORM_CODE_CLIENT_HOLDING:
        return "a client statement: a client would close more than it holds";
    case ZELVORM_CODE_NOT_WRITABLE:
        return "the state cannot be saved: a contract is not in pre-open, orders or trades exist, an order number or time stamp is used, or a contract's long and short lots are not equal";
    case ZELVORM_CODE_AREA_TOO_SHORT:
        return "the area for a client statement, for a mended file, for the list of what it lost or for a saved state is too short; or an area lent for a state to be read has no room for it";
    case ZELVORM_CODE_TOTALS_DIFFER:
        return "a saved state: a contract's long and short lots are not equal";
    default:
        return "no such code";
    }
}

/* A contract's terms for the day, with the number of its pairing method, its phase (the paper's contract state) and its
 * last price. Both numbers are the C interface's. Rate and method are as wide as in the day file: four contracts then
 * take 128 bytes, which a compiler still copies in place. */
typedef struct zelvorm_contract {
    uint32_t multiplier;
    uint32_t tick;
    uint32_t reference;
    uint32_t band;
    uint32_t limit;
    uint16_t rate;
    uint16_t method;
    uint32_t phase;
    uint32_t last;
} zelvorm_contract;

ZELVORM_ASSERT(sizeof(zelvorm_contract) == 32);
ZELVORM_ASSERT(offsetof(zelvorm_contract, multiplier) == 0);
ZELVORM_ASSERT(offsetof(zelvorm_contract, tick) == 4);
ZELVORM_ASSERT(offsetof(zelvorm_contract, reference) == 8);
ZELVORM_ASSERT(offsetof(zelvorm_contract, band) == 12);
ZELVORM_ASSERT(offsetof(zelvorm_contract, limit) == 16);
ZELVORM_ASSERT(offsetof(zelvorm_contract, rate) == 20);
ZELVORM_ASSERT(offsetof(zelvorm_contract, method) == 22);
ZELVORM_ASSERT(offsetof(zelvorm_contract, phase) == 24);
ZELVORM_ASSERT(offsetof(zelvorm_contract, last) == 28);

/* What one account holds in one contract: lots now, and lots at the start of the day. */
typedef struct zelvorm_holding {
    uint32_t long_;
    uint32_t short_;
    uint32_t startlong;
    uint32_t startshort;
} zelvorm_holding;

ZELVORM_ASSERT(sizeof(zelvorm_holding) == 16);
ZELVORM_ASSERT(offsetof(zelvorm_holding, long_) == 0);
ZELVORM_ASSERT(offsetof(zelvorm_holding, short_) == 4);
ZELVORM_ASSERT(offsetof(zelvorm_holding, startlong) == 8);
ZELVORM_ASSERT(offsetof(zelvorm_holding, startshort) == 12);

/* `maker` is 1 for a market maker and 0 for others, as the C interface has it. */
typedef struct zelvorm_account {
    int64_t balance;
    zelvorm_holding holdings[4];
    uint64_t maker;
} zelvorm_account;

ZELVORM_ASSERT(sizeof(zelvorm_account) == 80);
ZELVORM_ASSERT(offsetof(zelvorm_account, balance) == 0);
ZELVORM_ASSERT(offsetof(zelvorm_account, holdings) == 8);
ZELVORM_ASSERT(offsetof(zelvorm_account, maker) == 72);

/* All of the state that does not lie in lent areas. The areas hold the queues and the day's trades, the counts here say
 * how many of each are in use: orders by contract, contracts, accounts, trades of the day. `next` is the next order
 * number, `nextstamp` the next time stamp. Bytes 2788 to 2791 are padding: no answer depends on them, and what they
 * hold after a call is not promised. */
typedef struct zelvorm_state {
    zelvorm_contract contracts[4];
    zelvorm_account accounts[32];
    size_t buycounts[4];
    size_t sellcounts[4];
    size_t contractcount;
    size_t accountcount;
    size_t tradecount;
    uint32_t next;
    uint32_t nextstamp;
    uint32_t settlements;
} zelvorm_state;

ZELVORM_ASSERT(sizeof(zelvorm_state) == 2792);
ZELVORM_ASSERT(offsetof(zelvorm_state, contracts) == 0);
ZELVORM_ASSERT(offsetof(zelvorm_state, accounts) == 128);
ZELVORM_ASSERT(offsetof(zelvorm_state, buycounts) == 2688);
ZELVORM_ASSERT(offsetof(zelvorm_state, sellcounts) == 2720);
ZELVORM_ASSERT(offsetof(zelvorm_state, contractcount) == 2752);
ZELVORM_ASSERT(offsetof(zelvorm_state, accountcount) == 2760);
ZELVORM_ASSERT(offsetof(zelvorm_state, tradecount) == 2768);
ZELVORM_ASSERT(offsetof(zelvorm_state, next) == 2776);
ZELVORM_ASSERT(offsetof(zelvorm_state, nextstamp) == 2780);
ZELVORM_ASSERT(offsetof(zelvorm_state, settlements) == 2784);

/* 0, or 20 where the file is broken; the place of the first command's first byte in the file, and the number of
 * commands, 24 bytes each; the state that the file's run begins with. With 20 all else is zero, and a call that tests
 * the state refuses it with 21. Bytes 4 to 7 are padding: no answer depends on them, and what they hold after a call is
 * not promised. */
typedef struct zelvorm_opened {
    uint32_t code;
    size_t first;
    size_t commands;
    zelvorm_state state;
} zelvorm_opened;

ZELVORM_ASSERT(sizeof(zelvorm_opened) == 2816);
ZELVORM_ASSERT(offsetof(zelvorm_opened, code) == 0);
ZELVORM_ASSERT(offsetof(zelvorm_opened, first) == 8);
ZELVORM_ASSERT(offsetof(zelvorm_opened, commands) == 16);
ZELVORM_ASSERT(offsetof(zelvorm_opened, state) == 24);

/* A command's 24 bytes, field by field, whatever they hold: `command_of` reads the kind and the flags. */
typedef struct zelvorm_record {
    uint8_t kind;
    uint8_t account;
    uint8_t contract;
    uint8_t flags;
    uint32_t lots;
    uint32_t price;
    uint32_t number;
    uint64_t amount;
} zelvorm_record;

ZELVORM_ASSERT(sizeof(zelvorm_record) == 24);
ZELVORM_ASSERT(offsetof(zelvorm_record, kind) == 0);
ZELVORM_ASSERT(offsetof(zelvorm_record, account) == 1);
ZELVORM_ASSERT(offsetof(zelvorm_record, contract) == 2);
ZELVORM_ASSERT(offsetof(zelvorm_record, flags) == 3);
ZELVORM_ASSERT(offsetof(zelvorm_record, lots) == 4);
ZELVORM_ASSERT(offsetof(zelvorm_record, price) == 8);
ZELVORM_ASSERT(offsetof(zelvorm_record, number) == 12);
ZELVORM_ASSERT(offsetof(zelvorm_record, amount) == 16);

/* "Each answer holds a code, an order number, lots traded and lots rested (insert; a vanished remainder isn't counted)
 * or removed (cancel, pull)." */
typedef struct zelvorm_answer {
    uint32_t code;
    uint32_t number;
    uint32_t traded;
    uint32_t lots;
} zelvorm_answer;

ZELVORM_ASSERT(sizeof(zelvorm_answer) == 16);
ZELVORM_ASSERT(offsetof(zelvorm_answer, code) == 0);
ZELVORM_ASSERT(offsetof(zelvorm_answer, number) == 4);
ZELVORM_ASSERT(offsetof(zelvorm_answer, traded) == 8);
ZELVORM_ASSERT(offsetof(zelvorm_answer, lots) == 12);

/* What a settlement reports: each contract's settlement price; each account's closing and holding profit, and its
 * charged margin after the settlement. All zero where there was none. */
typedef struct zelvorm_report {
    uint32_t prices[4];
    int64_t closing[32];
    int64_t holding[32];
    uint64_t charged[32];
} zelvorm_report;

ZELVORM_ASSERT(sizeof(zelvorm_report) == 784);
ZELVORM_ASSERT(offsetof(zelvorm_report, prices) == 0);
ZELVORM_ASSERT(offsetof(zelvorm_report, closing) == 16);
ZELVORM_ASSERT(offsetof(zelvorm_report, holding) == 272);
ZELVORM_ASSERT(offsetof(zelvorm_report, charged) == 528);

/* An answer, the state after it and the report. */
typedef struct zelvorm_response {
    zelvorm_answer answer;
    zelvorm_state state;
    zelvorm_report report;
} zelvorm_response;

ZELVORM_ASSERT(sizeof(zelvorm_response) == 3592);
ZELVORM_ASSERT(offsetof(zelvorm_response, answer) == 0);
ZELVORM_ASSERT(offsetof(zelvorm_response, state) == 16);
ZELVORM_ASSERT(offsetof(zelvorm_response, report) == 2808);

/* How many commands were played, and the state after them. */
typedef struct zelvorm_ran {
    size_t played;
    zelvorm_state state;
} zelvorm_ran;

ZELVORM_ASSERT(sizeof(zelvorm_ran) == 2800);
ZELVORM_ASSERT(offsetof(zelvorm_ran, played) == 0);
ZELVORM_ASSERT(offsetof(zelvorm_ran, state) == 8);

/* 0, or the code that refuses the whole bundle, and the state after it. The C interface needs the code's number. Bytes
 * 4 to 7 are padding: no answer depends on them, and what they hold after a call is not promised. */
typedef struct zelvorm_receipt {
    uint32_t code;
    zelvorm_state state;
} zelvorm_receipt;

ZELVORM_ASSERT(sizeof(zelvorm_receipt) == 2800);
ZELVORM_ASSERT(offsetof(zelvorm_receipt, code) == 0);
ZELVORM_ASSERT(offsetof(zelvorm_receipt, state) == 8);

/* The code, the lots that would trade, and the number of resting orders read to know it. The C interface needs the
 * code's number, 0 for none. */
typedef struct zelvorm_reading {
    uint32_t code;
    uint32_t lots;
    size_t read;
} zelvorm_reading;

ZELVORM_ASSERT(sizeof(zelvorm_reading) == 16);
ZELVORM_ASSERT(offsetof(zelvorm_reading, code) == 0);
ZELVORM_ASSERT(offsetof(zelvorm_reading, lots) == 4);
ZELVORM_ASSERT(offsetof(zelvorm_reading, read) == 8);

/* A part of an area: its first word, and how many words it has. An empty part begins at 0. */
typedef struct zelvorm_part {
    size_t first;
    size_t words;
} zelvorm_part;

ZELVORM_ASSERT(sizeof(zelvorm_part) == 16);
ZELVORM_ASSERT(offsetof(zelvorm_part, first) == 0);
ZELVORM_ASSERT(offsetof(zelvorm_part, words) == 8);

/* 0, or the code that refuses, and how many bytes of the two areas are written. Bytes 4 to 7 are padding: no answer
 * depends on them, and what they hold after a call is not promised. */
typedef struct zelvorm_mended {
    uint32_t code;
    size_t length;
    size_t listed;
} zelvorm_mended;

ZELVORM_ASSERT(sizeof(zelvorm_mended) == 24);
ZELVORM_ASSERT(offsetof(zelvorm_mended, code) == 0);
ZELVORM_ASSERT(offsetof(zelvorm_mended, length) == 8);
ZELVORM_ASSERT(offsetof(zelvorm_mended, listed) == 16);

/* 0, or the code that refuses, and how many bytes are written. Bytes 4 to 7 are padding: no answer depends on them, and
 * what they hold after a call is not promised. */
typedef struct zelvorm_statement {
    uint32_t code;
    size_t length;
} zelvorm_statement;

ZELVORM_ASSERT(sizeof(zelvorm_statement) == 16);
ZELVORM_ASSERT(offsetof(zelvorm_statement, code) == 0);
ZELVORM_ASSERT(offsetof(zelvorm_statement, length) == 8);

/* 0, or the code that refuses, and how many bytes are written. Bytes 4 to 7 are padding: no answer depends on them, and
 * what they hold after a call is not promised. */
typedef struct zelvorm_saved {
    uint32_t code;
    size_t length;
} zelvorm_saved;

ZELVORM_ASSERT(sizeof(zelvorm_saved) == 16);
ZELVORM_ASSERT(offsetof(zelvorm_saved, code) == 0);
ZELVORM_ASSERT(offsetof(zelvorm_saved, length) == 8);

/* 0, or the code that refuses, and the state: the file's, or the one given where the file is refused. Bytes 4 to 7 are
 * padding: no answer depends on them, and what they hold after a call is not promised. */
typedef struct zelvorm_loaded {
    uint32_t code;
    zelvorm_state state;
} zelvorm_loaded;

ZELVORM_ASSERT(sizeof(zelvorm_loaded) == 2800);
ZELVORM_ASSERT(offsetof(zelvorm_loaded, code) == 0);
ZELVORM_ASSERT(offsetof(zelvorm_loaded, state) == 8);

/* What a call printed: 0, or 21 where the state is not well formed, 29 where the buffer cannot hold the longest lines
 * of one command; nothing is printed then. `length` bytes from the buffer's start are the part. `next` is the place of
 * the next command, from 0, and with `state` goes into the next call, if there is more. The C interface needs the
 * code's number and a flag. Bytes 4 to 7 and 25 to 31 are padding: no answer depends on them, and what they hold after
 * a call is not promised. */
typedef struct zelvorm_printed {
    uint32_t code;
    size_t length;
    size_t next;
    bool more;
    zelvorm_state state;
} zelvorm_printed;

ZELVORM_ASSERT(sizeof(zelvorm_printed) == 2824);
ZELVORM_ASSERT(offsetof(zelvorm_printed, code) == 0);
ZELVORM_ASSERT(offsetof(zelvorm_printed, length) == 8);
ZELVORM_ASSERT(offsetof(zelvorm_printed, next) == 16);
ZELVORM_ASSERT(offsetof(zelvorm_printed, more) == 24);
ZELVORM_ASSERT(offsetof(zelvorm_printed, state) == 32);

/* A resting order: its remaining lots, the account's place, 1 for a close and 0 for an open, its time stamp, 1 where it
 * is part of a quote and 0 elsewhere: each a word of the lent area. */
typedef struct zelvorm_order {
    uint32_t price;
    uint32_t number;
    uint32_t account;
    uint32_t lots;
    uint32_t close;
    uint32_t stamp;
    uint32_t quote;
} zelvorm_order;

ZELVORM_ASSERT(sizeof(zelvorm_order) == 28);
ZELVORM_ASSERT(offsetof(zelvorm_order, price) == 0);
ZELVORM_ASSERT(offsetof(zelvorm_order, number) == 4);
ZELVORM_ASSERT(offsetof(zelvorm_order, account) == 8);
ZELVORM_ASSERT(offsetof(zelvorm_order, lots) == 12);
ZELVORM_ASSERT(offsetof(zelvorm_order, close) == 16);
ZELVORM_ASSERT(offsetof(zelvorm_order, stamp) == 20);
ZELVORM_ASSERT(offsetof(zelvorm_order, quote) == 24);

/* A trade: the contract's place, the two orders' numbers, the two accounts' places, and for each leg 1 for a close and
 * 0 for an open: each a word of the lent area. */
typedef struct zelvorm_trade {
    uint32_t contract;
    uint32_t price;
    uint32_t lots;
    uint32_t buyorder;
    uint32_t sellorder;
    uint32_t buyer;
    uint32_t seller;
    uint32_t buyclose;
    uint32_t sellclose;
} zelvorm_trade;

ZELVORM_ASSERT(sizeof(zelvorm_trade) == 36);
ZELVORM_ASSERT(offsetof(zelvorm_trade, contract) == 0);
ZELVORM_ASSERT(offsetof(zelvorm_trade, price) == 4);
ZELVORM_ASSERT(offsetof(zelvorm_trade, lots) == 8);
ZELVORM_ASSERT(offsetof(zelvorm_trade, buyorder) == 12);
ZELVORM_ASSERT(offsetof(zelvorm_trade, sellorder) == 16);
ZELVORM_ASSERT(offsetof(zelvorm_trade, buyer) == 20);
ZELVORM_ASSERT(offsetof(zelvorm_trade, seller) == 24);
ZELVORM_ASSERT(offsetof(zelvorm_trade, buyclose) == 28);
ZELVORM_ASSERT(offsetof(zelvorm_trade, sellclose) == 32);

/* Opens a day file: the state that its run begins with, and where its commands stand. The sections of a day file, each
 * after its count of 4 bytes, little-endian: contracts of 20 bytes (multiplier 2, tick 2, reference 4, band 4, limit 4,
 * rate 2, pairing method 2), accounts of 8 (opening balance, with bit 63 set for a market maker), commands of 24. The
 * state has no orders and no trades, so the areas lent with it may hold anything. */
zelvorm_opened zelvorm_open(
    const uint8_t *file, size_t file_bytes);

/* Whether a state and the areas lent with it are well formed. Every other call that has code 21 makes this test itself. */
bool zelvorm_well_formed(
    zelvorm_state state,
    const uint32_t *buys, size_t buys_words,
    const uint32_t *sells, size_t sells_words,
    const uint32_t *trades, size_t trades_words);

/* Carries out one command. A refusal leaves the state and the areas as they were. The whole state is tested first, for
 * code 21. That costs more than most commands do by themselves, tens of thousands of instructions on an opening state
 * and hundreds of thousands on a full one: it grows with the resting orders and the day's trades. `zelvorm_run` and
 * `zelvorm_bundle` test once for all their commands. */
zelvorm_response zelvorm_execute(
    zelvorm_state state,
    uint32_t *buys, size_t buys_words,
    uint32_t *sells, size_t sells_words,
    uint32_t *trades, size_t trades_words,
    zelvorm_record command);

/* Carries out a list of commands, 24 bytes each, and writes the answer to each, four words, one after the other. It
 * plays as many commands as there are places for answers, and says how many. A settlement's report is given by
 * `zelvorm_execute` alone. Fewer than 24 bytes at the end of `commands` are no command and are passed over, as are
 * fewer than four words at the end of `answers`. Where the state is not well formed, each answer is 21. */
zelvorm_ran zelvorm_run(
    zelvorm_state state,
    uint32_t *buys, size_t buys_words,
    uint32_t *sells, size_t sells_words,
    uint32_t *trades, size_t trades_words,
    const uint8_t *commands, size_t commands_bytes,
    uint32_t *answers, size_t answers_words);

/* Carries out a bundle of up to 100 commands, or refuses it whole: 21, then 22. Fewer than 24 bytes at the end of
 * `commands` are passed over. Words of `answers` behind the last answer stay. */
zelvorm_receipt zelvorm_bundle(
    zelvorm_state state,
    uint32_t *buys, size_t buys_words,
    uint32_t *sells, size_t sells_words,
    uint32_t *trades, size_t trades_words,
    const uint8_t *commands, size_t commands_bytes,
    uint32_t *answers, size_t answers_words);

/* How much could I get: the lots that an insert would trade now, and how many resting orders were read to know it.
 * Nothing is changed. */
zelvorm_reading zelvorm_gettable(
    zelvorm_state state,
    const uint32_t *buys, size_t buys_words,
    const uint32_t *sells, size_t sells_words,
    const uint32_t *trades, size_t trades_words,
    zelvorm_record command);

/* One side's resting orders: which part of `buys` or of `sells` holds them. The contract is named by its number. */
zelvorm_part zelvorm_side(
    zelvorm_state state,
    const uint32_t *buys, size_t buys_words,
    const uint32_t *sells, size_t sells_words,
    bool sell,
    size_t contract);

/* Mends a day file: what is kept goes into `out`, the list of what is dropped into `list`. As many bytes as the file
 * has are enough for `out`, and LIST_BYTES for `list`. The list is a count of 8 bytes, then 9 bytes for each command
 * that is dropped, in the file's order: its place among the commands, from 1 (8), and the reason (1): 1 malformed, 2
 * partial, at the end of the file, 3 beyond the most commands of a day file. */
zelvorm_mended zelvorm_mend(
    const uint8_t *file, size_t file_bytes,
    uint8_t *out, size_t out_bytes,
    uint8_t *list, size_t list_bytes);

/* A statement of an account's clients. `starts` has eight words for each client: long and short lots at the start of
 * the day in each of four contracts. `postings` has two words for each posting: an order's number and a client's.
 * STATEMENT_BYTES are enough for `out`; 12 + 32 x trades of the day + clients x (16 + 8 x contracts) are too. Written
 * are three sections, each after its count of 4 bytes: the account's legs in the order of the trades, the buyer's
 * first, of 16 bytes (client 1, contract 1, a mark for a sell 1, a mark for a close 1, price 4, lots 4, order number
 * 4); holdings now by client, then contract, of 8 (long 4, short 4); profit by client, of 16 (closing 8, holding 8,
 * both signed). Words that `starts` lacks are 0; a single word at the end of `postings` is passed over. */
zelvorm_statement zelvorm_client_statement(
    zelvorm_state state,
    const uint32_t *buys, size_t buys_words,
    const uint32_t *sells, size_t sells_words,
    const uint32_t *trades, size_t trades_words,
    uint32_t account,
    uint32_t clients,
    const uint32_t *starts, size_t starts_words,
    const uint32_t *postings, size_t postings_words,
    uint8_t *out, size_t out_bytes);

/* Writes a state after its settlement, to be read tomorrow. SAVED_BYTES are enough for `out`; it takes 20 + 24 x
 * contracts + accounts x (9 + 8 x contracts). The sections, each after its count of 4 bytes: contracts of 24 bytes (the
 * day file's 20, last price 4), accounts of 9 (signed balance 8, a mark for a market maker 1), holdings by account,
 * then contract, of 8 (long 4, short 4), and one of 4, the settlement count. */
zelvorm_saved zelvorm_write(
    zelvorm_state state,
    const uint32_t *buys, size_t buys_words,
    const uint32_t *sells, size_t sells_words,
    const uint32_t *trades, size_t trades_words,
    uint8_t *out, size_t out_bytes);

/* Reads a state that was written. The areas are those that it is to be used with: they are looked at for their room
 * alone. Of the state given nothing is looked at; places that the file's state does not use stay as they are there. */
zelvorm_loaded zelvorm_read(
    const uint8_t *file, size_t file_bytes,
    zelvorm_state state,
    const uint32_t *buys, size_t buys_words,
    const uint32_t *sells, size_t sells_words,
    const uint32_t *trades, size_t trades_words);

/* The next part of a day file's lines, in the buffer `out`: what a day runner prints of it. The first call takes the
 * state of `zelvorm_open` and `next` 0; each call gives the state and `next` for the following one, as long as it tells
 * of more. A buffer of `OUTPUT_BYTES` is enough, and a longer one takes fewer calls. */
zelvorm_printed zelvorm_lines(
    const uint8_t *file, size_t file_bytes,
    zelvorm_state state,
    size_t next,
    uint32_t *buys, size_t buys_words,
    uint32_t *sells, size_t sells_words,
    uint32_t *trades, size_t trades_words,
    uint8_t *out, size_t out_bytes);

/* Which engine this is, so that a certificate can name it: the version, the Rattle kit that proved it, and the hash of
 * the sources that were proved, as tools/version prints it. */
typedef struct zelvorm_identity {
    const char *version;
    const char *kit;
    const char *sources;
} zelvorm_identity;

/* Which engine is linked. This call is a help: it stands beside the proved ones, in an object of its own. */
zelvorm_identity zelvorm_engine(void);

#ifdef __cplusplus
}
#endif

#endif
