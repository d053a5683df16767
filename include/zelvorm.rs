//! zelvorm.rs. Made by tools/make_header.py from crates/exports and the records that it uses. Do not edit.
//!
//! The engine of a practice futures exchange: order book, accounts, margin and settlement.
//!
//! A state is a record of its own and three areas of 32-bit words, which the caller keeps and lends to each call: the
//! buy queues and the sell queues (QUEUES_WORDS have room for every contract) and the day's trades (TRADES_WORDS). An
//! order and a trade lie there word by word as their records below do. The library keeps nothing between two calls, so
//! that calls on different states may run at the same time; it asks for no memory, and takes up to 100 KB of stack.
//!
//! An area is lent as a pointer and a number of elements; with 0 elements the pointer may be null. What a call writes
//! must not overlap anything else that it is lent. That is all that a call asks for: on any state, any areas, of any
//! length, and any command it answers, with a code where something is wrong, and touches nothing outside the areas.
//!
//! In the records a place counts from 0 and a number from 1; commands name accounts, contracts and orders by number.
//!
//! A slice is valid and what is written is lent to nobody else, so every call is safe.
#![allow(dead_code)]

use std::ffi::{c_char, CStr};
use std::mem::{size_of, size_of_val};

/// The version that this file belongs to. Programs go on with any library of the same major version.
pub const VERSION: &str = "1.0.0";

// "Numbers that bound everything", by the names that they have in specs/ (Bounds, Memory, DayFile).
pub const MAX_CONTRACTS: usize = 4;
pub const MAX_ACCOUNTS: usize = 32;
pub const MAX_RESTING: usize = 64;
pub const MAX_TRADES: usize = 1024;
pub const MAX_SETTLEMENTS: u32 = 250;
pub const NUMBERS_END: u32 = 1000000;
pub const MAX_LOTS: u32 = 1000;
pub const MAX_PRICE: u32 = 1000000;
pub const MAX_MULTIPLIER: u32 = 1000;
pub const MAX_TICK: u32 = 1000;
pub const MAX_LIMIT: u32 = 100000;
pub const MAX_RATE: u32 = 10000;
pub const MAX_BALANCE: u64 = 1000000000000000000;
pub const MAX_AMOUNT: u64 = 1000000000000000;
pub const MAX_DAY_PROFIT: u64 = 3000000000000000;
pub const MAX_METHOD: u16 = 2;
pub const MAX_COMMANDS: usize = 2000;

// How many bytes the count of a section, a contract, an account and a command take in a day file.
pub const COUNT_WIDTH: usize = 4;
pub const CONTRACT_WIDTH: usize = 20;
pub const ACCOUNT_WIDTH: usize = 8;
pub const COMMAND_WIDTH: usize = 24;

// How many words an order, all the places of one queue, a trade and an answer take in the lent areas.
pub const ORDER_STRIDE: usize = 7;
pub const QUEUE_STRIDE: usize = 448;
pub const TRADE_STRIDE: usize = 9;
pub const ANSWER_STRIDE: usize = 4;

// How many words the areas of buys and of sells need for every contract, and the area of trades for a day.
pub const QUEUES_WORDS: usize = 1792;
pub const TRADES_WORDS: usize = 9216;

// The words of an order that hold its number and its time stamp.
pub const NUMBER_WORD: usize = 1;
pub const STAMP_WORD: usize = 5;

// A contract's phases, and the largest of them.
pub const PRE_OPEN: u32 = 0;
pub const CONTINUOUS: u32 = 1;
pub const NO_TRADING: u32 = 2;
pub const CLOSED: u32 = 3;
pub const AUCTION: u32 = 4;
pub const MAX_PHASE: u32 = 4;

// The flags of an insert: what is not set is a buy, an open, limit and good for day.
pub const FLAG_SELL: u8 = 1;
pub const FLAG_CLOSE: u8 = 2;
pub const FLAG_MARKET: u8 = 4;
pub const FLAG_BEST: u8 = 8;
pub const FLAG_IMMEDIATE_OR_CANCEL: u8 = 16;
pub const FLAG_FILL_OR_KILL: u8 = 32;

// The flag of a cancel and of a pull. The flags of a phase command are the phase.
pub const FLAG_OPERATOR: u8 = 1;

// A buffer for a day file's lines: room for the longest lines of one command (134,875 bytes), and for the usual lines
// of some thousand.
pub const OUTPUT_BYTES: usize = 200000;

// How many bytes are enough for any day file, for any saved state (write) and for any client statement.
pub const DAY_FILE_BYTES: usize = 48348;
pub const SAVED_BYTES: usize = 1428;
pub const STATEMENT_BYTES: usize = 33548;

// How many commands a bundle may have, and how many clients a statement.
pub const MAX_BUNDLE: usize = 100;
pub const MAX_CLIENTS: u32 = 16;

/// How many bytes are enough for the list of what a mended file lost, by the bytes of the file.
pub const fn list_bytes(file_bytes: usize) -> usize {
    8 + 9 * (file_bytes / 24 + 1)
}

// The kinds of a command. The fields of its record that a kind does not use are 0: otherwise the code is 1.

/// uses account, amount
pub const KIND_DEPOSIT: u8 = 1;

/// uses account, amount
pub const KIND_WITHDRAW: u8 = 2;

/// uses account, contract, flags, lots, price. The flags are those of an insert; a market and a best order have price
/// 0.
pub const KIND_INSERT: u8 = 3;

/// uses account, contract, flags, number. `number` is the order's; the flags are 0, or 1 for the operator.
pub const KIND_CANCEL: u8 = 4;

/// uses account, contract, flags. The flags are 0, or 1 for the operator.
pub const KIND_PULL: u8 = 5;

/// uses contract, flags. The flags are the phase that the contract goes to.
pub const KIND_PHASE: u8 = 6;

/// uses no field
pub const KIND_SETTLE: u8 = 7;

/// uses account, contract, lots, price, number. `price` is the buy price and `number` the sell price. The answer has
/// the buy's order number; the sell's is 1 more.
pub const KIND_QUOTE: u8 = 8;

/// uses account, contract, lots, price, number. `number` is the order's, `lots` its new remaining lots (0 removes it),
/// `price` its new price.
pub const KIND_CHANGE: u8 = 9;

// The codes. Where several apply, the first one in the papers' order is given.

/// accepted
pub const CODE_ACCEPTED: u32 = 0;

/// the kind, a flag or an unused field of the command is wrong
pub const CODE_MALFORMED: u32 = 1;

/// no such account
pub const CODE_NO_ACCOUNT: u32 = 2;

/// no such contract
pub const CODE_NO_CONTRACT: u32 = 3;

/// the contract's state does not permit it now
pub const CODE_PHASE_FORBIDS: u32 = 4;

/// fewer than 1 or more than 1,000 lots (a change to 0 lots removes the order)
pub const CODE_LOTS: u32 = 5;

/// a market or best order must not be good for day; in auction, every order must be limit good for day
pub const CODE_CONDITIONS: u32 = 6;

/// the limit is off the tick or outside the day's low to high; or a market or best order names a price
pub const CODE_PRICE: u32 = 7;

/// an open would pass the holding limit; or a close is for more lots than are held and not yet offered
pub const CODE_HOLDING: u32 = 8;

/// an open: all charged margin, its lots included, would be above the balance; a withdrawal: less than the charged
/// margin would be left
pub const CODE_MARGIN: u32 = 9;

/// the day's order numbers are used up, or its time stamps (of a change, the time stamps alone; a quote needs two of
/// each)
pub const CODE_NUMBERS_USED_UP: u32 = 10;

/// fill or kill: not all lots can be filled
pub const CODE_NOT_FILLABLE: u32 = 11;

/// it would make more trades than the day has room for: an order, or the match when a contract leaves auction
pub const CODE_NO_ROOM_FOR_TRADES: u32 = 12;

/// the order would have to rest, and its side is full (in auction every order rests)
pub const CODE_SIDE_FULL: u32 = 13;

/// no such order rests in that contract
pub const CODE_NO_ORDER: u32 = 14;

/// the order belongs to another account
pub const CODE_ORDER_OF_ANOTHER: u32 = 15;

/// the amount is not 1 to 10^15; or the deposit would lift the balance above 10^18
pub const CODE_AMOUNT: u32 = 16;

/// the contract cannot go from its state to that one
pub const CODE_PHASE_CHANGE: u32 = 17;

/// settle: a contract is not closed
pub const CODE_NOT_CLOSED: u32 = 18;

/// settle: 250 settlements are made already
pub const CODE_SETTLEMENTS_USED_UP: u32 = 19;

/// the day file or the file of a saved state is broken (of a day file printed as X 20, and no command is carried out);
/// a file to be mended: its contracts or its accounts are not whole and in range, or the four bytes of its command
/// count are not whole
pub const CODE_BROKEN_FILE: u32 = 20;

/// the state is not well formed (cannot happen in a day file's run)
pub const CODE_NOT_WELL_FORMED: u32 = 21;

/// a bundle has more than 100 commands, or the area for their answers is too short
pub const CODE_BUNDLE: u32 = 22;

/// a quote: the account is no market maker
pub const CODE_NOT_A_MAKER: u32 = 23;

/// a quote: its buy price is not below its sell price
pub const CODE_QUOTE_PRICES: u32 = 24;

/// a client statement: more than 16 clients, or their starting lots do not add up to the account's
pub const CODE_CLIENTS: u32 = 25;

/// a client statement: an order of the account that traded is posted to no client, twice, or to an unknown one
pub const CODE_POSTINGS: u32 = 26;

/// a client statement: a client would close more than it holds
pub const CODE_CLIENT_HOLDING: u32 = 27;

/// the state cannot be saved: a contract is not in pre-open, orders or trades exist, an order number or time stamp is
/// used, or a contract's long and short lots are not equal
pub const CODE_NOT_WRITABLE: u32 = 28;

/// the area for a client statement, for a mended file, for the list of what it lost or for a saved state is too short;
/// or an area lent for a state to be read has no room for it
pub const CODE_AREA_TOO_SHORT: u32 = 29;

/// a saved state: a contract's long and short lots are not equal
pub const CODE_TOTALS_DIFFER: u32 = 30;

/// The words of a code, as they stand above it.
pub const fn code_words(code: u32) -> &'static str {
    match code {
        CODE_ACCEPTED => "accepted",
        CODE_MALFORMED => "the kind, a flag or an unused field of the command is wrong",
        CODE_NO_ACCOUNT => "no such account",
        CODE_NO_CONTRACT => "no such contract",
        CODE_PHASE_FORBIDS => "the contract's state does not permit it now",
        CODE_LOTS => "fewer than 1 or more than 1,000 lots (a change to 0 lots removes the order)",
        CODE_CONDITIONS => "a market or best order must not be good for day; in auction, every order must be limit good for day",
        CODE_PRICE => "the limit is off the tick or outside the day's low to high; or a market or best order names a price",
        CODE_HOLDING => "an open would pass the holding limit; or a close is for more lots than are held and not yet offered",
        CODE_MARGIN => "an open: all charged margin, its lots included, would be above the balance; a withdrawal: less than the charged margin would be left",
        CODE_NUMBERS_USED_UP => "the day's order numbers are used up, or its time stamps (of a change, the time stamps alone; a quote needs two of each)",
        CODE_NOT_FILLABLE => "fill or kill: not all lots can be filled",
        CODE_NO_ROOM_FOR_TRADES => "it would make more trades than the day has room for: an order, or the match when a contract leaves auction",
        CODE_SIDE_FULL => "the order would have to rest, and its side is full (in auction every order rests)",
        CODE_NO_ORDER => "no such order rests in that contract",
        CODE_ORDER_OF_ANOTHER => "the order belongs to another account",
        CODE_AMOUNT => "the amount is not 1 to 10^15; or the deposit would lift the balance above 10^18",
        CODE_PHASE_CHANGE => "the contract cannot go from its state to that one",
        CODE_NOT_CLOSED => "settle: a contract is not closed",
        CODE_SETTLEMENTS_USED_UP => "settle: 250 settlements are made already",
        CODE_BROKEN_FILE => "the day file or the file of a saved state is broken (of a day file printed as X 20, and no command is carried out); a file to be mended: its contracts or its accounts are not whole and in range, or the four bytes of its command count are not whole",
        CODE_NOT_WELL_FORMED => "the state is not well formed (cannot happen in a day file's run)",
        CODE_BUNDLE => "a bundle has more than 100 commands, or the area for their answers is too short",
        CODE_NOT_A_MAKER => "a quote: the account is no market maker",
        CODE_QUOTE_PRICES => "a quote: its buy price is not below its sell price",
        CODE_CLIENTS => "a client statement: more than 16 clients, or their starting lots do not add up to the account's",
        CODE_POSTINGS => "a client statement: an order of the account that traded is posted to no client, twice, or to an unknown one",
        CODE_CLIENT_HOLDING => "a client statement: a client would close more than it holds",
        CODE_NOT_WRITABLE => "the state cannot be saved: a contract is not in pre-open, orders or trades exist, an order number or time stamp is used, or a contract's long and short lots are not equal",
        CODE_AREA_TOO_SHORT => "the area for a client statement, for a mended file, for the list of what it lost or for a saved state is too short; or an area lent for a state to be read has no room for it",
        CODE_TOTALS_DIFFER => "a saved state: a contract's long and short lots are not equal",
        _ => "no such code",
    }
}

/// A contract's terms for the day, with the number of its pairing method, its phase (the paper's contract state) and
/// its last price. Both numbers are the C interface's. Rate and method are as wide as in the day file: four contracts
/// then take 128 bytes, which a compiler still copies in place.
#[repr(C)]
#[derive(Clone, Copy, Debug, PartialEq)]
pub struct Contract {
    pub multiplier: u32,
    pub tick: u32,
    pub reference: u32,
    pub band: u32,
    pub limit: u32,
    pub rate: u16,
    pub method: u16,
    pub phase: u32,
    pub last: u32,
}

const _: () = assert!(size_of::<Contract>() == 32);

/// What one account holds in one contract: lots now, and lots at the start of the day.
#[repr(C)]
#[derive(Clone, Copy, Debug, PartialEq)]
pub struct Holding {
    pub long: u32,
    pub short: u32,
    pub startlong: u32,
    pub startshort: u32,
}

const _: () = assert!(size_of::<Holding>() == 16);

/// `maker` is 1 for a market maker and 0 for others, as the C interface has it.
#[repr(C)]
#[derive(Clone, Copy, Debug, PartialEq)]
pub struct Account {
    pub balance: i64,
    pub holdings: [Holding; 4],
    pub maker: u64,
}

const _: () = assert!(size_of::<Account>() == 80);

/// All of the state that does not lie in lent areas. The areas hold the queues and the day's trades, the counts here
/// say how many of each are in use: orders by contract, contracts, accounts, trades of the day. `next` is the next
/// order number, `nextstamp` the next time stamp.
#[repr(C)]
#[derive(Clone, Copy, Debug, PartialEq)]
pub struct State {
    pub contracts: [Contract; 4],
    pub accounts: [Account; 32],
    pub buycounts: [usize; 4],
    pub sellcounts: [usize; 4],
    pub contractcount: usize,
    pub accountcount: usize,
    pub tradecount: usize,
    pub next: u32,
    pub nextstamp: u32,
    pub settlements: u32,
}

const _: () = assert!(size_of::<State>() == 2792);

/// 0, or 20 where the file is broken; the place of the first command's first byte in the file, and the number of
/// commands, 24 bytes each; the state that the file's run begins with. With 20 all else is zero, and a call that tests
/// the state refuses it with 21.
#[repr(C)]
#[derive(Clone, Copy, Debug, PartialEq)]
pub struct Opened {
    pub code: u32,
    pub first: usize,
    pub commands: usize,
    pub state: State,
}

const _: () = assert!(size_of::<Opened>() == 2816);

/// A command's 24 bytes, field by field, whatever they hold: `command_of` reads the kind and the flags.
#[repr(C)]
#[derive(Clone, Copy, Debug, PartialEq)]
pub struct Record {
    pub kind: u8,
    pub account: u8,
    pub contract: u8,
    pub flags: u8,
    pub lots: u32,
    pub price: u32,
    pub number: u32,
    pub amount: u64,
}

const _: () = assert!(size_of::<Record>() == 24);

/// "Each answer holds a code, an order number, lots traded and lots rested (insert; a vanished remainder isn't counted)
/// or removed (cancel, pull)."
#[repr(C)]
#[derive(Clone, Copy, Debug, PartialEq)]
pub struct Answer {
    pub code: u32,
    pub number: u32,
    pub traded: u32,
    pub lots: u32,
}

const _: () = assert!(size_of::<Answer>() == 16);

/// What a settlement reports: each contract's settlement price; each account's closing and holding profit, and its
/// charged margin after the settlement. All zero where there was none.
#[repr(C)]
#[derive(Clone, Copy, Debug, PartialEq)]
pub struct Report {
    pub prices: [u32; 4],
    pub closing: [i64; 32],
    pub holding: [i64; 32],
    pub charged: [u64; 32],
}

const _: () = assert!(size_of::<Report>() == 784);

/// An answer, the state after it and the report.
#[repr(C)]
#[derive(Clone, Copy, Debug, PartialEq)]
pub struct Response {
    pub answer: Answer,
    pub state: State,
    pub report: Report,
}

const _: () = assert!(size_of::<Response>() == 3592);

/// How many commands were played, and the state after them.
#[repr(C)]
#[derive(Clone, Copy, Debug, PartialEq)]
pub struct Ran {
    pub played: usize,
    pub state: State,
}

const _: () = assert!(size_of::<Ran>() == 2800);

/// 0, or the code that refuses the whole bundle, and the state after it. The C interface needs the code's number.
#[repr(C)]
#[derive(Clone, Copy, Debug, PartialEq)]
pub struct Receipt {
    pub code: u32,
    pub state: State,
}

const _: () = assert!(size_of::<Receipt>() == 2800);

/// The code, the lots that would trade, and the number of resting orders read to know it. The C interface needs the
/// code's number, 0 for none.
#[repr(C)]
#[derive(Clone, Copy, Debug, PartialEq)]
pub struct Reading {
    pub code: u32,
    pub lots: u32,
    pub read: usize,
}

const _: () = assert!(size_of::<Reading>() == 16);

/// A part of an area: its first word, and how many words it has. An empty part begins at 0.
#[repr(C)]
#[derive(Clone, Copy, Debug, PartialEq)]
pub struct Part {
    pub first: usize,
    pub words: usize,
}

const _: () = assert!(size_of::<Part>() == 16);

/// 0, or the code that refuses, and how many bytes of the two areas are written.
#[repr(C)]
#[derive(Clone, Copy, Debug, PartialEq)]
pub struct Mended {
    pub code: u32,
    pub length: usize,
    pub listed: usize,
}

const _: () = assert!(size_of::<Mended>() == 24);

/// 0, or the code that refuses, and how many bytes are written.
#[repr(C)]
#[derive(Clone, Copy, Debug, PartialEq)]
pub struct Statement {
    pub code: u32,
    pub length: usize,
}

const _: () = assert!(size_of::<Statement>() == 16);

/// 0, or the code that refuses, and how many bytes are written.
#[repr(C)]
#[derive(Clone, Copy, Debug, PartialEq)]
pub struct Saved {
    pub code: u32,
    pub length: usize,
}

const _: () = assert!(size_of::<Saved>() == 16);

/// 0, or the code that refuses, and the state: the file's, or the one given where the file is refused.
#[repr(C)]
#[derive(Clone, Copy, Debug, PartialEq)]
pub struct Loaded {
    pub code: u32,
    pub state: State,
}

const _: () = assert!(size_of::<Loaded>() == 2800);

/// What a call printed: 0, or 21 where the state is not well formed, 29 where the buffer cannot hold the longest lines
/// of one command; nothing is printed then. `length` bytes from the buffer's start are the part. `next` is the place of
/// the next command, from 0, and with `state` goes into the next call, if there is more. The C interface needs the
/// code's number and a flag.
#[repr(C)]
#[derive(Clone, Copy, Debug, PartialEq)]
pub struct Printed {
    pub code: u32,
    pub length: usize,
    pub next: usize,
    pub more: bool,
    pub state: State,
}

const _: () = assert!(size_of::<Printed>() == 2824);

/// A resting order: its remaining lots, the account's place, 1 for a close and 0 for an open, its time stamp, 1 where
/// it is part of a quote and 0 elsewhere: each a word of the lent area.
#[repr(C)]
#[derive(Clone, Copy, Debug, PartialEq)]
pub struct Order {
    pub price: u32,
    pub number: u32,
    pub account: u32,
    pub lots: u32,
    pub close: u32,
    pub stamp: u32,
    pub quote: u32,
}

const _: () = assert!(size_of::<Order>() == 28);

/// A trade: the contract's place, the two orders' numbers, the two accounts' places, and for each leg 1 for a close and
/// 0 for an open: each a word of the lent area.
#[repr(C)]
#[derive(Clone, Copy, Debug, PartialEq)]
pub struct Trade {
    pub contract: u32,
    pub price: u32,
    pub lots: u32,
    pub buyorder: u32,
    pub sellorder: u32,
    pub buyer: u32,
    pub seller: u32,
    pub buyclose: u32,
    pub sellclose: u32,
}

const _: () = assert!(size_of::<Trade>() == 36);

/// Which engine this is, so that a certificate can name it: the version, the Rattle kit that proved it, and the hash of
/// the sources that were proved, as tools/version prints it.
#[derive(Clone, Copy, Debug, PartialEq)]
pub struct Identity {
    pub version: &'static str,
    pub kit: &'static str,
    pub sources: &'static str,
}

mod linked {
    use super::*;

    #[repr(C)]
    pub struct Identity {
        pub version: *const c_char,
        pub kit: *const c_char,
        pub sources: *const c_char,
    }

    unsafe extern "C" {
        pub fn zelvorm_open(
            file: *const u8,
            file_bytes: usize,
        ) -> Opened;
        pub fn zelvorm_well_formed(
            state: State,
            buys: *const u32,
            buys_words: usize,
            sells: *const u32,
            sells_words: usize,
            trades: *const u32,
            trades_words: usize,
        ) -> bool;
        pub fn zelvorm_execute(
            state: State,
            buys: *mut u32,
            buys_words: usize,
            sells: *mut u32,
            sells_words: usize,
            trades: *mut u32,
            trades_words: usize,
            command: Record,
        ) -> Response;
        pub fn zelvorm_run(
            state: State,
            buys: *mut u32,
            buys_words: usize,
            sells: *mut u32,
            sells_words: usize,
            trades: *mut u32,
            trades_words: usize,
            commands: *const u8,
            commands_bytes: usize,
            answers: *mut u32,
            answers_words: usize,
        ) -> Ran;
        pub fn zelvorm_bundle(
            state: State,
            buys: *mut u32,
            buys_words: usize,
            sells: *mut u32,
            sells_words: usize,
            trades: *mut u32,
            trades_words: usize,
            commands: *const u8,
            commands_bytes: usize,
            answers: *mut u32,
            answers_words: usize,
        ) -> Receipt;
        pub fn zelvorm_gettable(
            state: State,
            buys: *const u32,
            buys_words: usize,
            sells: *const u32,
            sells_words: usize,
            trades: *const u32,
            trades_words: usize,
            command: Record,
        ) -> Reading;
        pub fn zelvorm_side(
            state: State,
            buys: *const u32,
            buys_words: usize,
            sells: *const u32,
            sells_words: usize,
            sell: bool,
            contract: usize,
        ) -> Part;
        pub fn zelvorm_mend(
            file: *const u8,
            file_bytes: usize,
            out: *mut u8,
            out_bytes: usize,
            list: *mut u8,
            list_bytes: usize,
        ) -> Mended;
        pub fn zelvorm_client_statement(
            state: State,
            buys: *const u32,
            buys_words: usize,
            sells: *const u32,
            sells_words: usize,
            trades: *const u32,
            trades_words: usize,
            account: u32,
            clients: u32,
            starts: *const u32,
            starts_words: usize,
            postings: *const u32,
            postings_words: usize,
            out: *mut u8,
            out_bytes: usize,
        ) -> Statement;
        pub fn zelvorm_write(
            state: State,
            buys: *const u32,
            buys_words: usize,
            sells: *const u32,
            sells_words: usize,
            trades: *const u32,
            trades_words: usize,
            out: *mut u8,
            out_bytes: usize,
        ) -> Saved;
        pub fn zelvorm_read(
            file: *const u8,
            file_bytes: usize,
            state: State,
            buys: *const u32,
            buys_words: usize,
            sells: *const u32,
            sells_words: usize,
            trades: *const u32,
            trades_words: usize,
        ) -> Loaded;
        pub fn zelvorm_lines(
            file: *const u8,
            file_bytes: usize,
            state: State,
            next: usize,
            buys: *mut u32,
            buys_words: usize,
            sells: *mut u32,
            sells_words: usize,
            trades: *mut u32,
            trades_words: usize,
            out: *mut u8,
            out_bytes: usize,
        ) -> Printed;
        pub fn zelvorm_engine() -> Identity;
    }
}

/// Opens a day file: the state that its run begins with, and where its commands stand. The sections of a day file, each
/// after its count of 4 bytes, little-endian: contracts of 20 bytes (multiplier 2, tick 2, reference 4, band 4, limit
/// 4, rate 2, pairing method 2), accounts of 8 (opening balance, with bit 63 set for a market maker), commands of 24.
/// The state has no orders and no trades, so the areas lent with it may hold anything.
pub fn open(
    file: &[u8],
) -> Opened {
    unsafe { linked::zelvorm_open(file.as_ptr(), file.len()) }
}

/// Whether a state and the areas lent with it are well formed. Every other call that has code 21 makes this test
/// itself.
pub fn well_formed(
    state: State,
    buys: &[u32],
    sells: &[u32],
    trades: &[u32],
) -> bool {
    unsafe { linked::zelvorm_well_formed(state, buys.as_ptr(), buys.len(), sells.as_ptr(), sells.len(), trades.as_ptr(), trades.len()) }
}

/// Carries out one command. A refusal leaves the state and the areas as they were. The whole state is tested first, for
/// code 21. That costs more than most commands do by themselves, tens of thousands of instructions on an opening state
/// and hundreds of thousands on a full one: it grows with the resting orders and the day's trades. `zelvorm_run` and
/// `zelvorm_bundle` test once for all their commands.
pub fn execute(
    state: State,
    buys: &mut [u32],
    sells: &mut [u32],
    trades: &mut [u32],
    command: Record,
) -> Response {
    unsafe { linked::zelvorm_execute(state, buys.as_mut_ptr(), buys.len(), sells.as_mut_ptr(), sells.len(), trades.as_mut_ptr(), trades.len(), command) }
}

/// Carries out a list of commands, 24 bytes each, and writes the answer to each, four words, one after the other. It
/// plays as many commands as there are places for answers, and says how many. A settlement's report is given by
/// `zelvorm_execute` alone. Fewer than 24 bytes at the end of `commands` are no command and are passed over, as are
/// fewer than four words at the end of `answers`. Where the state is not well formed, each answer is 21.
pub fn run(
    state: State,
    buys: &mut [u32],
    sells: &mut [u32],
    trades: &mut [u32],
    commands: &[u8],
    answers: &mut [u32],
) -> Ran {
    unsafe { linked::zelvorm_run(state, buys.as_mut_ptr(), buys.len(), sells.as_mut_ptr(), sells.len(), trades.as_mut_ptr(), trades.len(), commands.as_ptr(), commands.len(), answers.as_mut_ptr(), answers.len()) }
}

/// Carries out a bundle of up to 100 commands, or refuses it whole: 21, then 22. Fewer than 24 bytes at the end of
/// `commands` are passed over. Words of `answers` behind the last answer stay.
pub fn bundle(
    state: State,
    buys: &mut [u32],
    sells: &mut [u32],
    trades: &mut [u32],
    commands: &[u8],
    answers: &mut [u32],
) -> Receipt {
    unsafe { linked::zelvorm_bundle(state, buys.as_mut_ptr(), buys.len(), sells.as_mut_ptr(), sells.len(), trades.as_mut_ptr(), trades.len(), commands.as_ptr(), commands.len(), answers.as_mut_ptr(), answers.len()) }
}

/// How much could I get: the lots that an insert would trade now, and how many resting orders were read to know it.
/// Nothing is changed.
pub fn gettable(
    state: State,
    buys: &[u32],
    sells: &[u32],
    trades: &[u32],
    command: Record,
) -> Reading {
    unsafe { linked::zelvorm_gettable(state, buys.as_ptr(), buys.len(), sells.as_ptr(), sells.len(), trades.as_ptr(), trades.len(), command) }
}

/// One side's resting orders: which part of `buys` or of `sells` holds them. The contract is named by its number.
pub fn side(
    state: State,
    buys: &[u32],
    sells: &[u32],
    sell: bool,
    contract: usize,
) -> Part {
    unsafe { linked::zelvorm_side(state, buys.as_ptr(), buys.len(), sells.as_ptr(), sells.len(), sell, contract) }
}

/// Mends a day file: what is kept goes into `out`, the list of what is dropped into `list`. As many bytes as the file
/// has are enough for `out`, and LIST_BYTES for `list`. The list is a count of 8 bytes, then 9 bytes for each command
/// that is dropped, in the file's order: its place among the commands, from 1 (8), and the reason (1): 1 malformed, 2
/// partial, at the end of the file, 3 beyond the most commands of a day file.
pub fn mend(
    file: &[u8],
    out: &mut [u8],
    list: &mut [u8],
) -> Mended {
    unsafe { linked::zelvorm_mend(file.as_ptr(), file.len(), out.as_mut_ptr(), out.len(), list.as_mut_ptr(), list.len()) }
}

/// A statement of an account's clients. `starts` has eight words for each client: long and short lots at the start of
/// the day in each of four contracts. `postings` has two words for each posting: an order's number and a client's.
/// STATEMENT_BYTES are enough for `out`; 12 + 32 x trades of the day + clients x (16 + 8 x contracts) are too. Written
/// are three sections, each after its count of 4 bytes: the account's legs in the order of the trades, the buyer's
/// first, of 16 bytes (client 1, contract 1, a mark for a sell 1, a mark for a close 1, price 4, lots 4, order number
/// 4); holdings now by client, then contract, of 8 (long 4, short 4); profit by client, of 16 (closing 8, holding 8,
/// both signed). Words that `starts` lacks are 0; a single word at the end of `postings` is passed over.
#[allow(clippy::too_many_arguments)]
pub fn client_statement(
    state: State,
    buys: &[u32],
    sells: &[u32],
    trades: &[u32],
    account: u32,
    clients: u32,
    starts: &[u32],
    postings: &[u32],
    out: &mut [u8],
) -> Statement {
    unsafe { linked::zelvorm_client_statement(state, buys.as_ptr(), buys.len(), sells.as_ptr(), sells.len(), trades.as_ptr(), trades.len(), account, clients, starts.as_ptr(), starts.len(), postings.as_ptr(), postings.len(), out.as_mut_ptr(), out.len()) }
}

/// Writes a state after its settlement, to be read tomorrow. SAVED_BYTES are enough for `out`; it takes 20 + 24 x
/// contracts + accounts x (9 + 8 x contracts). The sections, each after its count of 4 bytes: contracts of 24 bytes
/// (the day file's 20, last price 4), accounts of 9 (signed balance 8, a mark for a market maker 1), holdings by
/// account, then contract, of 8 (long 4, short 4), and one of 4, the settlement count.
pub fn write(
    state: State,
    buys: &[u32],
    sells: &[u32],
    trades: &[u32],
    out: &mut [u8],
) -> Saved {
    unsafe { linked::zelvorm_write(state, buys.as_ptr(), buys.len(), sells.as_ptr(), sells.len(), trades.as_ptr(), trades.len(), out.as_mut_ptr(), out.len()) }
}

/// Reads a state that was written. The areas are those that it is to be used with: they are looked at for their room
/// alone. Of the state given nothing is looked at; places that the file's state does not use stay as they are there.
pub fn read(
    file: &[u8],
    state: State,
    buys: &[u32],
    sells: &[u32],
    trades: &[u32],
) -> Loaded {
    unsafe { linked::zelvorm_read(file.as_ptr(), file.len(), state, buys.as_ptr(), buys.len(), sells.as_ptr(), sells.len(), trades.as_ptr(), trades.len()) }
}

/// The next part of a day file's lines, in the buffer `out`: what a day runner prints of it. The first call takes the
/// state of `zelvorm_open` and `next` 0; each call gives the state and `next` for the following one, as long as it
/// tells of more. A buffer of `OUTPUT_BYTES` is enough, and a longer one takes fewer calls.
pub fn lines(
    file: &[u8],
    state: State,
    next: usize,
    buys: &mut [u32],
    sells: &mut [u32],
    trades: &mut [u32],
    out: &mut [u8],
) -> Printed {
    unsafe { linked::zelvorm_lines(file.as_ptr(), file.len(), state, next, buys.as_mut_ptr(), buys.len(), sells.as_mut_ptr(), sells.len(), trades.as_mut_ptr(), trades.len(), out.as_mut_ptr(), out.len()) }
}

/// Which engine is linked. This call is a help: it stands beside the proved ones, in an object of its own.
pub fn engine() -> Identity {
    // The library's own texts: they end with a zero byte and are there as long as the program.
    let text = |at: *const c_char| unsafe { CStr::from_ptr(at) }.to_str().unwrap_or("");
    let found = unsafe { linked::zelvorm_engine() };
    Identity { version: text(found.version), kit: text(found.kit), sources: text(found.sources) }
}

/// The bytes of commands, as they lie: a record is its 24 bytes, little-endian, with nothing between.
pub fn command_bytes(commands: &[Record]) -> &[u8] {
    const { assert!(cfg!(target_endian = "little")) };
    unsafe { std::slice::from_raw_parts(commands.as_ptr().cast(), size_of_val(commands)) }
}

/// The words of answers, as they lie.
pub fn answer_words(answers: &mut [Answer]) -> &mut [u32] {
    let words = size_of_val(answers) / size_of::<u32>();
    unsafe { std::slice::from_raw_parts_mut(answers.as_mut_ptr().cast(), words) }
}
