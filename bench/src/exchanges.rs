//! The exchange: the rows of what a command takes.

use crate::best::Best;
use crate::cases::{Random, ORDER, TRADE};
use crate::count::{counted, counted_from, counts, grouped, head, row};
use crate::days::{deposit, encode, file, filled_list, kind_lists, match_lists, mixed, Command, Memory, Prepared, KINDS, RICH};
use crate::design::Plain;
use crate::exchange::{self, State};
use crate::ours;
use std::hint::black_box;

#[no_mangle]
#[inline(never)]
pub fn plain_run(day: &[u8], commands: &[u8], m: &mut Memory) -> State<Plain> {
    exchange::run(day, commands, &mut m.areas())
}

#[no_mangle]
#[inline(never)]
pub fn best_run(day: &[u8], commands: &[u8], m: &mut Memory) -> State<Best> {
    exchange::run(day, commands, &mut m.areas())
}

fn mixed_list() -> Vec<Command> {
    mixed(&mut Random::new(), &file(32, RICH), 2_000)
}

/// What the kinds are counted on: the first is that of the table of all versions.
const CONFIGURATIONS: [Prepared; 5] = [
    Prepared { accounts: 32, orders: 32, trades: 10 },
    Prepared { accounts: 2, orders: 32, trades: 10 },
    Prepared { accounts: 32, orders: 44, trades: 10 },
    Prepared { accounts: 32, orders: 32, trades: 1_000 },
    Prepared { accounts: 2, orders: 32, trades: 1_000 },
];

pub const MIXED: usize = 0;
const MATCH: usize = 1;
const DEPOSIT_AT_OPENING: usize = 2;
const DEPOSIT_IN_FULL: usize = 3;

fn kind_pair(kind: usize, configuration: usize) -> usize {
    4 + CONFIGURATIONS.len() * kind + configuration
}

pub fn pair_count() -> usize {
    kind_pair(KINDS.len(), 0)
}

/// The lists that are counted, by number: how many accounts they are for, a list without what is counted, and with it.
pub fn pair(number: usize) -> (usize, [Vec<Command>; 2]) {
    let with_deposit = |list: Vec<Command>| [list.clone(), [list, vec![deposit(1)]].concat()];
    match number {
        MIXED => (32, [Vec::new(), mixed_list()]),
        MATCH => (32, match_lists()),
        DEPOSIT_AT_OPENING => (32, with_deposit(Vec::new())),
        DEPOSIT_IN_FULL => (32, with_deposit(filled_list(512, 1_024))),
        _ => {
            let number = number - kind_pair(0, 0);
            let p = CONFIGURATIONS[number % CONFIGURATIONS.len()];
            (p.accounts, kind_lists(number / CONFIGURATIONS.len(), &p))
        }
    }
}

/// The exchanges that are counted: ours, ours in a program that has `execute` too, the plain Rust version, the best one, and the library as it
/// is exported.
const OURS_ALONE: usize = 0;
const OURS_WITH_EXECUTE: usize = 1;
const PLAIN_RUST: usize = 2;
const BEST_RUST: usize = 3;
const LIBRARY: usize = 4;

pub fn exercise_list(number: usize, with: usize, which: usize) {
    let (accounts, lists) = pair(number);
    let (day, commands, mut memory) = (file(accounts, RICH), encode(&lists[with]), Memory::new());
    match which {
        OURS_ALONE => drop(black_box(ours::run(&day, &commands, &mut memory, 0, 0))),
        OURS_WITH_EXECUTE => assert!(ours::test(&day, &commands, &mut memory)),
        PLAIN_RUST => drop(black_box(plain_run(&day, &commands, &mut memory))),
        BEST_RUST => drop(black_box(best_run(&day, &commands, &mut memory))),
        _ => drop(black_box(ours::library_run(&day, &commands, &mut memory))),
    }
}

/// The instructions of a whole list.
fn per_list(number: usize, with: usize, which: usize) -> f64 {
    let words = ["list".to_string(), number.to_string(), with.to_string(), which.to_string()];
    let function = ["bench_run", "bench_test", "plain_run", "best_run", "zelvorm_run"][which];
    let total = counted(function, &words).1;
    // behind the list `bench_test` tests the state
    let behind = if which == OURS_WITH_EXECUTE { counted_from(function, WHOLE_STATE_TEST, &words) } else { 0.0 };
    total - behind
}

/// Instructions per command of those by which the longer list of a pair is longer.
fn per_command(number: usize, which: usize) -> f64 {
    let [less, more] = [0, 1].map(|with| per_list(number, with, which));
    let [without, with] = pair(number).1;
    (more - less) / (with.len() - without.len()) as f64
}

pub const VERSIONS: [&str; 5] = ["ours", "plain Rust", "ratio", "best Rust", "ratio"];

/// One of ours beside the two Rust versions.
fn beside_rust(name: &str, number: usize, which: usize) {
    let [ours, plain, best] = [which, PLAIN_RUST, BEST_RUST].map(|which| per_command(number, which));
    row(name, ours, &[plain, best]);
}

/// Ours beside the two Rust versions: the library first, since it is what programs link, then `run` alone.
fn versions() {
    let all = |name: &str, number: usize| beside_rust(name, number, OURS_ALONE);
    let settlements = plain_run(&file(32, RICH), &encode(&mixed_list()), &mut Memory::new()).settlements;
    head("Instructions per command", &VERSIONS);
    let list = format!("2,000 commands, {settlements} settlements");
    beside_rust(&format!("{list}: exported library"), MIXED, LIBRARY);
    all(&format!("{list}: `run` alone"), MIXED);
    for (kind, name) in KINDS.iter().enumerate() {
        all(name, kind_pair(kind, 0));
    }
    all("match of 64 orders on each side", MATCH);
    head("Settle, by accounts and trades", &VERSIONS);
    for configuration in [1, 0, 4, 3] {
        let Prepared { accounts, trades, .. } = CONFIGURATIONS[configuration];
        all(&format!("{accounts} accounts, {} trades", grouped(trades as f64)), kind_pair(KINDS.len() - 1, configuration));
    }
}

/// What a command's cost grows with.
fn growth() {
    let columns = [0, 1, 2, 3];
    let told = |of: fn(Prepared) -> usize| columns.map(|configuration| of(CONFIGURATIONS[configuration]) as f64);
    head("Ours, accounts", &told(|p| p.accounts).map(grouped));
    counts("orders a side of a contract", &told(|p| p.orders));
    counts("recorded trades", &told(|p| p.trades));
    for (kind, name) in KINDS.iter().enumerate() {
        counts(name, &columns.map(|configuration| per_command(kind_pair(kind, configuration), OURS_ALONE)));
    }
}

/// Our test of a whole state, by its name in the profile.
const WHOLE_STATE_TEST: &str = "audit::well_formed";

/// A list that fills a state, and behind it a test of the whole state.
pub fn exercise_test(orders: usize, trades: usize) {
    let mut memory = Memory::new();
    assert!(ours::test(&file(32, RICH), &encode(&filled_list(orders, trades)), &mut memory));
    let used = |area: &[u32], words: usize, lots: usize| area.chunks_exact(words).filter(|record| record[lots] != 0).count();
    assert!(used(&memory.buys, ORDER, 3) + used(&memory.sells, ORDER, 3) == orders && used(&memory.trades, TRADE, 2) == trades);
}

/// A list, and behind it one deposit by itself.
pub fn exercise_execute(number: usize) {
    let [list, _] = pair(number).1;
    let left = ours::execute(&file(32, RICH), &encode(&list), deposit(1).bytes(), &mut Memory::new(), 0, 0);
    assert!(left.balance == RICH as i64 + 1_000);
}

/// What the test of the whole state takes, by orders and trades.
fn whole_state() {
    head("Whole-state test, trades", &["0", "512", "1,024"]);
    for orders in [0, 256, 512] {
        let words = |trades: usize| ["test".to_string(), orders.to_string(), trades.to_string()];
        counts(&format!("{orders} orders"), &[0, 512, 1_024].map(|trades| counted_from("bench_test", WHOLE_STATE_TEST, &words(trades))));
    }
}

/// One command by itself, which tests the whole state first, beside the same command in a list.
fn single() {
    head("One deposit", &["`execute`", "in a list"]);
    for (name, number) in [("on the opening state", DEPOSIT_AT_OPENING), ("on the full state", DEPOSIT_IN_FULL)] {
        let alone = counted_from("bench_execute", WHOLE_STATE_TEST, &["execute".into(), number.to_string()]);
        counts(name, &[alone, per_command(number, OURS_ALONE)]);
    }
}

/// What a command of a list takes more in a program that calls `execute` too.
fn beside_execute() {
    head("A command of a list, program with", &["`run` alone", "and execute"]);
    for (name, number) in [("2,000 commands", MIXED), ("deposit", kind_pair(0, 0)), ("cancel", kind_pair(4, 0))] {
        counts(name, &[OURS_ALONE, OURS_WITH_EXECUTE].map(|which| per_command(number, which)));
    }
}

pub fn rows() {
    versions();
    growth();
    whole_state();
    single();
    beside_execute();
}
