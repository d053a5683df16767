//! The calls of `crates/bench_book`, `crates/bench_exchange` and `crates/bench_execute`, each behind a test of what its contract requires, and
//! the library as it is exported, whose calls require nothing.

use crate::cases::{Sweeps, Swept, ACCOUNTS, ORDER, QUEUE, TRADE};
use crate::days::Memory;
use crate::plain::Order;
use crate::zelvorm;

// A slice passes as a pointer and a length.
extern "C" {
    fn bench_insert(
        area: *mut u32, words: usize, contract: usize, count: usize, sell: bool,
        price: u32, number: u32, account: u32, lots: u32, close: u32,
    );
    fn bench_cancel(area: *mut u32, words: usize, contract: usize, count: usize, number: u32) -> usize;
    fn bench_sweeps(
        own: *mut u32, own_words: usize, opposite: *mut u32, opposite_words: usize, trades: *mut u32, trade_words: usize,
        order: Sweeps, times: usize,
    ) -> Swept;
    fn bench_run(
        day: *const u8, day_bytes: usize, commands: *const u8, command_bytes: usize,
        buys: *mut u32, buy_words: usize, sells: *mut u32, sell_words: usize, trades: *mut u32, trade_words: usize,
        account: usize, contract: usize,
    ) -> Probe;
    fn bench_test(
        day: *const u8, day_bytes: usize, commands: *const u8, command_bytes: usize,
        buys: *mut u32, buy_words: usize, sells: *mut u32, sell_words: usize, trades: *mut u32, trade_words: usize,
    ) -> bool;
    fn bench_execute(
        day: *const u8, day_bytes: usize, commands: *const u8, command_bytes: usize, single: Single,
        buys: *mut u32, buy_words: usize, sells: *mut u32, sell_words: usize, trades: *mut u32, trade_words: usize,
        account: usize, contract: usize,
    ) -> Probe;
}

/// One command as `bench_execute` takes it.
#[repr(C)]
pub struct Single {
    pub bytes: [u8; 24],
}

pub fn insert(area: &mut [u32], contract: usize, count: usize, sell: bool, o: &Order) {
    assert!(contract < 4 && count < 64 && QUEUE * contract + ORDER * (count + 1) <= area.len() && o.stamp == 0 && o.quote == 0);
    unsafe {
        bench_insert(
            area.as_mut_ptr(), area.len(), contract, count, sell,
            o.price, o.number, o.account, o.lots, o.close,
        )
    }
}

pub fn cancel(area: &mut [u32], contract: usize, count: usize, number: u32) -> usize {
    assert!(contract < 4 && count <= 64 && QUEUE * contract + ORDER * count <= area.len());
    unsafe { bench_cancel(area.as_mut_ptr(), area.len(), contract, count, number) }
}

/// Room for every order and trade that there may be, accounts that exist, and holdings that stay below 1,000,000.
pub fn sweeps(own: &mut [u32], opposite: &mut [u32], trades: &mut [u32], s: &Sweeps, times: usize) -> Swept {
    let queue = QUEUE * s.contract as usize;
    let own_orders = s.own + if s.day { times } else { 0 };
    assert!(s.contract < 4 && own_orders <= 64 && s.opposite <= 64 && s.made <= 1024);
    assert!(queue + ORDER * own_orders <= own.len());
    assert!(queue + ORDER * s.opposite <= opposite.len());
    assert!(TRADE * (s.made + s.opposite) <= trades.len());
    assert!((s.account.max(s.probe) as usize) < ACCOUNTS);
    let resting = &opposite[queue..][..ORDER * s.opposite];
    assert!(resting.chunks_exact(ORDER).all(|o| (o[2] as usize) < ACCOUNTS));
    assert!(s.lots <= 1000 && s.held as usize + 1000 * times <= 1_000_000);
    unsafe {
        bench_sweeps(
            own.as_mut_ptr(), own.len(), opposite.as_mut_ptr(), opposite.len(), trades.as_mut_ptr(), trades.len(), *s, times,
        )
    }
}

/// What `bench_run` is asked about the state that it leaves: an account's balance and holding, what changes of a contract, counts.
#[repr(C)]
#[derive(Clone, Copy, Debug, PartialEq)]
pub struct Probe {
    pub balance: i64,
    pub bought: usize,
    pub sold: usize,
    pub made: usize,
    pub long: u32,
    pub short: u32,
    pub startlong: u32,
    pub startshort: u32,
    pub reference: u32,
    pub phase: u32,
    pub last: u32,
    pub next: u32,
    pub settlements: u32,
}

/// The day files of `days::file` are sound.
pub fn run(day: &[u8], commands: &[u8], m: &mut Memory, account: usize, contract: usize) -> Probe {
    assert!(account < ACCOUNTS && contract < 4);
    unsafe {
        bench_run(
            day.as_ptr(), day.len(), commands.as_ptr(), commands.len(), m.buys.as_mut_ptr(), m.buys.len(),
            m.sells.as_mut_ptr(), m.sells.len(), m.trades.as_mut_ptr(), m.trades.len(), account, contract,
        )
    }
}

/// Whether the state that the list leaves is well formed.
pub fn test(day: &[u8], commands: &[u8], m: &mut Memory) -> bool {
    unsafe {
        bench_test(
            day.as_ptr(), day.len(), commands.as_ptr(), commands.len(), m.buys.as_mut_ptr(), m.buys.len(),
            m.sells.as_mut_ptr(), m.sells.len(), m.trades.as_mut_ptr(), m.trades.len(),
        )
    }
}

/// The list, and one more command by itself.
pub fn execute(day: &[u8], commands: &[u8], single: [u8; 24], m: &mut Memory, account: usize, contract: usize) -> Probe {
    assert!(account < ACCOUNTS && contract < 4);
    unsafe {
        bench_execute(
            day.as_ptr(), day.len(), commands.as_ptr(), commands.len(), Single { bytes: single }, m.buys.as_mut_ptr(), m.buys.len(),
            m.sells.as_mut_ptr(), m.sells.len(), m.trades.as_mut_ptr(), m.trades.len(), account, contract,
        )
    }
}

/// The list by the library as it is exported: the state that it leaves, and the answer to each command.
pub fn library_run(day: &[u8], commands: &[u8], m: &mut Memory) -> (zelvorm::State, Vec<zelvorm::Answer>) {
    let opened = zelvorm::open(day);
    assert!(opened.code == zelvorm::CODE_ACCEPTED);
    // no answer has these words, so that one which is not written shows
    let unwritten = zelvorm::Answer { code: u32::MAX, number: u32::MAX, traded: u32::MAX, lots: u32::MAX };
    let mut answers = vec![unwritten; commands.len() / zelvorm::COMMAND_WIDTH];
    let words = zelvorm::answer_words(&mut answers);
    let ran = zelvorm::run(opened.state, &mut m.buys, &mut m.sells, &mut m.trades, commands, words);
    assert!(ran.played == answers.len());
    (ran.state, answers)
}
