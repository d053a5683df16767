//! What both books are run on: random queues and orders, the same at every run.

use crate::plain::Order;

pub const ORDER: usize = 7;
pub const QUEUE: usize = 64 * ORDER;
pub const TRADE: usize = 9;
pub const ACCOUNTS: usize = 32;

/// An order as `bench_book` takes it.
#[repr(C)]
#[derive(Clone, Copy)]
pub struct Sweeps {
    pub account: u32,
    pub contract: u32,
    pub close: u32,
    pub number: u32,
    pub price: u32,
    pub best: u32,
    pub lots: u32,
    pub last: u32,
    pub held: u32,
    pub probe: u32,
    pub kind: u8,
    pub sell: bool,
    pub day: bool,
    pub own: usize,
    pub opposite: usize,
    pub made: usize,
}

/// Its answer: the counts, the last price and one account's holding.
#[repr(C)]
#[derive(Clone, Copy, Debug, PartialEq)]
pub struct Swept {
    pub own: usize,
    pub opposite: usize,
    pub made: usize,
    pub last: u32,
    pub long: u32,
    pub short: u32,
}

/// Random numbers by xorshift.
pub struct Random(u64);

impl Random {
    pub fn new() -> Random {
        Random(88172645463325252)
    }

    /// Another sequence for each seed. Neighbours are spread by splitmix64; xorshift never leaves zero, so the last bit is set.
    pub fn of_seed(seed: u64) -> Random {
        let z = seed.wrapping_add(0x9e37_79b9_7f4a_7c15);
        let z = (z ^ (z >> 30)).wrapping_mul(0xbf58_476d_1ce4_e5b9);
        let z = (z ^ (z >> 27)).wrapping_mul(0x94d0_49bb_1331_11eb);
        Random((z ^ (z >> 31)) | 1)
    }

    pub fn below(&mut self, n: u32) -> u32 {
        self.0 ^= self.0 << 13;
        self.0 ^= self.0 >> 7;
        self.0 ^= self.0 << 17;
        (self.0 >> 33) as u32 % n
    }

    pub fn coin(&mut self) -> bool {
        self.below(2) == 1
    }

    fn words(&mut self, n: usize) -> Vec<u32> {
        (0..n).map(|_| self.below(1 << 31)).collect()
    }

    fn price(&mut self) -> u32 {
        1000 + self.below(100)
    }

    fn order(&mut self, number: u32, lots: u32) -> Order {
        Order { price: self.price(), number, account: self.below(ACCOUNTS as u32), lots, close: self.below(2), stamp: number, quote: 0 }
    }
}

/// An area of four queues, in one of them so many orders, best price first; anything in all other places.
fn area(r: &mut Random, contract: usize, count: usize, sell: bool, lots: impl Fn(&mut Random) -> u32) -> Vec<u32> {
    let mut words = r.words(4 * QUEUE);
    let mut prices: Vec<u32> = (0..count).map(|_| r.price()).collect();
    prices.sort();
    if !sell {
        prices.reverse();
    }
    for (i, price) in prices.into_iter().enumerate() {
        let lots = lots(r);
        let o = r.order(i as u32 + 1, lots);
        words[QUEUE * contract + ORDER * i..][..ORDER].copy_from_slice(&Order { price, ..o }.words());
    }
    words
}

fn up_to_50_lots(r: &mut Random) -> u32 {
    1 + r.below(50)
}

/// A queue, and an order to insert into it or the number of one to cancel.
pub struct QueueCase {
    pub area: Vec<u32>,
    pub contract: usize,
    pub count: usize,
    pub sell: bool,
    pub order: Order,
    pub number: u32,
}

/// `absent`: how many numbers besides those in the queue may be asked for.
pub fn queue_case(r: &mut Random, count: usize, absent: u32) -> QueueCase {
    let contract = r.below(4) as usize;
    let sell = r.coin();
    let area = area(r, contract, count, sell, up_to_50_lots);
    // `bench_book` takes no time stamp
    let order = Order { stamp: 0, ..r.order(1000, 7) };
    let number = 1 + r.below((count as u32 + absent).max(1));
    QueueCase { area, contract, count, sell, order, number }
}

/// The three areas, and an order to enter so many times.
#[derive(Clone)]
pub struct SweepsCase {
    pub own: Vec<u32>,
    pub opposite: Vec<u32>,
    pub trades: Vec<u32>,
    pub order: Sweeps,
    pub times: usize,
}

fn sweeps_case(r: &mut Random, opposite: usize, resting: impl Fn(&mut Random) -> u32) -> SweepsCase {
    let contract = r.below(4);
    let sell = r.coin();
    let own = r.below(61) as usize;
    let order = Sweeps {
        account: r.below(ACCOUNTS as u32),
        contract,
        close: r.below(2),
        number: 1000,
        price: r.price(),
        best: 0,
        lots: 1 + r.below(1000),
        last: r.price(),
        held: r.below(2000),
        probe: 0,
        kind: r.below(3) as u8,
        sell,
        day: r.coin(),
        own,
        opposite,
        made: r.below(900) as usize,
    };
    SweepsCase {
        own: area(r, contract as usize, own, sell, up_to_50_lots),
        opposite: area(r, contract as usize, opposite, !sell, resting),
        trades: r.words(1024 * TRADE),
        order,
        times: 1 + r.below(4) as usize,
    }
}

/// Anything that may happen: the three price conditions, own orders met, remainders that rest or vanish, closes above what is held.
pub fn any_sweeps(r: &mut Random) -> SweepsCase {
    let count = r.below(65) as usize;
    let mut case = sweeps_case(r, count, up_to_50_lots);
    case.order.best = case.opposite[QUEUE * case.order.contract as usize];
    case
}

/// A full queue, swept to its end by limit orders that each fill so many of its orders.
pub fn whole_sweeps(r: &mut Random, orders: u32) -> SweepsCase {
    let lots = 1 + r.below(31);
    let mut case = sweeps_case(r, 64, |_| lots);
    case.times = 64 / orders as usize;
    case.order.lots = orders * lots;
    case.order.kind = 0;
    case.order.day = false;
    case.order.price = if case.order.sell { 1 } else { 1_000_000 };
    case
}
