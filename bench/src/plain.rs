//! The same book in plain Rust: the same areas of words, the same operations, the same results.

use crate::cases::{Sweeps, Swept, ACCOUNTS, ORDER, QUEUE, TRADE};
use crate::design::Resting;

#[derive(Clone, Copy, Default)]
pub struct Holding {
    pub long: u32,
    pub short: u32,
    pub startlong: u32,
    pub startshort: u32,
}

#[derive(Clone, Copy, Default)]
pub struct Account {
    pub balance: i64,
    pub holdings: [Holding; 4],
    pub maker: bool,
}

pub type Accounts = [Account; ACCOUNTS];

#[derive(Clone, Copy)]
pub struct Order {
    pub price: u32,
    pub number: u32,
    pub account: u32,
    pub lots: u32,
    pub close: u32,
    pub stamp: u32,
    pub quote: u32,
}

impl Order {
    /// As it lies in its queue.
    pub fn words(&self) -> [u32; ORDER] {
        [self.price, self.number, self.account, self.lots, self.close, self.stamp, self.quote]
    }
}

#[derive(Clone, Copy)]
pub enum PriceCondition {
    Limit(u32),
    Market,
    Best,
}

/// How a limit order's trade is priced; the average is rounded down to its tick.
#[derive(Clone, Copy)]
pub enum PairingMethod {
    Middle,
    Average(u32),
    FirstIn,
}

/// An arriving order. `price` is where a good-for-day remainder rests, `quote` is 1 where it is marked as its account's quote.
pub struct Taker {
    pub account: u32,
    pub contract: usize,
    pub sell: bool,
    pub close: u32,
    pub number: u32,
    pub stamp: u32,
    pub quote: u32,
    pub condition: PriceCondition,
    pub method: PairingMethod,
    pub best: u32,
    pub lots: u32,
    pub price: u32,
    pub day: bool,
}

/// Lots rested; orders in the own and in the opposite queue, trades of the day; the last price.
pub struct Entry {
    pub rested: u32,
    pub own: usize,
    pub opposite: usize,
    pub made: usize,
    pub last: u32,
}

fn worse(sell: bool, price: u32, other: u32) -> bool {
    if sell { other < price } else { price < other }
}

/// Puts an order behind every order of a queue at its price or better.
pub fn insert(area: &mut [u32], contract: usize, count: usize, sell: bool, o: &Order) {
    let queue = &mut area[QUEUE * contract..][..ORDER * (count + 1)];
    let place = queue[..ORDER * count]
        .chunks_exact(ORDER)
        .position(|other| worse(sell, other[0], o.price))
        .unwrap_or(count);
    let at = ORDER * place;
    queue.copy_within(at..ORDER * count, at + ORDER);
    queue[at..at + ORDER].copy_from_slice(&o.words());
}

/// Takes the order with a number out of a queue, if it is there; the number of orders left.
pub fn cancel(area: &mut [u32], contract: usize, count: usize, number: u32) -> usize {
    let queue = &mut area[QUEUE * contract..][..ORDER * count];
    match queue.chunks_exact(ORDER).position(|o| o[1] == number) {
        Some(place) => {
            close_up(&mut queue[ORDER * place..], ORDER);
            count - 1
        }
        None => count,
    }
}

/// Takes the first words out: the others move to the front, and zeros follow.
pub fn close_up(part: &mut [u32], words: usize) {
    part.copy_within(words.., 0);
    let kept = part.len() - words;
    part[kept..].fill(0);
}

impl Taker {
    fn new(s: &Sweeps) -> Taker {
        let condition = match s.kind {
            0 => PriceCondition::Limit(s.price),
            1 => PriceCondition::Market,
            _ => PriceCondition::Best,
        };
        Taker {
            account: s.account,
            contract: s.contract as usize,
            sell: s.sell,
            close: s.close,
            number: s.number,
            stamp: s.number,
            quote: 0,
            condition,
            method: PairingMethod::Middle,
            best: s.best,
            lots: s.lots,
            price: s.price,
            day: s.day,
        }
    }

    /// The order that rests, at its limit, with its time stamp.
    pub fn remainder(&self, lots: u32) -> Order {
        Order {
            price: self.price,
            number: self.number,
            account: self.account,
            lots,
            close: self.close,
            stamp: self.stamp,
            quote: self.quote,
        }
    }

    /// Where its remainder rests.
    pub fn resting(&self) -> Resting {
        Resting { side: self.sell as usize, contract: self.contract, account: self.account as usize, close: self.close != 0 }
    }

    pub fn meets(&self, price: u32) -> bool {
        match self.condition {
            PriceCondition::Limit(limit) if self.sell => limit <= price,
            PriceCondition::Limit(limit) => price <= limit,
            PriceCondition::Market => true,
            PriceCondition::Best => price == self.best,
        }
    }

    fn trade_price(&self, price: u32, last: u32) -> u32 {
        match self.condition {
            PriceCondition::Limit(limit) => self.paired_price(limit, price, last),
            PriceCondition::Market | PriceCondition::Best => price,
        }
    }

    fn paired_price(&self, limit: u32, price: u32, last: u32) -> u32 {
        match self.method {
            PairingMethod::Middle => last.clamp(limit.min(price), limit.max(price)),
            PairingMethod::Average(tick) => (limit + price) / 2 / tick * tick,
            PairingMethod::FirstIn => price,
        }
    }
}

impl Holding {
    /// The long (0) or short (1) lots that the day started with.
    pub fn start(&self, short: usize) -> u32 {
        [self.startlong, self.startshort][short]
    }

    pub fn buy(&mut self, close: u32, lots: u32) {
        if close == 0 {
            self.long += lots;
        } else {
            self.short = self.short.saturating_sub(lots);
        }
    }

    pub fn sell(&mut self, close: u32, lots: u32) {
        if close == 0 {
            self.short += lots;
        } else {
            self.long = self.long.saturating_sub(lots);
        }
    }
}

/// Enters an order: it trades with the opposite queue, filled orders leave, and a good-for-day remainder rests. Always inlined: the
/// sweeps of the book are counted as a compiler makes them that sees this one use alone.
#[inline(always)]
pub fn enter(
    own: &mut [u32],
    opposite: &mut [u32],
    trades: &mut [u32],
    before: &Entry,
    t: &Taker,
    accounts: &mut Accounts,
) -> Entry {
    let c = t.contract;
    let queue = &mut opposite[QUEUE * c..][..ORDER * before.opposite];
    let room = &mut trades[TRADE * before.made..];
    let mut left = t.lots;
    let mut last = before.last;
    let mut made = before.made;
    let mut filled = 0;
    for (o, trade) in queue.chunks_exact_mut(ORDER).zip(room.chunks_exact_mut(TRADE)) {
        if left == 0 || !t.meets(o[0]) {
            break;
        }
        last = t.trade_price(o[0], last);
        let size = left.min(o[3]);
        let [buyorder, sellorder, buyer, seller, buyclose, sellclose] = if t.sell {
            [o[1], t.number, o[2], t.account, o[4], t.close]
        } else {
            [t.number, o[1], t.account, o[2], t.close, o[4]]
        };
        accounts[buyer as usize].holdings[c].buy(buyclose, size);
        accounts[seller as usize].holdings[c].sell(sellclose, size);
        trade.copy_from_slice(&[c as u32, last, size, buyorder, sellorder, buyer, seller, buyclose, sellclose]);
        made += 1;
        left -= size;
        if size < o[3] {
            o[3] -= size;
            break;
        }
        filled += 1;
    }
    close_up(queue, ORDER * filled);
    let mut after = Entry {
        rested: if t.day { left } else { 0 },
        own: before.own,
        opposite: before.opposite - filled,
        made,
        last,
    };
    if after.rested > 0 {
        insert(own, c, before.own, t.sell, &t.remainder(after.rested));
        after.own += 1;
    }
    after
}

fn start(s: &Sweeps) -> (Entry, Accounts) {
    let holding = Holding { long: s.held, short: s.held, startlong: s.held, startshort: s.held };
    let accounts = [Account { balance: 0, holdings: [holding; 4], maker: false }; ACCOUNTS];
    (Entry { rested: 0, own: s.own, opposite: s.opposite, made: s.made, last: s.last }, accounts)
}

fn answer(s: &Sweeps, e: &Entry, accounts: &Accounts) -> Swept {
    let holding = accounts[s.probe as usize].holdings[s.contract as usize];
    Swept { own: e.own, opposite: e.opposite, made: e.made, last: e.last, long: holding.long, short: holding.short }
}

/// Enters one order so many times, over accounts made here.
pub fn sweeps(own: &mut [u32], opposite: &mut [u32], trades: &mut [u32], s: &Sweeps, times: usize) -> Swept {
    let t = Taker::new(s);
    let (mut e, mut accounts) = start(s);
    for _ in 0..times {
        e = enter(own, opposite, trades, &e, &t, &mut accounts);
    }
    answer(s, &e, &accounts)
}
