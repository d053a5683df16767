//! What differs between the two Rust versions of the exchange: how an account's resting lots are known, and how the trades are read at a
//! settlement. Here with the plain design; the best one is in `best.rs`.

use crate::cases::{ACCOUNTS, TRADE};
use crate::exchange::{orders, Areas, State};

/// An account's resting opens or closes on a side (0 buy, 1 sell) of a contract.
#[derive(Clone, Copy)]
pub struct Resting {
    pub side: usize,
    pub contract: usize,
    pub account: usize,
    pub close: bool,
}

impl Resting {
    pub fn of_order(side: usize, contract: usize, o: &[u32]) -> Resting {
        Resting { side, contract, account: o[2] as usize, close: o[4] != 0 }
    }

    /// Where the order of a trade's buyer (0) or seller (1) rested.
    pub fn of_leg(t: &[u32], side: usize) -> Resting {
        Resting { side, contract: t[0] as usize, account: t[5 + side] as usize, close: t[7 + side] != 0 }
    }
}

/// Each contract's settlement price, each account's closing and holding profit.
#[derive(Default)]
pub struct Settlement {
    pub prices: [u32; 4],
    pub profits: [[i64; 2]; ACCOUNTS],
}

impl Settlement {
    /// Adds what an account's long and short lots in a contract gained.
    pub fn add(&mut self, a: usize, c: usize, [long, short]: &[Side; 2], multiplier: u32) {
        let price = self.prices[c] as i64;
        let closing = (long.closes - long.cost) + (short.cost - short.closes);
        let holding = (price * long.lots as i64 - long.opened) + (short.opened - price * short.lots as i64);
        self.profits[a][0] += closing * multiplier as i64;
        self.profits[a][1] += holding * multiplier as i64;
    }
}

/// A design of the exchange: what it keeps beside the state, and what it reads.
pub trait Design: Clone + Default {
    /// Lots of an order come to rest.
    fn rest(&mut self, of: Resting, lots: u32);

    /// Lots of a resting order trade, or are taken out.
    fn leave(&mut self, of: Resting, lots: u32);

    fn resting_lots(s: &State<Self>, areas: &Areas, of: Resting) -> u64;

    fn settlement(s: &State<Self>, areas: &Areas) -> Settlement;
}

/// The lots of a contract's trades, and what they came to.
#[derive(Clone, Copy, Default)]
pub struct Traded {
    value: u64,
    pub lots: u64,
}

impl Traded {
    pub fn add(&mut self, t: &[u32]) {
        self.value += t[1] as u64 * t[2] as u64;
        self.lots += t[2] as u64;
    }

    /// The average price, rounded down to the tick.
    pub fn average(&self, tick: u32) -> u32 {
        (self.value / self.lots / tick as u64 * tick as u64) as u32
    }
}

/// Article 32 for one side of an account's day in a contract: what its closes came to, closed lots that were opened today, what the closed
/// lots were opened for, the lots open, and what those were opened for.
#[derive(Clone, Copy)]
pub struct Side {
    closes: i64,
    closed: u32,
    cost: i64,
    lots: u32,
    opened: i64,
}

impl Side {
    /// With the lots that the day started with.
    pub fn start(reference: u32, lots: u32) -> Side {
        Side { closes: 0, closed: 0, cost: 0, lots, opened: reference as i64 * lots as i64 }
    }

    /// A close: start-of-day lots go first. Every close is told before the first open.
    pub fn close(&mut self, t: &[u32], reference: u32) {
        let taken = self.lots.min(t[2]);
        self.closes += t[1] as i64 * t[2] as i64;
        self.closed += t[2] - taken;
        self.cost += reference as i64 * taken as i64;
        self.lots -= taken;
        self.opened -= reference as i64 * taken as i64;
    }

    /// An open, in trade order.
    pub fn open(&mut self, t: &[u32]) {
        let taken = self.closed.min(t[2]);
        self.closed -= taken;
        self.cost += t[1] as i64 * taken as i64;
        self.lots += t[2] - taken;
        self.opened += t[1] as i64 * (t[2] - taken) as i64;
    }
}

/// The same design as ours had first: nothing is kept, so that resting lots are read from the queues, and a settlement reads the trades
/// for each contract's price and for each side of each account's day.
#[derive(Clone, Default)]
pub struct Plain;

impl Plain {
    fn trades<'a>(s: &State<Plain>, areas: &'a Areas, c: usize) -> impl Iterator<Item = &'a [u32]> {
        areas.trades[..TRADE * s.made].chunks_exact(TRADE).filter(move |t| t[0] as usize == c)
    }

    fn side(s: &State<Plain>, areas: &Areas, a: usize, c: usize, short: usize) -> Side {
        // the leg that opens this side is the buyer's for long lots, the seller's for short ones
        let leg = |t: &[u32], seller: usize| (t[5 + seller] as usize == a).then(|| t[7 + seller] != 0);
        let reference = s.contracts[c].reference;
        let mut side = Side::start(reference, s.accounts[a].holdings[c].start(short));
        for t in Plain::trades(s, areas, c) {
            if leg(t, 1 - short) == Some(true) {
                side.close(t, reference);
            }
        }
        for t in Plain::trades(s, areas, c) {
            if leg(t, short) == Some(false) {
                side.open(t);
            }
        }
        side
    }
}

impl Design for Plain {
    #[inline(always)]
    fn rest(&mut self, _: Resting, _: u32) {}

    #[inline(always)]
    fn leave(&mut self, _: Resting, _: u32) {}

    #[inline(always)]
    fn resting_lots(s: &State<Plain>, areas: &Areas, of: Resting) -> u64 {
        orders(s.queue(areas, of.side == 1, of.contract))
            .filter(|o| o[2] as usize == of.account && o[4] == of.close as u32)
            .map(|o| o[3] as u64)
            .sum()
    }

    fn settlement(s: &State<Plain>, areas: &Areas) -> Settlement {
        let mut out = Settlement::default();
        for c in 0..s.contractcount {
            let mut traded = Traded::default();
            Plain::trades(s, areas, c).for_each(|t| traded.add(t));
            out.prices[c] = s.settlement_price(areas, c, &traded);
        }
        for a in 0..s.accountcount {
            for c in 0..s.contractcount {
                let sides = [0, 1].map(|short| Plain::side(s, areas, a, c, short));
                out.add(a, c, &sides, s.contracts[c].multiplier);
            }
        }
        out
    }
}
