//! The opening auction in plain Rust, after document 02, ticket 4.

use crate::cases::{ORDER, QUEUE, TRADE};
use crate::design::{Design, Resting};
use crate::exchange::{orders, Areas, State};
use crate::plain::close_up;
use std::cmp::Reverse;

fn reaches(sell: bool, price: u32, o: &[u32]) -> bool {
    if sell { o[0] <= price } else { price <= o[0] }
}

/// The orders of a queue that reach a price: best price first, so they stand in front.
fn reaching(queue: &[u32], sell: bool, price: u32) -> impl Iterator<Item = &[u32]> {
    orders(queue).take_while(move |o| reaches(sell, price, o))
}

fn lots_reaching(queue: &[u32], sell: bool, price: u32) -> u64 {
    reaching(queue, sell, price).map(|o| o[3] as u64).sum()
}

/// How many trades the match makes at a price.
fn trades_needed(buys: &[u32], sells: &[u32], price: u32) -> usize {
    let mut bids = reaching(buys, false, price);
    let mut asks = reaching(sells, true, price);
    let (mut bid, mut ask) = (0, 0);
    let mut trades = 0;
    loop {
        if bid == 0 {
            let Some(o) = bids.next() else { return trades };
            bid = o[3];
        }
        if ask == 0 {
            let Some(o) = asks.next() else { return trades };
            ask = o[3];
        }
        let size = bid.min(ask);
        bid -= size;
        ask -= size;
        trades += 1;
    }
}

impl<D: Design> State<D> {
    /// "largest volume .., then smallest surplus .., then nearest to the last price, then the higher"; none where there is no volume.
    fn auction_price(&self, areas: &Areas, c: usize) -> Option<u32> {
        let [buys, sells] = [false, true].map(|sell| self.queue(areas, sell, c));
        let last = self.contracts[c].last;
        let (volume, _, _, price) = orders(buys)
            .chain(orders(sells))
            .map(|o| {
                let price = o[0];
                let (demand, supply) = (lots_reaching(buys, false, price), lots_reaching(sells, true, price));
                (demand.min(supply), Reverse(demand.abs_diff(supply)), Reverse(price.abs_diff(last)), price)
            })
            .max()?;
        (volume > 0).then_some(price)
    }

    /// The match of a contract that leaves auction: the lots traded, or none if the day has no room for its trades.
    pub fn match_auction(&mut self, areas: &mut Areas, c: usize) -> Option<u32> {
        let Some(price) = self.auction_price(areas, c) else { return Some(0) };
        if self.made + trades_needed(self.queue(areas, false, c), self.queue(areas, true, c), price) > 1_024 {
            return None;
        }
        let [buys, sells] = &mut areas.queues;
        let bids = &mut buys[QUEUE * c..][..ORDER * self.resting[0][c]];
        let asks = &mut sells[QUEUE * c..][..ORDER * self.resting[1][c]];
        let (mut bought, mut sold, mut traded) = (0, 0, 0);
        for trade in areas.trades[TRADE * self.made..].chunks_exact_mut(TRADE) {
            let (Some(b), Some(s)) = (bids[ORDER * bought..].first_chunk_mut::<ORDER>(), asks[ORDER * sold..].first_chunk_mut::<ORDER>())
            else {
                break;
            };
            if !reaches(false, price, b) || !reaches(true, price, s) {
                break;
            }
            let size = b[3].min(s[3]);
            self.accounts[b[2] as usize].holdings[c].buy(b[4], size);
            self.accounts[s[2] as usize].holdings[c].sell(s[4], size);
            trade.copy_from_slice(&[c as u32, price, size, b[1], s[1], b[2], s[2], b[4], s[4]]);
            self.design.leave(Resting::of_order(0, c, b), size);
            self.design.leave(Resting::of_order(1, c, s), size);
            b[3] -= size;
            s[3] -= size;
            bought += (b[3] == 0) as usize;
            sold += (s[3] == 0) as usize;
            traded += size;
            self.made += 1;
        }
        close_up(bids, ORDER * bought);
        close_up(asks, ORDER * sold);
        self.resting[0][c] -= bought;
        self.resting[1][c] -= sold;
        self.contracts[c].last = price;
        Some(traded)
    }
}
