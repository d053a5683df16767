//! The best design that we know, in Rust: an account's resting lots kept as sums, so that margin reads no queue, and a settlement that
//! reads the trades twice, whatever the number of accounts.

use crate::cases::{ACCOUNTS, TRADE};
use crate::design::{Design, Resting, Settlement, Side, Traded};
use crate::exchange::{Areas, State};
use std::array::from_fn;

/// Resting lots by account, contract, side and open or close.
#[derive(Clone, Default)]
pub struct Best {
    lots: [[[[u32; 2]; 2]; 4]; ACCOUNTS],
}

impl Best {
    #[inline(always)]
    fn sum(&mut self, of: Resting) -> &mut u32 {
        &mut self.lots[of.account][of.contract][of.side][of.close as usize]
    }
}

/// The buyer's and the seller's leg of a trade: a buy opens long lots or closes short ones, a sell the other way round.
fn legs(t: &[u32]) -> impl Iterator<Item = Resting> + '_ {
    [0, 1].into_iter().map(|side| Resting::of_leg(t, side))
}

impl Design for Best {
    #[inline(always)]
    fn rest(&mut self, of: Resting, lots: u32) {
        *self.sum(of) += lots;
    }

    #[inline(always)]
    fn leave(&mut self, of: Resting, lots: u32) {
        *self.sum(of) -= lots;
    }

    #[inline(always)]
    fn resting_lots(s: &State<Best>, _: &Areas, of: Resting) -> u64 {
        s.design.lots[of.account][of.contract][of.side][of.close as usize] as u64
    }

    fn settlement(s: &State<Best>, areas: &Areas) -> Settlement {
        let trades = || areas.trades[..TRADE * s.made].chunks_exact(TRADE);
        let mut traded = [Traded::default(); 4];
        // by account, contract, and long or short
        let mut sides: [[[Side; 2]; 4]; ACCOUNTS] = s.accounts.map(|account| {
            from_fn(|c| [0, 1].map(|short| Side::start(s.contracts[c].reference, account.holdings[c].start(short))))
        });
        for t in trades() {
            traded[t[0] as usize].add(t);
            for leg in legs(t).filter(|leg| leg.close) {
                sides[leg.account][leg.contract][1 - leg.side].close(t, s.contracts[leg.contract].reference);
            }
        }
        for t in trades() {
            for leg in legs(t).filter(|leg| !leg.close) {
                sides[leg.account][leg.contract][leg.side].open(t);
            }
        }
        let mut out = Settlement::default();
        for c in 0..s.contractcount {
            out.prices[c] = s.settlement_price(areas, c, &traded[c]);
            for a in 0..s.accountcount {
                out.add(a, c, &sides[a][c], s.contracts[c].multiplier);
            }
        }
        out
    }
}
