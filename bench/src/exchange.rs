//! The same exchange in Rust, after document 01 and tickets 2, 4, 6, 7 and 8 of document 02: the state changed where it stands, the same
//! areas of words, the same refusals in the same order. By a design (`design.rs`): the plain one, or the best.

use crate::cases::{ACCOUNTS, ORDER, QUEUE, TRADE};
use crate::design::{Design, Resting, Settlement, Traded};
use crate::plain::{close_up, enter, insert, Account, Entry, Holding, PairingMethod, PriceCondition, Taker};

pub const RECORD: usize = 24;

/// "Bit 63 of an account's opening balance in the file marks a maker."
pub const MAKER: u64 = 1 << 63;

pub const CONTINUOUS: u32 = 1;
pub const AUCTION: u32 = 4;

#[derive(Clone, Copy, Default)]
pub struct Contract {
    pub multiplier: u32,
    pub tick: u32,
    pub reference: u32,
    pub band: u32,
    pub limit: u32,
    pub rate: u32,
    pub method: u32,
    pub phase: u32,
    pub last: u32,
}

/// What a settlement reports of an account: its profits, and its charged margin after it.
#[derive(Clone, Copy, Default)]
pub struct Report {
    pub closing: i64,
    pub holding: i64,
    pub charged: u64,
}

/// The state but for the areas; `resting` counts orders by side (0 buy, 1 sell) and contract, `report` is the last settlement's, to be
/// printed.
#[derive(Clone)]
pub struct State<D> {
    pub contracts: [Contract; 4],
    pub accounts: [Account; ACCOUNTS],
    pub resting: [[usize; 4]; 2],
    pub contractcount: usize,
    pub accountcount: usize,
    pub made: usize,
    pub next: u32,
    pub nextstamp: u32,
    pub settlements: u32,
    pub report: [Report; ACCOUNTS],
    pub design: D,
}

/// The queues by side, and the day's trades.
pub struct Areas<'a> {
    pub queues: [&'a mut [u32]; 2],
    pub trades: &'a mut [u32],
}

/// Code, order number, lots traded, lots rested or removed.
#[derive(Clone, Copy, Debug, Default, PartialEq)]
pub struct Answer {
    pub code: u32,
    pub number: u32,
    pub traded: u32,
    pub lots: u32,
}

struct Record {
    kind: u8,
    account: usize,
    contract: usize,
    flags: u8,
    lots: u32,
    price: u32,
    number: u32,
    amount: u64,
}

struct NewOrder {
    account: usize,
    contract: usize,
    sell: bool,
    close: bool,
    lots: u32,
    price: u32,
    condition: PriceCondition,
    day: bool,
    kill: bool,
}

fn word(bytes: &[u8], at: usize) -> u32 {
    u32::from_le_bytes(bytes[at..at + 4].try_into().unwrap())
}

fn half(bytes: &[u8], at: usize) -> u32 {
    u16::from_le_bytes(bytes[at..at + 2].try_into().unwrap()) as u32
}

fn long(bytes: &[u8], at: usize) -> u64 {
    u64::from_le_bytes(bytes[at..at + 8].try_into().unwrap())
}

impl Record {
    // Both are always inlined: each design is counted as a compiler makes it that sees this one alone.

    #[inline(always)]
    fn read(b: &[u8]) -> Record {
        Record {
            kind: b[0],
            account: b[1] as usize,
            contract: b[2] as usize,
            flags: b[3],
            lots: word(b, 4),
            price: word(b, 8),
            number: word(b, 12),
            amount: long(b, 16),
        }
    }

    /// "kind, flag value or unused field is wrong"
    #[inline(always)]
    fn malformed(&self) -> bool {
        let order_fields = self.lots != 0 || self.price != 0;
        match self.kind {
            1 | 2 => self.contract != 0 || self.flags != 0 || order_fields || self.number != 0,
            3 => {
                self.number != 0 || self.amount != 0 || self.flags >> 6 != 0
                    || self.flags >> 2 & 3 == 3 || self.flags >> 4 & 3 == 3
            }
            4 => order_fields || self.amount != 0 || self.flags > 1,
            5 => order_fields || self.number != 0 || self.amount != 0 || self.flags > 1,
            6 => self.account != 0 || order_fields || self.number != 0 || self.amount != 0 || self.flags as u32 > AUCTION,
            7 => {
                self.account != 0 || self.contract != 0 || self.flags != 0
                    || order_fields || self.number != 0 || self.amount != 0
            }
            8 | 9 => self.flags != 0 || self.amount != 0,
            _ => true,
        }
    }

    fn order(&self) -> NewOrder {
        NewOrder {
            account: self.account,
            contract: self.contract,
            sell: self.flags & 1 == 1,
            close: self.flags >> 1 & 1 == 1,
            lots: self.lots,
            price: self.price,
            condition: match self.flags >> 2 & 3 {
                0 => PriceCondition::Limit(self.price),
                1 => PriceCondition::Market,
                _ => PriceCondition::Best,
            },
            day: self.flags >> 4 & 3 == 0,
            kill: self.flags >> 4 & 3 == 2,
        }
    }

    /// The buy or the sell of a quote: "the price field holds the buy price, the order number field the sell price"
    fn half(&self, sell: bool) -> NewOrder {
        let price = if sell { self.number } else { self.price };
        NewOrder {
            account: self.account,
            contract: self.contract,
            sell,
            close: false,
            lots: self.lots,
            price,
            condition: PriceCondition::Limit(price),
            day: true,
            kill: false,
        }
    }
}

impl Contract {
    /// "multiplier x reference x rate / 10,000, rounded up"
    fn charge(&self) -> u64 {
        (self.multiplier as u64 * self.reference as u64 * self.rate as u64).div_ceil(10_000)
    }

    fn pairing_method(&self) -> PairingMethod {
        match self.method {
            0 => PairingMethod::Middle,
            1 => PairingMethod::Average(self.tick),
            _ => PairingMethod::FirstIn,
        }
    }

    fn allows(&self, price: u32) -> bool {
        let low = self.tick.max(self.reference.saturating_sub(self.band));
        let high = (self.reference + self.band).min(1_000_000 / self.tick * self.tick);
        price % self.tick == 0 && low <= price && price <= high
    }
}

fn refused(code: u32) -> Answer {
    Answer { code, ..Answer::default() }
}

pub fn orders(queue: &[u32]) -> impl Iterator<Item = &[u32]> {
    queue.chunks_exact(ORDER)
}

fn absent(number: usize, count: usize) -> bool {
    number == 0 || number > count
}

impl<D: Design> State<D> {
    pub fn queue<'a>(&self, areas: &'a Areas, sell: bool, c: usize) -> &'a [u32] {
        &areas.queues[sell as usize][QUEUE * c..][..ORDER * self.resting[sell as usize][c]]
    }

    fn resting_lots(&self, areas: &Areas, of: Resting) -> u64 {
        D::resting_lots(self, areas, of)
    }

    /// "the charge times the larger of (long plus resting buy opens) and (short plus resting sell opens)"
    pub fn charged(&self, areas: &Areas, account: usize, holdings: &[Holding; 4]) -> u64 {
        (0..self.contractcount)
            .map(|c| {
                let opens = |side| self.resting_lots(areas, Resting { side, contract: c, account, close: false });
                let bought = holdings[c].long as u64 + opens(0);
                let sold = holdings[c].short as u64 + opens(1);
                self.contracts[c].charge() * bought.max(sold)
            })
            .sum()
    }

    fn deposit(&mut self, r: &Record) -> Answer {
        if absent(r.account, self.accountcount) {
            return refused(2);
        }
        let balance = &mut self.accounts[r.account - 1].balance;
        if r.amount < 1 || r.amount > 1_000_000_000_000_000 || *balance + r.amount as i64 > 1_000_000_000_000_000_000 {
            return refused(16);
        }
        *balance += r.amount as i64;
        Answer::default()
    }

    fn withdraw(&mut self, areas: &Areas, r: &Record) -> Answer {
        if absent(r.account, self.accountcount) {
            return refused(2);
        }
        if r.amount < 1 || r.amount > 1_000_000_000_000_000 {
            return refused(16);
        }
        let account = &self.accounts[r.account - 1];
        let left = account.balance - r.amount as i64;
        if left < self.charged(areas, r.account - 1, &account.holdings) as i64 {
            return refused(9);
        }
        self.accounts[r.account - 1].balance = left;
        Answer::default()
    }

    /// "Fillable lots are the counterparts' lots added up."
    fn fillable(&self, areas: &Areas, t: &Taker) -> u64 {
        orders(self.queue(areas, !t.sell, t.contract)).take_while(|o| t.meets(o[0])).map(|o| o[3] as u64).sum()
    }

    fn trades_needed(&self, areas: &Areas, t: &Taker) -> usize {
        let mut left = t.lots;
        let mut trades = 0;
        for o in orders(self.queue(areas, !t.sell, t.contract)) {
            if left == 0 || !t.meets(o[0]) {
                break;
            }
            left -= left.min(o[3]);
            trades += 1;
        }
        trades
    }

    // What a change or a quote shares with an insert or a cancel is always inlined: each is counted as a compiler makes it that sees this one
    // use alone.

    /// "it would make more trades than the day has room for"
    #[inline(always)]
    fn lacks_room(&self, areas: &Areas, t: &Taker) -> bool {
        self.made > 960 && self.made + self.trades_needed(areas, t) > 1_024
    }

    /// Codes 8 and 9: what the account holds, and its money.
    #[inline(always)]
    fn uncovered(&self, areas: &Areas, o: &NewOrder) -> Option<u32> {
        let (a, c) = (o.account - 1, o.contract - 1);
        let h = &self.accounts[a].holdings[c];
        let rested = self.resting_lots(areas, Resting { side: o.sell as usize, contract: c, account: a, close: o.close });
        if o.close {
            let held = if o.sell { h.long } else { h.short };
            return (rested + o.lots as u64 > held as u64).then_some(8);
        }
        let held = if o.sell { h.short } else { h.long };
        if held as u64 + rested + o.lots as u64 > self.contracts[c].limit as u64 {
            return Some(8);
        }
        let mut holdings = self.accounts[a].holdings;
        *(if o.sell { &mut holdings[c].short } else { &mut holdings[c].long }) += o.lots;
        (self.accounts[a].balance < self.charged(areas, a, &holdings) as i64).then_some(9)
    }

    /// An order as it meets the book: with a number, and with the next time stamp. It has no quote mark.
    #[inline(always)]
    fn taker(&self, areas: &Areas, o: &NewOrder, number: u32) -> Taker {
        let c = o.contract - 1;
        Taker {
            account: o.account as u32 - 1,
            contract: c,
            sell: o.sell,
            close: o.close as u32,
            number,
            stamp: self.nextstamp,
            quote: 0,
            condition: o.condition,
            method: self.contracts[c].pairing_method(),
            best: self.queue(areas, !o.sell, c).first().copied().unwrap_or(0),
            lots: o.lots,
            price: o.price,
            day: o.day,
        }
    }

    /// Codes 2 to 13, or the order as it meets the book.
    fn arrive(&self, areas: &Areas, o: &NewOrder) -> Result<Taker, u32> {
        if absent(o.account, self.accountcount) {
            return Err(2);
        }
        if absent(o.contract, self.contractcount) {
            return Err(3);
        }
        let phase = self.contracts[o.contract - 1].phase;
        if phase != CONTINUOUS && phase != AUCTION {
            return Err(4);
        }
        self.pass(areas, o)
    }

    /// Codes 5 to 13, or the order as it meets the book.
    #[inline(always)]
    fn pass(&self, areas: &Areas, o: &NewOrder) -> Result<Taker, u32> {
        let c = o.contract - 1;
        let terms = &self.contracts[c];
        let auction = terms.phase == AUCTION;
        if o.lots < 1 || o.lots > 1_000 {
            return Err(5);
        }
        let limit = matches!(o.condition, PriceCondition::Limit(_));
        if !limit && o.day || auction && !(limit && o.day) {
            return Err(6);
        }
        if if limit { !terms.allows(o.price) } else { o.price != 0 } {
            return Err(7);
        }
        if let Some(code) = self.uncovered(areas, o) {
            return Err(code);
        }
        if self.next >= 1_000_000 || self.nextstamp >= 1_000_000 {
            return Err(10);
        }
        let t = self.taker(areas, o, self.next);
        if o.kill && self.fillable(areas, &t) < o.lots as u64 {
            return Err(11);
        }
        if !auction && self.lacks_room(areas, &t) {
            return Err(12);
        }
        if o.day && self.resting[o.sell as usize][c] == 64 && (auction || self.fillable(areas, &t) < o.lots as u64) {
            return Err(13);
        }
        Ok(t)
    }

    fn insert(&mut self, areas: &mut Areas, o: &NewOrder) -> Answer {
        let t = match self.arrive(areas, o) {
            Ok(t) => t,
            Err(code) => return refused(code),
        };
        self.next += 1;
        if self.contracts[t.contract].phase != AUCTION {
            return self.enter(areas, &t);
        }
        let (c, side) = (t.contract, t.sell as usize);
        insert(areas.queues[side], c, self.resting[side][c], t.sell, &t.remainder(t.lots));
        self.resting[side][c] += 1;
        self.design.rest(t.resting(), t.lots);
        self.nextstamp += 1;
        Answer { code: 0, number: t.number, traded: 0, lots: t.lots }
    }

    /// The order trades and its remainder rests; its time stamp is used.
    #[inline(always)]
    fn enter(&mut self, areas: &mut Areas, t: &Taker) -> Answer {
        let (c, side) = (t.contract, t.sell as usize);
        let before = Entry {
            rested: 0,
            own: self.resting[side][c],
            opposite: self.resting[1 - side][c],
            made: self.made,
            last: self.contracts[c].last,
        };
        let [buys, sells] = &mut areas.queues;
        let (own, opposite) = if t.sell { (sells, buys) } else { (buys, sells) };
        let after = enter(own, opposite, areas.trades, &before, t, &mut self.accounts);
        let mut traded = 0;
        for trade in areas.trades[TRADE * self.made..TRADE * after.made].chunks_exact(TRADE) {
            traded += trade[2];
            self.design.leave(Resting::of_leg(trade, 1 - side), trade[2]);
        }
        self.design.rest(t.resting(), after.rested);
        self.resting[side][c] = after.own;
        self.resting[1 - side][c] = after.opposite;
        self.made = after.made;
        self.contracts[c].last = after.last;
        self.nextstamp += 1;
        Answer { code: 0, number: t.number, traded, lots: after.rested }
    }

    /// Codes 2 to 4 of a cancel or a pull.
    fn removal_refused(&self, r: &Record) -> Option<u32> {
        if absent(r.account, self.accountcount) {
            return Some(2);
        }
        if absent(r.contract, self.contractcount) {
            return Some(3);
        }
        match self.contracts[r.contract - 1].phase {
            CONTINUOUS | AUCTION => None,
            2 if r.flags == 1 => None,
            _ => Some(4),
        }
    }

    /// Side and place of the order that a cancel or a change names, or codes 14 and 15.
    #[inline(always)]
    fn find(&self, areas: &Areas, r: &Record) -> Result<(usize, usize), u32> {
        for side in [0, 1] {
            let queue = self.queue(areas, side == 1, r.contract - 1);
            if let Some(place) = orders(queue).position(|o| o[1] == r.number) {
                let owner = queue[ORDER * place + 2] as usize;
                return if owner == r.account - 1 { Ok((side, place)) } else { Err(15) };
            }
        }
        Err(14)
    }

    /// Takes out the order at a place; its lots.
    #[inline(always)]
    fn remove(&mut self, areas: &mut Areas, side: usize, c: usize, place: usize) -> u32 {
        let rest = &mut areas.queues[side][QUEUE * c..][ORDER * place..ORDER * self.resting[side][c]];
        let lots = rest[3];
        self.design.leave(Resting::of_order(side, c, rest), lots);
        close_up(rest, ORDER);
        self.resting[side][c] -= 1;
        lots
    }

    fn cancel(&mut self, areas: &mut Areas, r: &Record) -> Answer {
        if let Some(code) = self.removal_refused(r) {
            return refused(code);
        }
        match self.find(areas, r) {
            Ok((side, place)) => {
                let lots = self.remove(areas, side, r.contract - 1, place);
                Answer { code: 0, number: r.number, traded: 0, lots }
            }
            Err(code) => refused(code),
        }
    }

    fn change(&mut self, areas: &mut Areas, r: &Record) -> Answer {
        if absent(r.account, self.accountcount) {
            return refused(2);
        }
        if absent(r.contract, self.contractcount) {
            return refused(3);
        }
        let c = r.contract - 1;
        if self.contracts[c].phase != CONTINUOUS {
            return refused(4);
        }
        let (side, place) = match self.find(areas, r) {
            Ok(found) => found,
            Err(code) => return refused(code),
        };
        let kept = |lots| Answer { code: 0, number: r.number, traded: 0, lots };
        if r.lots == 0 {
            return kept(self.remove(areas, side, c, place));
        }
        if r.lots > 1_000 {
            return refused(5);
        }
        if !self.contracts[c].allows(r.price) {
            return refused(7);
        }
        let old = &mut areas.queues[side][QUEUE * c + ORDER * place..][..ORDER];
        if r.price == old[0] && r.lots <= old[3] {
            if r.lots < old[3] {
                old[6] = 0;
            }
            self.design.leave(Resting::of_order(side, c, old), old[3] - r.lots);
            old[3] = r.lots;
            return kept(r.lots);
        }
        self.lose_place(areas, r, side, place)
    }

    /// "tested as though the old order were gone, then matched at once": without lots it counts for nothing.
    fn lose_place(&mut self, areas: &mut Areas, r: &Record, side: usize, place: usize) -> Answer {
        let c = r.contract - 1;
        let at = QUEUE * c + ORDER * place;
        let lots = std::mem::take(&mut areas.queues[side][at + 3]);
        let of = Resting::of_order(side, c, &areas.queues[side][at..]);
        self.design.leave(of, lots);
        let o = NewOrder {
            account: r.account,
            contract: r.contract,
            sell: side == 1,
            close: of.close,
            lots: r.lots,
            price: r.price,
            condition: PriceCondition::Limit(r.price),
            day: true,
            kill: false,
        };
        match self.arrive_again(areas, &o, r.number) {
            Ok(t) => {
                self.remove(areas, side, c, place);
                self.enter(areas, &t)
            }
            Err(code) => {
                areas.queues[side][at + 3] = lots;
                self.design.rest(of, lots);
                refused(code)
            }
        }
    }

    /// Codes 8, 9, 10 and 12 of an order that keeps its number, or that order as it meets the book.
    fn arrive_again(&self, areas: &Areas, o: &NewOrder, number: u32) -> Result<Taker, u32> {
        if let Some(code) = self.uncovered(areas, o) {
            return Err(code);
        }
        if self.nextstamp >= 1_000_000 {
            return Err(10);
        }
        let t = self.taker(areas, o, number);
        if self.lacks_room(areas, &t) {
            return Err(12);
        }
        Ok(t)
    }

    fn quote(&mut self, areas: &mut Areas, r: &Record) -> Answer {
        if absent(r.account, self.accountcount) {
            return refused(2);
        }
        if absent(r.contract, self.contractcount) {
            return refused(3);
        }
        let (a, c) = (r.account - 1, r.contract - 1);
        if self.contracts[c].phase != CONTINUOUS {
            return refused(4);
        }
        if !self.accounts[a].maker {
            return refused(23);
        }
        if r.price >= r.number {
            return refused(24);
        }
        let old = [0, 1].map(|side| self.take_quote(areas, side, c, a as u32));
        let [bid, offer] = [r.half(false), r.half(true)];
        if let Err(code) = self.pass(areas, &bid).and_then(|buy| self.pass_behind(areas, &buy, &offer)) {
            for (side, taken) in old.into_iter().enumerate() {
                self.put_back(areas, side, c, taken);
            }
            return refused(code);
        }
        let mut sums = Answer { number: self.next, ..Answer::default() };
        for o in [bid, offer] {
            let t = Taker { quote: 1, ..self.taker(areas, &o, self.next) };
            self.next += 1;
            let entered = self.enter(areas, &t);
            sums.traded += entered.traded;
            sums.lots += entered.lots;
        }
        sums
    }

    /// Codes 5 to 13 of a quote's sell behind its buy, which is not entered yet. 8 and 9 are the same with the buy as without it: what
    /// it buys of its own account's sells stays on their side, and 9 of the buy has passed. The book is uncrossed, so that where the
    /// buy trades the sell meets no one.
    fn pass_behind(&self, areas: &Areas, buy: &Taker, o: &NewOrder) -> Result<(), u32> {
        let c = o.contract - 1;
        if !self.contracts[c].allows(o.price) {
            return Err(7);
        }
        if let Some(code) = self.uncovered(areas, o) {
            return Err(code);
        }
        if self.next + 1 >= 1_000_000 || self.nextstamp + 1 >= 1_000_000 {
            return Err(10);
        }
        let t = self.taker(areas, o, self.next + 1);
        if self.lacks_room(areas, &t) {
            return Err(12);
        }
        if self.resting[1][c] == 64 && !self.fills_first(areas, buy) && self.fillable(areas, &t) < o.lots as u64 {
            return Err(13);
        }
        Ok(())
    }

    /// Whether an order fills the first one that it may meet, so that a place is free behind it.
    fn fills_first(&self, areas: &Areas, t: &Taker) -> bool {
        orders(self.queue(areas, !t.sell, t.contract)).next().is_some_and(|o| t.meets(o[0]) && o[3] <= t.lots)
    }

    /// Takes out what is left of an account's quote on a side: its place and its words.
    #[inline(always)]
    fn take_quote(&mut self, areas: &mut Areas, side: usize, c: usize, account: u32) -> Option<(usize, [u32; ORDER])> {
        let queue = self.queue(areas, side == 1, c);
        let place = orders(queue).position(|o| o[6] == 1 && o[2] == account)?;
        let words = queue[ORDER * place..][..ORDER].try_into().unwrap();
        self.remove(areas, side, c, place);
        Some((place, words))
    }

    fn put_back(&mut self, areas: &mut Areas, side: usize, c: usize, taken: Option<(usize, [u32; ORDER])>) {
        if let Some((place, words)) = taken {
            self.resting[side][c] += 1;
            let rest = &mut areas.queues[side][QUEUE * c..][ORDER * place..ORDER * self.resting[side][c]];
            rest.copy_within(..rest.len() - ORDER, ORDER);
            rest[..ORDER].copy_from_slice(&words);
            self.design.rest(Resting::of_order(side, c, &words), words[3]);
        }
    }

    fn pull(&mut self, areas: &mut Areas, r: &Record) -> Answer {
        if let Some(code) = self.removal_refused(r) {
            return refused(code);
        }
        let c = r.contract - 1;
        let mut lots = 0;
        for side in [0, 1] {
            let queue = &mut areas.queues[side][QUEUE * c..][..ORDER * self.resting[side][c]];
            let (mut from, mut kept) = (0, 0);
            loop {
                // the orders of others up to the next own one move as one block
                let others = orders(&queue[from..]).take_while(|o| o[2] as usize != r.account - 1).count() * ORDER;
                queue.copy_within(from..from + others, kept);
                from += others;
                kept += others;
                let Some(o) = queue.get(from..from + ORDER) else { break };
                lots += o[3];
                self.design.leave(Resting::of_order(side, c, o), o[3]);
                from += ORDER;
            }
            queue[kept..].fill(0);
            self.resting[side][c] = kept / ORDER;
        }
        Answer { lots, ..Answer::default() }
    }

    fn change_phase(&mut self, areas: &mut Areas, r: &Record) -> Answer {
        if absent(r.contract, self.contractcount) {
            return refused(3);
        }
        let c = r.contract - 1;
        let traded = match (self.contracts[c].phase, r.flags as u32) {
            (0, 1) | (0, 3) | (1, 2) | (2, 1) | (1, 3) | (2, 3) | (0, AUCTION) => 0,
            (AUCTION, CONTINUOUS) => match self.match_auction(areas, c) {
                Some(traded) => traded,
                None => return refused(12),
            },
            _ => return refused(17),
        };
        self.contracts[c].phase = r.flags as u32;
        Answer { traded, ..Answer::default() }
    }

    /// The average of the day's trades, or the reference, moved between the best prices where there are two.
    pub fn settlement_price(&self, areas: &Areas, c: usize, traded: &Traded) -> u32 {
        let terms = &self.contracts[c];
        if traded.lots != 0 {
            return traded.average(terms.tick);
        }
        match (self.queue(areas, false, c).first(), self.queue(areas, true, c).first()) {
            (Some(&bid), Some(&offer)) => terms.reference.clamp(bid.min(offer), bid.max(offer)),
            _ => terms.reference,
        }
    }

    fn settle(&mut self, areas: &mut Areas) -> Answer {
        if self.contracts[..self.contractcount].iter().any(|c| c.phase != 3) {
            return refused(18);
        }
        if self.settlements >= 250 {
            return refused(19);
        }
        let Settlement { prices, profits } = D::settlement(self, areas);
        self.reopen(areas, &prices);
        for (a, [closing, holding]) in profits.into_iter().enumerate().take(self.accountcount) {
            self.accounts[a].balance += closing + holding;
            let charged = self.charged(areas, a, &self.accounts[a].holdings);
            self.report[a] = Report { closing, holding, charged };
        }
        Answer::default()
    }

    /// The next day: every place in use of the areas is set to zero.
    fn reopen(&mut self, areas: &mut Areas, prices: &[u32; 4]) {
        for a in &mut self.accounts[..self.accountcount] {
            for h in &mut a.holdings[..self.contractcount] {
                *h = Holding { startlong: h.long, startshort: h.short, ..*h };
            }
        }
        for c in 0..self.contractcount {
            for side in [0, 1] {
                areas.queues[side][QUEUE * c..][..ORDER * self.resting[side][c]].fill(0);
                self.resting[side][c] = 0;
            }
            self.contracts[c].reference = prices[c];
            self.contracts[c].phase = 0;
        }
        areas.trades[..TRADE * self.made].fill(0);
        self.design = D::default();
        self.made = 0;
        self.next = 1;
        self.nextstamp = 1;
        self.settlements += 1;
    }

    /// One command.
    pub fn step(&mut self, areas: &mut Areas, record: &[u8]) -> Answer {
        let r = Record::read(record);
        if r.malformed() {
            return refused(1);
        }
        match r.kind {
            1 => self.deposit(&r),
            2 => self.withdraw(areas, &r),
            3 => self.insert(areas, &r.order()),
            4 => self.cancel(areas, &r),
            5 => self.pull(areas, &r),
            6 => self.change_phase(areas, &r),
            7 => self.settle(areas),
            8 => self.quote(areas, &r),
            _ => self.change(areas, &r),
        }
    }

    /// The state that a day file opens with.
    pub fn open(day: &[u8]) -> State<D> {
        let contractcount = word(day, 0) as usize;
        let accountcount = word(day, 4 + 20 * contractcount) as usize;
        let mut contracts = [Contract::default(); 4];
        for (c, terms) in contracts[..contractcount].iter_mut().enumerate() {
            let at = 4 + 20 * c;
            let reference = word(day, at + 4);
            *terms = Contract {
                multiplier: half(day, at),
                tick: half(day, at + 2),
                reference,
                band: word(day, at + 8),
                limit: word(day, at + 12),
                rate: half(day, at + 16),
                method: half(day, at + 18),
                phase: 0,
                last: reference,
            };
        }
        let mut accounts = [Account::default(); ACCOUNTS];
        for (a, account) in accounts[..accountcount].iter_mut().enumerate() {
            let opening = long(day, 8 + 20 * contractcount + 8 * a);
            account.balance = (opening & !MAKER) as i64;
            account.maker = opening & MAKER != 0;
        }
        State {
            contracts,
            accounts,
            resting: [[0; 4]; 2],
            contractcount,
            accountcount,
            made: 0,
            next: 1,
            nextstamp: 1,
            settlements: 0,
            report: [Report::default(); ACCOUNTS],
            design: D::default(),
        }
    }
}

/// Runs the commands on the state that the day file opens with.
#[inline(always)]
pub fn run<D: Design>(day: &[u8], commands: &[u8], areas: &mut Areas) -> State<D> {
    let mut state = State::open(day);
    for record in commands.chunks_exact(RECORD) {
        state.step(areas, record);
    }
    state
}
