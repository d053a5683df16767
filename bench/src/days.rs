//! What both exchanges are run on: day files without commands, and lists of commands, the same at every run.

use crate::cases::{Random, ORDER, QUEUE, TRADE};
use crate::design::Plain;
use crate::exchange::{Areas, AUCTION, MAKER, RECORD};

/// The state by which commands are chosen.
type State = crate::exchange::State<Plain>;

pub const CONTRACTS: usize = 4;
pub const REFERENCE: u32 = 1_000;

/// The three areas.
#[derive(Clone, PartialEq)]
pub struct Memory {
    pub buys: Vec<u32>,
    pub sells: Vec<u32>,
    pub trades: Vec<u32>,
}

impl Memory {
    pub fn new() -> Memory {
        Memory { buys: vec![0; 4 * QUEUE], sells: vec![0; 4 * QUEUE], trades: vec![0; 1024 * TRADE] }
    }

    pub fn areas(&mut self) -> Areas<'_> {
        Areas { queues: [&mut self.buys, &mut self.sells], trades: &mut self.trades }
    }
}

/// Enough for any margin.
pub const RICH: u64 = 1_000_000_000_000;
/// Enough for some orders: others are refused for margin.
pub const POOR: u64 = 60_000;

/// A contract's tick, band and limit.
#[derive(Clone, Copy)]
struct Terms {
    tick: u16,
    band: u32,
    limit: u32,
}

/// By these no order of a list is refused, unless it is odd.
const WIDE: Terms = Terms { tick: 1, band: 500, limit: 100_000 };
/// By these many are: for their price, or for the holding limit.
const NARROW: Terms = Terms { tick: 2, band: 10, limit: 40 };

/// Four contracts, the pairing methods among them in turn, and accounts with an opening balance, those with odd numbers makers.
pub fn file(accounts: usize, balance: u64) -> Vec<u8> {
    file_with([WIDE; CONTRACTS], accounts, balance)
}

fn file_with(terms: [Terms; CONTRACTS], accounts: usize, balance: u64) -> Vec<u8> {
    let mut bytes = vec![CONTRACTS as u8, 0, 0, 0];
    for (c, Terms { tick, band, limit }) in (0u16..).zip(terms) {
        bytes.extend((10 + c).to_le_bytes());
        bytes.extend(tick.to_le_bytes());
        bytes.extend(REFERENCE.to_le_bytes());
        bytes.extend(band.to_le_bytes());
        bytes.extend(limit.to_le_bytes());
        bytes.extend(1_000u16.to_le_bytes());
        bytes.extend((c % 3).to_le_bytes());
    }
    bytes.extend((accounts as u32).to_le_bytes());
    for a in 1..=accounts {
        let mark = if a % 2 == 1 { MAKER } else { 0 };
        bytes.extend((balance | mark).to_le_bytes());
    }
    bytes.extend(0u32.to_le_bytes());
    bytes
}

/// A command; fields that its kind does not use stay zero.
#[derive(Clone, Copy, Default)]
pub struct Command {
    pub kind: u8,
    pub account: u8,
    pub contract: u8,
    pub flags: u8,
    pub lots: u32,
    pub price: u32,
    pub number: u32,
    pub amount: u64,
}

impl Command {
    pub fn bytes(&self) -> [u8; RECORD] {
        let mut b = [self.kind, self.account, self.contract, self.flags].to_vec();
        for word in [self.lots, self.price, self.number] {
            b.extend(word.to_le_bytes());
        }
        b.extend(self.amount.to_le_bytes());
        b.try_into().unwrap()
    }
}

pub const SELL: u8 = 1;
pub const CLOSE: u8 = 2;
pub const MARKET: u8 = 4;
pub const BEST: u8 = 8;
pub const IMMEDIATE: u8 = 16;
pub const KILL: u8 = 32;

pub fn phase(contract: usize, phase: u8) -> Command {
    Command { kind: 6, contract: contract as u8, flags: phase, ..Command::default() }
}

fn cancel(account: u8, contract: u8, number: u32) -> Command {
    Command { kind: 4, account, contract, number, ..Command::default() }
}

fn change(account: u8, contract: u8, number: u32, lots: u32, price: u32) -> Command {
    Command { kind: 9, lots, price, ..cancel(account, contract, number) }
}

fn quote(account: u8, contract: u8, buy: u32, sell: u32, lots: u32) -> Command {
    Command { kind: 8, lots, price: buy, ..cancel(account, contract, sell) }
}

pub fn settle() -> Command {
    Command { kind: 7, ..Command::default() }
}

pub fn encode(commands: &[Command]) -> Vec<u8> {
    commands.iter().flat_map(Command::bytes).collect()
}

fn order(r: &mut Random, state: &State, account: u8, contract: u8) -> Command {
    let sell = r.coin();
    let h = &state.accounts[account as usize - 1].holdings[contract as usize - 1];
    let held = if sell { h.long } else { h.short };
    let close = held > 0 && r.below(3) == 0;
    let lots = if close { 1 + r.below(held.min(20)) } else { 1 + r.below(20) };
    let flags = sell as u8 * SELL + close as u8 * CLOSE;
    let reference = state.contracts[contract as usize - 1].reference;
    let price = if sell { reference - 5 + r.below(21) } else { reference + 5 - r.below(21) };
    let (price, conditions) = match r.below(20) {
        0 => (0, MARKET + IMMEDIATE),
        1 => (0, BEST + IMMEDIATE),
        2 => (price, IMMEDIATE),
        3 => (price, KILL),
        _ => (price, 0),
    };
    Command { kind: 3, account, contract, flags: flags + conditions, lots, price, ..Command::default() }
}

/// The queue of a side of a contract, in whole orders.
fn queue<'a>(state: &State, memory: &'a Memory, side: usize, contract: u8) -> &'a [u32] {
    let c = contract as usize - 1;
    let area = if side == 0 { &memory.buys } else { &memory.sells };
    &area[QUEUE * c..][..ORDER * state.resting[side][c]]
}

/// The side and the words of some resting order of a contract.
fn some_order<'a>(r: &mut Random, state: &State, memory: &'a Memory, contract: u8) -> Option<(usize, &'a [u32])> {
    let side = r.below(2) as usize;
    let queue = queue(state, memory, side, contract);
    let count = queue.len() / ORDER;
    (count > 0).then(|| (side, &queue[ORDER * r.below(count as u32) as usize..][..ORDER]))
}

/// Zero lots, equal, fewer or more; another price, with fewer lots or more; the best price of the other side, or beyond it. One in
/// twenty is of another account's order.
fn any_change(r: &mut Random, state: &State, memory: &Memory, contract: u8, side: usize, o: &[u32]) -> Command {
    let (price, lots) = (o[0], o[3]);
    let toward = |price: u32, by: u32| if side == 0 { price + by } else { price - by };
    let (lots, price) = match r.below(8) {
        0 => (0, 0),
        1 => (lots, price),
        2 | 3 => (1 + r.below(lots), price),
        4 => (lots + 1 + r.below(10), price),
        5 => (1 + r.below(2 * lots), price - 5 + r.below(11)),
        _ => match queue(state, memory, 1 - side, contract).first() {
            Some(&best) => (1 + r.below(2 * lots), toward(best, r.below(3))),
            None => (lots, toward(price, 1)),
        },
    };
    let of_another = r.below(20) == 0;
    let account = if of_another { 1 + r.below(state.accountcount as u32) as u8 } else { o[2] as u8 + 1 };
    change(account, contract, o[1], lots, price)
}

/// A quote about the reference, which may cross the book; its prices may be equal. One in ten is of any account, the others of makers.
fn any_quote(r: &mut Random, state: &State, account: u8, contract: u8) -> Command {
    let maker = if r.below(10) == 0 { account } else { (account - 1) | 1 };
    let buy = state.contracts[contract as usize - 1].reference - 15 + r.below(21);
    quote(maker, contract, buy, buy + r.below(20), 1 + r.below(20))
}

fn any_command(r: &mut Random, state: &State, memory: &Memory) -> Command {
    let account = 1 + r.below(state.accountcount as u32) as u8;
    let contract = 1 + r.below(CONTRACTS as u32) as u8;
    let phase_now = state.contracts[contract as usize - 1].phase;
    match r.below(100) {
        0..=3 => Command { kind: 1, account, amount: 1 + r.below(1_000_000) as u64, ..Command::default() },
        4..=6 => Command { kind: 2, account, amount: 1 + r.below(1_000_000) as u64, ..Command::default() },
        7 => Command { kind: 5, account, contract, ..Command::default() },
        8..=10 if phase_now == 2 || phase_now == AUCTION => phase(contract as usize, 1),
        8 => phase(contract as usize, 2),
        choice @ 9..=34 => match some_order(r, state, memory, contract) {
            Some((_, o)) if choice < 22 => cancel(o[2] as u8 + 1, contract, o[1]),
            Some((side, o)) => any_change(r, state, memory, contract, side, o),
            None => order(r, state, account, contract),
        },
        35..=44 => any_quote(r, state, account, contract),
        _ => order(r, state, account, contract),
    }
}

/// Each contract to continuous, or to auction.
fn opening(r: &mut Random) -> impl DoubleEndedIterator<Item = Command> {
    let auction = r.below(CONTRACTS as u32) as usize + 1;
    (1..=CONTRACTS).map(move |c| phase(c, if c == auction { AUCTION as u8 } else { 1 }))
}

/// A settlement at any time, a change to pre-open, continuous or no trading, or a command with any value in one of its fields.
fn odd(r: &mut Random, command: Command) -> Command {
    let bits = 3 + r.below(28);
    let any = r.below(1 << bits);
    match r.below(10) {
        0 => settle(),
        1 => phase(1 + r.below(CONTRACTS as u32) as usize, r.below(3) as u8),
        2 => Command { kind: any as u8, ..command },
        3 => Command { account: any as u8, ..command },
        4 => Command { contract: any as u8, ..command },
        5 => Command { flags: any as u8, ..command },
        6 => Command { lots: any, ..command },
        7 => Command { price: any, ..command },
        8 => Command { number: any, ..command },
        _ => Command { amount: (any as u64) << r.below(33), ..command },
    }
}

/// An insert at a price so far from the other side, so that it rests; any other command as it is.
fn moved_away(command: Command, by: u32) -> Command {
    match command {
        Command { kind: 3, price, flags, .. } if price > by => {
            Command { price: if flags & SELL == 0 { price - by } else { price + by }, ..command }
        }
        _ => command,
    }
}

/// About which command two settlements are due, again and again, how far inserts are moved away from the other side, and one in how many
/// commands is odd.
struct Mix {
    settled: usize,
    away: u32,
    odd: Option<u32>,
}

/// A mixed list: orders, cancels, changes, quotes, money, state changes, and two settlements about each 500th command, 13 commands apart, as
/// far as the list goes. One contract in four opens by an auction. The commands are chosen by the state that they meet.
pub fn mixed(r: &mut Random, day: &[u8], count: usize) -> Vec<Command> {
    mixed_by(r, day, count, &Mix { settled: 500, away: 0, odd: None })
}

/// A day file and a list by a seed: up to 32 accounts, rich or poor, contracts with wide or narrow terms, short days or long ones, which may
/// fill the trades, inserts that meet the other side or that fill their own, and one command in twenty odd.
pub fn list_of_seed(seed: u64) -> (Vec<u8>, Vec<Command>) {
    let r = &mut Random::of_seed(seed);
    let terms = [0; CONTRACTS].map(|_| [WIDE, NARROW][r.below(2) as usize]);
    let balance = [RICH, POOR][r.below(2) as usize];
    let day = file_with(terms, 1 + r.below(32) as usize, balance);
    let mix = Mix { settled: [100, 500, 10_000][r.below(3) as usize], away: [0, 0, 20][r.below(3) as usize], odd: Some(20) };
    let count = 1 + r.below(8_000) as usize;
    let list = mixed_by(r, &day, count, &mix);
    (day, list)
}

fn mixed_by(r: &mut Random, day: &[u8], count: usize, mix: &Mix) -> Vec<Command> {
    let mut state = State::open(day);
    let mut memory = Memory::new();
    let mut list: Vec<Command> = Vec::new();
    let all = |p| (1..=CONTRACTS).map(move |c| phase(c, p));
    let mut due: Vec<Command> = opening(r).collect();
    while list.len() < count {
        if due.is_empty() && list.len() % mix.settled > mix.settled - 20 {
            due = opening(r).rev().chain([settle()]).chain(all(3).rev()).chain(all(1).rev()).collect();
        }
        let command = due.pop().unwrap_or_else(|| {
            let command = moved_away(any_command(r, &state, &memory), mix.away);
            let is_odd = mix.odd.is_some_and(|one_in| r.below(one_in) == 0);
            if is_odd { odd(r, command) } else { command }
        });
        state.step(&mut memory.areas(), &command.bytes());
        list.push(command);
    }
    list
}

/// A list under construction, with the number that the next accepted order gets.
#[derive(Clone)]
pub struct Script {
    pub commands: Vec<Command>,
    next: u32,
}

impl Script {
    /// A good-for-day or immediate limit order that is accepted; its number.
    pub fn order(&mut self, account: u8, contract: u8, flags: u8, price: u32) -> u32 {
        self.commands.push(Command { kind: 3, account, contract, flags, lots: 1, price, ..Command::default() });
        self.next += 1;
        self.next - 1
    }

    /// All contracts continuous, and so many trades in each of them in turn, between all accounts.
    fn traded(accounts: usize, trades: usize) -> Script {
        let mut s = Script { commands: (1..=CONTRACTS).map(|c| phase(c, 1)).collect(), next: 1 };
        for i in 0..trades {
            let (contract, turn) = (1 + (i % CONTRACTS) as u8, i / CONTRACTS);
            s.order(1 + (turn % accounts) as u8, contract, SELL, REFERENCE);
            s.order(1 + ((turn + 1) % accounts) as u8, contract, IMMEDIATE, REFERENCE);
        }
        s
    }

    /// The same with orders on each side of each contract, of all accounts in turn.
    fn prepared(p: &Prepared) -> Script {
        let mut s = Script::traded(p.accounts, p.trades);
        for i in 0..p.orders {
            for c in 1..=CONTRACTS as u8 {
                s.order(p.account(i), c, 0, REFERENCE - 10);
                s.order(p.account(i), c, SELL, REFERENCE + 10);
            }
        }
        s
    }
}

/// What the commands of one kind meet: accounts, orders on each side of each contract, recorded trades.
#[derive(Clone, Copy)]
pub struct Prepared {
    pub accounts: usize,
    pub orders: usize,
    pub trades: usize,
}

impl Prepared {
    /// The accounts in turn.
    fn account(&self, i: usize) -> u8 {
        1 + (i % self.accounts) as u8
    }
}

/// So many resting orders and trades over all contracts and 32 accounts: up to 512 and 1,024, as many as a state may hold. Where there are
/// trades each account holds lots on both sides of each contract, and half of the orders are closes.
pub fn filled_list(orders: usize, trades: usize) -> Vec<Command> {
    let mut s = Script::traded(32, trades);
    let count = orders / (2 * CONTRACTS);
    for i in 0..count {
        let close = if trades > 0 && i >= count / 2 { CLOSE } else { 0 };
        let (account, away) = (1 + (i % 32) as u8, 1 + i as u32 % 20);
        for contract in 1..=CONTRACTS as u8 {
            s.order(account, contract, close, REFERENCE - away);
            s.order(account, contract, SELL + close, REFERENCE + away);
        }
    }
    s.commands
}

pub fn deposit(account: u8) -> Command {
    Command { kind: 1, account, amount: 1000, ..Command::default() }
}

/// The kinds of command that are counted one by one.
pub const KINDS: [&str; 11] = [
    "deposit",
    "withdraw",
    "insert that rests",
    "insert that trades",
    "cancel",
    "change that keeps its place",
    "change that loses its place",
    "quote",
    "pull",
    "state change",
    "settle",
];

/// A list without and with so many commands of one kind at its end.
pub fn kind_lists(kind: usize, p: &Prepared) -> [Vec<Command>; 2] {
    let mut s = Script::prepared(p);
    let first = s.next - (2 * CONTRACTS * p.orders) as u32;
    // the i-th buy of the first contract
    let change_buy = |i: u32, lots: u32| change(p.account(i as usize), 1, first + 8 * i, lots, REFERENCE - 10);
    match kind {
        // two lots each; they rest behind the others
        5 => s.commands.extend((0..20).map(|i| change_buy(i, 2))),
        7 => s.commands.push(quote(1, 1, REFERENCE - 4, REFERENCE + 4, 1)),
        10 => s.commands.extend((1..=CONTRACTS).map(|c| phase(c, 3))),
        _ => {}
    }
    let without = s.commands.clone();
    for i in 0..20u32 {
        let account = p.account(i as usize);
        match kind {
            0 | 1 => s.commands.push(Command { kind: kind as u8 + 1, account, amount: 1000, ..Command::default() }),
            2 => {
                s.order(account, 1, 0, REFERENCE - 5 - i);
            }
            // with an order of the account before
            3 => {
                s.order(p.account(i as usize + 1), 1, IMMEDIATE, REFERENCE + 10);
            }
            4 => s.commands.push(cancel(account, 1, first + 8 * i)),
            5 => s.commands.push(change_buy(i, 1)),
            6 => s.commands.push(change_buy(i, 2)),
            // in the place of the one before
            7 => s.commands.push(quote(1, 1, REFERENCE - 5 - i, REFERENCE + 5 + i, 1)),
            8 if i < 8 => s.commands.push(Command { kind: 5, account, contract: 1 + i as u8 / 2, ..Command::default() }),
            9 => s.commands.push(phase(4, 2 - (i % 2) as u8)),
            10 if i == 0 => s.commands.push(settle()),
            _ => {}
        }
    }
    [without, s.commands]
}

/// A list without and with the match at its end: an auction of 64 orders on each side, at 64 prices on either, that trade in part.
pub fn match_lists() -> [Vec<Command>; 2] {
    let mut s = Script { commands: vec![phase(1, AUCTION as u8)], next: 1 };
    for i in 0..64 {
        let account = 1 + (i % 32) as u8;
        s.commands.push(Command { kind: 3, account, contract: 1, flags: 0, lots: 1 + i % 7, price: REFERENCE + 40 - i, ..Command::default() });
        s.commands.push(Command { kind: 3, account, contract: 1, flags: SELL, lots: 1 + i % 5, price: REFERENCE - 40 + i, ..Command::default() });
    }
    let without = s.commands.clone();
    s.commands.push(phase(1, 1));
    [without, s.commands]
}
