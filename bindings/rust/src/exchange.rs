//! An exchange: a state with its areas, and the calls on it.

use crate::codes::{accepted, Refusal};
use crate::commands::{Effect, Phase, Side};
use crate::files::{Day, Method, Opening, Posting, Start, Statement, Terms};
use crate::raw::{self, Record, State};

/// An exchange, which owns its state: the accounts, the contracts, the resting orders and the day's trades.
///
/// It is well formed, always: it begins so, and no call leaves anything else.
///
/// ```
/// use zelvorm::{Command, Exchange, NewOrder, Opening, OpeningAccount, Phase, Side, Terms};
///
/// let terms = Terms { multiplier: 10, tick: 1, reference: 100, band: 10, limit: 1000, rate: 1000, ..Terms::default() };
/// let accounts = vec![OpeningAccount::with(10_000), OpeningAccount::with(10_000)];
/// let mut exchange = Exchange::new(&Opening { contracts: vec![terms], accounts })?;
///
/// exchange.execute(Command::Phase { contract: 1, phase: Phase::Continuous })?;
/// exchange.execute(Command::Insert(NewOrder::limit(1, 1, Side::Sell, 5, 102)))?;
/// let answer = exchange.execute(Command::Insert(NewOrder::limit(2, 1, Side::Buy, 3, 104)))?;
/// assert_eq!((answer.order, answer.traded, answer.lots), (2, 3, 0));
///
/// let trade = exchange.trades().next().unwrap();
/// assert_eq!((trade.price, trade.lots, trade.buyer, trade.seller), (102, 3, 2, 1));
/// let best = exchange.orders(Side::Sell, 1).next().unwrap();
/// assert_eq!((best.number, best.lots), (1, 2));
/// # Ok::<(), zelvorm::Refusal>(())
/// ```
#[derive(Clone, Debug, PartialEq)]
pub struct Exchange {
    state: State,
    buys: Vec<u32>,
    sells: Vec<u32>,
    trades: Vec<u32>,
}

/// What an accepted command did.
#[derive(Clone, Copy, Debug, Default, PartialEq, Eq, Hash)]
pub struct Answer {
    /// The order's number, of a quote the buy's; 0 where there is none.
    pub order: u32,
    /// Lots traded.
    pub traded: u32,
    /// Lots rested (insert, quote, change) or removed (cancel, pull, a change to 0 lots).
    pub lots: u32,
}

/// What a settlement reports.
#[derive(Clone, Debug, PartialEq, Eq)]
pub struct Settlement {
    /// Each contract's settlement price.
    pub prices: Vec<u32>,
    /// Each account's figures.
    pub accounts: Vec<SettledAccount>,
}

/// An account's figures at a settlement.
#[derive(Clone, Copy, Debug, PartialEq, Eq)]
pub struct SettledAccount {
    /// Its closing profit.
    pub closing: i64,
    /// Its holding profit.
    pub holding: i64,
    /// Its balance after the settlement.
    pub balance: i64,
    /// Its charged margin after the settlement.
    pub charged: u64,
}

/// The answer to one command, and the settlement where it made one.
#[derive(Clone, Debug, PartialEq, Eq)]
pub struct Response {
    /// What it did, or why it is refused.
    pub answer: Result<Answer, Refusal>,
    /// Of an accepted `Command::Settle`.
    pub settlement: Option<Settlement>,
}

/// How much an order would get.
#[derive(Clone, Copy, Debug, PartialEq, Eq)]
pub struct Gettable {
    /// The lots that would trade now.
    pub lots: u32,
    /// How many resting orders were read to know it.
    pub orders_read: usize,
}

/// A resting order.
#[derive(Clone, Copy, Debug, PartialEq, Eq, Hash)]
pub struct Order {
    /// Its price.
    pub price: u32,
    /// Its number.
    pub number: u32,
    /// Its account's number.
    pub account: u32,
    /// Its remaining lots.
    pub lots: u32,
    /// Open or close.
    pub effect: Effect,
    /// Its time stamp.
    pub stamp: u32,
    /// Whether it is part of a market maker's quote.
    pub is_quote: bool,
}

/// A trade of the day.
#[derive(Clone, Copy, Debug, PartialEq, Eq, Hash)]
pub struct Trade {
    /// Its contract's number.
    pub contract: u32,
    /// Its price.
    pub price: u32,
    /// Its lots.
    pub lots: u32,
    /// The buy order's number.
    pub buy_order: u32,
    /// The sell order's number.
    pub sell_order: u32,
    /// The buyer's account number.
    pub buyer: u32,
    /// The seller's account number.
    pub seller: u32,
    /// Whether the buyer opens or closes.
    pub buy_effect: Effect,
    /// Whether the seller opens or closes.
    pub sell_effect: Effect,
}

/// A contract of the day.
#[derive(Clone, Copy, Debug, PartialEq, Eq)]
pub struct Contract {
    /// Its terms.
    pub terms: Terms,
    /// Its phase.
    pub phase: Phase,
    /// Its last price.
    pub last: u32,
}

/// An account.
#[derive(Clone, Debug, PartialEq, Eq)]
pub struct Account {
    /// Its balance.
    pub balance: i64,
    /// Whether it is a market maker.
    pub is_maker: bool,
    /// What it holds, contract by contract.
    pub holdings: Vec<Holding>,
}

/// What an account holds in a contract.
#[derive(Clone, Copy, Debug, PartialEq, Eq)]
pub struct Holding {
    /// Lots bought and held.
    pub long: u32,
    /// Lots sold and held.
    pub short: u32,
    /// Long lots at the start of the day.
    pub start_long: u32,
    /// Short lots at the start of the day.
    pub start_short: u32,
}

impl Exchange {
    /// The exchange that a day opens with.
    pub fn new(opening: &Opening) -> Result<Exchange, Refusal> {
        Ok(Exchange::open(&opening.day_file::<Record>(&[]))?.exchange)
    }

    /// Opens a day file: the exchange that its run begins with, and its commands.
    pub fn open(file: &[u8]) -> Result<Day, Refusal> {
        let opened = raw::open(file);
        accepted(opened.code, || Day {
            exchange: Exchange::with(opened.state),
            commands: records_in(&file[opened.first..][..raw::COMMAND_WIDTH * opened.commands]),
        })
    }

    /// Reads a state that [`Exchange::write`] wrote.
    pub fn read(file: &[u8]) -> Result<Exchange, Refusal> {
        let mut exchange = Exchange::with(raw::open(&[]).state);
        let Exchange { state, buys, sells, trades } = &exchange;
        let loaded = raw::read(file, *state, buys, sells, trades);
        exchange.state = loaded.state;
        accepted(loaded.code, || exchange)
    }

    /// Writes the state after a settlement, to be read tomorrow.
    pub fn write(&self) -> Result<Vec<u8>, Refusal> {
        let mut out = vec![0; raw::SAVED_BYTES];
        let saved = raw::write(self.state, &self.buys, &self.sells, &self.trades, &mut out);
        out.truncate(saved.length);
        accepted(saved.code, || out)
    }

    /// An exchange of parts that someone else kept: a state and the areas lent with it. They have to be well formed.
    pub fn from_parts(state: State, buys: Vec<u32>, sells: Vec<u32>, trades: Vec<u32>) -> Result<Exchange, Refusal> {
        if raw::well_formed(state, &buys, &sells, &trades) {
            Ok(Exchange { state, buys, sells, trades })
        } else {
            Err(Refusal::NotWellFormed)
        }
    }

    /// The state, and the areas of buys, sells and trades.
    pub fn parts(&self) -> (&State, &[u32], &[u32], &[u32]) {
        (&self.state, &self.buys, &self.sells, &self.trades)
    }

    fn with(state: State) -> Exchange {
        let queues = vec![0; raw::QUEUES_WORDS];
        Exchange { state, buys: queues.clone(), sells: queues, trades: vec![0; raw::TRADES_WORDS] }
    }

    /// Carries out one command. A refusal leaves everything as it was.
    pub fn execute(&mut self, command: impl Into<Record>) -> Result<Answer, Refusal> {
        let r = self.execute_record(command.into());
        answer_of(r.answer)
    }

    /// The daily settlement, with what it reports.
    pub fn settle(&mut self) -> Result<Settlement, Refusal> {
        let r = self.execute_record(crate::Command::Settle.into());
        accepted(r.answer.code, || self.settlement_of(&r.report))
    }

    /// Carries out one command of any kind, and gives the settlement too where it made one.
    pub fn respond(&mut self, command: impl Into<Record>) -> Response {
        let record = command.into();
        let r = self.execute_record(record);
        let is_settled = record.kind == raw::KIND_SETTLE && r.answer.code == raw::CODE_ACCEPTED;
        let settlement = is_settled.then(|| self.settlement_of(&r.report));
        Response { answer: answer_of(r.answer), settlement }
    }

    #[inline(never)]
    fn execute_record(&mut self, command: Record) -> raw::Response {
        let r = raw::execute(self.state, &mut self.buys, &mut self.sells, &mut self.trades, command);
        self.state = r.state;
        r
    }

    fn settlement_of(&self, report: &raw::Report) -> Settlement {
        let account = |place: usize| SettledAccount {
            closing: report.closing[place],
            holding: report.holding[place],
            balance: self.state.accounts[place].balance,
            charged: report.charged[place],
        };
        Settlement {
            prices: report.prices[..self.state.contractcount].to_vec(),
            accounts: (0..self.state.accountcount).map(account).collect(),
        }
    }

    /// Carries out a list of commands, each as if it were given singly, and gives the answer to each. The state is tested once for
    /// all of them, which makes it much cheaper than one by one.
    ///
    /// ```
    /// # let file = std::fs::read(concat!(env!("CARGO_MANIFEST_DIR"), "/tests/paper-example.day")).unwrap();
    /// use zelvorm::Exchange;
    ///
    /// let mut day = Exchange::open(&file)?;
    /// let answers = day.exchange.run(&day.commands);
    /// assert_eq!(answers.len(), 8);
    /// assert_eq!(answers[2].unwrap().traded, 3);
    /// # Ok::<(), zelvorm::Refusal>(())
    /// ```
    pub fn run<C: Into<Record> + Copy>(&mut self, commands: &[C]) -> Vec<Result<Answer, Refusal>> {
        let mut answers = vec![NO_ANSWER; commands.len()];
        self.run_bytes(raw::command_bytes(&records_of(commands)), raw::answer_words(&mut answers));
        answers.into_iter().map(answer_of).collect()
    }

    /// The same without memory of its own: commands of 24 bytes each, four words for each answer (its code, and the fields of an
    /// [`Answer`]). Plays as many as there are places for answers, and gives how many.
    pub fn run_bytes(&mut self, commands: &[u8], answers: &mut [u32]) -> usize {
        let ran = raw::run(self.state, &mut self.buys, &mut self.sells, &mut self.trades, commands, answers);
        self.state = ran.state;
        ran.played
    }

    /// Carries out a bundle of up to 100 commands, or refuses it whole. One that is refused by itself does not stop the others.
    ///
    /// ```
    /// # let file = std::fs::read(concat!(env!("CARGO_MANIFEST_DIR"), "/tests/paper-example.day")).unwrap();
    /// use zelvorm::{Command, Exchange, Phase, Refusal};
    ///
    /// let mut exchange = Exchange::open(&file)?.exchange;
    /// let morning = [Command::Phase { contract: 1, phase: Phase::Continuous }, Command::Deposit { account: 9, amount: 1 }];
    /// let answers = exchange.bundle(&morning)?;
    /// assert!(answers[0].is_ok());
    /// assert_eq!(answers[1], Err(Refusal::NoAccount));
    /// assert_eq!(exchange.bundle(&[Command::Settle; 101]), Err(Refusal::Bundle));
    /// # Ok::<(), zelvorm::Refusal>(())
    /// ```
    pub fn bundle<C: Into<Record> + Copy>(&mut self, commands: &[C]) -> Result<Vec<Result<Answer, Refusal>>, Refusal> {
        let mut answers = vec![NO_ANSWER; commands.len()];
        self.bundle_bytes(raw::command_bytes(&records_of(commands)), raw::answer_words(&mut answers))?;
        Ok(answers.into_iter().map(answer_of).collect())
    }

    /// The same without memory of its own, as [`Exchange::run_bytes`] is of [`Exchange::run`].
    pub fn bundle_bytes(&mut self, commands: &[u8], answers: &mut [u32]) -> Result<(), Refusal> {
        let receipt = raw::bundle(self.state, &mut self.buys, &mut self.sells, &mut self.trades, commands, answers);
        self.state = receipt.state;
        accepted(receipt.code, || ())
    }

    /// How much could I get: what an insert would trade now. Nothing is changed.
    ///
    /// ```
    /// # let file = std::fs::read(concat!(env!("CARGO_MANIFEST_DIR"), "/tests/paper-example.day")).unwrap();
    /// use zelvorm::{Command, Exchange, NewOrder, Side};
    ///
    /// let mut day = Exchange::open(&file)?;
    /// day.exchange.run(&day.commands[..2]);
    /// let asked = day.exchange.gettable(Command::Insert(NewOrder::limit(2, 1, Side::Buy, 9, 104)))?;
    /// assert_eq!(asked.lots, 5);
    /// # Ok::<(), zelvorm::Refusal>(())
    /// ```
    pub fn gettable(&self, insert: impl Into<Record>) -> Result<Gettable, Refusal> {
        let r = raw::gettable(self.state, &self.buys, &self.sells, &self.trades, insert.into());
        accepted(r.code, || Gettable { lots: r.lots, orders_read: r.read })
    }

    /// One side's resting orders in a contract, the best first. None where there is no such contract.
    pub fn orders(&self, side: Side, contract: usize) -> impl Iterator<Item = Order> + '_ {
        let sell = side == Side::Sell;
        let part = raw::side(self.state, &self.buys, &self.sells, sell, contract);
        let queues = if sell { &self.sells } else { &self.buys };
        queues[part.first..][..part.words].chunks_exact(raw::ORDER_STRIDE).map(|words| Order {
            price: words[0],
            number: words[1],
            account: words[2] + 1,
            lots: words[3],
            effect: Effect::of(words[4]),
            stamp: words[5],
            is_quote: words[6] != 0,
        })
    }

    /// The day's trades in the order in which they were made. `.skip(n)` leaves out those that were seen before.
    pub fn trades(&self) -> impl Iterator<Item = Trade> + '_ {
        self.trades.chunks_exact(raw::TRADE_STRIDE).take(self.state.tradecount).map(|words| Trade {
            contract: words[0] + 1,
            price: words[1],
            lots: words[2],
            buy_order: words[3],
            sell_order: words[4],
            buyer: words[5] + 1,
            seller: words[6] + 1,
            buy_effect: Effect::of(words[7]),
            sell_effect: Effect::of(words[8]),
        })
    }

    /// The contracts, the one with number 1 first.
    pub fn contracts(&self) -> impl Iterator<Item = Contract> + '_ {
        self.state.contracts[..self.state.contractcount].iter().map(|contract| Contract {
            terms: Terms {
                multiplier: contract.multiplier as u16,
                tick: contract.tick as u16,
                reference: contract.reference,
                band: contract.band,
                limit: contract.limit,
                rate: contract.rate,
                method: Method::of(contract.method).expect("of a state that is well formed"),
            },
            phase: Phase::of(contract.phase).expect("of a state that is well formed"),
            last: contract.last,
        })
    }

    /// The accounts, the one with number 1 first.
    pub fn accounts(&self) -> impl Iterator<Item = Account> + '_ {
        self.state.accounts[..self.state.accountcount].iter().map(|account| Account {
            balance: account.balance,
            is_maker: account.maker != 0,
            holdings: account.holdings[..self.state.contractcount].iter().map(Holding::of).collect(),
        })
    }

    /// How many settlements were made.
    pub fn settlements(&self) -> u32 {
        self.state.settlements
    }

    /// A statement of an account's clients: what each held at the start of the day, and whose each order that traded is.
    ///
    /// ```
    /// # let file = std::fs::read(concat!(env!("CARGO_MANIFEST_DIR"), "/tests/paper-example.day")).unwrap();
    /// use zelvorm::{Exchange, Posting, Start};
    ///
    /// let mut day = Exchange::open(&file)?;
    /// day.exchange.run(&day.commands[..7]);
    /// let postings = [Posting { order: 2, client: 1 }, Posting { order: 3, client: 1 }];
    /// let statement = day.exchange.statement(2, &[Start::default(); 2], &postings)?;
    /// assert_eq!(statement.legs[0].lots, 3);
    /// assert_eq!(statement.profits[0].closing, 20);
    /// # Ok::<(), zelvorm::Refusal>(())
    /// ```
    pub fn statement(&self, account: u32, clients: &[Start], postings: &[Posting]) -> Result<Statement, Refusal> {
        let starts: Vec<u32> = clients.iter().flat_map(Start::words).collect();
        let postings: Vec<u32> = postings.iter().flat_map(|posting| [posting.order, posting.client]).collect();
        let mut out = vec![0; raw::STATEMENT_BYTES];
        let count = u32::try_from(clients.len()).unwrap_or(u32::MAX);
        let (state, buys, sells, trades) = (self.state, &self.buys, &self.sells, &self.trades);
        let told = raw::client_statement(state, buys, sells, trades, account, count, &starts, &postings, &mut out);
        accepted(told.code, || Statement::of(&out[..told.length], clients.len()))
    }
}

/// The lines that a day runner prints for a day file. Of a broken file they are the one line `X 20`.
///
/// ```
/// # let file = std::fs::read(concat!(env!("CARGO_MANIFEST_DIR"), "/tests/paper-example.day")).unwrap();
/// use zelvorm::day_lines;
///
/// let lines = String::from_utf8(day_lines(&file)).unwrap();
/// assert_eq!(lines.lines().nth(2), Some("C 3 0 2 3 0"));
/// assert_eq!(lines.lines().nth(3), Some("T 1 1 102 3 2 1"));
/// assert_eq!(day_lines(&file[1..]), b"X 20\n");
/// ```
pub fn day_lines(file: &[u8]) -> Vec<u8> {
    // A state that was just opened, in areas and a buffer that are long enough: no part is refused.
    let Exchange { mut state, mut buys, mut sells, mut trades } = Exchange::with(raw::open(file).state);
    let mut part = vec![0; raw::OUTPUT_BYTES];
    let (mut lines, mut next, mut more) = (Vec::new(), 0, true);
    while more {
        let printed = raw::lines(file, state, next, &mut buys, &mut sells, &mut trades, &mut part);
        lines.extend_from_slice(&part[..printed.length]);
        (state, next, more) = (printed.state, printed.next, printed.more);
    }
    lines
}

impl Holding {
    fn of(held: &raw::Holding) -> Holding {
        Holding { long: held.long, short: held.short, start_long: held.startlong, start_short: held.startshort }
    }
}

#[inline]
fn answer_of(answer: raw::Answer) -> Result<Answer, Refusal> {
    accepted(answer.code, || Answer { order: answer.number, traded: answer.traded, lots: answer.lots })
}

const NO_ANSWER: raw::Answer = raw::Answer { code: 0, number: 0, traded: 0, lots: 0 };

pub(crate) fn records_of<C: Into<Record> + Copy>(commands: &[C]) -> Vec<Record> {
    commands.iter().map(|&command| command.into()).collect()
}

fn records_in(bytes: &[u8]) -> Vec<Record> {
    let record = |bytes: &[u8]| Record::from_bytes(bytes.try_into().expect("as many as a command has"));
    bytes.chunks_exact(raw::COMMAND_WIDTH).map(record).collect()
}
