//! Calls of the library through the Rust crate, for tools/model/compare_library.py --through rust.
//!
//! Standard input has requests, standard output their results: a count of parts, then each part after its length, all 4 bytes. A
//! request's first part names the call; state, areas and numbers follow as they lie in memory. What the crate gives is written as
//! the library would, so that one comparison serves both.

use std::io::{self, Read, Write};
use zelvorm::raw::{self, State};
use zelvorm::{
    day_lines, mend, Answer, Command, Effect, Exchange, Posting, Record, Refusal, Response, Settlement, Side, Start, Statement,
};

type Parts = Vec<Vec<u8>>;

fn main() -> io::Result<()> {
    let (mut from, mut to) = (io::stdin().lock(), io::stdout().lock());
    while let Some(request) = read_parts(&mut from)? {
        let result = respond(&request);
        to.write_all(&(result.len() as u32).to_le_bytes())?;
        for part in result {
            to.write_all(&(part.len() as u32).to_le_bytes())?;
            to.write_all(&part)?;
        }
        to.flush()?;
    }
    Ok(())
}

fn read_parts(from: &mut impl Read) -> io::Result<Option<Parts>> {
    let mut length = [0; 4];
    if from.read(&mut length[..1])? == 0 {
        return Ok(None);
    }
    from.read_exact(&mut length[1..])?;
    let mut parts = Vec::new();
    for _ in 0..u32::from_le_bytes(length) {
        from.read_exact(&mut length)?;
        let mut part = vec![0; u32::from_le_bytes(length) as usize];
        from.read_exact(&mut part)?;
        parts.push(part);
    }
    Ok(Some(parts))
}

fn respond(request: &Parts) -> Parts {
    let given = &request[1..];
    match &request[0][..] {
        b"zelvorm_open" => open(&given[0]),
        b"zelvorm_mend" => mended(&given[0]),
        b"zelvorm_lines" => vec![day_lines(&given[0])],
        b"zelvorm_read" => match Exchange::read(&given[0]) {
            Ok(exchange) => vec![number(0), state_bytes(exchange.parts().0)],
            Err(refusal) => vec![number(refusal.code()), state_bytes(&state_of(&given[1]))],
        },
        call => {
            let [buys, sells, trades] = [1, 2, 3].map(|place| words_of(&given[place]));
            match Exchange::from_parts(state_of(&given[0]), buys, sells, trades) {
                Ok(exchange) => on_exchange(call, exchange, &given[4..]),
                Err(refusal) => vec![number(refusal.code())],
            }
        }
    }
}

fn on_exchange(call: &[u8], mut exchange: Exchange, given: &[Vec<u8>]) -> Parts {
    let mut result = match call {
        b"zelvorm_well_formed" => return vec![number(0)],
        b"zelvorm_execute" => execute(&mut exchange, record_of(&given[0])),
        b"zelvorm_run" => run(&mut exchange, &given[0], &given[1]),
        b"zelvorm_bundle" => bundle(&mut exchange, &given[0], &given[1]),
        b"zelvorm_gettable" => match asked(&exchange, record_of(&given[0])) {
            Ok(found) => vec![number(0), number(found.lots), long(found.orders_read as u64)],
            Err(refusal) => vec![number(refusal.code()), number(0), long(0)],
        },
        b"zelvorm_side" => side(&exchange, &given[0], &given[1]),
        b"zelvorm_client_statement" => statement(&exchange, given),
        b"zelvorm_write" => match exchange.write() {
            Ok(file) => vec![number(0), file],
            Err(refusal) => vec![number(refusal.code()), vec![]],
        },
        _ => panic!("no such call"),
    };
    check_views(&exchange);
    let (state, buys, sells, trades) = exchange.parts();
    result.extend([state_bytes(state), bytes_of(buys), bytes_of(sells), bytes_of(trades)]);
    result
}

// A record that is a command's goes through the command; it is told whether it did.
fn execute(exchange: &mut Exchange, record: Record) -> Parts {
    let command = Command::try_from(record);
    let response = match command {
        Ok(Command::Settle) => match exchange.settle() {
            Ok(settlement) => Response { answer: Ok(Answer::default()), settlement: Some(settlement) },
            Err(refusal) => Response { answer: Err(refusal), settlement: None },
        },
        Ok(command) => Response { answer: exchange.execute(command), settlement: None },
        Err(record) => exchange.respond(record),
    };
    vec![answer_bytes(response.answer), report_bytes(response.settlement), vec![command.is_ok().into()]]
}

fn asked(exchange: &Exchange, record: Record) -> Result<zelvorm::Gettable, Refusal> {
    match Command::try_from(record) {
        Ok(command) => exchange.gettable(command),
        Err(record) => exchange.gettable(record),
    }
}

// With room for every answer the commands go as a list of records, otherwise as bytes.
fn run(exchange: &mut Exchange, commands: &[u8], answers: &[u8]) -> Parts {
    let count = commands.len() / 24;
    if answers.len() >= 16 * count {
        let given = exchange.run(&records_of(commands));
        return vec![long(count as u64), over(answers, given)];
    }
    let mut words = words_of(answers);
    let played = exchange.run_bytes(commands, &mut words);
    vec![long(played as u64), bytes_of(&words)]
}

fn bundle(exchange: &mut Exchange, commands: &[u8], answers: &[u8]) -> Parts {
    if answers.len() >= 16 * (commands.len() / 24) {
        return match exchange.bundle(&records_of(commands)) {
            Ok(given) => vec![number(0), over(answers, given)],
            Err(refusal) => vec![number(refusal.code()), answers.to_vec()],
        };
    }
    let mut words = words_of(answers);
    let code = exchange.bundle_bytes(commands, &mut words).err().map_or(0, Refusal::code);
    vec![number(code), bytes_of(&words)]
}

fn side(exchange: &Exchange, sell: &[u8], contract: &[u8]) -> Parts {
    let side = if sell == [0] { Side::Buy } else { Side::Sell };
    vec![bytes_of(&queue(exchange, side, u64_of(contract) as usize))]
}

fn open(file: &[u8]) -> Parts {
    match Exchange::open(file) {
        Ok(day) => {
            check_views(&day.exchange);
            let commands = day.commands.iter().flat_map(Record::to_bytes).collect();
            vec![number(0), commands, state_bytes(day.exchange.parts().0)]
        }
        Err(refusal) => vec![number(refusal.code()), vec![], vec![0; size_of::<State>()]],
    }
}

fn mended(file: &[u8]) -> Parts {
    match mend(file) {
        Ok(mended) => {
            let rows = mended.dropped.iter().flat_map(|row| [&row.place.to_le_bytes()[..], &[row.reason as u8]].concat());
            let list = long(mended.dropped.len() as u64).into_iter().chain(rows).collect();
            vec![number(0), mended.file, list]
        }
        Err(refusal) => vec![number(refusal.code()), vec![], vec![]],
    }
}

// Missing words of the clients' starting lots are 0, and clients beyond 17 are as good as 17.
fn statement(exchange: &Exchange, given: &[Vec<u8>]) -> Parts {
    let mut words = words_of(&given[2]);
    let clients = (u64_of(&given[1]) as usize).min(17);
    words.resize(8 * clients, 0);
    let start = |words: &[u32]| Start {
        long: [words[0], words[2], words[4], words[6]],
        short: [words[1], words[3], words[5], words[7]],
    };
    let starts: Vec<Start> = words.chunks_exact(8).map(start).collect();
    let posting = |words: &[u32]| Posting { order: words[0], client: words[1] };
    let postings: Vec<Posting> = words_of(&given[3]).chunks_exact(2).map(posting).collect();
    match exchange.statement(u64_of(&given[0]) as u32, &starts, &postings) {
        Ok(told) => vec![number(0), statement_bytes(&told)],
        Err(refusal) => vec![number(refusal.code()), vec![]],
    }
}

// ---- what the crate gives, as it lies in memory

fn number(value: u32) -> Vec<u8> {
    value.to_le_bytes().to_vec()
}

fn long(value: u64) -> Vec<u8> {
    value.to_le_bytes().to_vec()
}

fn bytes_of(words: &[u32]) -> Vec<u8> {
    words.iter().flat_map(|word| word.to_le_bytes()).collect()
}

fn words_of(bytes: &[u8]) -> Vec<u32> {
    bytes.chunks_exact(4).map(|word| u32::from_le_bytes(word.try_into().unwrap())).collect()
}

fn u64_of(bytes: &[u8]) -> u64 {
    u64::from_le_bytes(bytes.try_into().unwrap())
}

fn record_of(bytes: &[u8]) -> Record {
    Record::from_bytes(bytes.try_into().unwrap())
}

fn records_of(bytes: &[u8]) -> Vec<Record> {
    bytes.chunks_exact(24).map(record_of).collect()
}

fn answer_words(answer: Result<Answer, Refusal>) -> [u32; 4] {
    match answer {
        Ok(answer) => [0, answer.order, answer.traded, answer.lots],
        Err(refusal) => [refusal.code(), 0, 0, 0],
    }
}

fn answer_bytes(answer: Result<Answer, Refusal>) -> Vec<u8> {
    bytes_of(&answer_words(answer))
}

// The answers at the front of the area that was lent for them.
fn over(area: &[u8], answers: Vec<Result<Answer, Refusal>>) -> Vec<u8> {
    let mut bytes: Vec<u8> = answers.into_iter().flat_map(answer_bytes).collect();
    bytes.extend(&area[bytes.len()..]);
    bytes
}

fn report_bytes(settlement: Option<Settlement>) -> Vec<u8> {
    let mut prices = [0; 4];
    let mut rows = [[0; 32]; 3];
    if let Some(settlement) = settlement {
        prices[..settlement.prices.len()].copy_from_slice(&settlement.prices);
        for (place, account) in settlement.accounts.iter().enumerate() {
            rows[0][place] = account.closing as u64;
            rows[1][place] = account.holding as u64;
            rows[2][place] = account.charged;
        }
    }
    bytes_of(&prices).into_iter().chain(rows.into_iter().flatten().flat_map(long)).collect()
}

fn statement_bytes(told: &Statement) -> Vec<u8> {
    let mut bytes = number(told.legs.len() as u32);
    for leg in &told.legs {
        bytes.extend([leg.client, leg.contract, (leg.side == Side::Sell).into(), (leg.effect == Effect::Close).into()]);
        bytes.extend(bytes_of(&[leg.price, leg.lots, leg.order]));
    }
    let held: Vec<u32> = told.holdings.iter().flatten().flat_map(|&(long, short)| [long, short]).collect();
    bytes.extend(number(held.len() as u32 / 2));
    bytes.extend(bytes_of(&held));
    bytes.extend(number(told.profits.len() as u32));
    bytes.extend(told.profits.iter().flat_map(|profit| [profit.closing, profit.holding]).flat_map(|sum| long(sum as u64)));
    bytes
}

fn queue(exchange: &Exchange, side: Side, contract: usize) -> Vec<u32> {
    let words = |order: zelvorm::Order| {
        let close = (order.effect == Effect::Close).into();
        [order.price, order.number, order.account - 1, order.lots, close, order.stamp, order.is_quote.into()]
    };
    exchange.orders(side, contract).flat_map(words).collect()
}

// What the iterators tell is what lies in the state and its areas.
fn check_views(exchange: &Exchange) {
    let (state, buys, sells, trades) = exchange.parts();
    for (place, contract) in exchange.contracts().enumerate() {
        let raw = state.contracts[place];
        let terms = contract.terms;
        assert_eq!((terms.multiplier.into(), terms.tick.into(), terms.reference), (raw.multiplier, raw.tick, raw.reference));
        assert_eq!((terms.band, terms.limit, terms.rate, terms.method as u16), (raw.band, raw.limit, raw.rate, raw.method));
        assert_eq!((contract.phase as u32, contract.last), (raw.phase, raw.last));
        let first = raw::QUEUE_STRIDE * place;
        assert_eq!(queue(exchange, Side::Buy, place + 1), buys[first..][..raw::ORDER_STRIDE * state.buycounts[place]]);
        assert_eq!(queue(exchange, Side::Sell, place + 1), sells[first..][..raw::ORDER_STRIDE * state.sellcounts[place]]);
    }
    assert_eq!(exchange.contracts().count(), state.contractcount);
    for (place, account) in exchange.accounts().enumerate() {
        let raw = state.accounts[place];
        assert_eq!((account.balance, u64::from(account.is_maker)), (raw.balance, raw.maker));
        for (held, raw) in account.holdings.iter().zip(&raw.holdings) {
            assert_eq!((held.long, held.short, held.start_long, held.start_short), (raw.long, raw.short, raw.startlong, raw.startshort));
        }
    }
    assert_eq!(exchange.accounts().count(), state.accountcount);
    let words = |t: zelvorm::Trade| {
        let closes = [t.buy_effect, t.sell_effect].map(|effect| (effect == Effect::Close).into());
        [t.contract - 1, t.price, t.lots, t.buy_order, t.sell_order, t.buyer - 1, t.seller - 1, closes[0], closes[1]]
    };
    let told: Vec<u32> = exchange.trades().flat_map(words).collect();
    assert_eq!(told, trades[..raw::TRADE_STRIDE * state.tradecount]);
    assert_eq!(exchange.settlements(), state.settlements);
}

// A state field by field, with zeros between.
fn state_bytes(state: &State) -> Vec<u8> {
    let mut bytes = Vec::new();
    for contract in &state.contracts {
        bytes.extend(bytes_of(&[contract.multiplier, contract.tick, contract.reference, contract.band, contract.limit]));
        bytes.extend(contract.rate.to_le_bytes());
        bytes.extend(contract.method.to_le_bytes());
        bytes.extend(bytes_of(&[contract.phase, contract.last]));
    }
    for account in &state.accounts {
        bytes.extend(account.balance.to_le_bytes());
        for held in &account.holdings {
            bytes.extend(bytes_of(&[held.long, held.short, held.startlong, held.startshort]));
        }
        bytes.extend(long(account.maker));
    }
    let counts = [state.contractcount, state.accountcount, state.tradecount];
    for count in state.buycounts.iter().chain(&state.sellcounts).chain(&counts) {
        bytes.extend(long(*count as u64));
    }
    bytes.extend(bytes_of(&[state.next, state.nextstamp, state.settlements, 0]));
    bytes
}

struct Reader<'a>(&'a [u8]);

impl Reader<'_> {
    fn take<const N: usize>(&mut self) -> [u8; N] {
        let (front, rest) = self.0.split_at(N);
        self.0 = rest;
        front.try_into().unwrap()
    }

    fn u16(&mut self) -> u16 {
        u16::from_le_bytes(self.take())
    }

    fn u32(&mut self) -> u32 {
        u32::from_le_bytes(self.take())
    }

    fn u64(&mut self) -> u64 {
        u64::from_le_bytes(self.take())
    }
}

fn state_of(bytes: &[u8]) -> State {
    let mut from = Reader(bytes);
    let contract = |from: &mut Reader| raw::Contract {
        multiplier: from.u32(),
        tick: from.u32(),
        reference: from.u32(),
        band: from.u32(),
        limit: from.u32(),
        rate: from.u16(),
        method: from.u16(),
        phase: from.u32(),
        last: from.u32(),
    };
    let holding =
        |from: &mut Reader| raw::Holding { long: from.u32(), short: from.u32(), startlong: from.u32(), startshort: from.u32() };
    let account = |from: &mut Reader| raw::Account {
        balance: from.u64() as i64,
        holdings: [(); 4].map(|()| holding(from)),
        maker: from.u64(),
    };
    State {
        contracts: [(); 4].map(|()| contract(&mut from)),
        accounts: [(); 32].map(|()| account(&mut from)),
        buycounts: [(); 4].map(|()| from.u64() as usize),
        sellcounts: [(); 4].map(|()| from.u64() as usize),
        contractcount: from.u64() as usize,
        accountcount: from.u64() as usize,
        tradecount: from.u64() as usize,
        next: from.u32(),
        nextstamp: from.u32(),
        settlements: from.u32(),
    }
}
