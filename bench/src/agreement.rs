//! The exchanges held to each other on the same lists: the library as it is exported, both Rust versions, and the runs that are counted.

use crate::best::Best;
use crate::cases::{Random, ACCOUNTS};
use crate::count::{counts, grouped, head};
use crate::days::{encode, file, list_of_seed, mixed, Command, Memory, CONTRACTS, POOR, RICH};
use crate::design::{Design, Plain, Resting};
use crate::exchange::{State, RECORD};
use crate::exchanges::{best_run, pair, pair_count, plain_run, MIXED};
use crate::ours::{self, Probe};
use crate::zelvorm;
use std::collections::BTreeMap;
use std::process::exit;
use std::time::{Instant, SystemTime, UNIX_EPOCH};

/// What an exchange leaves of a list: the answer to each command, the state as the library has it, and the areas.
#[derive(PartialEq)]
struct Left {
    answers: Vec<zelvorm::Answer>,
    state: zelvorm::State,
    memory: Memory,
}

/// A Rust version's state as the library has it.
fn exported<D>(s: &State<D>) -> zelvorm::State {
    zelvorm::State {
        contracts: s.contracts.map(|c| zelvorm::Contract {
            multiplier: c.multiplier,
            tick: c.tick,
            reference: c.reference,
            band: c.band,
            limit: c.limit,
            rate: c.rate as u16,
            method: c.method as u16,
            phase: c.phase,
            last: c.last,
        }),
        accounts: s.accounts.map(|a| zelvorm::Account {
            balance: a.balance,
            holdings: a.holdings.map(|h| zelvorm::Holding {
                long: h.long,
                short: h.short,
                startlong: h.startlong,
                startshort: h.startshort,
            }),
            maker: a.maker as u64,
        }),
        buycounts: s.resting[0],
        sellcounts: s.resting[1],
        contractcount: s.contractcount,
        accountcount: s.accountcount,
        tradecount: s.made,
        next: s.next,
        nextstamp: s.nextstamp,
        settlements: s.settlements,
    }
}

fn left_by_library(day: &[u8], commands: &[u8]) -> Left {
    let mut memory = Memory::new();
    let (state, answers) = ours::library_run(day, commands, &mut memory);
    Left { answers, state, memory }
}

fn left_by_rust<D: Design>(day: &[u8], commands: &[u8]) -> (State<D>, Left) {
    let (mut state, mut memory) = (State::<D>::open(day), Memory::new());
    let mut areas = memory.areas();
    let mut answered = |record| {
        let a = state.step(&mut areas, record);
        zelvorm::Answer { code: a.code, number: a.number, traded: a.traded, lots: a.lots }
    };
    let answers = commands.chunks_exact(RECORD).map(&mut answered).collect();
    let left = Left { answers, state: exported(&state), memory };
    (state, left)
}

/// Where what two exchanges leave of a list differs, if it does.
fn difference(one: &Left, other: &Left) -> Option<String> {
    if one == other {
        return None;
    }
    let place = one.answers.iter().zip(&other.answers).position(|(a, b)| a != b);
    Some(match place {
        Some(i) => format!("in the answer to command {}: {:?}, {:?}", i + 1, one.answers[i], other.answers[i]),
        None if one.state != other.state => "in the state".to_string(),
        None => "in the areas".to_string(),
    })
}

/// Whether the sums that the best version keeps are those of the queues.
fn same_sums(plain: &State<Plain>, best: &State<Best>, memory: &mut Memory) -> bool {
    let areas = memory.areas();
    let parts = (0..ACCOUNTS * CONTRACTS * 4).map(|i| Resting {
        side: i % 2,
        contract: i / 4 % CONTRACTS,
        account: i / 4 / CONTRACTS,
        close: i / 2 % 2 == 1,
    });
    parts.into_iter().all(|of| Plain::resting_lots(plain, &areas, of) == Best::resting_lots(best, &areas, of))
}

/// Runs a list on the library and on both Rust versions: all answers, the whole state and all areas have to be equal, and the sums that the
/// best version keeps have to be those of the queues. What they leave, or how they differ.
fn left_by_all(day: &[u8], commands: &[u8]) -> Result<Left, String> {
    let library = left_by_library(day, commands);
    let (plain, mut plain_left) = left_by_rust::<Plain>(day, commands);
    let (best, best_left) = left_by_rust::<Best>(day, commands);
    for (version, left) in [("plain", &plain_left), ("best", &best_left)] {
        if let Some(place) = difference(&library, left) {
            return Err(format!("the library and {version} Rust differ {place}"));
        }
    }
    if !same_sums(&plain, &best, &mut plain_left.memory) {
        return Err("the sums of best Rust are not those of the queues".to_string());
    }
    Ok(library)
}

/// What `bench_run` is asked of a state.
fn probe(s: &zelvorm::State, account: usize, contract: usize) -> Probe {
    let h = s.accounts[account].holdings[contract];
    let terms = s.contracts[contract];
    Probe {
        balance: s.accounts[account].balance,
        bought: s.buycounts[contract],
        sold: s.sellcounts[contract],
        made: s.tradecount,
        long: h.long,
        short: h.short,
        startlong: h.startlong,
        startshort: h.startshort,
        reference: terms.reference,
        phase: terms.phase,
        last: terms.last,
        next: s.next,
        settlements: s.settlements,
    }
}

/// The runs that are counted give no answers: they have to leave the same areas and the same state, ours as far as it can be asked.
fn compare_counted(left: &Left, day: &[u8], commands: &[u8]) -> Result<(), String> {
    let [mut plain, mut best] = [Memory::new(), Memory::new()];
    let states = [exported(&plain_run(day, commands, &mut plain)), exported(&best_run(day, commands, &mut best))];
    if states != [left.state; 2] || plain != left.memory || best != left.memory {
        return Err("the counted run of a Rust version leaves something else".to_string());
    }
    for place in 0..ACCOUNTS * CONTRACTS {
        let (account, contract) = (place / CONTRACTS, place % CONTRACTS);
        let mut memory = Memory::new();
        let probed = ours::run(day, commands, &mut memory, account, contract);
        if probed != probe(&left.state, account, contract) || memory != left.memory {
            return Err("`run` alone leaves something else than the library".to_string());
        }
    }
    Ok(())
}

fn fail(list: &str, how: &str) -> ! {
    eprintln!("bench: {list}: {how}");
    exit(1)
}

fn compare_list(day: &[u8], list: &[Command]) {
    let commands = encode(list);
    let compared = left_by_all(day, &commands).and_then(|left| compare_counted(&left, day, &commands));
    if let Err(how) = compared {
        fail(&format!("a list of {} commands", list.len()), &how)
    }
}

/// Whether every command of a list is accepted.
fn accepted(day: &[u8], list: &[Command]) -> bool {
    let (mut state, mut memory) = (State::<Plain>::open(day), Memory::new());
    list.iter().all(|command| state.step(&mut memory.areas(), &command.bytes()).code == 0)
}

/// Random lists, the same at every run, and those counted; of these all but the mixed one are accepted whole.
pub fn compare() {
    let lists = 50;
    let mut r = Random::new();
    for i in 0..lists {
        let day = file(1 + r.below(32) as usize, [RICH, POOR][i % 2]);
        compare_list(&day, &mixed(&mut r, &day, 20 * i));
    }
    for number in 0..pair_count() {
        let (accounts, [_, with]) = pair(number);
        let day = file(accounts, RICH);
        assert!(number == MIXED || accepted(&day, &with));
        compare_list(&day, &with);
    }
    println!("exchange: same answers, states and areas of {lists} random lists of commands and of those counted");
}

/// The answers to the list of a seed.
fn answers_of_seed(seed: u64) -> Vec<zelvorm::Answer> {
    let (day, list) = list_of_seed(seed);
    match left_by_all(&day, &encode(&list)) {
        Ok(left) => left.answers,
        Err(how) => fail(&format!("the {} commands of seed {seed}", list.len()), &how),
    }
}

/// The list of one seed: what `compare_for` found can be found again.
pub fn compare_seed(seed: u64) {
    println!("exchange: same answers, states and areas of the {} commands of seed {seed}", answers_of_seed(seed).len());
}

/// Lists of fresh seeds, one after the other, for so many seconds.
pub fn compare_for(seconds: u64) {
    let begun = Instant::now();
    let first = SystemTime::now().duration_since(UNIX_EPOCH).unwrap().as_nanos() as u64;
    let mut lists = 0;
    let mut codes: BTreeMap<u32, u64> = BTreeMap::new();
    while begun.elapsed().as_secs() < seconds {
        for answer in answers_of_seed(first + lists) {
            *codes.entry(answer.code).or_default() += 1;
        }
        lists += 1;
    }
    let commands: u64 = codes.values().sum();
    let [commands, count] = [commands, lists].map(|n| grouped(n as f64));
    println!("exchange: same answers, states and areas of {commands} commands in {count} lists, of seed {first} and the next ones");
    head("Code", &["answers"]);
    for (code, answers) in codes {
        counts(&code.to_string(), &[answers as f64]);
    }
}
