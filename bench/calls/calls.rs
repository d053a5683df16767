//! So many rounds of the measured commands on a state, through the Rust crate: as calls.c.

use std::env;
use std::fs;
use zelvorm::{Command, Exchange, Record};

fn by_execute(exchange: &mut Exchange, commands: &[Command]) -> usize {
    commands.iter().filter(|&&command| exchange.execute(command).is_ok()).count()
}

fn by_bundle(exchange: &mut Exchange, commands: &[Command]) -> usize {
    let answers = exchange.bundle(commands).expect("a bundle of 100 on a state that is well formed");
    answers.iter().filter(|answer| answer.is_ok()).count()
}

fn by_run(exchange: &mut Exchange, commands: &[Command]) -> usize {
    exchange.run(commands).iter().filter(|answer| answer.is_ok()).count()
}

fn by_none(_: &mut Exchange, _: &[Command]) -> usize {
    0
}

fn main() {
    let words: Vec<String> = env::args().collect();
    let content = |end: &str| fs::read(format!("{}/{}{end}", words[1], words[2])).expect("states.py makes it");
    let mut day = Exchange::open(&content(".day")).expect("a day file");
    day.exchange.run(&day.commands);
    let record = |bytes: &[u8]| Record::from_bytes(bytes.try_into().expect("24 bytes"));
    let commands: Vec<Command> =
        content(".commands").chunks_exact(24).map(|bytes| record(bytes).try_into().expect("a command")).collect();
    let round = match &words[3][..] {
        "execute" => by_execute,
        "bundle" => by_bundle,
        "run" => by_run,
        _ => by_none,
    };
    let mut found = 0;
    for _ in 0..words[4].parse().expect("a number of rounds") {
        let mut exchange = day.exchange.clone();
        found += round(&mut exchange, &commands);
    }
    println!("{found}");
}
