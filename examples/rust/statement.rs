//! An account's orders posted to its clients, and the statement printed.
//!
//!     statement samples/paper-example.day

use zelvorm::{Exchange, Posting, Refusal, Start, Statement};

fn print_statement(told: &Statement) {
    for leg in &told.legs {
        let side = format!("{:?} {:?}", leg.side, leg.effect).to_lowercase();
        println!("client {}: contract {}, {side}, {} lots at {}, order {}", leg.client, leg.contract, leg.lots, leg.price, leg.order);
    }
    for (client, held) in told.holdings.iter().enumerate() {
        for (contract, (long, short)) in held.iter().enumerate() {
            println!("client {}: contract {}, long {long}, short {short}", client + 1, contract + 1);
        }
    }
    for (client, profit) in told.profits.iter().enumerate() {
        println!("client {}: closing profit {}, holding profit {}", client + 1, profit.closing, profit.holding);
    }
}

fn main() -> Result<(), Refusal> {
    let file = std::fs::read(std::env::args().nth(1).expect("name a day file")).expect("no such file");

    // The day up to its settlement, which is the last command.
    let mut day = Exchange::open(&file)?;
    day.exchange.run(&day.commands[..day.commands.len() - 1]);

    // Account 2 has two clients, without lots in the morning. Order 3 closes what order 2 opened: both are client 1's.
    for client in [2, 1] {
        let postings = [Posting { order: 2, client: 1 }, Posting { order: 3, client }];
        match day.exchange.statement(2, &[Start::default(); 2], &postings) {
            Ok(told) => print_statement(&told),
            Err(refusal) => println!("statement refused, {refusal}"),
        }
    }
    Ok(())
}
