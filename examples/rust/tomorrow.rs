//! A day is settled and its state written; tomorrow it is read, and trading goes on.
//!
//!     tomorrow samples/paper-example.day

use zelvorm::{Command, Exchange, NewOrder, Phase, Refusal, Side};

fn main() -> Result<(), Refusal> {
    let file = std::fs::read(std::env::args().nth(1).expect("name a day file")).expect("no such file");

    // The day up to its settlement, which is the last command.
    let mut today = Exchange::open(&file)?;
    today.exchange.run(&today.commands[..today.commands.len() - 1]);
    if let Err(refusal) = today.exchange.write() {
        println!("before the settlement: {refusal}");
    }
    today.exchange.settle()?;
    let saved = today.exchange.write()?;
    println!("after it: {} bytes", saved.len());

    let mut tomorrow = Exchange::read(&saved)?;
    println!("read: settlements {}", tomorrow.settlements());
    for (k, account) in tomorrow.accounts().enumerate() {
        let held = account.holdings[0];
        println!("account {}: balance {}, long {}, short {}", k + 1, account.balance, held.long, held.short);
    }
    tomorrow.execute(Command::Phase { contract: 1, phase: Phase::Continuous })?;
    let answer = tomorrow.execute(Command::Insert(NewOrder::limit(2, 1, Side::Sell, 1, 105)))?;
    println!("sent: order {}, rested {}", answer.order, answer.lots);

    if let Err(refusal) = Exchange::read(&saved[1..]) {
        println!("damaged: {refusal}");
    }
    Ok(())
}
