//! A firm's morning orders in one call. One of them is refused, and the others stand.
//!
//!     bundle samples/paper-example.day

use zelvorm::{Command, Exchange, NewOrder, Phase, Refusal, Side};

fn order(account: u8, side: Side, lots: u32, price: u32) -> Command {
    Command::Insert(NewOrder::limit(account, 1, side, lots, price))
}

fn main() -> Result<(), Refusal> {
    let file = std::fs::read(std::env::args().nth(1).expect("name a day file")).expect("no such file");
    let mut exchange = Exchange::open(&file)?.exchange;

    let morning = [
        Command::Phase { contract: 1, phase: Phase::Continuous },
        order(1, Side::Sell, 5, 102),
        order(1, Side::Sell, 3, 111), // above the day's high
        order(1, Side::Buy, 4, 98),
        order(2, Side::Buy, 6, 102),
    ];
    let answers = exchange.bundle(&morning)?;
    println!("bundle: code 0");
    for (k, answer) in answers.iter().enumerate() {
        let code = answer.err().map_or(0, |refusal| refusal.code());
        let answer = answer.unwrap_or_default();
        println!("command {}: code {code}, order {}, traded {}, rested {}", k + 1, answer.order, answer.traded, answer.lots);
    }
    let resting = [Side::Buy, Side::Sell].map(|side| exchange.orders(side, 1).count());
    println!("resting: {} buys, {} sells", resting[0], resting[1]);
    Ok(())
}
