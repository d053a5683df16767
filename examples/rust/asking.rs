//! How much could I get? An order is asked about before it is sent.
//!
//!     asking samples/paper-example.day

use zelvorm::{Command, Exchange, NewOrder, Phase, Price, Refusal, Side};

fn send(exchange: &mut Exchange, command: Command) -> Result<(), Refusal> {
    let answer = exchange.execute(command)?;
    println!("sent: code 0, traded {}, rested {}", answer.traded, answer.lots);
    Ok(())
}

fn ask(exchange: &Exchange, order: NewOrder) {
    let Price::Limit(price) = order.price else { return };
    let (code, lots, read) = match exchange.gettable(Command::Insert(order)) {
        Ok(asked) => (0, asked.lots, asked.orders_read),
        Err(refusal) => (refusal.code(), 0, 0),
    };
    println!("{} lots at {price}: code {code}, would trade {lots}, orders read {read}", order.lots);
}

fn main() -> Result<(), Refusal> {
    let file = std::fs::read(std::env::args().nth(1).expect("name a day file")).expect("no such file");
    let mut exchange = Exchange::open(&file)?.exchange;
    let buy = |lots, price| NewOrder::limit(2, 1, Side::Buy, lots, price);
    send(&mut exchange, Command::Phase { contract: 1, phase: Phase::Continuous })?;
    for (lots, price) in [(2, 102), (4, 103), (5, 105)] {
        send(&mut exchange, Command::Insert(NewOrder::limit(1, 1, Side::Sell, lots, price)))?;
    }
    ask(&exchange, buy(1, 102));
    ask(&exchange, buy(9, 104));
    ask(&exchange, buy(9, 111));
    send(&mut exchange, Command::Insert(buy(9, 104)))
}
