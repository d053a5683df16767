//! A day file's commands one by one, and the lines that document 01 prints for them.
//!
//!     day samples/paper-example.day

use zelvorm::{Exchange, Settlement};

/// The trades recorded since there were `before` of them.
fn print_trades(exchange: &Exchange, before: usize) {
    for (k, t) in exchange.trades().enumerate().skip(before) {
        println!("T {} {} {} {} {} {}", k + 1, t.contract, t.price, t.lots, t.buy_order, t.sell_order);
    }
}

fn print_settlement(settlement: &Settlement) {
    for (c, price) in settlement.prices.iter().enumerate() {
        println!("P {} {price}", c + 1);
    }
    for (a, account) in settlement.accounts.iter().enumerate() {
        println!("B {} {} {} {} {}", a + 1, account.closing, account.holding, account.balance, account.charged);
    }
}

fn main() {
    let file = std::fs::read(std::env::args().nth(1).expect("name a day file")).expect("no such file");
    let day = match Exchange::open(&file) {
        Ok(day) => day,
        Err(refusal) => return println!("X {}", refusal.code()),
    };
    let mut exchange = day.exchange;
    for (k, &command) in day.commands.iter().enumerate() {
        let before = exchange.trades().count();
        let response = exchange.respond(command);
        let code = response.answer.err().map_or(0, |refusal| refusal.code());
        let answer = response.answer.unwrap_or_default();
        println!("C {} {code} {} {} {}", k + 1, answer.order, answer.traded, answer.lots);
        print_trades(&exchange, before);
        if let Some(settlement) = response.settlement {
            print_settlement(&settlement);
        }
    }
}
