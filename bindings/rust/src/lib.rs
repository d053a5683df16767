#![doc = include_str!("../README.md")]
#![deny(unsafe_code, missing_docs)]

mod codes;
mod commands;
mod exchange;
mod files;
/// The calls and records as the library has them, made from its source.
#[allow(unsafe_code, missing_docs)]
pub mod raw;

pub use codes::Refusal;
pub use commands::{Command, Effect, NewOrder, Phase, Price, Side, Time};
pub use exchange::{
    day_lines, Account, Answer, Contract, Exchange, Gettable, Holding, Order, Response, SettledAccount, Settlement,
    Trade,
};
pub use files::{
    mend, Day, Dropped, Leg, Mended, Method, Opening, OpeningAccount, Posting, Profit, Reason, Start, Statement, Terms,
};
pub use raw::{engine, Identity, Record, VERSION};
