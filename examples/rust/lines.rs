//! A day file in, its lines out, without a day runner.
//!
//!     lines samples/paper-example.day

use std::io::{self, Write};

fn main() -> io::Result<()> {
    let file = std::fs::read(std::env::args().nth(1).expect("name a day file"))?;
    io::stdout().write_all(&zelvorm::day_lines(&file))
}
