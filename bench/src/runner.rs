//! The day runner in Rust, by either design: a sound day file's lines, after document 01.

use crate::cases::TRADE;
use crate::days::Memory;
use crate::design::Design;
use crate::exchange::{State, RECORD};
use std::io::Write;

/// The lines of a sound file.
pub fn lines<D: Design>(file: &[u8]) -> Vec<u8> {
    let mut memory = Memory::new();
    let mut areas = memory.areas();
    let mut state = State::<D>::open(file);
    let mut out = Vec::new();
    let first = 12 + 20 * state.contractcount + 8 * state.accountcount;
    for (k, record) in file[first..].chunks_exact(RECORD).enumerate() {
        let (made, settlements) = (state.made, state.settlements);
        let a = state.step(&mut areas, record);
        writeln!(out, "C {} {} {} {} {}", k + 1, a.code, a.number, a.traded, a.lots).unwrap();
        for i in made..state.made {
            let t = &areas.trades[TRADE * i..][..TRADE];
            writeln!(out, "T {} {} {} {} {} {}", i + 1, t[0] + 1, t[1], t[2], t[3], t[4]).unwrap();
        }
        if state.settlements != settlements {
            for c in 0..state.contractcount {
                writeln!(out, "P {} {}", c + 1, state.contracts[c].reference).unwrap();
            }
            for a in 0..state.accountcount {
                let r = state.report[a];
                writeln!(out, "B {} {} {} {} {}", a + 1, r.closing, r.holding, state.accounts[a].balance, r.charged).unwrap();
            }
        }
    }
    out
}
