//! Instructions counted by valgrind, and the lines that tell them.

use std::fmt::Display;
use std::path::Path;
use std::process::{exit, Command, Stdio};

/// What this program prints and the instructions it takes within one function alone, run again with some words under valgrind.
pub fn counted(function: &str, words: &[String]) -> (String, f64) {
    counted_of(&std::env::current_exe().unwrap(), function, words, Stdio::null(), None)
}

/// The same from the last call of another function on.
pub fn counted_from(function: &str, from: &str, words: &[String]) -> f64 {
    counted_of(&std::env::current_exe().unwrap(), function, words, Stdio::null(), Some(from)).1
}

/// The same of any program on some input.
pub fn counted_of(program: &Path, function: &str, words: &[String], input: Stdio, from: Option<&str>) -> (String, f64) {
    let out = std::env::current_exe().unwrap().with_extension("callgrind");
    let said = Command::new("valgrind")
        .arg("--tool=callgrind")
        .arg(format!("--toggle-collect={function}"))
        .arg(format!("--callgrind-out-file={}", out.display()))
        .args(from.map(|from| format!("--dump-before={from}")))
        .arg(program)
        .args(words)
        .stdin(input)
        .output();
    let (Ok(said), Ok(profile)) = (said, std::fs::read_to_string(&out)) else {
        eprintln!("bench: valgrind did not run");
        exit(2)
    };
    let total = profile.lines().find_map(|line| line.strip_prefix("totals: ")).and_then(|n| n.trim().parse().ok());
    let Some(total) = total else {
        eprintln!("bench: valgrind counted nothing:\n{}", String::from_utf8_lossy(&said.stderr));
        exit(2)
    };
    (String::from_utf8_lossy(&said.stdout).trim().to_string(), total)
}

/// A number as README writes it: "1,234".
pub fn grouped(n: f64) -> String {
    let digits = format!("{n:.0}");
    let groups: Vec<&str> = digits.as_bytes().rchunks(3).rev().map(|group| std::str::from_utf8(group).unwrap()).collect();
    groups.join(",")
}

/// One line of a table as README has it: a name, and what stands in the columns.
fn line(name: &str, cells: &[impl Display]) {
    print!("| {name:34} |");
    cells.iter().for_each(|cell| print!(" {cell:>10} |"));
    println!();
}

/// The first lines of a table.
pub fn head(title: &str, columns: &[impl Display]) {
    println!();
    line(title, columns);
    println!("|---{}|", "|---".repeat(columns.len()));
}

/// Counts, each in its column.
pub fn counts(name: &str, counts: &[f64]) {
    line(name, &counts.iter().map(|count| grouped(*count)).collect::<Vec<_>>());
}

/// Ours, and each other version with the ratio to it.
pub fn row(name: &str, ours: f64, others: &[f64]) {
    let beside = others.iter().flat_map(|other| [grouped(*other), format!("{:.2}", ours / other)]);
    line(name, &[grouped(ours)].into_iter().chain(beside).collect::<Vec<_>>());
}
