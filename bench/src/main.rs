//! Instructions per operation of the order book, per command of the exchange and of the day runner, beside Rust versions of each.
//! `bench/run` builds and starts it.

mod agreement;
mod auction;
mod best;
mod cases;
mod count;
mod days;
mod design;
mod exchange;
mod exchanges;
mod ours;
mod plain;
mod runner;
#[path = "../../include/zelvorm.rs"]
mod zelvorm;

use best::Best;
use cases::{any_sweeps, queue_case, whole_sweeps, Random, Sweeps, SweepsCase, Swept};
use count::{counted, counted_of, grouped, head, row};
use design::Plain;
use exchange::State;
use plain::Order;
use std::hint::black_box;
use std::io::Write;
use std::path::Path;
use std::process::exit;

// What is counted of the Rust version, under names that valgrind is given.

#[no_mangle]
#[inline(never)]
fn plain_insert(area: &mut [u32], contract: usize, count: usize, sell: bool, o: &Order) {
    plain::insert(area, contract, count, sell, o)
}

#[no_mangle]
#[inline(never)]
fn plain_cancel(area: &mut [u32], contract: usize, count: usize, number: u32) -> usize {
    plain::cancel(area, contract, count, number)
}

#[no_mangle]
#[inline(never)]
fn plain_sweeps(own: &mut [u32], opposite: &mut [u32], trades: &mut [u32], s: &Sweeps, times: usize) -> Swept {
    plain::sweeps(own, opposite, trades, s, times)
}

type Insert = fn(&mut [u32], usize, usize, bool, &Order);
type Cancel = fn(&mut [u32], usize, usize, u32) -> usize;
type Enter = fn(&mut [u32], &mut [u32], &mut [u32], &Sweeps, usize) -> Swept;

/// The operations of one book, and the names of the functions that are counted.
struct Book {
    insert: Insert,
    cancel: Cancel,
    sweeps: Enter,
    counted: [&'static str; 3],
}

const OURS: Book = Book {
    insert: ours::insert,
    cancel: ours::cancel,
    sweeps: ours::sweeps,
    counted: ["bench_insert", "bench_cancel", "bench_sweeps"],
};

const PLAIN: Book = Book {
    insert: plain_insert,
    cancel: plain_cancel,
    sweeps: plain_sweeps,
    counted: ["plain_insert", "plain_cancel", "plain_sweeps"],
};

const BOOKS: [&Book; 2] = [&OURS, &PLAIN];

const OPERATIONS: [&str; 5] =
    ["insert", "cancel", "sweep over 1 order", "sweep over 8 orders", "sweep over 32 orders"];

fn run(book: &Book, case: &SweepsCase) -> (Swept, SweepsCase) {
    let mut after = case.clone();
    let swept = (book.sweeps)(&mut after.own, &mut after.opposite, &mut after.trades, &case.order, case.times);
    (swept, after)
}

fn differ(operation: &str) -> ! {
    eprintln!("bench: the two books differ at a random {operation}");
    exit(1)
}

/// Runs the same random operations on each book: the answers and all areas have to be equal, word for word.
fn compare() {
    let rounds = 50_000;
    let mut r = Random::new();
    for i in 0..rounds {
        let case = queue_case(&mut r, i % 64, 3);
        let mut areas = [case.area.clone(), case.area.clone()];
        for (area, book) in areas.iter_mut().zip(BOOKS) {
            (book.insert)(area, case.contract, case.count, case.sell, &case.order);
        }
        if areas[0] != areas[1] {
            differ("insert");
        }
        let mut areas = [case.area.clone(), case.area.clone()];
        let mut counts = [0; 2];
        for (i, area) in areas.iter_mut().enumerate() {
            counts[i] = (BOOKS[i].cancel)(area, case.contract, case.count, case.number);
        }
        if areas[0] != areas[1] || counts[0] != counts[1] {
            differ("cancel");
        }
        let mut case = any_sweeps(&mut r);
        case.order.probe = (i % cases::ACCOUNTS) as u32;
        let [(swept, after), (other, same)] = BOOKS.map(|book| run(book, &case));
        if swept != other || after.own != same.own || after.opposite != same.opposite || after.trades != same.trades {
            differ("sweep");
        }
    }
    println!("book: same results of {rounds} random inserts, cancels and sweeps each");
}

/// Runs one book on the inputs of one operation, and gives the number of operations.
fn exercise(operation: usize, book: &Book) -> usize {
    let mut r = Random::new();
    let mut operations = 0;
    for round in 0..3200 {
        match operation {
            0 => {
                let mut case = queue_case(&mut r, round % 64, 0);
                (book.insert)(&mut case.area, case.contract, case.count, case.sell, &case.order);
                black_box(case.area);
                operations += 1;
            }
            1 => {
                let mut case = queue_case(&mut r, 1 + round % 64, 0);
                black_box((book.cancel)(&mut case.area, case.contract, case.count, case.number));
                black_box(case.area);
                operations += 1;
            }
            _ if round < 100 => {
                let case = whole_sweeps(&mut r, [1, 8, 32][operation - 2]);
                black_box(run(book, &case));
                operations += case.times;
            }
            _ => break,
        }
    }
    operations
}

fn per_operation(operation: usize, which: usize) -> f64 {
    let words = ["book".to_string(), operation.to_string(), which.to_string()];
    let (operations, total) = counted(BOOKS[which].counted[operation.min(2)], &words);
    total / operations.parse::<f64>().unwrap()
}

fn book() {
    head("Instructions per operation", &["ours", "Rust", "ratio"]);
    for (operation, name) in OPERATIONS.iter().enumerate() {
        row(name, per_operation(operation, 0), &[per_operation(operation, 1)]);
    }
}

#[no_mangle]
#[inline(never)]
fn plain_day(file: &[u8]) {
    std::io::stdout().write_all(&runner::lines::<Plain>(file)).unwrap();
}

#[no_mangle]
#[inline(never)]
fn best_day(file: &[u8]) {
    std::io::stdout().write_all(&runner::lines::<Best>(file)).unwrap();
}

/// The days that the runners are given, and what they have to print.
const DAYS: [&str; 3] = ["largest-file", "full-day", "every-code"];

fn sample(day: usize, kind: &str) -> Vec<u8> {
    std::fs::read(format!("samples/{}.{kind}", DAYS[day])).unwrap()
}

fn runners() {
    println!("\nday runner: all print the lines of the samples");
    head("Instructions per command", &exchanges::VERSIONS);
    for (day, name) in DAYS.iter().enumerate() {
        let file = sample(day, "day");
        let input = std::fs::File::open(format!("samples/{name}.day")).unwrap();
        let ours = counted_of(Path::new("target/bin/dayrun"), "main", &[], input.into(), None);
        let [plain, best] = ["plain_day", "best_day"].map(|function| counted(function, &[function.into(), day.to_string()]));
        let runs = [ours, plain, best];
        let lines = String::from_utf8(sample(day, "out")).unwrap();
        if runs.iter().any(|(printed, _)| printed != lines.trim()) {
            eprintln!("bench: a runner does not print the lines of {name}");
            exit(1)
        }
        let state = State::<Plain>::open(&file);
        let commands = (file.len() - 12 - 20 * state.contractcount - 8 * state.accountcount) / exchange::RECORD;
        let [ours, plain, best] = runs.map(|(_, total)| total / commands as f64);
        row(&format!("`{name}`, {} commands", grouped(commands as f64)), ours, &[plain, best]);
    }
}

fn main() {
    let words: Vec<String> = std::env::args().skip(1).collect();
    let numbers: Vec<usize> = words.iter().filter_map(|word| word.parse().ok()).collect();
    match (words.first().map(String::as_str), &numbers[..]) {
        (Some("book"), &[operation, which]) => println!("{}", exercise(operation, BOOKS[which])),
        (Some("list"), &[number, with, which]) => exchanges::exercise_list(number, with, which),
        (Some("test"), &[orders, trades]) => exchanges::exercise_test(orders, trades),
        (Some("execute"), &[number]) => exchanges::exercise_execute(number),
        (Some("plain_day"), &[day]) => plain_day(&sample(day, "day")),
        (Some("best_day"), &[day]) => best_day(&sample(day, "day")),
        (Some("compare"), &[seconds]) => agreement::compare_for(seconds as u64),
        (Some("seed"), &[seed]) => agreement::compare_seed(seed as u64),
        (Some("compare"), _) => {
            compare();
            agreement::compare();
        }
        _ => {
            compare();
            agreement::compare();
            book();
            exchanges::rows();
            runners();
        }
    }
}
