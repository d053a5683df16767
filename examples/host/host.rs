//! The loop that an exchange needs around the engine, so that nothing is lost when the machine stops.
//!
//!     host begin FOLDER FILE       begins the first day in a folder, from a day file's head or from a saved state
//!     host serve FOLDER [NUMBER]   takes commands from standard input, 24 bytes each, and gives their answers;
//!                                  before that it gives the answers from command NUMBER on once more
//!     host state FOLDER            the state after the last command, in lines
//!     host dayfile FOLDER          the first day as a day file, where it began with one
//!
//! A command is in the journal, and durable, before it is carried out and answered. After a crash the journal is played
//! again. README.md beside this file says what a client does then, and how a journal lies in its file; host.c has the
//! same journals, and the two can go on with each other's.
//!
//! Exit status: 0 the input has ended; 1 stopped, and standard error says why; 2 not called rightly.

use std::fs::{File, OpenOptions, TryLockError};
use std::io::{self, ErrorKind, Read, Write};
use std::os::unix::fs::FileExt;
use std::path::{Path, PathBuf};
use std::process::exit;
use zelvorm::{raw, Effect, Exchange, Record, Settlement, Side};

/// A settlement ends a day and a run has at most so many, so a folder has at most so many journals.
const MAX_DAYS: u32 = raw::MAX_SETTLEMENTS + 1;

// A journal is a head and then records. A record is a command's number (4), its 24 bytes and a checksum (4).
const RECORD_WIDTH: usize = 32;
const COMMAND_AT: usize = 4;
const CHECKSUM_AT: usize = 28;

// The head, by the places of its fields. The two texts after the last field have their length (4) before them: the
// engine's identity, and the file that the day began with. Zeros follow up to a multiple of 32; the head's last four
// bytes are its checksum.
const FORM: &[u8] = b"ZJOURN01";
const LENGTH_AT: usize = 8;
const DAY_AT: usize = 12;
const FIRST_AT: usize = 16;
const ORIGIN_AT: usize = 20;
const TEXTS_AT: usize = 24;
const MAX_HEAD: usize = 4096;
const FROM_DAY_FILE: u32 = 1;
const FROM_SAVED_STATE: u32 = 2;

/// No command has this number: where answers from it on are told again, none are.
const NOTHING_TOLD: u32 = u32::MAX;

/// How many commands are read and played at a time.
const BLOCK: usize = 1000;

/// Why the host stops.
struct Stop(String);

type Done<T> = Result<T, Stop>;

fn stop<T>(why: String) -> Done<T> {
    Err(Stop(why))
}

/// What an operation of the system could not do, in words.
trait Told<T> {
    fn told(self, words: impl FnOnce(io::Error) -> String) -> Done<T>;
}

impl<T> Told<T> for io::Result<T> {
    fn told(self, words: impl FnOnce(io::Error) -> String) -> Done<T> {
        self.map_err(|e| Stop(words(e)))
    }
}

// Numbers in files are little-endian.

fn number_at(bytes: &[u8], at: usize) -> u32 {
    u32::from_le_bytes(bytes[at..at + 4].try_into().unwrap())
}

fn put_number(bytes: &mut [u8], at: usize, number: u32) {
    bytes[at..at + 4].copy_from_slice(&number.to_le_bytes());
}

const fn crc_table() -> [u32; 256] {
    let mut table = [0; 256];
    let mut k = 0;
    while k < 256 {
        let mut sum = k as u32;
        let mut bit = 0;
        while bit < 8 {
            sum = sum >> 1 ^ if sum & 1 == 1 { 0xEDB88320 } else { 0 };
            bit += 1;
        }
        table[k] = sum;
        k += 1;
    }
    table
}

/// CRC-32, going on from the checksum before. The top bit is set, so that a record written whole never ends in a zero
/// byte, as the room of a write that was cut off does.
fn checksum(before: u32, bytes: &[u8]) -> u32 {
    static TABLE: [u32; 256] = crc_table();
    let sum = bytes.iter().fold(!before, |sum, byte| sum >> 8 ^ TABLE[usize::from(sum as u8 ^ byte)]);
    !sum | 0x8000_0000
}

/// Which engine this is, in one line.
fn identity() -> String {
    let engine = zelvorm::engine();
    format!("zelvorm {} kit {} sources {}", engine.version, engine.kit, engine.sources)
}

// ---- Files ----

/// The folder of the journals, locked for as long as the host is at work.
struct Folder {
    path: PathBuf,
    handle: File,
}

impl Folder {
    fn open(path: &Path) -> Done<Folder> {
        let handle = File::open(path).told(|e| format!("{}: {e}", path.display()))?;
        match handle.try_lock() {
            Ok(()) => Ok(Folder { path: path.to_path_buf(), handle }),
            Err(TryLockError::WouldBlock) => stop(format!("{}: another host is at work here; nothing was changed", path.display())),
            Err(TryLockError::Error(e)) => stop(format!("{} cannot be locked: {e}", path.display())),
        }
    }

    fn make_names_durable(&self) -> Done<()> {
        self.handle.sync_all().told(|e| format!("the folder cannot be made durable: {e}; start again to go on"))
    }

    /// The folder's own name too.
    fn make_durable(&self) -> Done<()> {
        self.make_names_durable()?;
        let above = File::open(self.path.join("..")).and_then(|above| above.sync_all());
        above.told(|e| format!("the folder above cannot be made durable: {e}"))
    }

    /// A file with these bytes, whole and durable before it has its name.
    fn put_in_place(&self, name: &str, bytes: &[u8]) -> Done<()> {
        let fresh = self.path.join(format!("{name}.new"));
        let put = || {
            let file = File::create(&fresh)?;
            file.write_all_at(bytes, 0)?;
            file.sync_all()?;
            std::fs::rename(&fresh, self.path.join(name))
        };
        put().told(|e| format!("{name} cannot be written: {e}; all answers given stand, start again to go on"))?;
        self.make_names_durable()
    }

    /// The last day that has a journal, or 0.
    fn last_day(&self) -> Done<u32> {
        for day in (1..=MAX_DAYS).rev() {
            let name = journal_name(day);
            if self.path.join(&name).try_exists().told(|e| format!("{name}: {e}"))? {
                return Ok(day);
            }
        }
        Ok(0)
    }

    /// Begins a day: its journal with a head and no commands.
    fn put_journal(&self, day: u32, first: u32, origin: u32, beginning: &[u8]) -> Done<()> {
        let mut head = vec![0; TEXTS_AT];
        head[..FORM.len()].copy_from_slice(FORM);
        put_number(&mut head, DAY_AT, day);
        put_number(&mut head, FIRST_AT, first);
        put_number(&mut head, ORIGIN_AT, origin);
        for text in [identity().as_bytes(), beginning] {
            head.extend((text.len() as u32).to_le_bytes());
            head.extend(text);
        }
        let length = (head.len() + 4).next_multiple_of(RECORD_WIDTH);
        if length > MAX_HEAD {
            return stop("the engine's identity is too long for a journal".into());
        }
        head.resize(length, 0);
        put_number(&mut head, LENGTH_AT, length as u32);
        let sum = checksum(0, &head[..length - 4]);
        put_number(&mut head, length - 4, sum);
        self.put_in_place(&journal_name(day), &head)
    }

    /// The journal of the folder's last day, to go on with: all that is in it is durable.
    fn last_journal(&self) -> Done<Journal> {
        let day = self.last_day()?;
        if day == 0 {
            return stop(format!("{} has no journal: host begin makes the first one", self.path.display()));
        }
        let journal = Journal::open(self, day, true)?;
        journal.check_engine()?;
        journal.make_last_durable()?;
        self.make_durable()?;
        Ok(journal)
    }
}

// ---- The journal ----

fn journal_name(day: u32) -> String {
    format!("day-{day:03}.journal")
}

/// A day's journal.
struct Journal {
    file: File,
    name: String,
    /// From 1.
    day: u32,
    /// The number of the day's first command.
    first: u32,
    /// How many are in the journal, whole.
    commands: u32,
    /// That of the last record, or of the head.
    checksum: u32,
    origin: u32,
    /// Of the head.
    length: usize,
    identity: Vec<u8>,
    beginning: Vec<u8>,
}

impl Journal {
    fn open(folder: &Folder, day: u32, to_write: bool) -> Done<Journal> {
        let name = journal_name(day);
        let file = OpenOptions::new().read(true).write(to_write).open(folder.path.join(&name));
        let file = file.told(|e| format!("{name} cannot be opened: {e}; nothing was changed"))?;
        let mut journal = Journal::with_head(file, name, day)?;
        journal.count_commands()?;
        Ok(journal)
    }

    /// The journal as its head tells.
    fn with_head(file: File, name: String, day: u32) -> Done<Journal> {
        let mut head = vec![0; MAX_HEAD];
        let there = read_at(&file, &name, &mut head, 0)?;
        if there < TEXTS_AT || !head.starts_with(FORM) {
            return stop(format!("{name} is not a journal; nothing was changed"));
        }
        let length = number_at(&head, LENGTH_AT) as usize;
        let is_whole = length >= RECORD_WIDTH && length.is_multiple_of(RECORD_WIDTH) && length <= there;
        if !is_whole || checksum(0, &head[..length - 4]) != number_at(&head, length - 4) {
            return stop(format!("{name} is damaged: the checksum of its head fails; nothing was changed"));
        }
        let texts = read_text(&head[TEXTS_AT..length - 4]).and_then(|(identity, rest)| Some((identity, read_text(rest)?.0)));
        let Some((identity, beginning)) = texts else {
            return stop(format!("{name} is damaged: its head does not hold together; nothing was changed"));
        };
        if number_at(&head, DAY_AT) != day {
            return stop(format!("{name} is the journal of day {}; nothing was changed", number_at(&head, DAY_AT)));
        }
        Ok(Journal {
            day,
            first: number_at(&head, FIRST_AT),
            commands: 0,
            checksum: number_at(&head, length - 4),
            origin: number_at(&head, ORIGIN_AT),
            length,
            identity: identity.to_vec(),
            beginning: beginning.to_vec(),
            file,
            name,
        })
    }

    /// The number that the next command gets.
    fn next(&self) -> u32 {
        self.first.wrapping_add(self.commands)
    }

    fn place_of(&self, command: u32) -> u64 {
        (self.length + command as usize * RECORD_WIDTH) as u64
    }

    /// Whether a record is the one that comes next in the journal.
    fn is_next(&self, record: &[u8]) -> bool {
        number_at(record, 0) == self.next() && number_at(record, CHECKSUM_AT) == checksum(self.checksum, &record[..CHECKSUM_AT])
    }

    /// Counts the records up to the end, or to a write that was cut off: a part of a record, or a last one that ends in
    /// a zero byte. Such a command was never answered, and the next one takes its place.
    fn count_commands(&mut self) -> Done<()> {
        let size = self.file.metadata().told(|e| format!("{}: {e}", self.name))?.len() as usize;
        let records = (size - self.length) / RECORD_WIDTH;
        let rest = (size - self.length) % RECORD_WIDTH;
        let mut block = vec![0; BLOCK * RECORD_WIDTH];
        while (self.commands as usize) < records {
            let there = read_at(&self.file, &self.name, &mut block, self.place_of(self.commands))?;
            for record in block[..there].chunks_exact(RECORD_WIDTH) {
                if !self.is_next(record) {
                    if self.commands as usize + 1 == records && rest == 0 && record[RECORD_WIDTH - 1] == 0 {
                        return Ok(());
                    }
                    return stop(format!(
                        "{} is damaged: the checksum of command {} fails, at byte {}; nothing was changed",
                        self.name,
                        self.next(),
                        self.place_of(self.commands)
                    ));
                }
                self.checksum = number_at(record, CHECKSUM_AT);
                self.commands += 1;
            }
        }
        Ok(())
    }

    /// Another engine might answer otherwise.
    fn check_engine(&self) -> Done<()> {
        let own = identity();
        if self.identity == own.as_bytes() {
            return Ok(());
        }
        let other = String::from_utf8_lossy(&self.identity);
        stop(format!(
            "{} is of another engine; nothing was changed\n  the journal's: {other}\n  this one:      {own}",
            self.name
        ))
    }

    /// The last record may be there without being durable: its host was killed too early, or the disk refused. Then only
    /// bytes that are written once more are sure to reach the disk.
    fn make_last_durable(&self) -> Done<()> {
        if self.commands == 0 {
            return Ok(());
        }
        let place = self.place_of(self.commands - 1);
        let mut record = [0; RECORD_WIDTH];
        read_at(&self.file, &self.name, &mut record, place)?;
        let written = self.file.write_all_at(&record, place).and_then(|()| self.file.sync_data());
        written.told(|e| format!("{} cannot be written: {e}; no answer was given", self.name))
    }

    /// Puts a command at the journal's end and makes it durable.
    fn append(&mut self, command: &[u8; raw::COMMAND_WIDTH]) -> Done<()> {
        let number = self.next();
        if number == NOTHING_TOLD {
            return stop("the numbers of commands are used up: begin in another folder, after a settlement".into());
        }
        let mut record = [0; RECORD_WIDTH];
        put_number(&mut record, 0, number);
        record[COMMAND_AT..CHECKSUM_AT].copy_from_slice(command);
        let sum = checksum(self.checksum, &record[..CHECKSUM_AT]);
        put_number(&mut record, CHECKSUM_AT, sum);
        let written = self.file.write_all_at(&record, self.place_of(self.commands)).and_then(|()| self.file.sync_data());
        written.told(|e| {
            format!(
                "{} cannot be written: {e}; all answers given stand, and the next start tells whether command {number} is \
                 carried out",
                self.name
            )
        })?;
        self.checksum = sum;
        self.commands += 1;
        Ok(())
    }

    /// Commands from a place of the journal on.
    fn read_commands(&self, from: u32, count: usize) -> Done<Vec<[u8; raw::COMMAND_WIDTH]>> {
        let mut block = vec![0; count * RECORD_WIDTH];
        read_at(&self.file, &self.name, &mut block, self.place_of(from))?;
        Ok(block.chunks_exact(RECORD_WIDTH).map(|record| record[COMMAND_AT..CHECKSUM_AT].try_into().unwrap()).collect())
    }
}

/// As many of the bytes from a place on as there are.
fn read_at(file: &File, name: &str, bytes: &mut [u8], place: u64) -> Done<usize> {
    let mut done = 0;
    while done < bytes.len() {
        match file.read_at(&mut bytes[done..], place + done as u64).told(|e| format!("{name} cannot be read: {e}"))? {
            0 => break,
            got => done += got,
        }
    }
    Ok(done)
}

/// A text of the head and what follows it, where it lies in the head.
fn read_text(bytes: &[u8]) -> Option<(&[u8], &[u8])> {
    let (count, rest) = bytes.split_at_checked(4)?;
    rest.split_at_checked(number_at(count, 0) as usize)
}

// ---- The day ----

/// A day at work: its journal, and the exchange after the journal's commands.
struct Day {
    journal: Journal,
    exchange: Exchange,
    /// How many settlements were made before this day.
    settled: u32,
}

impl Day {
    /// The exchange as the day began, by `open` or by `read`.
    fn begin(journal: Journal) -> Done<Day> {
        let begun = if journal.origin == FROM_DAY_FILE {
            Exchange::open(&journal.beginning).map(|day| day.exchange)
        } else {
            Exchange::read(&journal.beginning)
        };
        let exchange = begun.map_err(|refusal| Stop(format!("{} begins with a file that is refused, {refusal}", journal.name)))?;
        Ok(Day { settled: exchange.settlements(), journal, exchange })
    }

    /// The day after all that its journal has: by `run`, and from command `told` on one by one, with the answers.
    fn played(journal: Journal, told: u32) -> Done<Day> {
        let mut day = Day::begin(journal)?;
        let silent = told.saturating_sub(day.journal.first).min(day.journal.commands);
        let mut answers = vec![0; BLOCK * raw::ANSWER_STRIDE];
        for from in (0..silent).step_by(BLOCK) {
            let commands = day.journal.read_commands(from, BLOCK.min((silent - from) as usize))?;
            day.exchange.run_bytes(commands.as_flattened(), &mut answers);
        }
        for k in silent..day.journal.commands {
            let command = day.journal.read_commands(k, 1)?[0];
            day.carry_out(day.journal.first + k, &command)?;
        }
        Ok(day)
    }

    /// Carries out a command of the journal and gives its answer, in the lines of the day runner.
    fn carry_out(&mut self, number: u32, command: &[u8; raw::COMMAND_WIDTH]) -> Done<()> {
        let before = self.exchange.trades().count();
        let response = self.exchange.respond(Record::from_bytes(command));
        let code = response.answer.err().map_or(0, |refusal| refusal.code());
        let answer = response.answer.unwrap_or_default();
        let mut lines = format!("C {number} {code} {} {} {}\n", answer.order, answer.traded, answer.lots);
        for (k, t) in self.exchange.trades().enumerate().skip(before) {
            lines += &format!("T {} {} {} {} {} {}\n", k + 1, t.contract, t.price, t.lots, t.buy_order, t.sell_order);
        }
        lines += &response.settlement.map_or(String::new(), |settlement| settlement_lines(&settlement));
        give(lines.as_bytes())
    }

    fn is_over(&self) -> bool {
        self.exchange.settlements() > self.settled
    }

    /// After its settlement a day is saved, and the next day's journal begins with what was saved.
    fn next_day(self, folder: &Folder) -> Done<Day> {
        let day = self.journal.day;
        let saved = self.exchange.write().map_err(|refusal| Stop(format!("day {day} cannot be saved, {refusal}")))?;
        folder.put_in_place(&format!("day-{day:03}.saved"), &saved)?;
        folder.put_journal(day + 1, self.journal.next(), FROM_SAVED_STATE, &saved)?;
        Day::begin(Journal::open(folder, day + 1, true)?)
    }
}

fn settlement_lines(settlement: &Settlement) -> String {
    let mut lines = String::new();
    for (c, price) in settlement.prices.iter().enumerate() {
        lines += &format!("P {} {price}\n", c + 1);
    }
    for (a, account) in settlement.accounts.iter().enumerate() {
        lines += &format!("B {} {} {} {} {}\n", a + 1, account.closing, account.holding, account.balance, account.charged);
    }
    lines
}

/// An exchange in lines. Their fields are those of the records in zelvorm.rs; accounts and contracts are numbered from 1.
fn state_lines(exchange: &Exchange) -> String {
    let mut lines = String::new();
    for (k, c) in exchange.contracts().enumerate() {
        let t = c.terms;
        let terms = format!("{} {} {} {} {} {} {}", t.multiplier, t.tick, t.reference, t.band, t.limit, t.rate, t.method as u16);
        lines += &format!("contract {} {terms} {} {}\n", k + 1, c.phase as u32, c.last);
        lines += &order_lines(exchange, Side::Buy, "buy", k + 1);
        lines += &order_lines(exchange, Side::Sell, "sell", k + 1);
    }
    for (k, a) in exchange.accounts().enumerate() {
        lines += &format!("account {} {} {}\n", k + 1, a.balance, u8::from(a.is_maker));
        for (c, h) in a.holdings.iter().enumerate() {
            lines += &format!("holding {} {} {} {} {} {}\n", k + 1, c + 1, h.long, h.short, h.start_long, h.start_short);
        }
    }
    for t in exchange.trades() {
        let closes = format!("{} {}", is_close(t.buy_effect), is_close(t.sell_effect));
        let orders = format!("{} {} {} {}", t.buy_order, t.sell_order, t.buyer, t.seller);
        lines += &format!("trade {} {} {} {orders} {closes}\n", t.contract, t.price, t.lots);
    }
    let (state, ..) = exchange.parts();
    lines + &format!("next {} {} {}\n", state.next, state.nextstamp, state.settlements)
}

/// One side's resting orders, best first.
fn order_lines(exchange: &Exchange, side: Side, name: &str, contract: usize) -> String {
    let mut lines = String::new();
    for o in exchange.orders(side, contract) {
        let marks = format!("{} {} {}", is_close(o.effect), o.stamp, u8::from(o.is_quote));
        lines += &format!("{name} {contract} {} {} {} {} {marks}\n", o.number, o.account, o.price, o.lots);
    }
    lines
}

fn is_close(effect: Effect) -> u8 {
    u8::from(effect == Effect::Close)
}

// ---- What the host is asked to do ----

/// All of it goes out.
fn give(bytes: &[u8]) -> Done<()> {
    let mut out = io::stdout().lock();
    out.write_all(bytes).and_then(|()| out.flush()).told(|e| format!("an answer could not be given: {e}; what is durable stands"))
}

fn begin(path: &Path, file_path: &Path) -> Done<()> {
    let mut file = std::fs::read(file_path).told(|e| format!("{}: {e}", file_path.display()))?;
    let mut origin = FROM_DAY_FILE;
    if let Ok(day) = Exchange::open(&file) {
        file.truncate(file.len() - raw::COMMAND_WIDTH * day.commands.len());
        let count_at = file.len() - raw::COUNT_WIDTH;
        put_number(&mut file, count_at, 0);
    } else {
        origin = FROM_SAVED_STATE;
        let read = Exchange::read(&file);
        read.map_err(|refusal| Stop(format!("{} is neither a day file nor a saved state, {refusal}", file_path.display())))?;
    }
    match std::fs::create_dir(path) {
        Err(e) if e.kind() != ErrorKind::AlreadyExists => return stop(format!("{} cannot be made: {e}", path.display())),
        _ => {}
    }
    let folder = Folder::open(path)?;
    if folder.last_day()? != 0 {
        return stop(format!("{} has a journal already; nothing was changed", path.display()));
    }
    folder.put_journal(1, 1, origin, &file)?;
    folder.make_durable()
}

/// The next command of standard input, if there is one.
fn read_command(number: u32) -> Done<Option<[u8; raw::COMMAND_WIDTH]>> {
    let mut command = Vec::new();
    let read = io::stdin().lock().take(raw::COMMAND_WIDTH as u64).read_to_end(&mut command);
    match read.told(|e| format!("standard input cannot be read: {e}"))? {
        0 => Ok(None),
        raw::COMMAND_WIDTH => Ok(command.try_into().ok()),
        count => stop(format!("the input ends with {count} bytes that are no command; command {number} is the next one")),
    }
}

/// Gives the answers of the days before the last one once more, from a command on.
fn tell_earlier_days(folder: &Folder, last: &Journal, told: u32) -> Done<()> {
    let (mut day, mut first) = (last.day, last.first);
    while told < first && day > 1 {
        day -= 1;
        first = Journal::open(folder, day, false)?.first;
    }
    for day in day..last.day {
        let journal = Journal::open(folder, day, false)?;
        journal.check_engine()?;
        Day::played(journal, told)?;
    }
    Ok(())
}

fn serve(path: &Path, told: u32) -> Done<()> {
    let folder = Folder::open(path)?;
    let journal = folder.last_journal()?;
    if told > journal.next() && told != NOTHING_TOLD {
        return stop(format!(
            "{} ends with command {}, and answers from {told} on are asked for: something answered is not here; nothing \
             was changed",
            journal.name,
            journal.next() - 1
        ));
    }
    tell_earlier_days(&folder, &journal, told)?;
    let mut day = Day::played(journal, told)?;
    loop {
        if day.is_over() {
            day = day.next_day(&folder)?;
        }
        let next = day.journal.next();
        give(format!("N {next}\n").as_bytes())?;
        let Some(command) = read_command(next)? else { return Ok(()) };
        day.journal.append(&command)?;
        day.carry_out(next, &command)?;
    }
}

fn show_state(path: &Path) -> Done<()> {
    let folder = Folder::open(path)?;
    let day = Day::played(folder.last_journal()?, NOTHING_TOLD)?;
    give(format!("{}N {}\n", state_lines(&day.exchange), day.journal.next()).as_bytes())
}

fn show_day_file(path: &Path) -> Done<()> {
    let folder = Folder::open(path)?;
    let journal = Journal::open(&folder, 1, false)?;
    if journal.origin != FROM_DAY_FILE {
        return stop(format!("{} began with a saved state, so that it is no day file", journal.name));
    }
    let count = journal.commands as usize;
    if count > raw::MAX_COMMANDS {
        return stop(format!("{} has {count} commands, and a day file has at most {}", journal.name, raw::MAX_COMMANDS));
    }
    let mut file = journal.beginning.clone();
    let count_at = file.len() - raw::COUNT_WIDTH;
    put_number(&mut file, count_at, journal.commands);
    file.extend(journal.read_commands(0, count)?.as_flattened());
    give(&file)
}

fn usage() -> ! {
    eprintln!("usage: host begin FOLDER FILE\n       host serve FOLDER [NUMBER]\n       host state FOLDER\n       host dayfile FOLDER");
    exit(2)
}

/// A command's number.
fn number_in(word: &str) -> u32 {
    match word.parse() {
        Ok(number) if number > 0 && number < NOTHING_TOLD && word.starts_with(|c: char| c.is_ascii_digit()) => number,
        _ => usage(),
    }
}

fn main() {
    let words: Vec<String> = std::env::args().skip(1).collect();
    let words: Vec<&str> = words.iter().map(String::as_str).collect();
    let done = match words[..] {
        ["begin", folder, file] => begin(folder.as_ref(), file.as_ref()),
        ["serve", folder] => serve(folder.as_ref(), NOTHING_TOLD),
        ["serve", folder, number] => serve(folder.as_ref(), number_in(number)),
        ["state", folder] => show_state(folder.as_ref()),
        ["dayfile", folder] => show_day_file(folder.as_ref()),
        _ => usage(),
    };
    if let Err(Stop(why)) = done {
        eprintln!("host: {why}");
        exit(1);
    }
}
