//! Measures the proved terminal against this package's own: the same messages
//! on both, in one run.
//!
//! Prints one line for each row: its name, messages per second of plain Rust
//! and of the proved terminal, and the ratio of the two (over 1 means that the
//! proved one is faster) as median, smallest and largest of the repeats.

mod rows;

use std::env;
use std::process::ExitCode;
use std::time::Duration;

use plain_terminal::clock::Clock;
use plain_terminal::controller;
use plain_terminal::engine::{self, boundary as proved};
use plain_terminal::spread::Spread;
use plain_terminal::terminal::boundary::{
    self as plain, settings_words, ANSWER_WORDS, COUNTS_WORDS, LISTING_WORDS, LONG_WORDS,
    PAIRS_WORDS, REMEMBERED_WORDS, SETTINGS_WORDS, UNSOUND_WORDS, VALUE_WORDS,
};
use plain_terminal::terminal::long::LONG_BYTES;
use plain_terminal::terminal::message::REPLY_WORDS;
use plain_terminal::terminal::records::RECORD_BYTES;
use plain_terminal::terminal::who::Origin;
use plain_terminal::terminal::{self, Settings};

use rows::{rows, Row, Work};

const USAGE: &str = "usage: bench, or bench --count ROW plain|proved MESSAGES";
const REPEATS: usize = 11;
const BATCH: Duration = Duration::from_millis(30);

fn main() -> ExitCode {
    let arguments: Vec<String> = env::args().skip(1).collect();
    let arguments: Vec<&str> = arguments.iter().map(String::as_str).collect();
    match arguments[..] {
        [] => rows().iter().for_each(measure),
        ["--count", name, side, messages] => return count(name, side, messages),
        _ => return usage(),
    }
    ExitCode::SUCCESS
}

fn usage() -> ExitCode {
    eprintln!("bench: {USAGE}");
    ExitCode::from(2)
}

/// The tables of a whole trace: a sum over what they say of two addresses.
macro_rules! who_all {
    ($walk:ident, $go_on:expr) => {{
        $go_on;
        let told = [0x0100, 0x0402].map(|address| $walk.who(address));
        told.into_iter().map(sum_of).sum()
    }};
}

fn plain_who_all(image: &[u16], settings: &Settings, trace: &[u8]) -> u64 {
    let mut walk = terminal::who::Walk::new(image, settings).expect("the row is not refused");
    who_all!(
        walk,
        trace
            .chunks_exact(RECORD_BYTES)
            .for_each(|record| walk.record(record))
    )
}

fn proved_who_all(image: &[u16], settings: &Settings, trace: &[u8]) -> u64 {
    let mut walk = engine::who::Walk::new(image, settings).expect("the row is not refused");
    who_all!(walk, walk.go_on(trace))
}

fn sum_of(told: Result<Option<Origin>, u16>) -> u64 {
    match told {
        Ok(Some(origin)) => origin.record + u64::from(origin.cell),
        Ok(None) => 0,
        Err(number) => number.into(),
    }
}

/// Runs one row on one side, for whoever counts instructions from outside.
fn count(name: &str, side: &str, messages: &str) -> ExitCode {
    let rows = rows();
    let row = rows.iter().find(|row| row.name == name);
    match (row, side, messages.parse()) {
        (Some(row), "plain", Ok(messages)) => drop(run_plain(row, messages)),
        (Some(row), "proved", Ok(messages)) => drop(run_proved(row, messages)),
        _ => return usage(),
    }
    ExitCode::SUCCESS
}

fn measure(row: &Row) {
    let mut messages = 1;
    while run_plain(row, messages).0.max(run_proved(row, messages).0) < BATCH {
        messages *= 2;
    }
    let mut speeds = [Vec::new(), Vec::new()];
    let mut ratios = Vec::new();
    for _ in 0..REPEATS {
        let (plain_time, plain_sum) = run_plain(row, messages);
        let (proved_time, proved_sum) = run_proved(row, messages);
        assert_eq!(plain_sum, proved_sum, "{}: the sides differ", row.name);
        let times = [plain_time, proved_time].map(|time| time.as_secs_f64());
        for (speeds, time) in speeds.iter_mut().zip(times) {
            speeds.push(messages as f64 / time);
        }
        ratios.push(times[0] / times[1]);
    }
    let [plain, proved] = speeds.map(|speeds| Spread::of(speeds).median);
    let name = row.name;
    println!("{name}|{plain:.0}|{proved:.0}|{}", Spread::of(ratios));
}

/// The time that a piece of work takes, done so often, and a sum over what it
/// answered.
fn repeat(messages: usize, mut work: impl FnMut() -> (u32, u16)) -> (Duration, u64) {
    let mut sum = 0;
    let start = Clock::start();
    for _ in 0..messages {
        let (number, last) = work();
        sum += u64::from(number) + u64::from(last);
    }
    (start.elapsed(), sum)
}

/// A function that repeats a row's work on one side. The kind of work is chosen
/// before the loop, and in it the side's functions are called directly.
macro_rules! side {
    ($run:ident, $side:ident, $who:path, $who_all:path, $control:path) => {
        fn $run(row: &Row, messages: usize) -> (Duration, u64) {
            let mut lent = Lent::new(row);
            let Lent {
                ram,
                settings,
                reply,
                remembered,
                answer,
                value,
                bytes,
                long_value,
                long_bytes,
                listing,
                counts,
                unsound,
                pairs,
            } = &mut lent;
            let ram = ram.as_mut_slice();
            match &row.work {
                Work::Bytes(bytes) => repeat(messages, || {
                    let number = $side::message(ram, reply, settings, remembered, bytes, answer);
                    (number.into(), answer[8])
                }),
                Work::Value(value) => repeat(messages, || {
                    let number =
                        $side::message_value(ram, reply, settings, remembered, value, answer);
                    (number.into(), answer[8])
                }),
                Work::Area => repeat(messages, || ($side::check_area(ram, settings), 0)),
                Work::LabelCell(cell) => repeat(messages, || {
                    let number = $side::label_cell(ram, settings, *cell, listing);
                    (number.into(), listing[0])
                }),
                Work::LabelArea => repeat(messages, || {
                    let number = $side::label_area(ram, settings, counts, unsound, pairs);
                    (number.into(), counts[1])
                }),
                Work::Read(bytes) => repeat(messages, || {
                    let number = $side::read(bytes, value);
                    (number.into(), value[35])
                }),
                Work::Write(value) => repeat(messages, || {
                    let number = $side::write(value, bytes);
                    (number.into(), bytes[79].into())
                }),
                Work::Long(record) => repeat(messages, || {
                    let number =
                        $side::message_long(ram, reply, settings, remembered, record, answer);
                    (number.into(), answer[8])
                }),
                Work::ReadLong(record) => repeat(messages, || {
                    let number = $side::read_long(record, long_value);
                    (number.into(), long_value[35])
                }),
                Work::Longer(record) => repeat(messages, || {
                    let number = $side::longer(record, long_bytes);
                    (number.into(), long_bytes[79].into())
                }),
                Work::Shorter(record) => repeat(messages, || {
                    let number = $side::shorter(record, bytes);
                    (number.into(), bytes[79].into())
                }),
                Work::Walk(records) => repeat(messages, || {
                    ram.copy_from_slice(&row.ram);
                    *remembered = [0; REMEMBERED_WORDS];
                    for record in records.chunks_exact(RECORD_BYTES) {
                        $side::message(ram, reply, settings, remembered, record, answer);
                    }
                    (answer[0].into(), ram[0x0402])
                }),
                Work::Who(address, records) => repeat(messages, || {
                    let told = $who(&row.ram, &row.settings, records, *address);
                    (0, sum_of(told) as u16)
                }),
                Work::WhoAll(records) => repeat(messages, || {
                    let told = $who_all(&row.ram, &row.settings, records);
                    (0, told as u16)
                }),
                Work::Control(budget, records) => repeat(messages, || {
                    let ran = $control(&row.ram, records, 0x0400, 0, *budget);
                    let ran = ran.expect("the row is not refused");
                    (ran.steps as u32, ran.machine.flags.into())
                }),
            }
        }
    };
}

side!(
    run_plain,
    plain,
    terminal::who::who,
    plain_who_all,
    controller::start
);
side!(
    run_proved,
    proved,
    engine::who::who,
    proved_who_all,
    engine::control::start
);

/// What a side is lent in a run.
struct Lent {
    ram: Vec<u16>,
    settings: [u16; SETTINGS_WORDS],
    reply: [u16; REPLY_WORDS],
    remembered: [u16; REMEMBERED_WORDS],
    answer: [u16; ANSWER_WORDS],
    value: [u16; VALUE_WORDS],
    bytes: [u8; RECORD_BYTES],
    long_value: [u16; LONG_WORDS],
    long_bytes: [u8; LONG_BYTES],
    listing: [u16; LISTING_WORDS],
    counts: [u16; COUNTS_WORDS],
    unsound: [u16; UNSOUND_WORDS],
    pairs: [u16; PAIRS_WORDS],
}

impl Lent {
    fn new(row: &Row) -> Lent {
        Lent {
            ram: row.ram.clone(),
            settings: settings_words(&row.settings),
            reply: [0; REPLY_WORDS],
            remembered: [0; REMEMBERED_WORDS],
            answer: [0; ANSWER_WORDS],
            value: [0; VALUE_WORDS],
            bytes: [0; RECORD_BYTES],
            long_value: [0; LONG_WORDS],
            long_bytes: [0; LONG_BYTES],
            listing: [0; LISTING_WORDS],
            counts: [0; COUNTS_WORDS],
            unsound: [0; UNSOUND_WORDS],
            pairs: [0; PAIRS_WORDS],
        }
    }
}
