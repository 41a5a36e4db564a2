//! `control`: a bus controller runs the instruction list of a text or image over
//! the trace's records.

mod explain;
mod listing;

use std::ffi::OsStr;
use std::io::Write;
use std::process::ExitCode;

use super::names::count;
use super::options::Given;
use super::problem::{self, Problem};
use super::say;
use super::source::Source;
use crate::controller::{End, Machine, Ran};
use crate::engine::control::{go_on, start};
use crate::terminal::records::RECORD_BYTES;

/// The budget of a run that is given none.
const BUDGET: u64 = 100_000;

/// A run that is asked for.
struct Run {
    ram: Vec<u16>,
    trace: Vec<u8>,
    start: u16,
    flags: u8,
    budget: u64,
}

pub fn run(given: &Given, output: &mut dyn Write) -> Result<ExitCode, Problem> {
    // A controller's outcomes are old records.
    let mut source = Source::open_records(given, Some(false))?;
    let ram = source.whole_image()?;
    if given.has("--list") {
        let text = listing::listing(&ram, &source.list.labels);
        output.write_all(text.as_bytes()).map_err(problem::output)?;
        return Ok(ExitCode::SUCCESS);
    }
    let list = source.list.clone();
    let start = match option(given, "--start", |word| hex(word, 0xFFFF))? {
        Some(start) => start,
        None => list.start.ok_or_else(|| no_start(&source.name))?,
    };
    let flags = option(given, "--flags", |word| hex(word, 0xFF))?;
    let budget = option(given, "--budget", decimal)?;
    let run = Run {
        ram,
        trace: source.records_left()?,
        start,
        flags: flags.map_or(list.flags.unwrap_or(0), |flags| flags as u8),
        budget: budget.or(list.budget).unwrap_or(BUDGET),
    };
    let ran = if given.has("--explain") {
        explain::explain(&run, &source, output)
    } else {
        run.at_once()
    };
    let ran = ran.map_err(|stop| stop.problem(&source))?;
    let line = ended(&ran, run.trace.len() / RECORD_BYTES);
    writeln!(output, "{line}").map_err(problem::output)?;
    Ok(ExitCode::SUCCESS)
}

/// Why there is no run to tell of.
enum Stop {
    Refused(u16),
    Output(std::io::Error),
}

impl Stop {
    fn problem(self, source: &Source) -> Problem {
        match self {
            Stop::Refused(number) => {
                let why = say::refusal(number, &source.settings);
                Problem::Input(format!("{}: refused with {number}: {why}", source.name))
            }
            Stop::Output(error) => problem::output(error),
        }
    }
}

impl Run {
    fn at_once(&self) -> Result<Ran, Stop> {
        let ran = start(&self.ram, &self.trace, self.start, self.flags, self.budget);
        ran.map_err(Stop::Refused)
    }

    /// The machine before its first step.
    fn begin(&self) -> Result<Machine, Stop> {
        let begun = start(&self.ram, &self.trace, self.start, self.flags, 0);
        begun.map(|ran| ran.machine).map_err(Stop::Refused)
    }

    fn step(&self, machine: Machine) -> Result<Ran, Stop> {
        go_on(&self.ram, &self.trace, machine, 1).map_err(Stop::Refused)
    }
}

/// The last line: how the run ended, and what it left.
fn ended(ran: &Ran, records: usize) -> String {
    let machine = &ran.machine;
    let used = (machine.place / RECORD_BYTES).min(records);
    format!(
        "{} after {}; {} used, {} left; pointer {:04X}, flags {:02X}, depth {}",
        end(ran.end),
        count(ran.steps, "step"),
        count(used as u64, "outcome"),
        records - used,
        machine.pointer,
        machine.flags,
        machine.depth()
    )
}

fn end(end: End) -> &'static str {
    match end {
        End::Halt => "halt",
        End::BadInstruction => "bad instruction",
        End::NoOutcome => "no outcome",
        End::Budget => "budget",
    }
}

fn option<T>(
    given: &Given,
    name: &str,
    read: impl Fn(&str) -> Option<T>,
) -> Result<Option<T>, Problem> {
    let word = match given.value(name).map(OsStr::to_string_lossy) {
        Some(word) => word,
        None => return Ok(None),
    };
    let value = read(&word);
    let expected = match name {
        "--start" => "an address of 1 to 4 hexadecimal digits",
        "--flags" => "eight flags, 00 to FF",
        _ => "a budget, a decimal number",
    };
    value.map(Some).ok_or_else(|| {
        let text = format!("control: {name}: found {word:?}, expected {expected}");
        Problem::Use(text)
    })
}

fn hex(word: &str, largest: u16) -> Option<u16> {
    let digits = (1..=4).contains(&word.len()) && word.bytes().all(|byte| byte.is_ascii_hexdigit());
    let number = u16::from_str_radix(word, 16).ok().filter(|_| digits);
    number.filter(|number| *number <= largest)
}

fn decimal(word: &str) -> Option<u64> {
    let digits = word.bytes().all(|byte| byte.is_ascii_digit());
    word.parse().ok().filter(|_| digits)
}

fn no_start(name: &str) -> Problem {
    Problem::Use(format!(
        "control: where does the run start? {name} has no list line and no start line; say --start ADDRESS"
    ))
}
