//! `who`: which message put a word where it is.

use std::io::Write;
use std::ops::Range;
use std::process::ExitCode;

use super::history::History;
use super::names::{addresses, cell_name};
use super::options::Given;
use super::problem::{self, Problem};
use super::replay::Replay;
use super::say;
use super::source::Source;
use crate::engine::Walk;
use crate::terminal::who::Origin;
use crate::terminal::writes::Part;
use crate::text::Owners;

pub fn run(given: &Given, output: &mut dyn Write) -> Result<ExitCode, Problem> {
    let asked = asked(given)?;
    let mut source = Source::open(given)?;
    let image = source.whole_image()?;
    let asked = asked.unwrap_or_else(|| vec![0..image.len()]);
    let walk = Walk::new(&image, &source.settings).map_err(|number| refused(&source, number))?;
    if let Some(number) = asked.iter().find_map(|range| beyond(&walk, range)) {
        return Err(refused(&source, number));
    }
    let mut history = History::new(Replay::with_walk(image, source.settings));
    while let Some(bytes) = source.next_record()? {
        history.message(bytes);
    }
    for range in asked {
        let text = answer(&history, &source.owners, range);
        output.write_all(text.as_bytes()).map_err(problem::output)?;
    }
    Ok(ExitCode::SUCCESS)
}

/// The addresses that were asked for, each a run of one or more; none where all
/// are.
fn asked(given: &Given) -> Result<Option<Vec<Range<usize>>>, Problem> {
    let words = &given.files[1..];
    match (given.has("--all"), words.is_empty()) {
        (true, true) => Ok(None),
        (false, false) => words
            .iter()
            .map(|word| run_of(&word.to_string_lossy()))
            .collect::<Result<_, _>>()
            .map(Some),
        (true, false) => Err(Problem::Use("who: --all or addresses, not both".into())),
        (false, true) => Err(Problem::Use(
            "who: which addresses? --all for every word".into(),
        )),
    }
}

/// `0480` or `0480-049F`.
fn run_of(word: &str) -> Result<Range<usize>, Problem> {
    let (first, last) = word.split_once('-').unwrap_or((word, word));
    match (address(first), address(last)) {
        (Some(first), Some(last)) if first <= last => Ok(first..last + 1),
        _ => {
            let expected = "an address of 1 to 4 hexadecimal digits, or two with a - between";
            Err(Problem::Use(format!(
                "who: found {word:?}, expected {expected}"
            )))
        }
    }
}

fn address(word: &str) -> Option<usize> {
    let digits = (1..=4).contains(&word.len()) && word.bytes().all(|byte| byte.is_ascii_hexdigit());
    usize::from_str_radix(word, 16).ok().filter(|_| digits)
}

/// The number that refuses an address of the run.
fn beyond(walk: &Walk, range: &Range<usize>) -> Option<u16> {
    walk.who((range.end - 1) as u16).err()
}

fn refused(source: &Source, number: u16) -> Problem {
    let why = say::refusal(number, &source.settings);
    Problem::Input(format!("{}: refused with {number}: {why}", source.name))
}

/// A line for each run of words that one message wrote one behind the other.
fn answer(history: &History, owners: &Owners, range: Range<usize>) -> String {
    let mut text = String::new();
    let mut start = range.start;
    while start < range.end {
        let origin = |address| history.replay.origin(address);
        let end = (start + 1..range.end)
            .find(|&next| !follows(origin(next - 1), origin(next)))
            .unwrap_or(range.end);
        text += &line(history, owners, start..end);
        start = end;
    }
    text
}

/// Whether a word came behind the word before it, in one message.
pub fn follows(before: Option<Origin>, this: Option<Origin>) -> bool {
    match (before, this) {
        (None, None) => true,
        (Some(before), Some(this)) => {
            let is_next = match (before.part, this.part) {
                (Part::Data(before), Part::Data(this)) => this == before + 1,
                (Part::Stack(before), Part::Stack(this)) => this == before + 1,
                _ => false,
            };
            before.record == this.record && is_next
        }
        _ => false,
    }
}

fn line(history: &History, owners: &Owners, range: Range<usize>) -> String {
    let places = addresses(&range);
    let words = |range: Range<usize>| -> String {
        let words = history.replay.ram[range].iter();
        words.map(|word| format!(" {word:04X}")).collect()
    };
    match (history.replay.origin(range.start), range.len()) {
        (None, 1) => format!("{places}:{} as in the image\n", words(range)),
        (None, _) => format!("{places}: as in the image\n"),
        (Some(origin), length) => {
            let record = origin.record;
            let last = history.replay.origin(range.end - 1).unwrap_or(origin);
            let whose = part(owners, &origin, &last);
            let how = how(history, &origin, range.start);
            let words = if length > 4 {
                String::new()
            } else {
                words(range)
            };
            format!("{places}:{words} record {record}{how}: {whose}\n")
        }
    }
}

/// The tag of a data word's message, who sent it in a transfer, and how it went
/// where it was not good.
fn how(history: &History, origin: &Origin, address: usize) -> String {
    match origin.part {
        Part::Data(_) => {
            let facts = history.facts(address);
            let verdict = match facts.outcome.is_good() {
                true => String::new(),
                false => format!(", {}", facts.outcome.verdict()),
            };
            let transfer = say::transfer(facts.transmit_command);
            format!(", tag {:04X}{transfer}{verdict}", facts.tag)
        }
        _ => String::new(),
    }
}

/// Which part of a message a run of words is, from its first to its last.
fn part(owners: &Owners, first: &Origin, last: &Origin) -> String {
    let cell = cell_name(owners, first.cell);
    match (first.part, last.part) {
        (Part::Data(first), Part::Data(last)) if first < last => {
            format!("{cell}, words {first} to {last}")
        }
        (Part::Data(place), _) => format!("{cell}, word {place}"),
        (Part::Pointer, _) => format!("the pointer of {cell}"),
        (Part::StackPointer, _) => format!("the stack pointer, after a message for {cell}"),
        (Part::Stack(first), Part::Stack(last)) if first < last => {
            format!("the stack entry of a message for {cell}")
        }
        (Part::Stack(place), _) => {
            let names = ["block status", "time tag", "pointer before it", "command"];
            let name = names[usize::from(place - 1).min(3)];
            format!("{name} in the stack entry of a message for {cell}")
        }
    }
}
