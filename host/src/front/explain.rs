//! What a message did, in words.

use super::heard::{self, Heard};
use super::history::Accepted;
use super::names::{self, addresses, cell_name, count, subaddress_of};
use super::outcome::Outcome;
use super::replay::{places, Moved, Replay};
use super::say;
use super::soundness::{cell_faults, stack_faults};
use crate::engine;
use crate::terminal::cells::{Kind, Scheme};
use crate::terminal::described::CellDescription;
use crate::terminal::message::cell_kind;
use crate::terminal::words::Command;
use crate::terminal::{Answer, Record, Settings};
use crate::text::Owners;

/// Lines about the record that a replay has just met, accepted or not.
pub fn explain(
    replay: &Replay,
    owners: &Owners,
    bytes: &[u8],
    answer: &Answer,
    accepted: Option<&Accepted>,
) -> Vec<String> {
    let (unreadable, heard) = heard::read(bytes);
    let record = heard.record;
    let mut lines = Vec::new();
    if unreadable == 0 {
        lines.push(asked(&heard, &replay.settings, owners));
        lines.extend(asked_of_the_other(&record, &replay.settings, owners));
    }
    match accepted {
        Some(message) => lines.extend(done(replay, owners, &record, answer, message)),
        None => {
            let why = why_refused(&replay.ram, &replay.settings, owners, bytes, answer.number);
            let number = answer.number;
            lines.push(format!("refused with {number}: {why}; nothing has changed"));
        }
    }
    lines
}

fn asked(heard: &Heard, settings: &Settings, owners: &Owners) -> String {
    let record = &heard.record;
    format!(
        "command {:04X}: {}; tag {:X}, bus {}{}",
        record.command,
        say::command(record.command, settings, owners),
        heard.tag,
        say::bus(record),
        heard::member(heard.member, owners)
    )
}

/// Who sends in a transfer.
fn asked_of_the_other(record: &Record, settings: &Settings, owners: &Owners) -> Option<String> {
    let word = say::transmit_command(record)?;
    let asked = say::command(word, settings, owners);
    let said = format!("a transfer with transmit command {word:04X}");
    Some(if Command(word).is_transmit() {
        format!("{said}: {asked}")
    } else {
        format!("{said}, which is no transmit command ({asked}) and is not judged")
    })
}

/// What an accepted message did.
fn done(
    replay: &Replay,
    owners: &Owners,
    record: &Record,
    answer: &Answer,
    message: &Accepted,
) -> Vec<String> {
    let cell = replay.cell_of(answer);
    let Accepted { facts, words } = message;
    let mut lines = vec![format!(
        "{}; {}",
        say::heard(record, &facts.outcome, &replay.settings),
        moved(answer, &facts.outcome, words)
    )];
    if cell.kind == Kind::Transmit {
        lines.extend(whose_words(owners, words));
    } else {
        lines.extend(who_shares(replay, owners, answer, &places(words)));
    }
    lines.push(pointer(owners, answer, &cell));
    let (block_status, interrupt) = (answer.block_status, answer.interrupt);
    let said = say::block_status(block_status);
    lines.push(format!("block status {block_status:04X}: {said}"));
    lines.push(status(answer, &replay.settings, record));
    let said = say::interrupt(interrupt);
    lines.push(format!("interrupt word {interrupt:04X}: {said}"));
    lines
}

/// Where the words went, or came from, or why none did.
fn moved(answer: &Answer, outcome: &Outcome, words: &[Moved]) -> String {
    if let Some(none) = outcome.no_word() {
        return none;
    }
    let number = count(words.len() as u64, "word");
    let places = names::runs(&places(words));
    let sends = names::kind_of(answer.cell) == Kind::Transmit;
    match (sends, outcome.is_good()) {
        (true, _) => format!("{number} sent from {places}"),
        (false, true) => format!("{number} stored at {places}"),
        (false, false) => format!("{number} stored at {places} all the same"),
    }
}

/// Whose words were sent: a line for each message that they came with.
fn whose_words(owners: &Owners, words: &[Moved]) -> Vec<String> {
    let record = |word: &Moved| word.origin.map(|it| it.record);
    let mut groups: Vec<(&Moved, Vec<usize>)> = Vec::new();
    for word in words {
        match groups.last_mut() {
            Some((first, places)) if record(first) == record(word) => places.push(word.address),
            _ => groups.push((word, vec![word.address])),
        }
    }
    let line = |(first, places): (&Moved, Vec<usize>)| {
        let places = names::runs(&places);
        match first.origin {
            None => format!("{places} is as in the image"),
            Some(origin) => {
                let cell = cell_name(owners, origin.cell);
                let bad = first.not_good().map(|verdict| format!(" {verdict},"));
                let bad = bad.unwrap_or_default();
                format!(
                    "{places} came with record {},{bad} for {cell}",
                    origin.record
                )
            }
        }
    };
    groups.into_iter().map(line).collect()
}

/// Which other cells have the places of these words in their windows: those
/// that are owned or had a message, and how many others.
fn who_shares(
    replay: &Replay,
    owners: &Owners,
    answer: &Answer,
    places: &[usize],
) -> Option<String> {
    let sharers = engine::label_cell(&replay.ram, &replay.settings, answer.cell).ok()?;
    let touched = |cell: &u16| {
        let window = replay.cell(*cell).window;
        places.iter().any(|place| window.contains(place))
    };
    let cells = sharers.iter().map(|sharer| sharer.cell).filter(touched);
    let is_named = |cell: &u16| owners.of(subaddress_of(*cell)).is_some() || replay.used.has(*cell);
    let (named, others): (Vec<u16>, Vec<u16>) = cells.partition(is_named);
    let mut names: Vec<String> = named.iter().map(|&it| cell_name(owners, it)).collect();
    if !others.is_empty() {
        let others = count(others.len() as u64, "cell");
        names.push(format!("{others}, unowned and not used so far,"));
    }
    let window = match named.len() + others.len() {
        0 => return None,
        1 => "window",
        _ => "windows",
    };
    Some(format!("in the {window} of {} too", names::listed(&names)))
}

/// A cell's scheme and window.
pub fn scheme(cell: &CellDescription) -> String {
    let window = &cell.window;
    match cell.scheme {
        Scheme::Single => format!("one block, {}", addresses(window)),
        Scheme::Double => {
            let middle = window.start + window.len() / 2;
            let first = addresses(&(window.start..middle));
            format!(
                "two blocks, {first} and {}",
                addresses(&(middle..window.end))
            )
        }
        Scheme::Circular(size) => format!("a circle of {size} words, {}", addresses(window)),
    }
}

fn pointer(owners: &Owners, answer: &Answer, cell: &CellDescription) -> String {
    let name = cell_name(owners, answer.cell);
    let (before, after) = (answer.pointer_before, answer.pointer_after);
    let over = if say::rolled_over(answer.block_status) {
        "; it rolled over"
    } else {
        ""
    };
    let went = if before == after {
        format!("stays at {before:04X}")
    } else {
        format!("goes from {before:04X} to {after:04X}")
    };
    format!("the pointer of {name} {went} in {}{over}", scheme(cell))
}

fn status(answer: &Answer, settings: &Settings, record: &Record) -> String {
    let word = answer.status;
    if answer.answered {
        return format!("answered with status {word:04X}: {}", say::status(word));
    }
    let why = if settings.is_broadcast(Command(record.command)) {
        "a broadcast is not answered"
    } else {
        "a faulty message is not answered"
    };
    format!(
        "no status sent, {why}; {word:04X} is remembered: {}",
        say::status(word)
    )
}

/// The cell that a record's command asks for.
pub fn asked_cell(bytes: &[u8], settings: &Settings) -> u16 {
    let command = match bytes {
        [high, low, ..] => Command(u16::from_be_bytes([*high, *low])),
        _ => Command(0),
    };
    names::cell_number(cell_kind(command, settings), command.subaddress())
}

/// Why a record was refused, as exactly as can be said.
pub fn why_refused(
    ram: &[u16],
    settings: &Settings,
    owners: &Owners,
    bytes: &[u8],
    number: u16,
) -> String {
    let reason = say::refusal(number, settings);
    match number {
        5 => layout_broken(bytes),
        6 => format!("{reason}, which is {}", settings.address),
        8 => format!("{reason}: {}", stack_faults(ram, settings).join(" and ")),
        9 => {
            let cell = asked_cell(bytes, settings);
            let faults = cell_faults(ram, settings, cell).join(" and ");
            format!("{} is unsound: {faults}", cell_name(owners, cell))
        }
        _ => reason.to_string(),
    }
}

/// That a record breaks its layout, and how.
pub fn layout_broken(bytes: &[u8]) -> String {
    let faults = say::layout_faults(bytes).join(" and ");
    format!("{}: {faults}", say::refusal(5, &Settings::TRACE))
}
