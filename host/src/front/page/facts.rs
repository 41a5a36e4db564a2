//! Where a cell's pointer stands now, and where its newest words are.

use std::io::{self, Write};

use super::board::{Board, Message};
use super::fate::{lost, sent_lines};
use super::html::{self, code, places};
use super::left::{left_behind, tell_left};
use crate::front::heard::member;
use crate::front::names::count;
use crate::front::replay;
use crate::front::say;

/// Where the pointer stands, and the newest messages.
pub fn write_facts(out: &mut dyn Write, board: &Board, cell: u16, pointer: u16) -> io::Result<()> {
    let next = if board.stores(cell) {
        "the next words that it stores go here"
    } else {
        "the next words that it sends come from here"
    };
    let pointer = code(&format!("{pointer:04X}"));
    writeln!(out, "<dl>\n<dt>Pointer now</dt><dd>{pointer}, {next}</dd>")?;
    write_newest(out, board, cell)?;
    for left in left_behind(board, cell) {
        let told = tell_left(&left, usize::MAX);
        writeln!(out, "<dt>Left behind</dt><dd>{told}</dd>")?;
    }
    writeln!(out, "</dl>")
}

/// The newest message, the newest good one where that is another, and what the
/// good one sent.
fn write_newest(out: &mut dyn Write, board: &Board, cell: u16) -> io::Result<()> {
    let newest = board.newest(cell);
    let message = match &newest.any {
        None => return writeln!(out, "<dt>Newest message</dt><dd>none in this trace</dd>"),
        Some(message) => message,
    };
    let told = tell(board, cell, message);
    writeln!(out, "<dt>Newest message</dt><dd>{told}</dd>")?;
    if !message.facts.outcome.is_good() {
        let told = match &newest.good {
            None => "none in this trace".to_string(),
            Some(good) => tell(board, cell, good),
        };
        writeln!(out, "<dt>Newest good one</dt><dd>{told}</dd>")?;
    }
    match &newest.good {
        Some(good) if !board.stores(cell) => write_sent(out, board, cell, good),
        _ => Ok(()),
    }
}

fn tell(board: &Board, cell: u16, message: &Message) -> String {
    format!(
        "record {}, tag <code>{:04X}</code>{}{}, {}; {}",
        message.record,
        message.facts.tag,
        html::escape(&member(message.facts.member, &board.owners)),
        say::transfer(message.facts.transmit_command),
        html::went(&message.facts.outcome),
        whereabouts(board, cell, message)
    )
}

/// Where a message's words are, and what became of them.
fn whereabouts(board: &Board, cell: u16, message: &Message) -> String {
    let outcome = &message.facts.outcome;
    if let Some(none) = outcome.no_word() {
        return none;
    }
    let words = count(message.words.len() as u64, "word");
    let at = places(&replay::places(&message.words), usize::MAX);
    if !board.stores(cell) {
        return format!("it sent {words} from {at}");
    }
    let lost = lost(board, cell, message);
    match outcome.is_good() {
        true => format!("its {words} at {at}{lost}"),
        false => format!("its {words} at {at}, stored all the same{lost}"),
    }
}

fn write_sent(out: &mut dyn Write, board: &Board, cell: u16, message: &Message) -> io::Result<()> {
    write!(out, "<dt>What record {} sent</dt><dd>", message.record)?;
    let lines = sent_lines(board, cell, message);
    writeln!(out, "{}</dd>", lines.join("<br>"))
}
