//! The last messages: those on the stack, and those that were refused.

use std::io::{self, Write};

use super::board::{Board, REFUSED_SHOWN};
use super::html::{self, escape};
use crate::front::heard;
use crate::front::history::entry_before;
use crate::front::names::{addresses, count};
use crate::front::outcome::Outcome;
use crate::front::say;
use crate::terminal::cells::DESCRIPTOR_WORDS;
use crate::terminal::described::StackDescription;
use crate::terminal::writes::Part;

/// How many entries are told.
const SHOWN: usize = 16;

/// The last entries of the stack that this trace made, oldest first.
pub fn write_stack(out: &mut dyn Write, board: &Board) -> io::Result<()> {
    let entries = last_entries(board);
    writeln!(
        out,
        "<section class=\"stack\">\n<h2>The last messages on the stack</h2>"
    )?;
    if entries.is_empty() {
        writeln!(out, "<p>None in this trace.</p>\n</section>")?;
        return Ok(());
    }
    writeln!(
        out,
        "<div class=\"wide\"><table>\n<thead><tr><th>Record</th><th>Tag</th><th>Message</th>\
         <th>How it went</th><th>Pointer before</th><th>Entry</th></tr></thead>\n<tbody>"
    )?;
    for &(record, place) in &entries {
        write_entry(out, board, record, place)?;
    }
    writeln!(out, "</tbody>\n</table></div>\n</section>")
}

/// Record and place of each entry, oldest first.
fn last_entries(board: &Board) -> Vec<(u64, usize)> {
    let mut entries = Vec::new();
    if board.refused_area().is_some() {
        return entries;
    }
    let StackDescription { pointer, block, .. } = board.history.replay.stack();
    let mut place = usize::from(pointer);
    while entries.len() < SHOWN.min(block.len() / DESCRIPTOR_WORDS) {
        place = entry_before(&block, place);
        match board.history.replay.origin(place) {
            Some(origin) if origin.part == Part::Stack(1) => entries.push((origin.record, place)),
            _ => break,
        }
    }
    entries.reverse();
    entries
}

fn write_entry(out: &mut dyn Write, board: &Board, record: u64, place: usize) -> io::Result<()> {
    let words = &board.ram()[place..place + DESCRIPTOR_WORDS];
    let [pointer, command] = [words[2], words[3]];
    let message = say::command(command, board.settings(), &board.owners);
    let facts = board.history.facts(place);
    let transfer = say::transfer(facts.transmit_command);
    let member = heard::member(facts.member, &board.owners);
    let entry = addresses(&(place..place + DESCRIPTOR_WORDS));
    writeln!(
        out,
        "<tr><td>{record}</td><td><code>{:X}</code></td><td>{}</td><td>{}</td>\
         <td><code>{pointer:04X}</code></td><td><code>{entry}</code></td></tr>",
        facts.tag,
        escape(&(message + &transfer + &member)),
        how_it_went(&facts.outcome)
    )
}

/// How a message went, and why no word moved where none did.
fn how_it_went(outcome: &Outcome) -> String {
    let went = html::went(outcome);
    match outcome.no_word() {
        None => went,
        Some(none) => format!("{went}; {none}"),
    }
}

/// The last messages that were refused, oldest first.
pub fn write_refused(out: &mut dyn Write, board: &Board) -> io::Result<()> {
    writeln!(
        out,
        "<section class=\"refused\">\n<h2>Refused messages</h2>"
    )?;
    if board.refused.is_empty() {
        writeln!(out, "<p>None.</p>\n</section>")?;
        return Ok(());
    }
    if board.refused_in_all > REFUSED_SHOWN as u64 {
        let all = count(board.refused_in_all, "message");
        writeln!(out, "<p>{all} in all; these are the last.</p>")?;
    }
    writeln!(
        out,
        "<div class=\"wide\"><table>\n<thead><tr><th>Record</th><th>Number</th><th>Message</th>\
         <th>Why</th></tr></thead>\n<tbody>"
    )?;
    for refused in &board.refused {
        let message = match board.record_of(refused) {
            Some(record) => {
                say::command(record.command, board.settings(), &board.owners)
                    + &say::transfer(say::transmit_command(&record))
            }
            None => "not readable".to_string(),
        };
        writeln!(
            out,
            "<tr><td>{}</td><td>{}</td><td>{}</td><td>{}</td></tr>",
            refused.record,
            refused.number,
            escape(&message),
            escape(&board.why(refused))
        )?;
    }
    writeln!(out, "</tbody>\n</table></div>\n</section>")
}
