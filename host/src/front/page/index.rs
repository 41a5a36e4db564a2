//! The index: a line for each cell, from which a member learns what he must
//! know of it, and a way to its section.

use std::io::{self, Write};

use super::board::{Board, Message};
use super::fate::{lost, not_good_sent, others_sent};
use super::html::{self, cell, name};
use super::left::{left_behind, tell_left, tell_others};
use crate::front::names::{bare_cell_name, count, listed, subaddress_of};

/// The most runs of addresses that one line tells.
const RUNS: usize = 4;

pub fn write_index(out: &mut dyn Write, board: &Board) -> io::Result<()> {
    let owner = match board.owners.is_empty() {
        true => "",
        false => "<th>Owner</th>",
    };
    writeln!(
        out,
        "<nav>\n<table class=\"index\">\n<thead><tr>{owner}<th>Subaddress</th>\
         <th>Newest message, and what stands there</th><th>Shared with</th></tr></thead>\n<tbody>"
    )?;
    for (owner, subaddresses) in board.by_owner() {
        let owner = owner.map_or(String::new(), |it| format!("<td>{}</td>", name(it)));
        for number in subaddresses.into_iter().flat_map(|it| board.cells_of(it)) {
            if let Some(line) = line(board, number) {
                writeln!(out, "<tr>{owner}{line}</tr>")?;
            }
        }
    }
    writeln!(out, "</tbody>\n</table>\n</nav>")
}

/// What is told of a cell. One that is unsound is left out, unless messages
/// came for it.
fn line(board: &Board, number: u16) -> Option<String> {
    let cell = bare_cell_name(number);
    if !board.unsound().contains(&number) {
        return Some(format!(
            "<td><a href=\"#cell{number}\">{cell}</a></td><td>{}</td><td>{}</td>",
            told(board, number),
            shared_with(board, number)
        ));
    }
    let refused = match board.refused_of(number) {
        0 => return None,
        refused => count(refused, "message"),
    };
    let section = subaddress_of(number);
    Some(format!(
        "<td><a href=\"#sa{section}\">{cell}</a></td>\
         <td><b class=\"bad\">unsound</b>: {refused} refused</td><td>takes no part</td>"
    ))
}

/// How the newest message went, and all that could be taken for its words.
fn told(board: &Board, number: u16) -> String {
    let newest = board.newest(number);
    let mut lines = Vec::new();
    match &newest.any {
        None => lines.push("none".to_string()),
        Some(message) => {
            lines.push(tell(board, number, message));
            lines.extend(newest_good(board, number, message));
        }
    }
    let left = left_behind(board, number);
    lines.extend(left.iter().map(|left| tell_left(left, RUNS)));
    lines.extend(tell_others(board, number, RUNS));
    lines.join("<br>")
}

/// Where the newest message was not good, the newest one that was.
fn newest_good(board: &Board, number: u16, newest: &Message) -> Option<String> {
    if newest.facts.outcome.is_good() {
        return None;
    }
    Some(match &board.newest(number).good {
        None => "no good one before it".to_string(),
        Some(good) => format!("before it {}", tell(board, number, good)),
    })
}

/// How a message went, why it moved no word, whose words it sent, and whether
/// they stand.
fn tell(board: &Board, number: u16, message: &Message) -> String {
    let outcome = &message.facts.outcome;
    let mut text = format!("record {}, {}", message.record, html::verdict(outcome));
    if let Some(none) = outcome.no_word() {
        text += &format!("; {none}");
    }
    if !board.stores(number) {
        text += &what_it_sent(board, number, message);
    }
    text + &lost(board, number, message)
}

/// Whether a message sent words of others, or words that were not good.
fn what_it_sent(board: &Board, number: u16, message: &Message) -> String {
    let others = others_sent(board, number, message).into_iter();
    let others: Vec<String> = others.map(|other| cell(&board.owners, other)).collect();
    let whose = format!("words for {}", listed(&others));
    let whose = (!others.is_empty()).then_some(whose);
    let bad = not_good_sent(message).into_iter();
    let bad = bad.map(|verdict| format!("{verdict} words"));
    let sent = whose.into_iter().chain(bad);
    sent.map(|what| format!(", <b class=\"lost\">sent {what}</b>"))
        .collect()
}

/// Each cell of others that is owned or used, whether the same owner has one
/// there, and how many more there are.
fn shared_with(board: &Board, number: u16) -> String {
    let sharing = board.sharers(number);
    let others = sharing.named.iter().map(|named| named.cell);
    let others = others.filter(|&other| !board.same_owner(number, other));
    let mut all: Vec<String> = others.map(|other| cell(&board.owners, other)).collect();
    if all.len() < sharing.named.len() {
        let same = match board.owners.is_empty() {
            true => "the same subaddress",
            false => "the same owner",
        };
        all.push(same.to_string());
    }
    let quiet: usize = sharing.quiet.iter().map(|quiet| quiet.cells.len()).sum();
    if quiet > 0 {
        let cells = count(quiet as u64, "cell");
        all.push(format!("{cells} never used and unowned"));
    }
    match all.is_empty() {
        true => "nobody".to_string(),
        false => all.join(", "),
    }
}
