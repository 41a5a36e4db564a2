//! A list as text that a person can read, change and run again.
//!
//! It is the text of a case, as [`crate::compare::replay`] has it, with as many
//! messages as the list has, and this line beside them, in any number:
//!
//! - `exchange PLACE...`: for each place, counted from 1, the messages at it
//!   and behind it change places, one exchange after the other.
//!
//! RAM is always lent whole.

use super::list::List;
use super::play::request;
use crate::compare::case::{Case, Message};
use crate::compare::replay::{read_case, write_case};
use crate::terminal::{read_record, write_record, Record};
use crate::text::{decimal, mismatch, shown, Mismatch, TextError, Tokens};

/// The text of a list whose messages keep their layout.
pub fn write_list(list: &List) -> String {
    let mut text = String::new();
    for (number, record) in list.messages.iter().enumerate() {
        let bytes = write_record(record).expect("the messages keep their layout");
        let case = write_case(&Case {
            state: list.start.clone(),
            request: request(list, Message::Bytes(bytes.to_vec())),
        });
        // The message is the last line.
        let line = case.lines().last().unwrap_or_default();
        text += if number == 0 { case.trim_end() } else { line };
        text += "\n";
    }
    for place in &list.exchanges {
        text += &format!("exchange {}\n", place + 1);
    }
    text
}

/// The list that a text stands for.
pub fn read_list(text: &str) -> Result<List, TextError> {
    // Lines that all messages share; the others are empty there, so that the
    // numbers of the lines stay.
    let mut shared: Vec<&str> = text.lines().collect();
    let mut messages = Vec::new();
    let mut exchanges = Vec::new();
    for (index, line) in shared.iter_mut().enumerate() {
        let lines = match Tokens::new(line).next() {
            Some("message" | "raw" | "bytes" | "value") => &mut messages,
            Some("exchange") => &mut exchanges,
            _ => continue,
        };
        lines.push((index, std::mem::take(line)));
    }
    let (first, messages) = read_messages(&shared, &messages)?;
    let mut list = List {
        settings: first.request.settings,
        start: first.state,
        reply_words: first.request.reply_words,
        messages,
        exchanges: Vec::new(),
    };
    for (index, line) in exchanges {
        let read = read_exchanges(line, &mut list);
        read.map_err(|mismatch| mismatch.in_line(index + 1))?;
    }
    Ok(list)
}

/// The case of the first message, and every message's record: each message
/// with the lines that all share is a case.
fn read_messages(
    shared: &[&str],
    lines: &[(usize, &str)],
) -> Result<(Case, Vec<Record>), TextError> {
    let case_with = |line: Option<&(usize, &str)>| {
        let mut case = shared.to_vec();
        if let Some(&(index, line)) = line {
            case[index] = line;
        }
        read_case(&case.join("\n"))
    };
    let mut records = Vec::new();
    for line in lines {
        let record = match case_with(Some(line))?.request.message {
            Message::Bytes(bytes) => read_record(&bytes).ok(),
            Message::Value(record) => Some(record),
        };
        let record = record.map_or_else(|| mismatch("no record", "80 bytes in the layout"), Ok);
        records.push(record.map_err(|mismatch| mismatch.in_line(line.0 + 1))?);
    }
    Ok((case_with(lines.first())?, records))
}

fn read_exchanges(line: &str, list: &mut List) -> Result<(), Mismatch> {
    let last = list.messages.len().saturating_sub(1);
    for token in Tokens::new(line).skip(1) {
        match decimal(token) {
            Some(place) if (1..=last).contains(&place) => list.exchanges.push(place - 1),
            _ => return mismatch(shown(Some(token)), format!("a place from 1 to {last}")),
        }
    }
    Ok(())
}
