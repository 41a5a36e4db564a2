//! A message line, to the bytes of its record, old or long.

use super::tokens::{mismatch, shown, Mismatch, Tokens};
use crate::terminal::long::{write_long, LongRecord, LONG_BYTES};
use crate::terminal::records::{
    Record, FLAG_BUS_B, FLAG_GAP, FLAG_INVALID_WORD, FLAG_NO_STATUS, FLAG_SECOND, FLAG_TRANSFER,
    FLAG_WRONG_SYNC, RECORD_BYTES, RECORD_WORDS, TOO_MANY, TRANSFER_FAULTS,
};
use crate::terminal::words::Command;
use crate::terminal::write_record;

/// The flags with their names, in the order in which they are written.
const FLAG_NAMES: [(u16, &str); 5] = [
    (FLAG_WRONG_SYNC, "sync"),
    (FLAG_INVALID_WORD, "invalid"),
    (FLAG_NO_STATUS, "nostatus"),
    (FLAG_GAP, "gap"),
    (FLAG_SECOND, "second"),
];

const PARTS: [&str; 7] = ["from", "bus", "tag", "member", "flags", "count", "words"];

/// What follows `message`: the command and then the parts in any order.
pub fn read_message(tokens: &mut Tokens) -> Result<[u8; RECORD_BYTES], Mismatch> {
    let record = read_parts(tokens, Length::Old)?.old;
    write_record(&record).or_else(|_| words_after(&record))
}

/// The same for a long record.
pub fn read_long_message(tokens: &mut Tokens) -> Result<[u8; LONG_BYTES], Mismatch> {
    let record = read_parts(tokens, Length::Long)?;
    write_long(&record).or_else(|_| words_after(&record.old))
}

fn words_after<T>(record: &Record) -> Result<T, Mismatch> {
    mismatch(
        format!("other words than 0000 after the first {}", record.count),
        "a larger count, or a raw line for a damaged record",
    )
}

/// Which records a text has.
#[derive(Clone, Copy, PartialEq)]
enum Length {
    Old,
    Long,
}

fn read_parts(tokens: &mut Tokens, length: Length) -> Result<LongRecord, Mismatch> {
    let mut long = LongRecord::default();
    let record = &mut long.old;
    record.command = tokens.hex_word("a command word")?;
    let mut count = None;
    let mut words_written = 0;
    let mut parts_met = Vec::new();
    while let Some(part) = tokens.next() {
        if parts_met.contains(&part) {
            return mismatch(format!("{part} a second time"), "each part once");
        }
        parts_met.push(part);
        match part {
            "from" => {
                record.flags |= FLAG_TRANSFER;
                record.transmit_command = tokens.hex_word("the other terminal's command word")?;
            }
            "bus" => record.flags |= read_bus(tokens)?,
            "tag" if length == Length::Long => {
                let tag = tokens.hex_digits("a time tag", 8)?;
                record.tag = tag as u16;
                long.upper = (tag >> 16) as u16;
            }
            "tag" => record.tag = tokens.hex_word("a time tag")?,
            "member" if length == Length::Long => {
                long.member = tokens.decimal("a member number", u16::MAX.into())? as u16;
            }
            "member" => {
                let expected = "a line \"records 96\" before the first record, for long records";
                return mismatch("member in a record of 80 bytes", expected);
            }
            "flags" => record.flags |= read_flags(tokens)?,
            "count" => count = Some(tokens.decimal("a count", TOO_MANY.into())?),
            "words" => words_written = read_words(tokens, &mut record.words)?,
            other => return mismatch(shown(Some(other)), one_of(&PARTS)),
        }
    }
    record.count = count.unwrap_or(words_written) as u16;
    check_transfer(record)?;
    Ok(long)
}

/// What a transfer and its faults ask of the other parts.
fn check_transfer(record: &Record) -> Result<(), Mismatch> {
    let faults = flag_names(record.flags & TRANSFER_FAULTS).join(" ");
    if record.is_transfer() && Command(record.command).is_transmit() {
        return mismatch(
            format!("from with the transmit command {:04X}", record.command),
            "a receive command before from, since this terminal receives in a transfer",
        );
    }
    if !record.is_transfer() && !faults.is_empty() {
        return mismatch(
            format!("flags {faults} without from"),
            "from and the other terminal's command, since only transfers have these flags",
        );
    }
    if !faults.is_empty() && record.count > 0 {
        return mismatch(
            format!("count {} with flags {faults}", record.count),
            "no words, since none is heard after these; or a raw line for a damaged record",
        );
    }
    Ok(())
}

fn read_bus(tokens: &mut Tokens) -> Result<u16, Mismatch> {
    match tokens.next() {
        Some("A") => Ok(0),
        Some("B") => Ok(FLAG_BUS_B),
        other => mismatch(shown(other), "bus A or B"),
    }
}

/// The names of those flags that are set and have one.
pub fn flag_names(flags: u16) -> Vec<&'static str> {
    let set = FLAG_NAMES.iter().filter(|(flag, _)| flags & flag != 0);
    set.map(|(_, name)| *name).collect()
}

/// One or more of the fault names.
fn read_flags(tokens: &mut Tokens) -> Result<u16, Mismatch> {
    let names = FLAG_NAMES.map(|(_, name)| name);
    let mut flags = 0;
    while !tokens.at_end_or(&PARTS) {
        let name = tokens.next();
        match FLAG_NAMES.iter().find(|(_, known)| Some(*known) == name) {
            Some((flag, _)) => flags |= flag,
            None => return mismatch(shown(name), one_of(&names)),
        }
    }
    if flags == 0 {
        return mismatch("flags without a name", one_of(&names));
    }
    Ok(flags)
}

/// One to 32 data words; returns how many.
fn read_words(tokens: &mut Tokens, words: &mut [u16; RECORD_WORDS]) -> Result<usize, Mismatch> {
    let mut written = 0;
    while written < words.len() {
        match tokens.hex_word_if_next() {
            Some(word) => words[written] = word,
            None => break,
        }
        written += 1;
    }
    // No part's name is a word in digits, so what comes next is a name or wrong.
    if !tokens.at_end_or(&PARTS) {
        if written == words.len() {
            let expected = "at most 32 (count 33 says more were heard)";
            return mismatch("more than 32 words", expected);
        }
        tokens.hex_word("a data word")?;
    }
    if written == 0 {
        return mismatch("words without a word", "1 to 32 data words");
    }
    Ok(written)
}

/// Names as in `sync, invalid or gap`.
fn one_of(names: &[&str]) -> String {
    let (last, others) = names.split_last().expect("there are names");
    format!("{} or {last}", others.join(", "))
}
