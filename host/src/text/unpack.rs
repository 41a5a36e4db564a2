//! From bytes to text.

use std::fmt::{self, Write};

use super::message::flag_names;
use crate::terminal::cells::LARGE_RAM_WORDS;
use crate::terminal::long::{read_long, LongRecord, LONG_BYTES};
use crate::terminal::read_record;
use crate::terminal::records::{Record, FLAG_BUS_B, RECORD_BYTES, TOO_MANY};
use crate::terminal::trace::IMAGE_BYTES;

const WORDS_IN_LINE: usize = 8;

/// The text of a trace input, whatever its bytes.
pub fn unpack(binary: &[u8]) -> String {
    let mut text = String::new();
    let written = write_trace(&mut text, binary, RECORD_BYTES);
    written.expect("writing to a string never fails");
    text
}

/// The same where the records are long.
pub fn unpack_long(binary: &[u8]) -> String {
    let mut text = String::new();
    let written = write_trace(&mut text, binary, LONG_BYTES);
    written.expect("writing to a string never fails");
    text
}

/// The text of a RAM, of either card.
pub fn unpack_ram(ram: &[u16]) -> String {
    let mut text = String::new();
    if ram.len() == LARGE_RAM_WORDS {
        text.push_str("card 64K\n");
    }
    for (row, words) in ram.chunks(WORDS_IN_LINE).enumerate() {
        let written = write_row(&mut text, row * WORDS_IN_LINE, words);
        written.expect("writing to a string never fails");
    }
    text
}

fn write_trace(text: &mut String, binary: &[u8], record_bytes: usize) -> fmt::Result {
    let (image, records) = binary.split_at(binary.len().min(IMAGE_BYTES));
    if image.len() < IMAGE_BYTES {
        writeln!(text, "image {}", image.len())?;
    }
    write_image(text, image)?;
    if record_bytes == LONG_BYTES {
        writeln!(text, "records {LONG_BYTES}")?;
    }
    for bytes in records.chunks(record_bytes) {
        let written = match (record_bytes, read_long(bytes)) {
            (LONG_BYTES, Ok(long)) => write_message(text, &long.old, &long_parts(&long)),
            (LONG_BYTES, _) => write_raw(text, bytes),
            _ => write_record(text, bytes),
        };
        written?;
    }
    Ok(())
}

/// A record of 80 bytes, or what stands in its place.
pub fn write_record(text: &mut String, bytes: &[u8]) -> fmt::Result {
    match read_record(bytes) {
        Ok(record) => write_message(text, &record, &format!("tag {:04X}", record.tag)),
        Err(_) => write_raw(text, bytes),
    }
}

/// One line for every eight words that are not all zero.
fn write_image(text: &mut String, image: &[u8]) -> fmt::Result {
    for (row, bytes) in image.chunks(2 * WORDS_IN_LINE).enumerate() {
        let mut words = [0; WORDS_IN_LINE];
        for (word, pair) in words.iter_mut().zip(bytes.chunks(2)) {
            // An image may end in the middle of a word.
            let low = pair.get(1).copied().unwrap_or(0);
            *word = u16::from_be_bytes([pair[0], low]);
        }
        write_row(text, row * WORDS_IN_LINE, &words)?;
    }
    Ok(())
}

fn write_row(text: &mut String, address: usize, words: &[u16]) -> fmt::Result {
    let not_zero = |&word: &u16| word != 0;
    if let Some(first) = words.iter().position(not_zero) {
        let last = words.iter().rposition(not_zero).unwrap_or(first);
        write!(text, "ram {:04X}", address + first)?;
        write_words(text, &words[first..=last])?;
        writeln!(text)?;
    }
    Ok(())
}

/// Eight digits of the tag, and the member number.
fn long_parts(long: &LongRecord) -> String {
    let LongRecord { old, upper, member } = long;
    format!("tag {upper:04X}{:04X} member {member}", old.tag)
}

fn write_message(text: &mut String, record: &Record, tag: &str) -> fmt::Result {
    let bus = if record.has_flag(FLAG_BUS_B) {
        'B'
    } else {
        'A'
    };
    write!(text, "message {:04X}", record.command)?;
    if record.is_transfer() {
        write!(text, " from {:04X}", record.transmit_command)?;
    }
    write!(text, " bus {bus} {tag}")?;
    let flags = flag_names(record.flags);
    if !flags.is_empty() {
        write!(text, " flags {}", flags.join(" "))?;
    }
    if record.count == TOO_MANY {
        write!(text, " count {TOO_MANY}")?;
    }
    let words = &record.words[..record.words_held()];
    if !words.is_empty() {
        text.push_str(" words");
        write_words(text, words)?;
    }
    writeln!(text)
}

/// Each word with a blank before it.
pub fn write_words(text: &mut String, words: &[u16]) -> fmt::Result {
    words
        .iter()
        .try_for_each(|word| write!(text, " {word:04X}"))
}

fn write_raw(text: &mut String, bytes: &[u8]) -> fmt::Result {
    text.push_str("raw");
    for pair in bytes.chunks(2) {
        text.push(' ');
        for byte in pair {
            write!(text, "{byte:02X}")?;
        }
    }
    writeln!(text)
}
