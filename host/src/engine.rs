//! The proved terminal, with the types of this package.
//!
//! The functions answer what those of [`crate::terminal`] answer, so that the
//! two can be compared. [`boundary`] has the same functions over slices, as
//! `include/solkverva.h` names them.

pub mod boundary;
pub mod control;
pub mod long;
pub mod who;

pub use who::Walk;

use crate::terminal::boundary::{
    answer_of, area_label_of, cell_description_of, record_of, remembered_of, remembered_words,
    settings_words, sharers_of, stack_description_of, value_words, ANSWER_WORDS,
    CELL_DESCRIPTION_WORDS, COUNTS_WORDS, LISTING_WORDS, PAIRS_WORDS, STACK_DESCRIPTION_WORDS,
    UNSOUND_WORDS, VALUE_WORDS,
};
use crate::terminal::described::{CellDescription, StackDescription};
use crate::terminal::label::{AreaLabel, Sharer};
use crate::terminal::records::RECORD_BYTES;
use crate::terminal::{Answer, MessageRef, Record, Remembered, Settings};

/// The whole-area check: the number, and the lowest unsound cell beside 9.
pub fn check_area(ram: &[u16], settings: &Settings) -> (u16, u16) {
    let answer = boundary::check_area(ram, &settings_words(settings));
    ((answer >> 16) as u16, answer as u16)
}

/// Carries out a message.
pub fn carry_out(
    ram: &mut [u16],
    reply: &mut [u16],
    settings: &Settings,
    remembered: Remembered,
    message: MessageRef,
) -> (Answer, Remembered) {
    let mut memory = remembered_words(remembered);
    let mut answer = [0; ANSWER_WORDS];
    let settings = settings_words(settings);
    let number = match message {
        MessageRef::Bytes(bytes) => {
            boundary::message(ram, reply, &settings, &mut memory, bytes, &mut answer)
        }
        MessageRef::Value(record) => {
            let value = value_words(record);
            boundary::message_value(ram, reply, &settings, &mut memory, &value, &mut answer)
        }
        MessageRef::Long(bytes) => {
            boundary::message_long(ram, reply, &settings, &mut memory, bytes, &mut answer)
        }
    };
    assert_eq!(number, answer[0], "the number is returned and answered");
    (answer_of(&answer), remembered_of(&memory))
}

/// Every other cell whose window meets this cell's window, in rising number.
pub fn label_cell(ram: &[u16], settings: &Settings, cell: u16) -> Result<Vec<Sharer>, u16> {
    let mut listing = [0; LISTING_WORDS];
    match boundary::label_cell(ram, &settings_words(settings), cell, &mut listing) {
        0 => Ok(sharers_of(&listing)),
        number => Err(number),
    }
}

/// The unsound cells, and each pair of others whose windows meet.
pub fn label_area(ram: &[u16], settings: &Settings) -> Result<AreaLabel, u16> {
    let mut counts = [0; COUNTS_WORDS];
    let mut unsound = [0; UNSOUND_WORDS];
    let mut pairs = [0; PAIRS_WORDS];
    let words = settings_words(settings);
    match boundary::label_area(ram, &words, &mut counts, &mut unsound, &mut pairs) {
        0 => Ok(area_label_of(counts, &unsound, &pairs)),
        number => Err(number),
    }
}

/// A cell by its number, sound or not.
pub fn describe_cell(ram: &[u16], settings: &Settings, cell: u16) -> Result<CellDescription, u16> {
    let mut description = [0; CELL_DESCRIPTION_WORDS];
    match boundary::describe_cell(ram, &settings_words(settings), cell, &mut description) {
        0 => Ok(cell_description_of(&description)),
        number => Err(number),
    }
}

/// The stack, sound or not.
pub fn describe_stack(ram: &[u16], settings: &Settings) -> Result<StackDescription, u16> {
    let mut description = [0; STACK_DESCRIPTION_WORDS];
    match boundary::describe_stack(ram, &settings_words(settings), &mut description) {
        0 => Ok(stack_description_of(&description)),
        number => Err(number),
    }
}

/// Reads a record: the number, and the value, zero where it is refused.
pub fn read_record(bytes: &[u8]) -> (u16, Record) {
    let mut value = [0; VALUE_WORDS];
    let number = boundary::read(bytes, &mut value);
    (number, record_of(&value))
}

/// Writes a record: the number, and the bytes, zero where it is refused.
pub fn write_record(record: &Record) -> (u16, [u8; RECORD_BYTES]) {
    let mut bytes = [0; RECORD_BYTES];
    let number = boundary::write(&value_words(record), &mut bytes);
    (number, bytes)
}
