//! This package's terminal over plain slices, as `include/solkverva.h` has it
//! for the proved one: the same words in, the same words out. So the two can
//! be asked in the same way, and timed on equal terms.
//!
//! A slice may have any length: missing words are read as 0, and words for
//! which there is no room are dropped.

mod origins;

pub use origins::{origin_of, who, who_entry, who_fill, PART_WORDS};

use std::ops::Range;

use super::cells::{Kind, Scheme, CELLS};
use super::described::{self, CellDescription, StackDescription};
use super::label::{self, AreaLabel, Sharer};
use super::long::{self, LongRecord};
use super::records::RECORD_WORDS;
use super::{carry_out, Answer, MessageRef, Record, Remembered, Settings};

/// Words of the settings: see the header for each.
pub const SETTINGS_WORDS: usize = 12;
/// Words of what is remembered.
pub const REMEMBERED_WORDS: usize = 2;
/// Words of a record value.
pub const VALUE_WORDS: usize = TRANSMIT_COMMAND + 1;
/// Words of a long record: those of its old part, upper half, member.
pub const LONG_WORDS: usize = VALUE_WORDS + 2;
/// Words of an answer.
pub const ANSWER_WORDS: usize = 9;
/// Words of a cell's listing: how many, and two for each other cell.
pub const LISTING_WORDS: usize = 1 + 2 * (CELLS - 1);
/// Words of the counts: of unsound cells and of pairs.
pub const COUNTS_WORDS: usize = 2;
/// Words of the unsound cells.
pub const UNSOUND_WORDS: usize = CELLS;
/// Words of the pairs, when each two cells meet.
pub const PAIRS_WORDS: usize = CELLS * (CELLS - 1) / 2;

/// Words of a cell's description.
pub const CELL_DESCRIPTION_WORDS: usize = 8;
/// Words of the stack's description.
pub const STACK_DESCRIPTION_WORDS: usize = 4;

/// Words of a value before its data words.
const HEAD_WORDS: usize = 4;
/// Where a value has the transmit command: last, so that the words before it
/// are where they were before there were transfers.
const TRANSMIT_COMMAND: usize = HEAD_WORDS + RECORD_WORDS;

/// The number in the upper 16 bits, the lowest unsound cell in the lower.
#[inline(never)]
pub fn check_area(ram: &[u16], settings: &[u16]) -> u32 {
    let (number, cell) = super::check_area(ram, &settings_of(settings));
    u32::from(number) << 16 | u32::from(cell)
}

/// One message from the bytes of a record: the number, which is also the
/// answer's first word.
#[inline(never)]
pub fn message(
    ram: &mut [u16],
    reply: &mut [u16],
    settings: &[u16],
    remembered: &mut [u16],
    bytes: &[u8],
    answer: &mut [u16],
) -> u16 {
    let settings = settings_of(settings);
    let before = remembered_of(remembered);
    let outcome = carry_out(ram, reply, &settings, before, MessageRef::Bytes(bytes));
    put_outcome(outcome, remembered, answer)
}

/// One message from the words of a record value: the number, as of [`message`].
#[inline(never)]
pub fn message_value(
    ram: &mut [u16],
    reply: &mut [u16],
    settings: &[u16],
    remembered: &mut [u16],
    value: &[u16],
    answer: &mut [u16],
) -> u16 {
    let settings = settings_of(settings);
    let before = remembered_of(remembered);
    let record = record_of(value);
    let outcome = carry_out(ram, reply, &settings, before, MessageRef::Value(&record));
    put_outcome(outcome, remembered, answer)
}

/// The record reader: 0, 4 or 5, and the value's words.
#[inline(never)]
pub fn read(bytes: &[u8], value: &mut [u16]) -> u16 {
    let read = super::read_record(bytes);
    put_or_zero(value, read.map(|record| value_words(&record)))
}

/// The record writer: 0 or 5, and the record's bytes.
#[inline(never)]
pub fn write(value: &[u16], bytes: &mut [u8]) -> u16 {
    put_or_zero(bytes, super::write_record(&record_of(value)))
}

/// One message from the bytes of a long record: the number, as of [`message`].
#[inline(never)]
pub fn message_long(
    ram: &mut [u16],
    reply: &mut [u16],
    settings: &[u16],
    remembered: &mut [u16],
    bytes: &[u8],
    answer: &mut [u16],
) -> u16 {
    let settings = settings_of(settings);
    let before = remembered_of(remembered);
    let outcome = carry_out(ram, reply, &settings, before, MessageRef::Long(bytes));
    put_outcome(outcome, remembered, answer)
}

/// The reader of long records: 0, 4 or 5, and the value's words.
#[inline(never)]
pub fn read_long(bytes: &[u8], value: &mut [u16]) -> u16 {
    let read = long::read_long(bytes);
    put_or_zero(value, read.map(|record| long_words(&record)))
}

/// The writer of long records: 0 or 5, and the record's bytes.
#[inline(never)]
pub fn write_long(value: &[u16], bytes: &mut [u8]) -> u16 {
    put_or_zero(bytes, long::write_long(&long_of(value)))
}

/// Old to new: 0, 4 or 5, and the record's 96 bytes.
#[inline(never)]
pub fn longer(old: &[u8], bytes: &mut [u8]) -> u16 {
    put_or_zero(bytes, long::longer(old))
}

/// New to old: 0, 4, 5 or 10, and the record's 80 bytes.
#[inline(never)]
pub fn shorter(long: &[u8], bytes: &mut [u8]) -> u16 {
    put_or_zero(bytes, long::shorter(long))
}

/// The label of one cell: the number, and the words of its listing.
#[inline(never)]
pub fn label_cell(ram: &[u16], settings: &[u16], cell: u16, listing: &mut [u16]) -> u16 {
    let sharers = label::label_cell(ram, &settings_of(settings), cell);
    put_or_zero(listing, sharers.map(|sharers| listing_words(&sharers)))
}

/// The label of the whole area: the number, how many unsound cells and pairs
/// there are, and both. The pairs keep their contents where it is refused.
#[inline(never)]
pub fn label_area(
    ram: &[u16],
    settings: &[u16],
    counts: &mut [u16],
    unsound: &mut [u16],
    pairs: &mut [u16],
) -> u16 {
    let found = label::label_area(ram, &settings_of(settings));
    let number = found.as_ref().err().copied().unwrap_or(0);
    let label = found.unwrap_or_default();
    put(
        counts,
        &[label.unsound.len() as u16, label.pairs.len() as u16],
    );
    let mut cells = [0; UNSOUND_WORDS];
    put(&mut cells, &label.unsound);
    put(unsound, &cells);
    for (word, (lower, higher)) in pairs.iter_mut().zip(label.pairs) {
        *word = lower << 8 | higher;
    }
    number
}

/// What a cell is like: the number, and the words that tell it.
#[inline(never)]
pub fn describe_cell(ram: &[u16], settings: &[u16], cell: u16, description: &mut [u16]) -> u16 {
    let described = described::describe_cell(ram, &settings_of(settings), cell);
    put_or_zero(description, described.map(|it| cell_description_words(&it)))
}

/// What the stack is like: the number, and the words that tell it.
#[inline(never)]
pub fn describe_stack(ram: &[u16], settings: &[u16], description: &mut [u16]) -> u16 {
    let described = described::describe_stack(ram, &settings_of(settings));
    put_or_zero(
        description,
        described.map(|it| stack_description_words(&it)),
    )
}

pub(crate) fn put_outcome(
    outcome: (Answer, Remembered),
    remembered: &mut [u16],
    answer: &mut [u16],
) -> u16 {
    put(remembered, &remembered_words(outcome.1));
    put(answer, &answer_words(&outcome.0));
    outcome.0.number
}

/// Puts what came of it, or zeros where a number refuses; returns the number.
pub(crate) fn put_or_zero<T: Copy + Default, const LENGTH: usize>(
    slice: &mut [T],
    outcome: Result<[T; LENGTH], u16>,
) -> u16 {
    match outcome {
        Ok(items) => {
            put(slice, &items);
            0
        }
        Err(number) => {
            put(slice, &[T::default(); LENGTH]);
            number
        }
    }
}

/// Puts items at the front of a slice, as far as it goes.
pub(super) fn put<T: Copy>(slice: &mut [T], items: &[T]) {
    let room = slice.len().min(items.len());
    slice[..room].copy_from_slice(&items[..room]);
}

/// The words at the front of a slice; those that it lacks are 0.
fn front<const LENGTH: usize>(words: &[u16]) -> [u16; LENGTH] {
    let mut front = [0; LENGTH];
    match words.get(..LENGTH) {
        Some(words) => front.copy_from_slice(words),
        None => front[..words.len()].copy_from_slice(words),
    }
    front
}

pub(super) fn settings_of(words: &[u16]) -> Settings {
    let words: [u16; SETTINGS_WORDS] = front(words);
    Settings {
        address: words[0],
        area_b: words[1] != 0,
        stack_size: words[2],
        overwrite_invalid: words[3] != 0,
        separate_broadcast: words[4] != 0,
        illegal_receive_disable: words[5] != 0,
        busy_receive_disable: words[6] != 0,
        busy_always: words[7] != 0,
        service_request: words[8] != 0,
        subsystem_flag: words[9] != 0,
        terminal_flag: words[10] != 0,
        // Says that it is off, so that eleven words mean on.
        broadcast: words[11] == 0,
    }
}

pub fn settings_words(settings: &Settings) -> [u16; SETTINGS_WORDS] {
    [
        settings.address,
        settings.area_b.into(),
        settings.stack_size,
        settings.overwrite_invalid.into(),
        settings.separate_broadcast.into(),
        settings.illegal_receive_disable.into(),
        settings.busy_receive_disable.into(),
        settings.busy_always.into(),
        settings.service_request.into(),
        settings.subsystem_flag.into(),
        settings.terminal_flag.into(),
        (!settings.broadcast).into(),
    ]
}

pub fn remembered_of(words: &[u16]) -> Remembered {
    let [command, status] = front(words);
    Remembered { command, status }
}

pub fn remembered_words(remembered: Remembered) -> [u16; REMEMBERED_WORDS] {
    [remembered.command, remembered.status]
}

/// Flags and count are bytes in a record: a larger word is as wrong as 255.
pub fn record_of(value: &[u16]) -> Record {
    let [command, tag, flags, count] = front(value);
    let data = value.get(HEAD_WORDS..).unwrap_or_default();
    let last = value.get(TRANSMIT_COMMAND).copied();
    Record {
        command,
        transmit_command: last.unwrap_or(0),
        tag,
        flags: flags.min(0xFF),
        count: count.min(0xFF),
        words: front(data),
    }
}

pub fn value_words(record: &Record) -> [u16; VALUE_WORDS] {
    let mut value = [0; VALUE_WORDS];
    let head = [record.command, record.tag, record.flags, record.count];
    value[..HEAD_WORDS].copy_from_slice(&head);
    value[HEAD_WORDS..TRANSMIT_COMMAND].copy_from_slice(&record.words);
    value[TRANSMIT_COMMAND] = record.transmit_command;
    value
}

pub fn long_of(value: &[u16]) -> LongRecord {
    let word = |place: usize| value.get(place).copied().unwrap_or(0);
    LongRecord {
        old: record_of(value),
        upper: word(VALUE_WORDS),
        member: word(VALUE_WORDS + 1),
    }
}

pub fn long_words(record: &LongRecord) -> [u16; LONG_WORDS] {
    let mut value = [0; LONG_WORDS];
    value[..VALUE_WORDS].copy_from_slice(&value_words(&record.old));
    value[VALUE_WORDS..].copy_from_slice(&[record.upper, record.member]);
    value
}

pub fn answer_of(words: &[u16]) -> Answer {
    let words: [u16; ANSWER_WORDS] = front(words);
    Answer {
        number: words[0],
        block_status: words[1],
        cell: words[2],
        pointer_before: words[3],
        pointer_after: words[4],
        status: words[5],
        answered: words[6] != 0,
        sent: words[7],
        interrupt: words[8],
    }
}

pub fn answer_words(answer: &Answer) -> [u16; ANSWER_WORDS] {
    [
        answer.number,
        answer.block_status,
        answer.cell,
        answer.pointer_before,
        answer.pointer_after,
        answer.status,
        answer.answered.into(),
        answer.sent,
        answer.interrupt,
    ]
}

fn listing_words(sharers: &[Sharer]) -> [u16; LISTING_WORDS] {
    let mut listing = [0; LISTING_WORDS];
    listing[0] = sharers.len() as u16;
    for (words, sharer) in listing[1..].chunks_exact_mut(2).zip(sharers) {
        words.copy_from_slice(&[sharer.cell, sharer.writes.into()]);
    }
    listing
}

pub fn sharers_of(listing: &[u16; LISTING_WORDS]) -> Vec<Sharer> {
    let words = listing[1..].chunks_exact(2).take(listing[0].into());
    let sharer = |words: &[u16]| Sharer {
        cell: words[0],
        writes: yes_or_no(words[1]),
    };
    words.map(sharer).collect()
}

pub fn area_label_of(counts: [u16; COUNTS_WORDS], unsound: &[u16], pairs: &[u16]) -> AreaLabel {
    let [unsound_cells, all_pairs] = counts.map(usize::from);
    let pair = |word: &u16| (word >> 8, word & 0xFF);
    AreaLabel {
        unsound: unsound[..unsound_cells].to_vec(),
        pairs: pairs[..all_pairs].iter().map(pair).collect(),
    }
}

fn cell_description_words(cell: &CellDescription) -> [u16; CELL_DESCRIPTION_WORDS] {
    let scheme = match cell.scheme {
        Scheme::Single => 1,
        Scheme::Double => 2,
        Scheme::Circular(_) => 3,
    };
    [
        cell.kind as u16,
        cell.subaddress,
        cell.is_read.into(),
        scheme,
        cell.pointer,
        cell.window.start as u16,
        cell.window.len() as u16,
        cell.faults,
    ]
}

pub fn cell_description_of(words: &[u16; CELL_DESCRIPTION_WORDS]) -> CellDescription {
    let [kind, subaddress, is_read, scheme, pointer, start, size, faults] = *words;
    CellDescription {
        kind: match kind {
            0 => Kind::Receive,
            1 => Kind::Transmit,
            2 => Kind::Broadcast,
            _ => panic!("no call describes a cell of kind {kind}"),
        },
        subaddress,
        is_read: yes_or_no(is_read),
        scheme: match scheme {
            1 => Scheme::Single,
            2 => Scheme::Double,
            3 => Scheme::Circular(size),
            _ => panic!("no call describes a cell of scheme {scheme}"),
        },
        pointer,
        window: run(start, size),
        faults,
    }
}

fn stack_description_words(stack: &StackDescription) -> [u16; STACK_DESCRIPTION_WORDS] {
    let (start, size) = (stack.block.start as u16, stack.block.len() as u16);
    [stack.pointer, start, size, stack.faults]
}

pub fn stack_description_of(words: &[u16; STACK_DESCRIPTION_WORDS]) -> StackDescription {
    let [pointer, start, size, faults] = *words;
    StackDescription {
        pointer,
        block: run(start, size),
        faults,
    }
}

fn yes_or_no(word: u16) -> bool {
    match word {
        0 => false,
        1 => true,
        _ => panic!("no call answers {word}, where 1 is yes and 0 is no"),
    }
}

fn run(start: u16, size: u16) -> Range<usize> {
    let start = usize::from(start);
    start..start + usize::from(size)
}
