//! Who put a word where it is, over plain slices, as the header has it.

use super::{front, put, remembered_of, remembered_words, settings_of};
use crate::terminal::cells::{check_ram, CARDS};
use crate::terminal::message::REPLY_WORDS;
use crate::terminal::records::{RECORD_BYTES, RECORD_WORDS};
use crate::terminal::refusal;
use crate::terminal::who::{Origin, Walk};
use crate::terminal::writes::{writes, Part};
use crate::terminal::{carry_out, read_record, MessageRef};

/// Words of a part: its kind, its cell, its place in the message.
pub const PART_WORDS: usize = 3;

/// Cells have the numbers below: 32 for each of three kinds.
const CELL_NUMBERS: u16 = 96;
/// Words of a descriptor.
const STACK_PLACES: u16 = 4;

/// A part of a trace for every address at once: 0, 1 or 3, and then nothing has
/// changed. RAM and the tables go on from what they hold.
pub fn who_fill(
    ram: &mut [u16],
    numbers: &mut [u64],
    marks: &mut [u16],
    settings: &[u16],
    remembered: &mut [u16],
    records: &mut [u64],
    trace: &[u8],
) -> u16 {
    let settings = settings_of(settings);
    if [numbers.len(), marks.len()] != [ram.len(); 2] {
        return refusal::RAM_LENGTH;
    }
    if let Err(number) = check_ram(ram).and_then(|()| settings.check()) {
        return number;
    }
    let mut memory = remembered_of(remembered);
    let mut record = records.first().copied().unwrap_or(0);
    let mut reply = [0; REPLY_WORDS];
    for bytes in trace.chunks_exact(RECORD_BYTES) {
        record = record.wrapping_add(1);
        let list = read_record(bytes).and_then(|it| writes(ram, &settings, &it));
        let (cell, list) = list.unwrap_or_default();
        for write in list {
            numbers[write.address] = record;
            marks[write.address] = mark_of(part_words(cell, write.part));
        }
        let message = MessageRef::Bytes(bytes);
        memory = carry_out(ram, &mut reply, &settings, memory, message).1;
    }
    put(remembered, &remembered_words(memory));
    put(records, &[record]);
    0
}

/// What filled tables say of an address: 0, 1, 5 or 12, the record and the part.
pub fn who_entry(
    numbers: &[u64],
    marks: &[u16],
    address: u16,
    last: &mut [u64],
    part: &mut [u16],
) -> u16 {
    let (number, record, words) = match entry(numbers, marks, usize::from(address)) {
        Ok((record, words)) => (0, record, words),
        Err(number) => (number, 0, [0; PART_WORDS]),
    };
    put(last, &[record]);
    put(part, &words);
    number
}

fn entry(numbers: &[u64], marks: &[u16], at: usize) -> Result<(u64, [u16; PART_WORDS]), u16> {
    if !CARDS.contains(&numbers.len()) || marks.len() != numbers.len() {
        return Err(refusal::RAM_LENGTH);
    }
    if at >= numbers.len() {
        return Err(refusal::BEYOND_RAM);
    }
    match (numbers[at], marks[at]) {
        (0, 0) => Ok((0, [0; PART_WORDS])),
        (0, _) => Err(refusal::RECORD_LAYOUT),
        (record, mark) => match marked(mark) {
            Some(part) => Ok((record, part)),
            None => Err(refusal::RECORD_LAYOUT),
        },
    }
}

/// One address of a whole trace: 0, 1, 3 or 12, the record and the part. RAM
/// holds the image, and afterwards what the trace leaves.
pub fn who(
    ram: &mut [u16],
    settings: &[u16],
    address: u16,
    trace: &[u8],
    last: &mut [u64],
    part: &mut [u16],
) -> u16 {
    let walked = Walk::new(ram, &settings_of(settings)).and_then(|mut walk| {
        walk.who(address)?;
        let records = trace.chunks_exact(RECORD_BYTES);
        records.for_each(|record| walk.record(record));
        Ok((walk.who(address)?, walk))
    });
    let (number, origin) = match walked {
        Ok((origin, walk)) => {
            ram.copy_from_slice(walk.ram());
            (0, origin)
        }
        Err(number) => (number, None),
    };
    put(last, &[origin.map_or(0, |origin| origin.record)]);
    put(
        part,
        &origin.map_or([0; PART_WORDS], |it| part_words(it.cell, it.part)),
    );
    number
}

fn part_words(cell: u16, part: Part) -> [u16; PART_WORDS] {
    let (kind, place) = match part {
        Part::Data(place) => (1, place),
        Part::Pointer => (2, 0),
        Part::Stack(place) => (3, place),
        Part::StackPointer => (4, 0),
    };
    [kind, cell, place]
}

/// A mark has the kind in bits 15-13, the place in 12-7, the cell in 6-0.
fn mark_of([kind, cell, place]: [u16; PART_WORDS]) -> u16 {
    kind << 13 | place << 7 | cell
}

/// What a word of the marks says, where a write leaves it: the mark is looked
/// for among those of all writes that there are.
fn marked(word: u16) -> Option<[u16; PART_WORDS]> {
    let cell = word & 0x007F;
    let data = (1..=RECORD_WORDS as u16).map(Part::Data);
    let stack = (1..=STACK_PLACES).map(Part::Stack);
    let parts = data
        .chain([Part::Pointer])
        .chain(stack)
        .chain([Part::StackPointer]);
    let mut words = parts.map(|part| part_words(cell, part));
    let found = words.find(|&part| mark_of(part) == word)?;
    (cell < CELL_NUMBERS).then_some(found)
}

/// What a number, a record and the words of a part say: none where the word is
/// as in the image, or what refuses.
///
/// # Panics
///
/// Where they say what no call may say.
pub fn origin_of(number: u16, last: &[u64], part: &[u16]) -> Result<Option<Origin>, u16> {
    let record = last.first().copied().unwrap_or(0);
    let [kind, cell, place] = front(part);
    let part = match (number, record, [kind, cell, place]) {
        (0, 0, [0, 0, 0]) => return Ok(None),
        (1.., 0, [0, 0, 0]) => return Err(number),
        (0, 1.., [1, _, 1..=32]) => Part::Data(place),
        (0, 1.., [2, _, 0]) => Part::Pointer,
        (0, 1.., [3, _, 1..=4]) => Part::Stack(place),
        (0, 1.., [4, _, 0]) => Part::StackPointer,
        (_, _, part) => {
            panic!(
                "no call answers with the number {number}, record {record} and the part {part:?}"
            )
        }
    };
    Ok(Some(Origin { record, cell, part }))
}
