//! The sides of a comparison of who wrote a word: the functions of the header,
//! over slices, and errors to be planted in them.

use crate::terminal::boundary as plain;
use crate::terminal::records::RECORD_BYTES;
use crate::terminal::{read_record, Record};

/// A part of a trace: RAM, numbers, marks, settings, what is remembered, the
/// count of records, the part's bytes.
type Fill = fn(&mut [u16], &mut [u64], &mut [u16], &[u16], &mut [u16], &mut [u64], &[u8]) -> u16;
/// An address in the tables: numbers, marks, the address, last, part.
type Entry = fn(&[u64], &[u16], u16, &mut [u64], &mut [u16]) -> u16;
/// An address after a whole trace: RAM, settings, the address, the trace, last,
/// part.
type Who = fn(&mut [u16], &[u16], u16, &[u8], &mut [u64], &mut [u16]) -> u16;

#[derive(Clone, Copy)]
pub struct OriginSide {
    pub fill: Fill,
    pub entry: Entry,
    pub who: Who,
}

/// This package's answers.
pub const PLAIN: OriginSide = OriginSide {
    fill: plain::who_fill,
    entry: plain::who_entry,
    who: plain::who,
};

/// The proved terminal's.
#[cfg(feature = "engine")]
pub const PROVED: OriginSide = OriginSide {
    fill: crate::engine::boundary::who_fill,
    entry: crate::engine::boundary::who_entry,
    who: crate::engine::boundary::who,
};

/// This package's answers about another trace than the one that is given.
macro_rules! misheard {
    ($heard:expr) => {
        OriginSide {
            fill: |ram, numbers, marks, settings, remembered, records, trace| {
                let heard: Vec<u8> = $heard(trace);
                plain::who_fill(ram, numbers, marks, settings, remembered, records, &heard)
            },
            who: |ram, settings, address, trace, last, part| {
                let heard: Vec<u8> = $heard(trace);
                plain::who(ram, settings, address, &heard, last, part)
            },
            ..PLAIN
        }
    };
}

/// This package's answers, and then a wrong word: what is changed is given the
/// number and the lent part.
macro_rules! misspelled {
    ($spell:expr) => {
        OriginSide {
            entry: |numbers, marks, address, last, part| {
                let lent = part.to_vec();
                let number = plain::who_entry(numbers, marks, address, last, part);
                let spell: fn(u16, &mut [u16], &[u16]) = $spell;
                spell(number, part, &lent);
                number
            },
            who: |ram, settings, address, trace, last, part| {
                let lent = part.to_vec();
                let number = plain::who(ram, settings, address, trace, last, part);
                let spell: fn(u16, &mut [u16], &[u16]) = $spell;
                spell(number, part, &lent);
                number
            },
            ..PLAIN
        }
    };
}

/// This package's tables, but a record that writes the word that stands there
/// already counts as one that writes nothing there.
fn fill_changed(
    ram: &mut [u16],
    numbers: &mut [u64],
    marks: &mut [u16],
    settings: &[u16],
    remembered: &mut [u16],
    records: &mut [u64],
    trace: &[u8],
) -> u16 {
    let number = plain::who_fill(ram, numbers, marks, settings, remembered, records, &[]);
    if number != 0 {
        return number;
    }
    for record in trace.chunks_exact(RECORD_BYTES) {
        let (words, last, parts) = (ram.to_vec(), numbers.to_vec(), marks.to_vec());
        plain::who_fill(ram, numbers, marks, settings, remembered, records, record);
        for place in 0..words.len() {
            if ram[place] == words[place] {
                numbers[place] = last[place];
                marks[place] = parts[place];
            }
        }
    }
    0
}

/// Errors by name: this package's answers, each wrong in one way.
pub const ERRORS: [(&str, OriginSide); 12] = [
    (
        "equal-words-unheard",
        OriginSide {
            fill: fill_changed,
            ..PLAIN
        },
    ),
    (
        "last-unheard",
        misheard!(|trace: &[u8]| {
            let records = trace.len() / RECORD_BYTES;
            trace[..records.saturating_sub(1) * RECORD_BYTES].to_vec()
        }),
    ),
    (
        "damaged-uncounted",
        misheard!(|trace: &[u8]| {
            let records = trace.chunks_exact(RECORD_BYTES);
            let kept = records.filter(|record| read_record(record).is_ok());
            kept.flatten().copied().collect()
        }),
    ),
    (
        "transfers-unheard",
        misheard!(|trace: &[u8]| {
            let mut deaf = trace.to_vec();
            for record in deaf.chunks_exact_mut(RECORD_BYTES) {
                let is_transfer = |record: Record| record.is_transfer();
                if read_record(record).map_or(false, is_transfer) {
                    // Refused, and so counted all the same.
                    record.fill(0xFF);
                }
            }
            deaf
        }),
    ),
    (
        "cells-without-kind",
        misspelled!(|_, part, _| {
            if let [_, cell, ..] = part {
                *cell %= 32;
            }
        }),
    ),
    // Kinds go to 4.
    (
        "a-kind-too-many",
        misspelled!(|_, part, _| {
            if let [kind @ 4, ..] = part {
                *kind = 5;
            }
        }),
    ),
    (
        "pointers-with-place",
        misspelled!(|_, part, _| {
            if let [2, _, place, ..] = part {
                *place = 1;
            }
        }),
    ),
    (
        "image-with-cell",
        misspelled!(|number, part, _| {
            if let (0, [0, cell, ..]) = (number, part) {
                *cell = 1;
            }
        }),
    ),
    (
        "words-beside-refusals",
        misspelled!(|number, part, lent| {
            if number != 0 {
                part.copy_from_slice(lent);
            }
        }),
    ),
    (
        "words-behind-the-part",
        misspelled!(|_, part, _| {
            if let [_, _, _, behind, ..] = part {
                *behind = 0;
            }
        }),
    ),
    (
        "refused-but-counted",
        OriginSide {
            fill: |ram, numbers, marks, settings, remembered, records, trace| {
                let number =
                    plain::who_fill(ram, numbers, marks, settings, remembered, records, trace);
                if let (1.., Some(count)) = (number, records.first_mut()) {
                    *count += (trace.len() / RECORD_BYTES) as u64;
                }
                number
            },
            ..PLAIN
        },
    ),
    (
        "refused-but-played",
        OriginSide {
            who: |ram, settings, address, trace, last, part| {
                let number = plain::who(ram, settings, address, trace, last, part);
                if number != 0 {
                    plain::who(ram, settings, 0, trace, &mut [], &mut []);
                }
                number
            },
            ..PLAIN
        },
    ),
];
