//! Tables that tell of every word who put it there, with what no replay leaves:
//! lengths that do not fit, marks that are none, parts that are refused. The
//! proved functions against plain Rust's, all that is lent each time; and errors
//! that have to be found.

use plain_terminal::engine::boundary as proved;
use plain_terminal::random::Random;
use plain_terminal::terminal::boundary as plain;
use plain_terminal::terminal::boundary::settings_words;
use plain_terminal::terminal::who::{who, Origin};
use plain_terminal::terminal::words::Command;
use plain_terminal::terminal::writes::Part;
use plain_terminal::terminal::{write_record, Settings};

const RAM_WORDS: usize = 4096;
const LARGE_RAM_WORDS: usize = 65_536;
const LENGTHS: [usize; 9] = [
    0,
    1,
    RAM_WORDS - 1,
    RAM_WORDS,
    RAM_WORDS + 1,
    12_288,
    LARGE_RAM_WORDS - 1,
    LARGE_RAM_WORDS,
    LARGE_RAM_WORDS + 1,
];
const ADDRESSES: [u16; 6] = [0, 1, 0x0100, 0x0FFF, 0x1000, 0xFFFF];

/// What a caller lends for a part of a trace, to be written.
#[derive(Clone, Debug, PartialEq, Eq)]
struct Lent {
    ram: Vec<u16>,
    numbers: Vec<u64>,
    marks: Vec<u16>,
    remembered: Vec<u16>,
    records: Vec<u64>,
}

/// What the tables tell of an address: the number that refuses, the record, and
/// its part, cell and place.
type Told = (u16, u64, [u16; 3]);
type Entry = fn(&[u64], &[u16], u16) -> Told;
type Fill = fn(&mut Lent, &[u16], &[u8]) -> u16;

/// The two functions of a side, over what is lent here.
macro_rules! side {
    ($side:ident, $entry:ident, $fill:ident) => {
        fn $entry(numbers: &[u64], marks: &[u16], address: u16) -> Told {
            let (mut last, mut part) = ([0xEEEE], [0xEEEE; 3]);
            let number = $side::who_entry(numbers, marks, address, &mut last, &mut part);
            (number, last[0], part)
        }

        fn $fill(lent: &mut Lent, settings: &[u16], trace: &[u8]) -> u16 {
            $side::who_fill(
                &mut lent.ram,
                &mut lent.numbers,
                &mut lent.marks,
                settings,
                &mut lent.remembered,
                &mut lent.records,
                trace,
            )
        }
    };
}

side!(proved, proved_entry, proved_fill);
side!(plain, entry, fill);

/// Every word as a mark, with a number and without.
fn first_mark_that_differs(one: Entry, other: Entry) -> Option<(u64, u16)> {
    let mut numbers = vec![0; RAM_WORDS];
    let mut marks = vec![0; RAM_WORDS];
    for number in [0, 1, u64::MAX] {
        for mark in 0..=0xFFFF {
            (numbers[7], marks[7]) = (number, mark);
            if one(&numbers, &marks, 7) != other(&numbers, &marks, 7) {
                return Some((number, mark));
            }
        }
    }
    None
}

/// Tables of all lengths, filled with a data word's entries.
fn first_length_that_differs(one: Entry, other: Entry) -> Option<(usize, usize, u16)> {
    for numbers in LENGTHS {
        for marks in LENGTHS {
            for address in ADDRESSES {
                let (number, mark) = (vec![9; numbers], vec![0x2083; marks]);
                if one(&number, &mark, address) != other(&number, &mark, address) {
                    return Some((numbers, marks, address));
                }
            }
        }
    }
    None
}

fn example() -> Lent {
    Lent {
        ram: super::example_ram(),
        numbers: vec![0; RAM_WORDS],
        marks: vec![0; RAM_WORDS],
        remembered: vec![0; 2],
        records: vec![0],
    }
}

/// How a part of a trace is lent.
#[derive(Clone, Copy, PartialEq)]
enum Way {
    Well,
    BadSettings,
    Numbers(usize),
    Marks(usize),
    Ram(usize),
}

const WAYS: [Way; 9] = [
    Way::Well,
    Way::Well,
    Way::Well,
    Way::BadSettings,
    Way::Numbers(RAM_WORDS - 1),
    Way::Numbers(RAM_WORDS + 1),
    Way::Marks(RAM_WORDS - 1),
    Way::Marks(0),
    Way::Ram(RAM_WORDS - 1),
];

/// One part: what is lent goes on where it is lent well, and a copy of it is lent
/// where it is not.
fn lend(fill: Fill, lent: &mut Lent, way: Way, part: &[u8]) -> (u16, Lent) {
    let mut settings = settings_words(&Settings::TRACE);
    let mut copy = lent.clone();
    match way {
        Way::Well => {}
        Way::BadSettings => settings[2] = 300,
        Way::Numbers(length) => copy.numbers.resize(length, 0),
        Way::Marks(length) => copy.marks.resize(length, 0),
        Way::Ram(length) => copy.ram.resize(length, 0),
    }
    let number = fill(&mut copy, &settings, part);
    if matches!(way, Way::Well | Way::BadSettings) {
        *lent = copy.clone();
    }
    (number, copy)
}

/// A trace in parts, of which some are refused: whether both sides do the same
/// in each, and what they hold in the end, with the records that were taken.
fn parts(one: Fill, other: Fill, seed: u64) -> Option<(Lent, Vec<u8>)> {
    let mut random = Random::new(seed);
    let (mut left, mut right, mut taken) = (example(), example(), Vec::new());
    for _ in 0..16 {
        let mut part = Vec::new();
        for _ in 0..random.below(4) {
            // Subaddress 3 as a rule, whose cells are sound.
            let three = Command(0x2860 | random.word() & 0x041F);
            let record = match random.below(4) {
                0 => random.record(5),
                _ => random.record_for(three),
            };
            part.extend(write_record(&record).unwrap_or([0xFF; 80]));
        }
        let way = random.pick(&WAYS);
        if lend(one, &mut left, way, &part) != lend(other, &mut right, way, &part) {
            return None;
        }
        if way == Way::Well {
            taken.extend(part);
        }
    }
    (left == right).then_some((left, taken))
}

fn told(origin: Option<Origin>) -> Told {
    let part = |Origin { cell, part, .. }: Origin| match part {
        Part::Data(place) => [1, cell, place],
        Part::Pointer => [2, cell, 0],
        Part::Stack(place) => [3, cell, place],
        Part::StackPointer => [4, cell, 0],
    };
    origin.map_or((0, 0, [0; 3]), |it| (0, it.record, part(it)))
}

#[test]
fn every_word_as_a_mark() {
    assert_eq!(first_mark_that_differs(proved_entry, entry), None);
}

#[test]
fn tables_of_every_length() {
    assert_eq!(first_length_that_differs(proved_entry, entry), None);
}

/// A refused part counts for nothing: each entry is the one-address answer of
/// the parts that were taken.
#[test]
fn a_refused_part_leaves_no_trace() {
    let mut records = 0;
    for seed in 0..200 {
        let (lent, taken) = parts(proved_fill, fill, seed).expect("both do the same");
        assert_eq!(lent.records, [taken.len() as u64 / 80]);
        records += lent.records[0];
        for address in (0..RAM_WORDS as u16).filter(|address| {
            address % 64 == seed as u16 % 64 || lent.numbers[usize::from(*address)] != 0
        }) {
            let origin = who(&super::example_ram(), &Settings::TRACE, &taken, address);
            let answer = proved_entry(&lent.numbers, &lent.marks, address);
            assert_eq!(answer, told(origin.unwrap()), "{seed} {address:04X}");
        }
    }
    assert!(records > 1000, "{records}");
}

/// Errors of the tables as they once were, and others, are found.
#[test]
fn planted_errors_of_tables_are_found() {
    let short_marks_are_zero: Entry = |numbers, marks, address| {
        let mut marks = marks.to_vec();
        marks.resize(numbers.len(), 0);
        match entry(numbers, &marks, address) {
            (5, _, _) => (0, numbers[usize::from(address)], [4, 0, 0]),
            told => told,
        }
    };
    let any_length: Entry = |numbers, marks, address| {
        let (mut numbers, mut marks) = (numbers.to_vec(), marks.to_vec());
        numbers.resize(RAM_WORDS, 0);
        marks.resize(RAM_WORDS, 0);
        entry(&numbers, &marks, address)
    };
    let other_marks_are_stack_pointers: Entry = |numbers, marks, address| {
        let (number, mark) = (numbers[usize::from(address)], marks[usize::from(address)]);
        match entry(numbers, marks, address) {
            (5, _, _) if number != 0 => (0, number, [4, mark % 128, 0]),
            told => told,
        }
    };
    let lone_marks_are_blank: Entry = |numbers, marks, address| match (
        entry(numbers, marks, address),
        numbers[usize::from(address)],
    ) {
        ((5, _, _), 0) => (0, 0, [0; 3]),
        (told, _) => told,
    };
    assert!(first_length_that_differs(proved_entry, short_marks_are_zero).is_some());
    assert!(first_length_that_differs(proved_entry, any_length).is_some());
    assert!(first_mark_that_differs(proved_entry, other_marks_are_stack_pointers).is_some());
    assert!(first_mark_that_differs(proved_entry, lone_marks_are_blank).is_some());

    let refused_part_counts: Fill = |lent, settings, part| {
        let number = fill(lent, settings, part);
        if number != 0 {
            lent.records[0] += part.len() as u64 / 80;
        }
        number
    };
    let short_tables_are_filled: Fill = |lent, settings, part| {
        let lengths = (lent.numbers.len(), lent.marks.len());
        lent.numbers.resize(lent.ram.len(), 0);
        lent.marks.resize(lent.ram.len(), 0);
        let number = fill(lent, settings, part);
        lent.numbers.resize(lengths.0, 0);
        lent.marks.resize(lengths.1, 0);
        number
    };
    for error in [refused_part_counts, short_tables_are_filled] {
        assert!((0..200).any(|seed| parts(proved_fill, error, seed).is_none()));
    }
}
