//! Who put each word where it is, answered by two sides: random traces, every
//! address from tables that are filled part by part, some addresses one by one;
//! every lent word, and words behind them that no side may touch.

pub mod coverage;
pub mod sides;

use std::fmt::{Debug, Write};
use std::iter;

use super::case::GUARD;
use super::episode::{card_of, Episode};
use crate::random::Random;
use crate::terminal::boundary::{settings_words, PART_WORDS, REMEMBERED_WORDS};
use crate::terminal::cells::check_ram;
use crate::terminal::records::RECORD_BYTES;
use crate::terminal::Settings;
use coverage::Coverage;
use sides::OriginSide;

/// One of so many traces is spoiled in each of the ways there are.
const SPOILED_ONE_IN: usize = 24;

/// Addresses of a trace that are also asked for one by one.
const SINGLES: usize = 3;

/// Words or numbers behind those that are lent.
const BEHIND: usize = 2;
const LAST_ROOM: usize = 1 + BEHIND;
const PART_ROOM: usize = PART_WORDS + BEHIND;
const GUARD_NUMBER: u64 = 0xEEEE_EEEE_EEEE_EEEE;

/// A trace, and how it is asked about.
#[derive(Clone, Debug)]
pub struct Asked {
    pub image: Vec<u16>,
    /// How many words of RAM the card has, and its tables entries.
    pub card_words: usize,
    pub settings: Settings,
    /// Whole records, some of them damaged, and perhaps a tail.
    pub records: Vec<u8>,
    /// Records that went by before them.
    pub before: u64,
    /// Records of each part that the tables go on by.
    pub part_records: usize,
    pub singles: Vec<u16>,
    /// How much is lent for the record and for the part, of the room there is.
    pub last_lent: usize,
    pub part_lent: usize,
}

impl Asked {
    /// The trace of a seed.
    pub fn draw(seed: u64) -> Asked {
        let mut random = Random::new(seed);
        let settings = random.settings();
        let card_words = card_of(seed);
        let (mut episode, state) = Episode::on_card(random.clone(), settings, card_words);
        let records = random.pick(&[1, 8, 64, 200, 200]);
        let mut bytes: Vec<u8> = (0..random.below(records + 1))
            .flat_map(|_| episode.record())
            .collect();
        if random.chance(3) {
            let tail = 1 + random.below(RECORD_BYTES - 1);
            bytes.extend(random.bytes(tail));
        }
        let mut asked = Asked {
            image: state.card().to_vec(),
            card_words,
            settings,
            records: bytes,
            before: random.pick(&[0, 0, 7, 1 << 40]),
            part_records: 1 + random.below(30),
            singles: (0..SINGLES)
                .map(|_| single(&mut random, card_words))
                .collect(),
            last_lent: random.pick(&[0, 1, 1, 1, LAST_ROOM]),
            part_lent: random.pick(&[0, 1, 2, 3, 3, 3, 3, 3, PART_ROOM]),
        };
        // Beyond the small card, and the other's last word.
        asked.singles.push(random.pick(&[0x1000, 0xFFFF]));
        asked.spoil(&mut random);
        asked
    }

    fn spoil(&mut self, random: &mut Random) {
        if random.chance(SPOILED_ONE_IN) {
            let card = self.card_words;
            let words = random.pick(&[0, card - 1, card + 1]);
            self.image.resize(words, 0);
        }
        if random.chance(SPOILED_ONE_IN) {
            self.settings.stack_size = 300;
        }
        if random.chance(SPOILED_ONE_IN) {
            self.settings.address = random.pick(&[31, 32]);
        }
    }

    fn is_refused(&self) -> bool {
        check_ram(&self.image).is_err() || self.settings.check().is_err()
    }

    /// The same with its first records alone.
    pub fn first(&self, records: usize) -> Asked {
        let mut asked = self.clone();
        asked.records.truncate(records * RECORD_BYTES);
        asked
    }
}

/// An address anywhere, or where messages write most: stacks and tables.
fn single(random: &mut Random, card_words: usize) -> u16 {
    let limit = random.pick(&[card_words, 0x0200]);
    random.below(limit) as u16
}

/// Every address of a card, and some beyond; on the 64K card none is.
pub fn addresses(card_words: usize) -> impl Iterator<Item = u16> {
    let last = u16::try_from(card_words).unwrap_or(0xFFFF);
    (0..=last).chain([0xFFFF])
}

/// What is said of one address: all that there was room for, lent or not.
#[derive(Clone, Copy, Debug, PartialEq, Eq)]
pub struct Said {
    pub number: u16,
    pub last: [u64; LAST_ROOM],
    pub part: [u16; PART_ROOM],
}

impl Said {
    fn ask(asked: &Asked, ask: impl FnOnce(&mut [u64], &mut [u16]) -> u16) -> Said {
        let mut said = Said {
            number: 0,
            last: [GUARD_NUMBER; LAST_ROOM],
            part: [GUARD; PART_ROOM],
        };
        said.number = ask(
            &mut said.last[..asked.last_lent],
            &mut said.part[..asked.part_lent],
        );
        said
    }
}

/// All that a side answers, and all that it leaves in what is lent.
#[derive(Clone, Debug, PartialEq, Eq)]
pub struct Told {
    /// The number of each call that goes on by a part; the first part is empty.
    pub parts: Vec<u16>,
    pub ram: Vec<u16>,
    pub remembered: Vec<u16>,
    pub records: Vec<u64>,
    /// The tables where they are refused, and else what is behind them: what
    /// they hold is for the side to know, and [`Told::every`] has what it says.
    pub numbers: Vec<u64>,
    pub marks: Vec<u16>,
    /// For each of [`addresses`], where nothing is refused.
    pub every: Vec<Said>,
    /// Those asked for one by one, each with the RAM that is left.
    pub singles: Vec<(Said, Vec<u16>)>,
}

/// So many of an item, and the guards behind them.
fn guarded<T: Copy>(items: &[T], guard: T) -> Vec<T> {
    let guards = iter::repeat(guard).take(BEHIND);
    items.iter().copied().chain(guards).collect()
}

pub fn ask(side: &OriginSide, asked: &Asked) -> Told {
    let settings = settings_words(&asked.settings);
    let single = |&address: &u16| {
        let mut ram = guarded(&asked.image, GUARD);
        let lent = &mut ram[..asked.image.len()];
        let said = Said::ask(asked, |last, part| {
            (side.who)(lent, &settings, address, &asked.records, last, part)
        });
        (said, ram)
    };
    let singles = asked.singles.iter().map(single).collect();

    // What a refusal must leave alone is not blank.
    let (number, word) = match asked.is_refused() {
        true => (GUARD_NUMBER, GUARD),
        false => (0, 0),
    };
    let mut told = Told {
        parts: Vec::new(),
        ram: guarded(&asked.image, GUARD),
        remembered: guarded(&[word; REMEMBERED_WORDS], GUARD),
        records: guarded(&[asked.before], GUARD_NUMBER),
        numbers: guarded(&vec![number; asked.card_words], GUARD_NUMBER),
        marks: guarded(&vec![word; asked.card_words], GUARD),
        every: Vec::new(),
        singles,
    };
    let parts = asked.records.chunks(asked.part_records * RECORD_BYTES);
    for part in iter::once(&[][..]).chain(parts) {
        let number = (side.fill)(
            &mut told.ram[..asked.image.len()],
            &mut told.numbers[..asked.card_words],
            &mut told.marks[..asked.card_words],
            &settings,
            &mut told.remembered,
            &mut told.records,
            part,
        );
        told.parts.push(number);
    }
    if !asked.is_refused() {
        told.take_entries(side, asked);
    }
    told
}

impl Told {
    /// What the tables say, in place of what they hold.
    fn take_entries(&mut self, side: &OriginSide, asked: &Asked) {
        let card = asked.card_words;
        let (numbers, marks) = (&self.numbers[..card], &self.marks[..card]);
        let entry = |address| {
            Said::ask(asked, |last, part| {
                (side.entry)(numbers, marks, address, last, part)
            })
        };
        self.every = addresses(card).map(entry).collect();
        self.numbers.drain(..card);
        self.marks.drain(..card);
    }
}

/// Asks both sides about the traces of the seeds from `first_seed` on; returns
/// the first seed of which they tell different things.
pub fn compare(
    left: &OriginSide,
    right: &OriginSide,
    first_seed: u64,
    traces: u64,
    coverage: &mut Coverage,
) -> Option<u64> {
    for seed in first_seed..first_seed + traces {
        let asked = Asked::draw(seed);
        let told = ask(left, &asked);
        if told != ask(right, &asked) {
            return Some(seed);
        }
        coverage.take_in(&asked, &told);
    }
    None
}

/// What differs, after the fewest records that show a difference.
pub fn report(left: &OriginSide, right: &OriginSide, seed: u64) -> String {
    let whole = Asked::draw(seed);
    let records = whole.records.len() / RECORD_BYTES;
    let differs = |records: &usize| {
        let asked = whole.first(*records);
        ask(left, &asked) != ask(right, &asked)
    };
    let records = (0..=records).find(differs).unwrap_or(records);
    let asked = whole.first(records);
    let (one, other) = (ask(left, &asked), ask(right, &asked));
    let mut text = format!("after {records} records of the trace\n");
    write_each(&mut text, "part", &one.parts, &other.parts);
    write_each(&mut text, "RAM", &one.ram, &other.ram);
    write_each(&mut text, "remembered", &one.remembered, &other.remembered);
    write_each(&mut text, "records", &one.records, &other.records);
    write_each(&mut text, "numbers", &one.numbers, &other.numbers);
    write_each(&mut text, "marks", &one.marks, &other.marks);
    write_each(&mut text, "address", &one.every, &other.every);
    for (address, (one, other)) in asked
        .singles
        .iter()
        .zip(one.singles.iter().zip(&other.singles))
    {
        let name = format!("asked for {address:04X}");
        write_each(&mut text, &name, &[one.0], &[other.0]);
        write_each(&mut text, &format!("{name}, RAM"), &one.1, &other.1);
    }
    text
}

/// A line for each place at which two lists differ.
fn write_each<T: Debug + PartialEq>(text: &mut String, name: &str, one: &[T], other: &[T]) {
    for (place, (one, other)) in one.iter().zip(other).enumerate() {
        if one != other {
            writeln!(text, "{name} {place:04X}: {one:X?}, {other:X?}").expect("a string takes all");
        }
    }
}
