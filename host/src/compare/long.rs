//! Long records on two sides: read, written, converted both ways and back, and
//! carried out as messages beside the old records that they grew from. Every
//! one of the 96 bytes is damaged, and every length from 0 to 200 is tried.

pub mod coverage;
pub mod sides;

use std::fmt::Write;

use super::episode::Episode;
use crate::random::Random;
use crate::terminal::boundary::{
    long_words, remembered_words, settings_words, ANSWER_WORDS, LONG_WORDS, REMEMBERED_WORDS,
};
use crate::terminal::cells::RAM_WORDS;
use crate::terminal::long::{write_long, LongRecord, LONG_BYTES};
use crate::terminal::message::REPLY_WORDS;
use crate::terminal::records::RECORD_BYTES;
use crate::terminal::{read_record, Settings};
use coverage::Coverage;
use sides::Side;

/// The longest slice that is given as a record.
pub const LONGEST: usize = 200;

/// Where the tag's upper half and the member number stand.
const NEW_NUMBERS: std::ops::Range<usize> = 80..84;

/// Bytes that are given as a record, in a state, and how they were made.
#[derive(Clone, Debug)]
pub struct Asked {
    pub settings: Settings,
    pub ram: Vec<u16>,
    pub reply: Vec<u16>,
    pub remembered: [u16; REMEMBERED_WORDS],
    /// A record that keeps the layout of 80 bytes.
    pub old: Vec<u8>,
    /// The same with an upper half and a member, zero or not.
    pub value: LongRecord,
    /// All that is given as a record: the long record, damaged and cut.
    pub given: Vec<Vec<u8>>,
    /// Room for what is written.
    pub room: usize,
}

impl Asked {
    /// What is asked for a seed; none where its record breaks the layout.
    pub fn draw(seed: u64) -> Option<Asked> {
        let mut random = Random::new(seed);
        let mut settings = random.settings();
        let (mut episode, state) = Episode::with_settings(random.clone(), settings);
        let old = episode.record().to_vec();
        let value = LongRecord {
            old: read_record(&old).ok()?,
            upper: small_or_any(&mut random),
            member: small_or_any(&mut random),
        };
        if random.chance(16) {
            settings.stack_size = 300;
        }
        let whole = write_long(&value).expect("the old part keeps the layout");
        let mut ram = state.ram[..RAM_WORDS].to_vec();
        if random.chance(16) {
            ram.pop();
        }
        let reply_words = random.pick(&[REPLY_WORDS, REPLY_WORDS + 2, REPLY_WORDS - 1]);
        Some(Asked {
            settings,
            ram,
            reply: vec![0x5555; reply_words],
            remembered: remembered_words(state.remembered),
            given: given(&mut random, &whole),
            old,
            value,
            room: random.pick(&[RECORD_BYTES, LONG_BYTES, LONG_BYTES, LONG_BYTES + 9, 7, 0]),
        })
    }
}

/// Zero as often as not, since most records can go back.
fn small_or_any(random: &mut Random) -> u16 {
    match random.below(8) {
        0..=3 => 0,
        4 => 1 << random.below(16),
        _ => random.word(),
    }
}

/// The long record as it is, with each of its bytes damaged, whole and cut to 80
/// bytes, and in every length.
fn given(random: &mut Random, whole: &[u8; LONG_BYTES]) -> Vec<Vec<u8>> {
    let mut given = vec![whole.to_vec()];
    for place in 0..LONG_BYTES {
        let mut damaged = whole.to_vec();
        damaged[place] ^= 1 << random.below(8);
        // The old part alone too, damaged as it is.
        given.push(damaged[..RECORD_BYTES].to_vec());
        given.push(damaged);
    }
    let mut zeroed = whole.to_vec();
    zeroed[NEW_NUMBERS].fill(0);
    given.push(zeroed);
    let behind = random.pick(&[0, 0, 1, 0xFF]);
    let mut longest = whole.to_vec();
    longest.resize(LONGEST, behind);
    given.extend((0..=LONGEST).map(|length| longest[..length].to_vec()));
    given
}

/// What a side does with bytes that are given as a record.
#[derive(Clone, Debug, PartialEq, Eq)]
pub struct Told {
    pub given: Vec<u8>,
    /// The reader's number and words.
    pub read: (u16, Vec<u16>),
    /// Both conversions: the number and what is in the room.
    pub longer: (u16, Vec<u8>),
    pub shorter: (u16, Vec<u8>),
    pub message: Carried,
}

/// What a message leaves.
#[derive(Clone, Debug, PartialEq, Eq)]
pub struct Carried {
    pub number: u16,
    pub ram: Vec<u16>,
    pub reply: Vec<u16>,
    pub remembered: [u16; REMEMBERED_WORDS],
    pub answer: [u16; ANSWER_WORDS],
}

type MessageFn = fn(&mut [u16], &mut [u16], &[u16], &mut [u16], &[u8], &mut [u16]) -> u16;

fn carried(message: MessageFn, asked: &Asked, bytes: &[u8]) -> Carried {
    let mut carried = Carried {
        number: 0,
        ram: asked.ram.clone(),
        reply: asked.reply.clone(),
        remembered: asked.remembered,
        answer: [0x7777; ANSWER_WORDS],
    };
    let Carried {
        ram,
        reply,
        remembered,
        answer,
        ..
    } = &mut carried;
    let settings = settings_words(&asked.settings);
    carried.number = message(ram, reply, &settings, remembered, bytes, answer);
    carried
}

fn told(side: &Side, asked: &Asked, bytes: &[u8]) -> Told {
    let mut words = vec![0x7777; asked.room.min(LONG_WORDS + 2)];
    let mut long = vec![0x77; asked.room];
    let mut short = long.clone();
    Told {
        given: bytes.to_vec(),
        read: ((side.read_long)(bytes, &mut words), words),
        longer: ((side.longer)(bytes, &mut long), long),
        shorter: ((side.shorter)(bytes, &mut short), short),
        message: carried(side.message_long, asked, bytes),
    }
}

/// What does not undo what it should, on one side alone; none where all does.
pub fn broken_promise(side: &Side, asked: &Asked) -> Option<&'static str> {
    let mut long = [0; LONG_BYTES];
    let mut old = [0; RECORD_BYTES];
    if (side.longer)(&asked.old, &mut long) != 0 {
        return Some("an old record cannot be made longer");
    }
    if (side.shorter)(&long, &mut old) != 0 || old[..] != asked.old[..] {
        return Some("made longer and shorter, it is another record");
    }
    let mut whole = [0; LONG_BYTES];
    if (side.write_long)(&long_words(&asked.value), &mut whole) != 0 {
        return Some("a long record cannot be written");
    }
    let mut words = [0; LONG_WORDS];
    (side.read_long)(&whole, &mut words);
    if words != long_words(&asked.value) {
        return Some("written and read, it is another long record");
    }
    if (side.shorter)(&whole, &mut old) == 0 {
        (side.longer)(&old, &mut long);
        if long != whole {
            return Some("made shorter and longer, it is another long record");
        }
    }
    let same =
        carried(side.message_long, asked, &whole) == carried(side.message, asked, &asked.old);
    (!same).then_some("a long record's message is not that of its first 80 bytes")
}

/// What two sides differ in.
pub enum Finding {
    Different(Box<(Told, Told)>),
    /// One side breaks a promise that needs no other side.
    Broken(&'static str),
}

/// Asks both sides for the seeds from `first_seed` on; returns the first seed
/// of which they tell different things, or one breaks a promise.
pub fn compare(
    left: Side,
    right: Side,
    first_seed: u64,
    cases: u64,
    coverage: &mut Coverage,
) -> Option<(u64, Finding)> {
    for seed in first_seed..first_seed + cases {
        let asked = match Asked::draw(seed) {
            Some(asked) => asked,
            None => continue,
        };
        for bytes in &asked.given {
            let (one, other) = (told(&left, &asked, bytes), told(&right, &asked, bytes));
            if one != other {
                return Some((seed, Finding::Different(Box::new((one, other)))));
            }
            coverage.take_in(&one);
        }
        for side in [&left, &right] {
            if let Some(promise) = broken_promise(side, &asked) {
                return Some((seed, Finding::Broken(promise)));
            }
        }
        coverage.case();
    }
    None
}

/// What differs, in words.
pub fn report(finding: &Finding) -> String {
    let mut text = String::new();
    match finding {
        Finding::Broken(promise) => writeln!(text, "{promise}"),
        Finding::Different(both) => {
            let (one, other) = &**both;
            let bytes: String = one.given.iter().map(|byte| format!("{byte:02X}")).collect();
            writeln!(text, "given {} bytes: {bytes}", one.given.len())
                .and_then(|()| line(&mut text, "reader", &one.read, &other.read))
                .and_then(|()| line(&mut text, "longer", &one.longer, &other.longer))
                .and_then(|()| line(&mut text, "shorter", &one.shorter, &other.shorter))
                .and_then(|()| changes(&mut text, &one.message, &other.message))
        }
    }
    .expect("a string takes all");
    text
}

fn line<T: PartialEq + std::fmt::Debug>(
    text: &mut String,
    what: &str,
    one: &T,
    other: &T,
) -> std::fmt::Result {
    if one != other {
        writeln!(text, "{what}: {one:X?}, {other:X?}")?;
    }
    Ok(())
}

fn changes(text: &mut String, one: &Carried, other: &Carried) -> std::fmt::Result {
    line(text, "message", &one.number, &other.number)?;
    line(text, "answer", &one.answer, &other.answer)?;
    line(text, "reply", &one.reply, &other.reply)?;
    line(text, "remembered", &one.remembered, &other.remembered)?;
    for (address, (one, other)) in one.ram.iter().zip(&other.ram).enumerate() {
        line(text, &format!("RAM {address:04X}"), one, other)?;
    }
    Ok(())
}
