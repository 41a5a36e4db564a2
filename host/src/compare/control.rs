//! The controller on two sides: random instruction lists over random traces,
//! begun and gone on with budget after budget; and every op code word there is.

pub mod coverage;
pub mod sides;

use std::fmt::Write;

use crate::compare::episode::card_of;
use crate::controller::opcode::{OpCode, Operation};
use crate::controller::{End, Machine, Outcome, Ran};
use crate::random::Random;
use crate::terminal::cells::RAM_WORDS;
use crate::terminal::records::{put_together, RECORD_BYTES};
use coverage::Coverage;
use sides::Side;

/// One of so many runs is spoiled in each of the ways there are.
const SPOILED_ONE_IN: usize = 24;

/// A run, and how it goes on.
#[derive(Clone, Debug)]
pub struct Asked {
    pub ram: Vec<u16>,
    pub start: u16,
    pub flags: u8,
    /// Whole records, some of them damaged, and perhaps a tail.
    pub trace: Vec<u8>,
    /// A machine that no run left, to go on from.
    pub lent: Machine,
    /// The first is the run's, the others go on from what it left; the last
    /// goes on from `lent`.
    pub budgets: Vec<u64>,
}

/// What a side answers, run by run.
pub type Told = Vec<Result<Ran, u16>>;

impl Asked {
    /// The run of a seed.
    pub fn draw(seed: u64) -> Asked {
        let mut random = Random::new(seed);
        let mut asked = Asked {
            ram: vec![0; card_of(seed)],
            start: 0,
            flags: random.draw() as u8,
            trace: trace(&mut random),
            lent: Machine::default(),
            budgets: Vec::new(),
        };
        asked.draw_list(&mut random);
        asked.lent = lent(&mut random, asked.start.into());
        let longest = random.pick(&[2, 8, 40, 3000]);
        let runs = 2 + random.below(4);
        asked.budgets = (0..runs).map(|_| random.below(longest) as u64).collect();
        if random.chance(40) {
            // A run that only its list or its trace can end.
            asked.budgets[0] = 100_000;
        }
        asked.spoil(&mut random);
        asked
    }

    /// Pairs of words from a random place on, often near RAM's end.
    fn draw_list(&mut self, random: &mut Random) {
        let pairs = random.pick(&[2, 5, 12, 30]);
        let words = self.ram.len();
        let room = words - 2 * pairs;
        let base = match random.below(4) {
            0 => room - random.below(3),
            1 => random.below(3),
            _ => random.below(room),
        };
        for pair in 0..pairs {
            let op = op_code_word(random);
            let parameter = match random.below(12) {
                0 => random.word(),
                1 => (base + random.below(2 * pairs)) as u16,
                2 => random.pick(&[words - 1, words - 2, words, 0]) as u16,
                _ => (base + 2 * random.below(pairs)) as u16,
            };
            self.ram[base + 2 * pair] = op;
            self.ram[base + 2 * pair + 1] = parameter;
        }
        self.start = base as u16;
    }

    fn spoil(&mut self, random: &mut Random) {
        if random.chance(SPOILED_ONE_IN) {
            let words = self.ram.len();
            let words = random.pick(&[0, 1, words - 1, words + 1, 12_288]);
            self.ram.resize(words, 0);
        }
        if random.chance(SPOILED_ONE_IN) {
            let last = self.ram.len().wrapping_sub(1) as u16;
            let behind = last.wrapping_add(1);
            self.start = random.pick(&[last.wrapping_sub(1), last, behind, 0xFFFF, 0]);
        }
    }

    /// The same with its first budgets alone.
    pub fn first(&self, runs: usize) -> Asked {
        let mut asked = self.clone();
        asked.budgets.truncate(runs);
        asked
    }
}

/// Mostly an op code word, with every condition; sometimes one bit is wrong.
fn op_code_word(random: &mut Random) -> u16 {
    use Operation::*;
    let operation = random.pick(&[
        Xeq, Xeq, Xeq, Jmp, Jmp, Cal, Cal, Cal, Rtn, Rtn, Flg, Flg, Hlt,
    ]);
    let condition = match random.below(3) {
        0 => 0x0F,
        _ => random.below(32) as u16,
    };
    let word = OpCode {
        operation,
        condition,
    };
    let word = word.word();
    match random.below(60) {
        0 => word ^ 0x8000,
        // Two bits: the parity stays, and the pattern or the op code does not.
        1 => word ^ 3 << random.below(15),
        2 => random.word(),
        _ => word,
    }
}

/// Records for any terminal, with one in many damaged, and perhaps a tail.
fn trace(random: &mut Random) -> Vec<u8> {
    let most = random.pick(&[1, 4, 20, 60]);
    let records = random.below(most + 1);
    let mut bytes: Vec<u8> = (0..records)
        .flat_map(|_| put_together(&random.record(5)))
        .collect();
    if records > 0 && random.chance(3) {
        let place = random.below(bytes.len());
        bytes[place] ^= 1 << random.below(8);
    }
    if random.chance(4) {
        let tail = 1 + random.below(RECORD_BYTES - 1);
        bytes.extend(random.bytes(tail));
    }
    bytes
}

/// A machine as a caller may make one up.
fn lent(random: &mut Random, start: usize) -> Machine {
    let far = [RAM_WORDS - 2, RAM_WORDS - 1, RAM_WORDS, 65_536, usize::MAX];
    let mut place = || match random.below(4) {
        0 => random.pick(&far),
        _ => start + random.below(8),
    };
    let (pointer, calls) = (place(), [place(), place(), place(), place()]);
    let mut machine = Machine::new(pointer, random.draw() as u8);
    machine.last = Outcome {
        no_status: random.chance(2),
        other_fault: random.chance(2),
        good_transfer: random.chance(2),
    };
    machine.place = random.pick(&[0, 80, 160, 79, 1, usize::MAX, usize::MAX - 79]);
    let depth = random.below(7);
    machine.with_calls(calls, depth)
}

/// Asks both sides for the runs of the seeds from `first_seed` on; returns the
/// first seed of which they tell different things.
pub fn compare(
    left: Side,
    right: Side,
    first_seed: u64,
    runs: u64,
    coverage: &mut Coverage,
) -> Option<u64> {
    for seed in first_seed..first_seed + runs {
        let asked = Asked::draw(seed);
        let told = left(&asked);
        if told != right(&asked) {
            return Some(seed);
        }
        coverage.take_in(&asked, &told);
    }
    None
}

/// What differs, after the fewest runs that show a difference.
pub fn report(left: Side, right: Side, seed: u64) -> String {
    let whole = Asked::draw(seed);
    let runs = whole.budgets.len();
    let differs = |runs: &usize| left(&whole.first(*runs)) != right(&whole.first(*runs));
    let asked = whole.first((1..=runs).find(differs).unwrap_or(runs));
    let mut text = format!(
        "start {:04X}, flags {:02X}, budgets {:?}\n",
        asked.start, asked.flags, asked.budgets
    );
    for (one, other) in left(&asked).iter().zip(&right(&asked)) {
        if one != other {
            writeln!(text, "{one:?}\n{other:?}").expect("a string takes all");
        }
    }
    text
}

/// How many of the 65,536 words are no bad instruction, on a side. Each is
/// carried out from within a call, with an outcome there, so that only the word
/// decides.
pub fn legal_words(go_on: sides::GoOn, trace: &[u8]) -> Vec<u16> {
    let machine = Machine::new(0x0400, 0).with_calls([0x0500; 4], 1);
    let mut ram = vec![0; RAM_WORDS];
    let mut legal = Vec::new();
    for word in 0..=u16::MAX {
        ram[0x0400] = word;
        let ran = go_on(&ram, trace, machine, 1).expect("not refused");
        if ran.end != End::BadInstruction {
            legal.push(word);
        }
    }
    legal
}

/// A trace of one good message.
pub fn one_outcome() -> Vec<u8> {
    vec![0x28, 0x61, 0, 0, 0, 0, 0, 1]
        .into_iter()
        .chain([0; RECORD_BYTES - 8])
        .collect()
}
