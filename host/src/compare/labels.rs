//! The labels of two terminals side by side, and what they say cells and stack
//! are like: random images, the whole area and every cell number, every lent
//! word.

pub mod coverage;
pub mod draw;
pub mod sides;

use std::fmt::Write;

use super::case::GUARD;
use crate::terminal::boundary::settings_words;
use crate::text::{unpack_ram, write_settings};
use coverage::Coverage;
use draw::Asked;
use sides::LabelSide;

/// The numbers asked for: every cell, some behind them, and the last there is.
pub fn cell_numbers() -> impl Iterator<Item = u16> {
    (0..=97).chain([0xFFFF])
}

/// All that a side answers, and all that it leaves in what is lent.
#[derive(Clone, Debug, PartialEq, Eq)]
pub struct Answers {
    pub area: u16,
    pub counts: Vec<u16>,
    pub unsound: Vec<u16>,
    pub pairs: Vec<u16>,
    /// For each number asked for: what refuses it or 0, and its listing.
    pub cells: Vec<(u16, Vec<u16>)>,
    /// The same for the descriptions of cells, and that of the stack.
    pub described: Vec<(u16, Vec<u16>)>,
    pub stack: (u16, Vec<u16>),
}

pub fn ask(side: &LabelSide, asked: &Asked) -> Answers {
    let ram = &asked.ram[..asked.ram_words];
    let settings = settings_words(&asked.settings);
    let mut counts = vec![GUARD; asked.counts_room];
    let mut unsound = vec![GUARD; asked.unsound_room];
    let mut pairs = vec![GUARD; asked.pairs_room];
    let area = (side.area)(ram, &settings, &mut counts, &mut unsound, &mut pairs);
    let one = |cell| {
        let mut listing = vec![GUARD; asked.listing_room];
        let number = (side.cell)(ram, &settings, cell, &mut listing);
        (number, listing)
    };
    let like = |cell| {
        let mut description = vec![GUARD; asked.description_room];
        let number = (side.described_cell)(ram, &settings, cell, &mut description);
        (number, description)
    };
    let mut stack = vec![GUARD; asked.description_room];
    let stack = ((side.described_stack)(ram, &settings, &mut stack), stack);
    Answers {
        area,
        counts,
        unsound,
        pairs,
        cells: cell_numbers().map(one).collect(),
        described: cell_numbers().map(like).collect(),
        stack,
    }
}

/// Asks both sides about the images of the seeds from `first_seed` on; returns
/// the first seed of which they answer differently.
pub fn compare(
    left: &LabelSide,
    right: &LabelSide,
    first_seed: u64,
    images: u64,
    coverage: &mut Coverage,
) -> Option<u64> {
    for seed in first_seed..first_seed + images {
        let asked = Asked::draw(seed);
        let answers = ask(left, &asked);
        if answers != ask(right, &asked) {
            return Some(seed);
        }
        coverage.take_in(&asked, &answers);
    }
    None
}

/// The same with as many words of RAM set to 0 as the difference allows.
pub fn shrink(left: &LabelSide, right: &LabelSide, asked: &Asked) -> Asked {
    let mut smallest = asked.clone();
    for size in [1024, 64, 8, 1] {
        for start in (0..asked.card_words()).step_by(size) {
            if smallest.ram[start..start + size]
                .iter()
                .all(|&word| word == 0)
            {
                continue;
            }
            let mut smaller = smallest.clone();
            smaller.ram[start..start + size].fill(0);
            if ask(left, &smaller) != ask(right, &smaller) {
                smallest = smaller;
            }
        }
    }
    smallest
}

/// What differs, and then the image, for a person and for `solkverva label`.
pub fn report(left: &LabelSide, right: &LabelSide, asked: &Asked) -> String {
    let mut text = String::new();
    let (one, other) = (ask(left, asked), ask(right, asked));
    let parts = [
        ("counts", &one.counts, &other.counts),
        ("unsound", &one.unsound, &other.unsound),
        ("pairs", &one.pairs, &other.pairs),
    ];
    let mut line = |what: String, left: u16, right: u16| {
        if left != right {
            writeln!(text, "{what}: {left:04X}, {right:04X}").expect("a string takes all");
        }
    };
    line("number".into(), one.area, other.area);
    for (name, left, right) in parts {
        for (place, (&left, &right)) in left.iter().zip(right).enumerate() {
            line(format!("{name} {place}"), left, right);
        }
    }
    for (cell, (one, other)) in cell_numbers().zip(one.cells.iter().zip(&other.cells)) {
        line(format!("cell {cell}"), one.0, other.0);
        for (place, (&left, &right)) in one.1.iter().zip(&other.1).enumerate() {
            line(format!("cell {cell}, listing {place}"), left, right);
        }
    }
    for (cell, (one, other)) in cell_numbers().zip(one.described.iter().zip(&other.described)) {
        line(format!("cell {cell} described"), one.0, other.0);
        for (place, (&left, &right)) in one.1.iter().zip(&other.1).enumerate() {
            line(format!("cell {cell}, description {place}"), left, right);
        }
    }
    line("stack described".into(), one.stack.0, other.stack.0);
    for (place, (&left, &right)) in one.stack.1.iter().zip(&other.stack.1).enumerate() {
        line(format!("stack, description {place}"), left, right);
    }
    write_settings(&mut text, asked.settings).expect("a string takes all");
    text + &unpack_ram(&asked.ram[..asked.card_words()])
}
