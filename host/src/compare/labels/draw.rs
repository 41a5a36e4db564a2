//! Random images to be labelled: cells on one common block, cells crowded into
//! a few words, cells spread over all of RAM, in every scheme; sound stacks of
//! every size; and now and then what is refused.

use crate::compare::case::{GUARD, GUARD_WORDS};
use crate::compare::episode::{card_of, fill_ram};
use crate::random::Random;
use crate::terminal::boundary::{
    CELL_DESCRIPTION_WORDS, COUNTS_WORDS, LISTING_WORDS, PAIRS_WORDS, UNSOUND_WORDS,
};
use crate::terminal::cells::{control_place, lookup_place, stack_pointer_place, Cell, Kind, Stack};
use crate::terminal::Settings;

/// One of so many images is spoiled in each of the ways there are.
const SPOILED_ONE_IN: usize = 24;

pub const KINDS: [Kind; 3] = [Kind::Receive, Kind::Transmit, Kind::Broadcast];

/// An image, and what is lent for its labels.
#[derive(Clone, Debug)]
pub struct Asked {
    pub ram: Vec<u16>,
    /// How much of the RAM is lent.
    pub ram_words: usize,
    pub settings: Settings,
    pub counts_room: usize,
    pub unsound_room: usize,
    pub pairs_room: usize,
    pub listing_room: usize,
    pub description_room: usize,
}

impl Asked {
    /// The image of a seed.
    pub fn draw(seed: u64) -> Asked {
        let random = &mut Random::new(seed);
        let card = card_of(seed);
        let mut asked = Asked {
            ram: vec![0; card + GUARD_WORDS],
            ram_words: card,
            settings: random.settings(),
            counts_room: room(random, COUNTS_WORDS),
            unsound_room: room(random, UNSOUND_WORDS),
            pairs_room: room(random, PAIRS_WORDS),
            listing_room: room(random, LISTING_WORDS),
            description_room: room(random, CELL_DESCRIPTION_WORDS),
        };
        if random.chance(2) {
            fill_ram(random, &mut asked.ram[..card]);
        }
        asked.ram[card..].fill(GUARD);
        asked.place_stack(random);
        match random.below(8) {
            0 => asked.share_one_block(random),
            1..=3 => asked.place_cells(random, 0x0100),
            4 => asked.place_cells(random, 0x0400),
            _ => asked.place_cells(random, card),
        }
        asked.spoil(random);
        asked
    }

    /// How many words of RAM the card has.
    pub fn card_words(&self) -> usize {
        self.ram.len() - GUARD_WORDS
    }

    /// A sound stack anywhere.
    fn place_stack(&mut self, random: &mut Random) {
        let place = stack_pointer_place(&self.settings);
        while {
            self.ram[place] = 4 * random.below(self.card_words() / 4) as u16;
            !Stack::read(&self.ram, &self.settings).is_sound(self.card_words())
        } {}
    }

    /// Unused subaddresses point to one common block, as the makers advise;
    /// some are in use, or none.
    fn share_one_block(&mut self, random: &mut Random) {
        let stack = Stack::read(&self.ram, &self.settings);
        while {
            let common = random.below(self.card_words()) as u16;
            for subaddress in 1..=30 {
                self.ram[control_place(&self.settings, subaddress)] = 0;
                for kind in KINDS {
                    self.ram[lookup_place(&self.settings, kind, subaddress)] = common;
                }
            }
            let cell = Cell::read(&self.ram, &self.settings, Kind::Receive, 1);
            !cell.is_sound(self.card_words(), &stack)
        } {}
        for _ in 0..random.pick(&[0, 1, 8]) {
            let subaddress = 1 + random.below(30) as u16;
            let kind = random.pick(&KINDS);
            let place = lookup_place(&self.settings, kind, subaddress);
            self.ram[place] = random.below(self.card_words()) as u16;
        }
    }

    /// Cells that all point into `width` words of RAM.
    fn place_cells(&mut self, random: &mut Random, width: usize) {
        let first = random.below(self.card_words() - width + 1);
        let plain = random.chance(3);
        for subaddress in 1..=30 {
            let control = if plain { 0 } else { control(random) };
            self.ram[control_place(&self.settings, subaddress)] = control;
            for kind in KINDS {
                let pointer = (first + random.below(width)) as u16;
                let place = lookup_place(&self.settings, kind, subaddress);
                self.ram[place] = match random.below(16) {
                    0 => pointer,
                    1 => random.word(),
                    _ => pointer / 32 * 32,
                };
            }
        }
    }

    fn spoil(&mut self, random: &mut Random) {
        if random.chance(SPOILED_ONE_IN) {
            let card = self.card_words();
            let lengths = [0, 1, 0x0200, card - 1, card + 1, card.min(12_288)];
            self.ram_words = random.pick(&lengths);
        }
        if random.chance(SPOILED_ONE_IN) {
            self.settings.address = random.pick(&[31, 32, 0xFFFF]);
        }
        if random.chance(SPOILED_ONE_IN) {
            self.settings.stack_size = random.pick(&[0, 128, 257, 4096, 0xFFFF]);
        }
        if random.chance(SPOILED_ONE_IN) {
            let place = stack_pointer_place(&self.settings);
            self.ram[place] =
                random.pick(&[0x0001, 0x0102, 0x0100, 0x0300, 0x0FFE, 0x1000, 0xFFFE]);
        }
    }
}

/// A control word: double in one of two, circles of any size in some.
fn control(random: &mut Random) -> u16 {
    let mut size = || random.pick(&[0, 0, 0, 0, 0, 0, 1, 1, 2, 3, 4, 5, 6, 7]);
    let sizes = size() << 5 | size() << 10 | size();
    sizes | random.word() & 0xA318
}

/// Room as the header names it, or another.
fn room(random: &mut Random, words: usize) -> usize {
    match random.below(4) {
        0 => random.below(words + 1),
        1 => words + 1,
        _ => words,
    }
}
