//! Cells and the descriptor stack, where they lie and whether they are sound;
//! the whole-area check, which asks that of all.
//!
//! Everything here reads RAM whose length [`check_ram`] has accepted.

use std::ops::Range;

use super::refusal;
use super::settings::Settings;

pub const RAM_WORDS: usize = 4096;
/// Of the 64K card.
pub const LARGE_RAM_WORDS: usize = 65_536;
/// The lengths that RAM may have.
pub const CARDS: [usize; 2] = [RAM_WORDS, LARGE_RAM_WORDS];

/// Words that every terminal needs for its own tables.
pub(crate) const FIXED_AREAS: [Range<usize>; 2] = [0x0100..0x0248, 0x0300..0x0400];

const SINGLE_WORDS: usize = 32;
const DOUBLE_WORDS: usize = 64;
pub const DESCRIPTOR_WORDS: usize = 4;

/// Cells that there can be: three kinds, thirty subaddresses.
pub(super) const CELLS: usize = 90;

/// Places of the control words behind the three pointer tables.
const CONTROL_OFFSET: usize = 3 * 32;

#[derive(Clone, Copy, Debug, PartialEq, Eq)]
pub enum Kind {
    Receive,
    Transmit,
    Broadcast,
}

/// How a cell uses its buffer.
#[derive(Clone, Copy, Debug, PartialEq, Eq)]
pub enum Scheme {
    Single,
    Double,
    /// The size in words, a power of two.
    Circular(u16),
}

/// What the lookup tables say about one kind and subaddress.
#[derive(Clone, Copy, Debug, PartialEq, Eq)]
pub struct Cell {
    pub kind: Kind,
    pub subaddress: u16,
    pub pointer: u16,
    pub scheme: Scheme,
    pub message_interrupt: bool,
    pub circular_interrupt: bool,
}

impl Cell {
    pub fn read(ram: &[u16], settings: &Settings, kind: Kind, subaddress: u16) -> Cell {
        let control = ram[control_place(settings, subaddress)];
        // The five bits of this kind, moved down to bits 4-0.
        let bits = match kind {
            Kind::Receive => control >> 5,
            Kind::Transmit => control >> 10,
            Kind::Broadcast => control,
        };
        let double = control & 0x8000 != 0 && kind != Kind::Transmit;
        let scheme = match bits & 7 {
            0 if double => Scheme::Double,
            0 => Scheme::Single,
            field => Scheme::Circular(64 << field),
        };
        Cell {
            kind,
            subaddress,
            pointer: ram[lookup_place(settings, kind, subaddress)],
            scheme,
            message_interrupt: bits & 0x10 != 0,
            circular_interrupt: bits & 0x08 != 0,
        }
    }

    /// 32·kind + subaddress.
    pub fn number(&self) -> u16 {
        32 * self.kind as u16 + self.subaddress
    }

    /// The words that messages to this cell may use.
    pub fn window(&self) -> Range<usize> {
        let pointer = usize::from(self.pointer);
        match self.scheme {
            Scheme::Single => pointer..pointer + SINGLE_WORDS,
            Scheme::Double => aligned_block(pointer, DOUBLE_WORDS),
            Scheme::Circular(size) => aligned_block(pointer, size.into()),
        }
    }

    pub fn is_sound(&self, ram_words: usize, stack: &Stack) -> bool {
        let window = self.window();
        let pointer_fits = self.scheme != Scheme::Double || self.pointer % 32 == 0;
        // The pointer lies in its window, so the window's end speaks for both.
        pointer_fits
            && window.end <= ram_words
            && !meets_fixed_area(&window)
            && !meet(&window, &stack.block)
    }
}

/// The active descriptor stack.
#[derive(Clone, Debug, PartialEq, Eq)]
pub struct Stack {
    pub pointer: u16,
    pub block: Range<usize>,
}

impl Stack {
    pub fn read(ram: &[u16], settings: &Settings) -> Stack {
        let pointer = ram[stack_pointer_place(settings)];
        Stack {
            pointer,
            block: aligned_block(pointer.into(), settings.stack_size.into()),
        }
    }

    pub fn is_sound(&self, ram_words: usize) -> bool {
        // A multiple of 4 in a block inside RAM is at most 4 below RAM's end.
        usize::from(self.pointer) % DESCRIPTOR_WORDS == 0
            && self.block.end <= ram_words
            && !meets_fixed_area(&self.block)
    }

    /// The place of the next descriptor.
    pub fn descriptor(&self) -> Range<usize> {
        let pointer = usize::from(self.pointer);
        pointer..pointer + DESCRIPTOR_WORDS
    }

    /// The pointer after one more descriptor, and whether it wrapped.
    pub fn next(&self) -> (u16, bool) {
        let end = self.descriptor().end;
        if end == self.block.end {
            (self.block.start as u16, true)
        } else {
            (end as u16, false)
        }
    }
}

pub fn stack_pointer_place(settings: &Settings) -> usize {
    if settings.area_b {
        0x0104
    } else {
        0x0100
    }
}

/// Where the lookup pointer of a cell is kept.
pub fn lookup_place(settings: &Settings, kind: Kind, subaddress: u16) -> usize {
    lookup_table(settings) + 32 * kind as usize + usize::from(subaddress)
}

/// Where the control word of a subaddress is kept.
pub fn control_place(settings: &Settings, subaddress: u16) -> usize {
    lookup_table(settings) + CONTROL_OFFSET + usize::from(subaddress)
}

fn lookup_table(settings: &Settings) -> usize {
    if settings.area_b {
        0x01C0
    } else {
        0x0140
    }
}

/// The block of `size` words, aligned to its size, around an address.
fn aligned_block(address: usize, size: usize) -> Range<usize> {
    let start = address & !(size - 1);
    start..start + size
}

fn meets_fixed_area(range: &Range<usize>) -> bool {
    FIXED_AREAS.iter().any(|area| meet(area, range))
}

/// Whether two windows share a word.
pub fn meet(a: &Range<usize>, b: &Range<usize>) -> bool {
    a.start < b.end && b.start < a.end
}

/// Refuses with 1 a RAM of the wrong length.
pub fn check_ram(ram: &[u16]) -> Result<(), u16> {
    if CARDS.contains(&ram.len()) {
        Ok(())
    } else {
        Err(refusal::RAM_LENGTH)
    }
}

/// The whole-area check: the first of 1, 3, 8 and 9 that applies, or 0.
///
/// The second number is the lowest unsound cell beside 9, else 0.
pub fn check_area(ram: &[u16], settings: &Settings) -> (u16, u16) {
    if let Err(number) = check_ram(ram).and_then(|()| settings.check()) {
        return (number, 0);
    }
    let stack = Stack::read(ram, settings);
    if !stack.is_sound(ram.len()) {
        return (refusal::STACK, 0);
    }
    match first_unsound_cell(ram, settings, &stack) {
        Some(cell) => (refusal::CELL, cell.number()),
        None => (0, 0),
    }
}

fn first_unsound_cell(ram: &[u16], settings: &Settings, stack: &Stack) -> Option<Cell> {
    cells_read(ram, settings).find(|cell| !cell.is_sound(ram.len(), stack))
}

/// The cell with this number, if the whole-area check reads it.
pub fn cell_read(ram: &[u16], settings: &Settings, number: u16) -> Option<Cell> {
    let kind = match number / 32 {
        0 => Kind::Receive,
        1 => Kind::Transmit,
        2 if settings.has_broadcast_cells() => Kind::Broadcast,
        _ => return None,
    };
    let subaddress = number % 32;
    (1..31)
        .contains(&subaddress)
        .then(|| Cell::read(ram, settings, kind, subaddress))
}

/// The cells that the whole-area check reads, in rising number.
pub fn cells_read<'a>(ram: &'a [u16], settings: &'a Settings) -> impl Iterator<Item = Cell> + 'a {
    let kinds: &[Kind] = if settings.has_broadcast_cells() {
        &[Kind::Receive, Kind::Transmit, Kind::Broadcast]
    } else {
        &[Kind::Receive, Kind::Transmit]
    };
    kinds
        .iter()
        .flat_map(move |&kind| (1..31).map(move |sub| Cell::read(ram, settings, kind, sub)))
}
