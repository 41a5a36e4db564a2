//! What a cell and the stack are like: where they lie, and why one is unsound.

use std::ops::Range;

use super::cells::{
    cells_read, check_ram, meet, Cell, Kind, Scheme, Stack, DESCRIPTOR_WORDS, FIXED_AREAS,
};
use super::settings::Settings;

/// Why a cell is unsound: a bit for each fault, none where it is sound.
pub mod cell_fault {
    pub const POINTER_OUTSIDE: u16 = 1;
    pub const WINDOW_OVER_END: u16 = 2;
    pub const DOUBLE_OFF: u16 = 4;
    pub const LOW_AREA: u16 = 8;
    pub const HIGH_AREA: u16 = 16;
    pub const STACK: u16 = 32;
}

/// Why the stack is unsound.
pub mod stack_fault {
    pub const POINTER_OFF: u16 = 1;
    pub const POINTER_OVER: u16 = 2;
    pub const BLOCK_OVER_END: u16 = 4;
    pub const LOW_AREA: u16 = 8;
    pub const HIGH_AREA: u16 = 16;
}

#[derive(Clone, Debug, PartialEq, Eq)]
pub struct CellDescription {
    pub kind: Kind,
    pub subaddress: u16,
    /// Whether the whole-area check reads it.
    pub is_read: bool,
    pub scheme: Scheme,
    pub pointer: u16,
    /// The words that messages to this cell may use.
    pub window: Range<usize>,
    /// Bits of [`cell_fault`].
    pub faults: u16,
}

#[derive(Clone, Debug, PartialEq, Eq)]
pub struct StackDescription {
    pub pointer: u16,
    pub block: Range<usize>,
    /// Bits of [`stack_fault`].
    pub faults: u16,
}

/// A cell by its number, sound or not. Refuses with 1 and 3.
pub fn describe_cell(
    ram: &[u16],
    settings: &Settings,
    number: u16,
) -> Result<CellDescription, u16> {
    check_ram(ram)?;
    settings.check()?;
    let kind = match number {
        0..=31 => Kind::Receive,
        32..=63 => Kind::Transmit,
        _ => Kind::Broadcast,
    };
    let cell = Cell::read(ram, settings, kind, number % 32);
    let window = cell.window();
    let faults = bits(&[
        usize::from(cell.pointer) >= ram.len(),
        window.end > ram.len(),
        cell.scheme == Scheme::Double && cell.pointer % 32 != 0,
        meet(&window, &FIXED_AREAS[0]),
        meet(&window, &FIXED_AREAS[1]),
        meet(&window, &Stack::read(ram, settings).block),
    ]);
    Ok(CellDescription {
        kind,
        subaddress: cell.subaddress,
        is_read: cells_read(ram, settings).any(|read| read.number() == number),
        scheme: cell.scheme,
        pointer: cell.pointer,
        window,
        faults,
    })
}

/// The stack, sound or not. Refuses with 1 and 3.
pub fn describe_stack(ram: &[u16], settings: &Settings) -> Result<StackDescription, u16> {
    check_ram(ram)?;
    settings.check()?;
    let Stack { pointer, block } = Stack::read(ram, settings);
    let faults = bits(&[
        usize::from(pointer) % DESCRIPTOR_WORDS != 0,
        usize::from(pointer) + DESCRIPTOR_WORDS > ram.len(),
        block.end > ram.len(),
        meet(&block, &FIXED_AREAS[0]),
        meet(&block, &FIXED_AREAS[1]),
    ]);
    Ok(StackDescription {
        pointer,
        block,
        faults,
    })
}

/// The number with these bits, the lowest first.
fn bits(set: &[bool]) -> u16 {
    let bit = |(place, &set): (usize, &bool)| u16::from(set) << place;
    set.iter().enumerate().map(bit).sum()
}
