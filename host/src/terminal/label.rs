//! A label on shared pages: which cells share words of RAM, and which of them
//! can write there.

use super::cells::{cell_read, cells_read, check_ram, meet, Cell, Kind, Stack, CELLS};
use super::refusal;
use super::settings::Settings;

/// Another cell in the window of the cell that was asked about.
#[derive(Clone, Copy, Debug, PartialEq, Eq)]
pub struct Sharer {
    pub cell: u16,
    /// Able to write, or else only to send.
    pub writes: bool,
}

/// What the whole area shares.
#[derive(Clone, Debug, Default, PartialEq, Eq)]
pub struct AreaLabel {
    /// Cells that take no part, in rising number.
    pub unsound: Vec<u16>,
    /// Each meeting pair once, lower number first.
    pub pairs: Vec<(u16, u16)>,
}

/// Every other cell whose window meets this cell's window, in rising number.
/// Refuses with 1, 3, 8, and with 9 a cell that is unsound or not read.
pub fn label_cell(ram: &[u16], settings: &Settings, cell: u16) -> Result<Vec<Sharer>, u16> {
    let stack = sound_stack(ram, settings)?;
    let is_sound = |it: &Cell| it.is_sound(ram.len(), &stack);
    let asked = cell_read(ram, settings, cell);
    let window = asked.filter(is_sound).ok_or(refusal::CELL)?.window();
    let mut sharers = Vec::with_capacity(CELLS);
    cells_read(ram, settings).for_each(|other| {
        // Most windows lie apart: of those, nothing else is asked.
        if meet(&window, &other.window()) && other.number() != cell && is_sound(&other) {
            sharers.push(sharer(&other));
        }
    });
    Ok(sharers)
}

/// The unsound cells, and each pair of others whose windows meet.
/// Refuses with 1, 3 and 8.
pub fn label_area(ram: &[u16], settings: &Settings) -> Result<AreaLabel, u16> {
    let stack = sound_stack(ram, settings)?;
    let mut label = AreaLabel::default();
    // The sound cells and their windows.
    let mut sound = Vec::with_capacity(CELLS);
    cells_read(ram, settings).for_each(|cell| {
        if cell.is_sound(ram.len(), &stack) {
            sound.push((cell.number(), cell.window()));
        } else {
            label.unsound.push(cell.number());
        }
    });
    for (place, (lower, window)) in sound.iter().enumerate() {
        for (higher, other) in &sound[place + 1..] {
            if meet(window, other) {
                label.pairs.push((*lower, *higher));
            }
        }
    }
    Ok(label)
}

/// The stack; 1, 3 and 8 refuse.
fn sound_stack(ram: &[u16], settings: &Settings) -> Result<Stack, u16> {
    check_ram(ram)?;
    settings.check()?;
    let stack = Stack::read(ram, settings);
    if !stack.is_sound(ram.len()) {
        return Err(refusal::STACK);
    }
    Ok(stack)
}

fn sharer(cell: &Cell) -> Sharer {
    Sharer {
        cell: cell.number(),
        writes: cell.kind != Kind::Transmit,
    }
}
