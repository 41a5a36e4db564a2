//! Which messages a list may hold, and which neighbours may be exchanged.

use std::ops::Range;

use crate::terminal::cells::{meet, Cell};
use crate::terminal::message::cell_kind;
use crate::terminal::words::Command;
use crate::terminal::{Record, Settings};

/// What a message uses, as the tables stand at the start.
#[derive(Clone, Debug, PartialEq, Eq)]
pub struct Use {
    pub cell: Cell,
    pub window: Range<usize>,
    /// A transmit command only sends.
    pub sends: bool,
}

impl Use {
    pub fn read(ram: &[u16], settings: &Settings, record: &Record) -> Use {
        let command = Command(record.command);
        let kind = cell_kind(command, settings);
        let cell = Cell::read(ram, settings, kind, command.subaddress());
        Use {
            cell,
            window: cell.window(),
            sends: command.is_transmit(),
        }
    }

    pub fn is_of_cell(&self, other: &Use) -> bool {
        self.cell.number() == other.cell.number()
    }

    pub fn meets(&self, other: &Use) -> bool {
        meet(&self.window, &other.window)
    }
}

/// "well-formed data messages for this terminal"
pub fn is_well_formed(settings: &Settings, record: &Record) -> bool {
    let command = Command(record.command);
    let ours = settings.is_ours(command);
    record.keeps_layout() && ours && (1..=30).contains(&command.subaddress())
}

/// "if they use different cells whose windows don't meet, or that both only
/// send"
pub fn may_exchange(a: &Use, b: &Use, forgotten: Forgotten) -> bool {
    let different_cells = forgotten == Forgotten::Cells || !a.is_of_cell(b);
    let apart = forgotten == Forgotten::Windows || !a.meets(b);
    let only_send = match forgotten {
        Forgotten::Sends => a.sends || b.sends,
        _ => a.sends && b.sends,
    };
    different_cells && (apart || only_send)
}

/// A condition that is left out on purpose: then a difference must be found.
#[derive(Clone, Copy, Debug, PartialEq, Eq)]
pub enum Forgotten {
    Nothing,
    /// Different cells are not asked for.
    Cells,
    /// Windows that don't meet are not asked for.
    Windows,
    /// One that only sends is enough.
    Sends,
}

impl Forgotten {
    pub const CONDITIONS: [Forgotten; 3] = [Forgotten::Cells, Forgotten::Windows, Forgotten::Sends];

    /// The name that a person types.
    pub fn name(self) -> &'static str {
        match self {
            Forgotten::Nothing => "nothing",
            Forgotten::Cells => "cells",
            Forgotten::Windows => "windows",
            Forgotten::Sends => "sends",
        }
    }

    /// The condition with this name.
    pub fn named(name: &str) -> Option<Forgotten> {
        let mut conditions = Forgotten::CONDITIONS.into_iter();
        conditions.find(|condition| condition.name() == name)
    }
}
