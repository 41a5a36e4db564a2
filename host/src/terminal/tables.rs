//! The illegal and busy tables: one bit for every kind of command.

use super::settings::Settings;
use super::words::Command;

const BUSY_TABLE: usize = 0x0240;
const ILLEGAL_TABLE: usize = 0x0300;

/// A bit in RAM.
#[derive(Clone, Copy, Debug, PartialEq, Eq)]
pub struct BitPlace {
    pub word: usize,
    pub bit: u16,
}

impl BitPlace {
    fn is_set(self, ram: &[u16]) -> bool {
        ram[self.word] >> self.bit & 1 == 1
    }
}

pub fn illegal_place(settings: &Settings, command: Command) -> BitPlace {
    let count = command.count_field();
    BitPlace {
        word: ILLEGAL_TABLE
            + 128 * own(settings, command)
            + 64 * usize::from(command.is_transmit())
            + 2 * usize::from(command.subaddress())
            + usize::from(count / 16),
        bit: count % 16,
    }
}

pub fn busy_place(settings: &Settings, command: Command) -> BitPlace {
    let subaddress = command.subaddress();
    BitPlace {
        word: BUSY_TABLE
            + 4 * own(settings, command)
            + 2 * usize::from(command.is_transmit())
            + usize::from(subaddress / 16),
        bit: subaddress % 16,
    }
}

pub fn is_illegal(ram: &[u16], settings: &Settings, command: Command) -> bool {
    illegal_place(settings, command).is_set(ram)
}

pub fn is_marked_busy(ram: &[u16], settings: &Settings, command: Command) -> bool {
    busy_place(settings, command).is_set(ram)
}

/// 1 for the terminal's own address, 0 for broadcast: the tables are only
/// read for commands to one of the two.
fn own(settings: &Settings, command: Command) -> usize {
    usize::from(!settings.is_broadcast(command))
}
