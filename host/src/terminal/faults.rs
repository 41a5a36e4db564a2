//! What is wrong with a message (rule 1, and what a transfer adds to it).

use super::planted::COUNT_BESIDE_TRANSFER_FAULT;
use super::records::{
    Record, FLAG_GAP, FLAG_INVALID_WORD, FLAG_NO_STATUS, FLAG_SECOND, FLAG_WRONG_SYNC,
    TRANSFER_FAULTS,
};
use super::words::Command;

pub(crate) struct Faults {
    pub count: bool,
    pub sync: bool,
    pub invalid_word: bool,
    /// Of a transfer: the transmitter gave no status.
    pub no_status: bool,
    /// Of a transfer: a wrong gap, sync or address in that status.
    pub gap: bool,
    /// Of a transfer: a bad second command.
    pub second: bool,
    pub contents: bool,
}

impl Faults {
    /// The faults of a record whose command asks for so many words.
    pub fn of<const PLANTED: u8>(record: &Record, word_count: u16, broadcast: bool) -> Faults {
        let command = Command(record.command);
        let expected = if command.is_transmit() { 0 } else { word_count };
        // A flagged fault cuts the count short, so it says nothing more.
        let mut telling = FLAG_WRONG_SYNC | FLAG_INVALID_WORD;
        if PLANTED != COUNT_BESIDE_TRANSFER_FAULT {
            telling |= TRANSFER_FAULTS;
        }
        Faults {
            count: record.count != expected && !record.has_flag(telling),
            sync: record.has_flag(FLAG_WRONG_SYNC),
            invalid_word: record.has_flag(FLAG_INVALID_WORD),
            no_status: record.has_flag(FLAG_NO_STATUS),
            gap: record.has_flag(FLAG_GAP),
            second: record.has_flag(FLAG_SECOND),
            contents: broadcast && command.is_transmit(),
        }
    }

    pub fn any(&self) -> bool {
        self.count
            || self.sync
            || self.invalid_word
            || self.no_status
            || self.gap
            || self.second
            || self.contents
    }
}
