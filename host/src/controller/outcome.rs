//! What a message's record tells the condition codes (000, table 103).

use crate::terminal::faults::Faults;
use crate::terminal::records::Record;
use crate::terminal::settings::BROADCAST_ADDRESS;
use crate::terminal::words::Command;

/// What is known of the last message; before the first nothing is.
#[derive(Clone, Copy, Debug, Default, PartialEq, Eq)]
pub struct Outcome {
    /// Condition 8: no status came.
    pub no_status: bool,
    /// Condition 9: any other fault.
    pub other_fault: bool,
    /// Condition A: a data block came over without a fault.
    pub good_transfer: bool,
}

impl Outcome {
    /// The outcome that a record is, with broadcast on.
    #[inline(always)]
    pub fn of(record: &Record) -> Outcome {
        let command = Command(record.command);
        let broadcast = command.address() == BROADCAST_ADDRESS;
        let faults = Faults::of::<0>(record, command.word_count(), broadcast);
        let no_status = faults.no_status;
        let other_fault = faults.count
            || faults.sync
            || faults.invalid_word
            || faults.gap
            || faults.second
            || faults.contents;
        Outcome {
            no_status,
            other_fault,
            good_transfer: !no_status && !other_fault && moves_data(record, command),
        }
    }
}

/// An RT-to-RT transfer, an RT-to-BC transfer, or a transmit mode code with a
/// data word: those are 16 to 31.
fn moves_data(record: &Record, command: Command) -> bool {
    let mode = matches!(command.subaddress(), 0 | 31);
    let with_data = !mode || command.0 & 0x1F >= 16;
    record.is_transfer() || command.is_transmit() && with_data
}
