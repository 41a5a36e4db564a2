//! What a comparison has met of transfers, and of records that break their
//! layout in one way.

use super::{record_of, Class, Coverage};
use crate::compare::case::Message;
use crate::terminal::layout::{broken_rules, Rule};
use crate::terminal::records::{
    put_together, Record, FLAG_GAP, FLAG_INVALID_WORD, FLAG_NO_STATUS, FLAG_SECOND,
    FLAG_WRONG_SYNC, RECORD_BYTES, TRANSFER_FAULTS,
};
use crate::terminal::refusal;
use crate::terminal::words::Command;
use crate::terminal::{Answer, Settings};

impl Coverage {
    /// Takes in an accepted record.
    pub(super) fn take_in_transfer(
        &mut self,
        settings: &Settings,
        record: &Record,
        answer: &Answer,
    ) {
        use Class::*;
        if !record.is_transfer() {
            return;
        }
        let faults = (record.flags & TRANSFER_FAULTS).count_ones();
        let data_fault = record.has_flag(FLAG_WRONG_SYNC | FLAG_INVALID_WORD);
        self.note(GoodTransfer, answer.block_status & 0x1000 == 0);
        self.note(
            BroadcastTransfer,
            settings.is_broadcast(Command(record.command)),
        );
        self.note(TransferFromZero, record.transmit_command == 0);
        self.note(TransferCount, answer.block_status & 0x0020 != 0);
        self.note(TransferData, data_fault && faults == 0);
        self.note(TransferNoStatus, record.has_flag(FLAG_NO_STATUS));
        self.note(TransferGap, record.has_flag(FLAG_GAP));
        self.note(TransferSecond, record.has_flag(FLAG_SECOND));
        self.note(TransferTwoFaults, faults == 2);
        self.note(TransferThreeFaults, faults == 3);
        self.note(TransferBesideData, data_fault && faults > 0);
    }

    /// Takes in a refused message: the one rule that it breaks, and whether it
    /// is a transfer.
    pub(super) fn take_in_refused_record(&mut self, message: &Message, number: u16) {
        if number == refusal::RECORD_LAYOUT {
            if let Some([rule]) = whole_record(message)
                .map(|bytes| broken_rules(&bytes))
                .as_deref()
            {
                self.note(class_of(*rule), true);
            }
        }
        let transfer = record_of(message).map_or(false, |record| record.is_transfer());
        self.note(Class::Transfer6, transfer && number == refusal::ADDRESS);
        self.note(Class::Transfer7, transfer && number == refusal::SUBADDRESS);
    }
}

fn whole_record(message: &Message) -> Option<[u8; RECORD_BYTES]> {
    match message {
        Message::Bytes(bytes) => bytes[..].try_into().ok(),
        Message::Value(record) => Some(put_together(record)),
    }
}

/// The class of the records that break this rule alone.
fn class_of(rule: Rule) -> Class {
    match rule {
        Rule::ZeroBytes => Class::ZeroBytes5,
        Rule::Flags => Class::Flags5,
        Rule::Count => Class::Count5,
        Rule::WordsAfter => Class::WordsAfter5,
        Rule::TransferReceives => Class::TransferReceives5,
        Rule::FaultOfTransfer => Class::FaultOfTransfer5,
        Rule::CommandOfTransfer => Class::CommandOfTransfer5,
        Rule::NoWordAfterFault => Class::NoWordAfterFault5,
    }
}
