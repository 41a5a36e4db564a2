//! The rules of a record's layout, one by one.

use super::planted::{
    COUNT_WITH_TRANSFER_FAULT, NONE, TRANSFER_ON_TRANSMIT, UNMARKED_TRANSMIT_COMMAND,
};
use super::records::{
    taken_apart, Record, RECORD_BYTES, RECORD_WORDS, TOO_MANY, TRANSFER_FAULTS, UNUSED_FLAGS,
    ZERO_BYTES,
};
use super::words::Command;

#[derive(Clone, Copy, Debug, PartialEq, Eq)]
pub enum Rule {
    /// Bytes 8-15 are zero.
    ZeroBytes,
    /// Flag 128 is none.
    Flags,
    /// The count is 33 at most.
    Count,
    /// Words after the counted ones are zero.
    WordsAfter,
    /// Flag 8 stands on a receive command.
    TransferReceives,
    /// Flags 16 to 64 stand with flag 8.
    FaultOfTransfer,
    /// Bytes 2-3 are zero without flag 8.
    CommandOfTransfer,
    /// The count is 0 with flags 16 to 64.
    NoWordAfterFault,
}

/// The rules about a record's value, each with whether it is kept.
#[inline(always)]
pub(super) fn rules<const PLANTED: u8>(record: &Record) -> [(Rule, bool); 7] {
    let held = record.words_held();
    let zero_after = record.words[held..] == [0; RECORD_WORDS][held..];
    let transfer = record.is_transfer();
    let fault = record.has_flag(TRANSFER_FAULTS);
    let receives = !transfer || !Command(record.command).is_transmit();
    let command_marked = transfer || record.transmit_command == 0;
    let no_word = !fault || record.count == 0;
    [
        (Rule::Flags, !record.has_flag(UNUSED_FLAGS)),
        (Rule::Count, record.count <= TOO_MANY),
        (Rule::WordsAfter, zero_after),
        (
            Rule::TransferReceives,
            receives || PLANTED == TRANSFER_ON_TRANSMIT,
        ),
        (Rule::FaultOfTransfer, transfer || !fault),
        (
            Rule::CommandOfTransfer,
            command_marked || PLANTED == UNMARKED_TRANSMIT_COMMAND,
        ),
        (
            Rule::NoWordAfterFault,
            no_word || PLANTED == COUNT_WITH_TRANSFER_FAULT,
        ),
    ]
}

/// The rules that are broken, in their order; none where the layout is kept.
pub fn broken_rules(bytes: &[u8; RECORD_BYTES]) -> Vec<Rule> {
    let zero_bytes = (Rule::ZeroBytes, bytes[ZERO_BYTES] == [0; 8]);
    let rules = rules::<NONE>(&taken_apart(bytes));
    let broken = [zero_bytes].into_iter().chain(rules);
    broken
        .filter(|(_, kept)| !kept)
        .map(|(rule, _)| rule)
        .collect()
}
