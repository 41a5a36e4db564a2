//! The terminal's words and numbers in plain language.

use super::heard;
use super::names::{count, subaddress_name};
use super::outcome::{Outcome, Trouble};
use crate::terminal::layout::{broken_rules, Rule};
use crate::terminal::records::{
    Record, FLAG_BUS_B, FLAG_GAP, FLAG_INVALID_WORD, FLAG_NO_STATUS, FLAG_SECOND, FLAG_WRONG_SYNC,
    RECORD_BYTES, TOO_MANY,
};
use crate::terminal::words::Command;
use crate::terminal::Settings;
use crate::text::Owners;

/// Bits of a word with what they say.
type Bits = [(u16, &'static str)];

const BLOCK_STATUS: &Bits = &[
    (0x8000, "message done"),
    (0x2000, "bus B"),
    (0x1400, "a fault"),
    (0x0800, "transfer"),
    (0x0200, "no status from the transmitter"),
    (0x0080, "rolled over"),
    (0x0040, "illegal"),
    (0x0020, "wrong number of words"),
    (0x0010, "wrong sync"),
    (0x0008, "invalid word"),
    (
        0x0004,
        "wrong gap, sync or address in the transmitter's status",
    ),
    (0x0002, "bad second command"),
    (0x0001, "wrong contents"),
];

const STATUS: &Bits = &[
    (0x0400, "message error"),
    (0x0100, "service request"),
    (0x0010, "broadcast heard"),
    (0x0008, "busy"),
    (0x0004, "subsystem flag"),
    (0x0001, "terminal flag"),
];

const INTERRUPT: &Bits = &[
    (0x4000, "illegal"),
    (0x0400, "rolled over"),
    (0x0040, "stack wrapped"),
    (0x0010, "a fault"),
    (0x0004, "end of message asked for"),
    (0x0003, "message done"),
];

const ROLLOVER: u16 = 0x0080;

/// Each bit that is set, with its digits.
fn bits(word: u16, bits: &Bits) -> Vec<String> {
    let set = bits.iter().filter(|(bit, _)| word & bit != 0);
    set.map(|(bit, name)| format!("{name} ({bit:04X})"))
        .collect()
}

pub fn block_status(word: u16) -> String {
    bits(word, BLOCK_STATUS).join(", ")
}

/// What a block status says beside "done", "a fault" and "transfer".
pub fn block_status_details(word: u16) -> String {
    let details = BLOCK_STATUS.iter().filter(|(bit, _)| bit & 0x9C40 == 0);
    let set = details.filter(|(bit, _)| word & bit != 0);
    let names: Vec<&str> = set.map(|(_, name)| *name).collect();
    names.join(", ")
}

pub fn interrupt(word: u16) -> String {
    bits(word, INTERRUPT).join(", ")
}

pub fn status(word: u16) -> String {
    let mut parts = vec![format!("terminal {}", word >> 11)];
    parts.extend(bits(word, STATUS));
    if parts.len() == 1 {
        parts.push("all well".into());
    }
    parts.join(", ")
}

pub fn rolled_over(block_status: u16) -> bool {
    block_status & ROLLOVER != 0
}

/// What a command asks: `terminal 5 receives 4 words at subaddress 3 (Anna)`.
pub fn command(word: u16, settings: &Settings, owners: &Owners) -> String {
    let command = Command(word);
    let ours = settings.is_ours(command);
    let who = match command.address() {
        _ if settings.is_broadcast(command) => "broadcast: every terminal".to_string(),
        address => format!("terminal {address}"),
    };
    let what = match command.subaddress() {
        0 | 31 => return format!("{who} has a mode command"),
        subaddress if ours => subaddress_name(owners, subaddress),
        subaddress => format!("subaddress {subaddress}"),
    };
    let words = count(command.word_count().into(), "word");
    if command.is_transmit() {
        format!("{who} sends {words} from {what}")
    } else {
        format!("{who} receives {words} at {what}")
    }
}

/// The command that the other terminal of a transfer had; none where there is
/// no transfer.
pub fn transmit_command(record: &Record) -> Option<u16> {
    record.is_transfer().then_some(record.transmit_command)
}

/// For the end of a sentence: `, a transfer from terminal 2`, or nothing.
pub fn transfer(transmit_command: Option<u16>) -> String {
    transmit_command.map_or(String::new(), |word| {
        format!(", a transfer from {}", sender(word))
    })
}

fn sender(transmit_command: u16) -> String {
    format!("terminal {}", Command(transmit_command).address())
}

/// What went wrong with a transfer before its first word.
fn transfer_faults(record: &Record) -> Vec<String> {
    let sender = sender(record.transmit_command);
    let mut wrong = Vec::new();
    if record.has_flag(FLAG_NO_STATUS) {
        wrong.push(format!("{sender} gave no status"));
    }
    if record.has_flag(FLAG_GAP) {
        wrong.push(format!(
            "the status of {sender} had a wrong gap, sync or address"
        ));
    }
    if record.has_flag(FLAG_SECOND) {
        wrong.push("the second command was bad".into());
    }
    wrong
}

/// How a message went: what was heard on the bus, what was wrong with it, and
/// whether the terminal could take it.
pub fn heard(record: &Record, outcome: &Outcome, settings: &Settings) -> String {
    let mut wrong = transfer_faults(record);
    wrong.extend(word_faults(record, outcome.block_status));
    if outcome.has(Trouble::Illegal) {
        wrong.push("the illegal table forbids this command".into());
    }
    if outcome.has(Trouble::Busy) {
        wrong.push(why_busy(settings).into());
    }
    let verdict = outcome.verdict();
    if wrong.is_empty() {
        verdict
    } else {
        format!("{verdict} ({})", wrong.join(" and "))
    }
}

/// What was wrong with the words, or with asking for them.
fn word_faults(record: &Record, block_status: u16) -> Vec<String> {
    let expected = Command(record.command).expected_words();
    let words = match record.count {
        TOO_MANY => "more than 32 words".to_string(),
        number => count(number.into(), "good word"),
    };
    let mut wrong = Vec::new();
    if block_status & 0x0020 != 0 {
        let were = if expected == 1 { "was" } else { "were" };
        wrong.push(format!("{words} came and {expected} {were} expected"));
    }
    if record.has_flag(FLAG_WRONG_SYNC) {
        wrong.push(format!("a wrong sync after {words}"));
    }
    if record.has_flag(FLAG_INVALID_WORD) {
        wrong.push(format!("an invalid word after {words}"));
    }
    if block_status & 0x0001 != 0 {
        wrong.push("nobody can answer a broadcast".into());
    }
    wrong
}

fn why_busy(settings: &Settings) -> &'static str {
    if settings.busy_always {
        "busy-always is on"
    } else {
        "the busy table marks this subaddress"
    }
}

pub fn bus(record: &Record) -> char {
    if record.has_flag(FLAG_BUS_B) {
        'B'
    } else {
        'A'
    }
}

/// Why a number refuses, as far as the number says it.
pub fn refusal(number: u16, settings: &Settings) -> &'static str {
    match number {
        1 => "the RAM is neither 4,096 words nor the 65,536 of the 64K card",
        2 => "the reply buffer is under 33 words",
        3 if settings.broadcast => {
            "the RT address is over 30, or the stack size is none of 256, 512, 1024, 2048"
        }
        3 => "the RT address is over 31, or the stack size is none of 256, 512, 1024, 2048",
        4 => "the record is not 80 bytes",
        5 => "the record breaks its layout",
        6 => "not for this terminal",
        7 => "subaddress 0 or 31: mode commands are not built yet",
        8 => "the stack is unsound",
        9 => "the message's cell is unsound",
        10 => "going back would lose the tag's upper half or the member number",
        12 => "the address is beyond the RAM",
        15 => "the start address has fewer than two words left",
        _ => "no reason known",
    }
}

/// The old part of a long record, and what stands behind it.
fn long_parts(bytes: &[u8]) -> Option<(&[u8], &[u8])> {
    heard::is_long(bytes).then(|| bytes.split_at(RECORD_BYTES))
}

/// What breaks the layout of a record, old or long.
pub fn layout_faults(bytes: &[u8]) -> Vec<String> {
    if let Some((old, new)) = long_parts(bytes) {
        let mut faults = layout_faults(old);
        if new[4..].iter().any(|&byte| byte != 0) {
            faults.push("bytes 84-95 are not zero".to_string());
        }
        return faults;
    }
    let bytes: &[u8; RECORD_BYTES] = match bytes.try_into() {
        Ok(bytes) => bytes,
        Err(_) => return Vec::new(),
    };
    let (flags, count) = (bytes[6], bytes[7]);
    let say = |rule: &Rule| match rule {
        Rule::ZeroBytes => "bytes 8-15 are not zero".to_string(),
        Rule::Flags => format!("flags {flags} have a bit over 64"),
        Rule::Count => format!("count {count} is over 33"),
        Rule::WordsAfter => format!("words after the first {count} are not zero"),
        Rule::TransferReceives => "flag 8 is on a transmit command".to_string(),
        Rule::FaultOfTransfer => format!("flags {flags} have one of 16 to 64 without flag 8"),
        Rule::CommandOfTransfer => "bytes 2-3 are not zero without flag 8".to_string(),
        Rule::NoWordAfterFault => {
            format!("count {count} is not 0 with one of flags 16 to 64")
        }
    };
    broken_rules(bytes).iter().map(say).collect()
}
