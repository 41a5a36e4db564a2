//! Message records: what was heard on the bus, in 80 bytes.

use std::ops::Range;

use super::layout::rules;
use super::planted::{with_planted, Planted, NONE};
use super::refusal;

pub const RECORD_BYTES: usize = 80;
pub const RECORD_WORDS: usize = 32;

pub const FLAG_BUS_B: u16 = 1;
pub const FLAG_WRONG_SYNC: u16 = 2;
pub const FLAG_INVALID_WORD: u16 = 4;
/// An RT-to-RT transfer, in which this terminal receives.
pub const FLAG_TRANSFER: u16 = 8;
/// Of a transfer: the transmitter gave no status.
pub const FLAG_NO_STATUS: u16 = 16;
/// Of a transfer: a wrong gap, sync or address in that status.
pub const FLAG_GAP: u16 = 32;
/// Of a transfer: a bad second command.
pub const FLAG_SECOND: u16 = 64;

/// What goes wrong with a transfer before its first data word.
pub const TRANSFER_FAULTS: u16 = FLAG_NO_STATUS | FLAG_GAP | FLAG_SECOND;

/// Flags that are none; those over a byte stand only in a value.
pub(super) const UNUSED_FLAGS: u16 = 0xFF80;

/// The count that stands for "more words than a record holds".
pub const TOO_MANY: u16 = 33;

const HEAD_BYTES: usize = 16;

/// Bytes that are zero in every record.
pub(super) const ZERO_BYTES: Range<usize> = 8..16;

/// A message record as a value.
///
/// `flags` and `count` are wider than their bytes, so that a value can break
/// the layout in every way; [`write_record`] refuses such a value.
#[derive(Clone, Copy, Debug, Default, PartialEq, Eq)]
pub struct Record {
    pub command: u16,
    /// Of a transfer: the command that the other terminal had, any word; else 0.
    pub transmit_command: u16,
    pub tag: u16,
    pub flags: u16,
    pub count: u16,
    pub words: [u16; RECORD_WORDS],
}

impl Record {
    pub fn has_flag(&self, flag: u16) -> bool {
        self.flags & flag != 0
    }

    /// How many of `words` were heard; the others must be zero.
    pub fn words_held(&self) -> usize {
        usize::from(self.count).min(RECORD_WORDS)
    }

    pub fn is_transfer(&self) -> bool {
        self.has_flag(FLAG_TRANSFER)
    }

    pub fn keeps_layout(&self) -> bool {
        self.keeps_layout_with::<NONE>()
    }

    fn keeps_layout_with<const PLANTED: u8>(&self) -> bool {
        rules::<PLANTED>(self).iter().all(|(_, kept)| *kept)
    }

    /// Refuses with 5 a value that breaks the layout.
    pub(super) fn check<const PLANTED: u8>(&self) -> Result<(), u16> {
        if self.keeps_layout_with::<PLANTED>() {
            Ok(())
        } else {
            Err(refusal::RECORD_LAYOUT)
        }
    }
}

/// Reads a record, or refuses with 4 (length) or 5 (layout).
#[inline(always)]
pub fn read_record(bytes: &[u8]) -> Result<Record, u16> {
    read_record_with::<NONE>(bytes)
}

/// [`read_record`] of a terminal with an error planted in it.
pub fn read_record_planted(planted: Planted, bytes: &[u8]) -> Result<Record, u16> {
    with_planted!(planted, read_record_with(bytes))
}

#[inline(always)]
pub(super) fn read_record_with<const PLANTED: u8>(bytes: &[u8]) -> Result<Record, u16> {
    let bytes: &[u8; RECORD_BYTES] = bytes.try_into().map_err(|_| refusal::RECORD_LENGTH)?;
    if bytes[ZERO_BYTES] != [0; 8] {
        return Err(refusal::RECORD_LAYOUT);
    }
    let record = taken_apart(bytes);
    record.check::<PLANTED>()?;
    Ok(record)
}

/// The value in bytes, whether or not it keeps the layout.
pub(super) fn taken_apart(bytes: &[u8; RECORD_BYTES]) -> Record {
    let (head, data) = bytes.split_at(HEAD_BYTES);
    let mut record = Record {
        command: u16::from_be_bytes([head[0], head[1]]),
        transmit_command: u16::from_be_bytes([head[2], head[3]]),
        tag: u16::from_be_bytes([head[4], head[5]]),
        flags: head[6].into(),
        count: head[7].into(),
        words: [0; RECORD_WORDS],
    };
    for (word, pair) in record.words.iter_mut().zip(data.chunks_exact(2)) {
        *word = u16::from_be_bytes(pair.try_into().expect("two bytes"));
    }
    record
}

/// Writes a record, or refuses with 5 a value that breaks the layout.
#[inline(always)]
pub fn write_record(record: &Record) -> Result<[u8; RECORD_BYTES], u16> {
    write_record_with::<NONE>(record)
}

/// [`write_record`] of a terminal with an error planted in it.
pub fn write_record_planted(planted: Planted, record: &Record) -> Result<[u8; RECORD_BYTES], u16> {
    with_planted!(planted, write_record_with(record))
}

#[inline(always)]
fn write_record_with<const PLANTED: u8>(record: &Record) -> Result<[u8; RECORD_BYTES], u16> {
    record.check::<PLANTED>()?;
    Ok(put_together(record))
}

/// The bytes of a value, whether or not it keeps the layout; flags and count
/// over 255 are as wrong as 255.
pub(crate) fn put_together(record: &Record) -> [u8; RECORD_BYTES] {
    let mut bytes = [0; RECORD_BYTES];
    bytes[0..2].copy_from_slice(&record.command.to_be_bytes());
    bytes[2..4].copy_from_slice(&record.transmit_command.to_be_bytes());
    bytes[4..6].copy_from_slice(&record.tag.to_be_bytes());
    bytes[6] = record.flags.min(0xFF) as u8;
    bytes[7] = record.count.min(0xFF) as u8;
    for (pair, word) in bytes[HEAD_BYTES..].chunks_exact_mut(2).zip(record.words) {
        pair.copy_from_slice(&word.to_be_bytes());
    }
    bytes
}
