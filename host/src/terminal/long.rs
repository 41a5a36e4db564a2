//! Long records: the 80 bytes of a record, a longer time tag and a member
//! number; and the way from old records to new and back.

use std::ops::Range;

use super::records::{read_record, write_record, Record, RECORD_BYTES};
use super::refusal;

pub const LONG_BYTES: usize = 96;

const UPPER: Range<usize> = 80..82;
const MEMBER: Range<usize> = 82..84;
const ZERO: Range<usize> = 84..LONG_BYTES;

/// A long record as a value; any upper half and any member may stand in it.
#[derive(Clone, Copy, Debug, Default, PartialEq, Eq)]
pub struct LongRecord {
    /// With the time tag's lower half.
    pub old: Record,
    /// The time tag's upper half.
    pub upper: u16,
    pub member: u16,
}

/// Reads a long record, or refuses with 4 (length) or 5 (layout).
#[inline(always)]
pub fn read_long(bytes: &[u8]) -> Result<LongRecord, u16> {
    let old = read_old(bytes)?;
    Ok(LongRecord {
        old,
        upper: word(bytes, UPPER),
        member: word(bytes, MEMBER),
    })
}

/// The old part of a long record, which is all that a terminal hears of it.
#[inline(always)]
pub fn read_old(bytes: &[u8]) -> Result<Record, u16> {
    let bytes: &[u8; LONG_BYTES] = bytes.try_into().map_err(|_| refusal::RECORD_LENGTH)?;
    if bytes[ZERO] != [0; 12] {
        return Err(refusal::RECORD_LAYOUT);
    }
    read_record(&bytes[..RECORD_BYTES])
}

/// Writes a long record, or refuses with 5 one whose old part breaks the layout.
#[inline(always)]
pub fn write_long(record: &LongRecord) -> Result<[u8; LONG_BYTES], u16> {
    let mut bytes = with_zeros(&write_record(&record.old)?);
    bytes[UPPER].copy_from_slice(&record.upper.to_be_bytes());
    bytes[MEMBER].copy_from_slice(&record.member.to_be_bytes());
    Ok(bytes)
}

/// Old to new, or refuses with 4 or 5.
#[inline(always)]
pub fn longer(bytes: &[u8]) -> Result<[u8; LONG_BYTES], u16> {
    read_record(bytes)?;
    Ok(with_zeros(bytes))
}

/// New to old, or refuses with 4, 5, or 10 where a number would be lost.
#[inline(always)]
pub fn shorter(bytes: &[u8]) -> Result<[u8; RECORD_BYTES], u16> {
    let record = read_long(bytes)?;
    if record.upper != 0 || record.member != 0 {
        return Err(refusal::LOSES_NUMBER);
    }
    let mut old = [0; RECORD_BYTES];
    old.copy_from_slice(&bytes[..RECORD_BYTES]);
    Ok(old)
}

/// The bytes of an old record, and sixteen zeros.
fn with_zeros(old: &[u8]) -> [u8; LONG_BYTES] {
    let mut bytes = [0; LONG_BYTES];
    bytes[..RECORD_BYTES].copy_from_slice(old);
    bytes
}

fn word(bytes: &[u8], place: Range<usize>) -> u16 {
    u16::from_be_bytes([bytes[place.start], bytes[place.start + 1]])
}
