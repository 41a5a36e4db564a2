//! Long records, read, written and converted by the proved library.

use super::boundary;
use crate::terminal::boundary::{long_of, LONG_WORDS};
use crate::terminal::long::{LongRecord, LONG_BYTES};
use crate::terminal::records::RECORD_BYTES;

/// Reads a long record: the number, and the value, zero where it is refused.
pub fn read_long(bytes: &[u8]) -> (u16, LongRecord) {
    let mut value = [0; LONG_WORDS];
    let number = boundary::read_long(bytes, &mut value);
    (number, long_of(&value))
}

/// Old to new, or the number that refuses.
pub fn longer(bytes: &[u8]) -> Result<[u8; LONG_BYTES], u16> {
    let mut long = [0; LONG_BYTES];
    match boundary::longer(bytes, &mut long) {
        0 => Ok(long),
        number => Err(number),
    }
}

/// New to old, or the number that refuses.
pub fn shorter(bytes: &[u8]) -> Result<[u8; RECORD_BYTES], u16> {
    let mut old = [0; RECORD_BYTES];
    match boundary::shorter(bytes, &mut old) {
        0 => Ok(old),
        number => Err(number),
    }
}
