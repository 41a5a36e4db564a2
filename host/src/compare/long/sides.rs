//! The sides of a comparison of long records, and errors to be planted.

use super::{MessageFn, NEW_NUMBERS};
#[cfg(feature = "engine")]
use crate::engine::boundary as proved_library;
use crate::terminal::boundary as plain_library;
use crate::terminal::boundary::VALUE_WORDS;
use crate::terminal::long::LONG_BYTES;
use crate::terminal::refusal;

/// A side's functions, over slices as `include/solkverva.h` has them.
#[derive(Clone, Copy)]
pub struct Side {
    pub message: MessageFn,
    pub message_long: MessageFn,
    pub read_long: fn(&[u8], &mut [u16]) -> u16,
    pub write_long: fn(&[u16], &mut [u8]) -> u16,
    pub longer: fn(&[u8], &mut [u8]) -> u16,
    pub shorter: fn(&[u8], &mut [u8]) -> u16,
}

macro_rules! side {
    ($library:ident) => {
        Side {
            message: $library::message,
            message_long: $library::message_long,
            read_long: $library::read_long,
            write_long: $library::write_long,
            longer: $library::longer,
            shorter: $library::shorter,
        }
    };
}

pub const PLAIN: Side = side!(plain_library);

#[cfg(feature = "engine")]
pub const PROVED: Side = side!(proved_library);

/// Errors by name: this package's functions, one of them wrong.
pub const ERRORS: [(&str, Side); 6] = [
    (
        "loss-before-layout",
        Side {
            shorter: |long, bytes| match long.get(NEW_NUMBERS) {
                Some(numbers) if long.len() == LONG_BYTES && numbers != [0; 4] => {
                    plain_library::shorter(&[], bytes);
                    refusal::LOSES_NUMBER
                }
                _ => plain_library::shorter(long, bytes),
            },
            ..PLAIN
        },
    ),
    (
        "member-forgotten",
        Side {
            shorter: |long, bytes| plain_library::shorter(&zeroed(long, 82, 84), bytes),
            ..PLAIN
        },
    ),
    (
        "end-let-through",
        Side {
            read_long: |long, value| plain_library::read_long(&zeroed(long, 84, LONG_BYTES), value),
            ..PLAIN
        },
    ),
    (
        "upper-half-stacked",
        Side {
            message_long: |ram, reply, settings, remembered, long, answer| {
                let mut heard = long.to_vec();
                if heard.len() == LONG_BYTES {
                    heard.copy_within(80..82, 4);
                }
                plain_library::message_long(ram, reply, settings, remembered, &heard, answer)
            },
            ..PLAIN
        },
    ),
    (
        "going-back-zeroes",
        Side {
            shorter: |long, bytes| plain_library::shorter(&zeroed(long, 80, 84), bytes),
            ..PLAIN
        },
    ),
    (
        "halves-exchanged",
        Side {
            read_long: |long, value| {
                let number = plain_library::read_long(long, value);
                if value.len() > VALUE_WORDS + 1 {
                    value.swap(VALUE_WORDS, VALUE_WORDS + 1);
                }
                number
            },
            ..PLAIN
        },
    ),
];

/// The bytes with some of them zero.
fn zeroed(bytes: &[u8], from: usize, to: usize) -> Vec<u8> {
    let mut bytes = bytes.to_vec();
    let end = to.min(bytes.len());
    if from < end {
        bytes[from..end].fill(0);
    }
    bytes
}
