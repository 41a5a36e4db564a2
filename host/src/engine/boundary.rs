//! The functions of `include/solkverva.h`, over slices.
//!
//! The header asks one thing of its callers: that nothing written overlaps
//! anything else of the same call. Borrowed slices keep to that by themselves,
//! so these functions are safe to call with slices of any contents and length.

mod control;
mod descriptions;
mod long;
mod origins;

pub use control::{control, control_on};
pub use descriptions::{describe_cell, describe_stack};
pub use long::{longer, message_long, read_long, shorter, write_long};
pub use origins::{who, who_entry, who_fill};

mod linked {
    extern "C" {
        pub fn solkverva_check_area(
            ram: *const u16,
            ram_words: usize,
            settings: *const u16,
            settings_words: usize,
        ) -> u32;

        pub fn solkverva_message(
            ram: *mut u16,
            ram_words: usize,
            reply: *mut u16,
            reply_words: usize,
            settings: *const u16,
            settings_words: usize,
            remembered: *mut u16,
            remembered_words: usize,
            bytes: *const u8,
            bytes_length: usize,
            answer: *mut u16,
            answer_words: usize,
        ) -> u16;

        pub fn solkverva_message_value(
            ram: *mut u16,
            ram_words: usize,
            reply: *mut u16,
            reply_words: usize,
            settings: *const u16,
            settings_words: usize,
            remembered: *mut u16,
            remembered_words: usize,
            value: *const u16,
            value_words: usize,
            answer: *mut u16,
            answer_words: usize,
        ) -> u16;

        pub fn solkverva_label_cell(
            ram: *const u16,
            ram_words: usize,
            settings: *const u16,
            settings_words: usize,
            cell: u16,
            listing: *mut u16,
            listing_words: usize,
        ) -> u16;

        pub fn solkverva_label_area(
            ram: *const u16,
            ram_words: usize,
            settings: *const u16,
            settings_words: usize,
            counts: *mut u16,
            counts_words: usize,
            unsound: *mut u16,
            unsound_words: usize,
            pairs: *mut u16,
            pairs_words: usize,
        ) -> u16;

        pub fn solkverva_read(
            bytes: *const u8,
            bytes_length: usize,
            value: *mut u16,
            value_words: usize,
        ) -> u16;

        pub fn solkverva_write(
            value: *const u16,
            value_words: usize,
            bytes: *mut u8,
            bytes_length: usize,
        ) -> u16;
    }
}

/// The number in the upper 16 bits, the lowest unsound cell in the lower.
#[inline]
pub fn check_area(ram: &[u16], settings: &[u16]) -> u32 {
    // SAFETY: each pointer and length is a slice's; nothing is written.
    unsafe {
        linked::solkverva_check_area(ram.as_ptr(), ram.len(), settings.as_ptr(), settings.len())
    }
}

/// One message from the bytes of a record: the number, which is also the
/// answer's first word.
#[inline]
pub fn message(
    ram: &mut [u16],
    reply: &mut [u16],
    settings: &[u16],
    remembered: &mut [u16],
    bytes: &[u8],
    answer: &mut [u16],
) -> u16 {
    // SAFETY: each pointer and length is a slice's, and what is written is
    // borrowed for this call alone.
    unsafe {
        linked::solkverva_message(
            ram.as_mut_ptr(),
            ram.len(),
            reply.as_mut_ptr(),
            reply.len(),
            settings.as_ptr(),
            settings.len(),
            remembered.as_mut_ptr(),
            remembered.len(),
            bytes.as_ptr(),
            bytes.len(),
            answer.as_mut_ptr(),
            answer.len(),
        )
    }
}

/// One message from the words of a record value: the number, as of `message`.
#[inline]
pub fn message_value(
    ram: &mut [u16],
    reply: &mut [u16],
    settings: &[u16],
    remembered: &mut [u16],
    value: &[u16],
    answer: &mut [u16],
) -> u16 {
    // SAFETY: as for `message`.
    unsafe {
        linked::solkverva_message_value(
            ram.as_mut_ptr(),
            ram.len(),
            reply.as_mut_ptr(),
            reply.len(),
            settings.as_ptr(),
            settings.len(),
            remembered.as_mut_ptr(),
            remembered.len(),
            value.as_ptr(),
            value.len(),
            answer.as_mut_ptr(),
            answer.len(),
        )
    }
}

/// The label of one cell: the number, and the words of its listing.
#[inline]
pub fn label_cell(ram: &[u16], settings: &[u16], cell: u16, listing: &mut [u16]) -> u16 {
    // SAFETY: as for `message`.
    unsafe {
        linked::solkverva_label_cell(
            ram.as_ptr(),
            ram.len(),
            settings.as_ptr(),
            settings.len(),
            cell,
            listing.as_mut_ptr(),
            listing.len(),
        )
    }
}

/// The label of the whole area: the number, how many unsound cells and pairs
/// there are, and both.
#[inline]
pub fn label_area(
    ram: &[u16],
    settings: &[u16],
    counts: &mut [u16],
    unsound: &mut [u16],
    pairs: &mut [u16],
) -> u16 {
    // SAFETY: as for `message`.
    unsafe {
        linked::solkverva_label_area(
            ram.as_ptr(),
            ram.len(),
            settings.as_ptr(),
            settings.len(),
            counts.as_mut_ptr(),
            counts.len(),
            unsound.as_mut_ptr(),
            unsound.len(),
            pairs.as_mut_ptr(),
            pairs.len(),
        )
    }
}

/// The record reader: 0, 4 or 5, and the value's words.
#[inline]
pub fn read(bytes: &[u8], value: &mut [u16]) -> u16 {
    // SAFETY: as for `message`.
    unsafe { linked::solkverva_read(bytes.as_ptr(), bytes.len(), value.as_mut_ptr(), value.len()) }
}

/// The record writer: 0 or 5, and the record's bytes.
#[inline]
pub fn write(value: &[u16], bytes: &mut [u8]) -> u16 {
    // SAFETY: as for `message`.
    unsafe { linked::solkverva_write(value.as_ptr(), value.len(), bytes.as_mut_ptr(), bytes.len()) }
}
