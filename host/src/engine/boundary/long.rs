//! Long records over slices.

mod linked {
    extern "C" {
        pub fn solkverva_message_long(
            ram: *mut u16,
            ram_words: usize,
            reply: *mut u16,
            reply_words: usize,
            settings: *const u16,
            settings_words: usize,
            remembered: *mut u16,
            remembered_words: usize,
            bytes: *const u8,
            bytes_length: usize,
            answer: *mut u16,
            answer_words: usize,
        ) -> u16;

        pub fn solkverva_read_long(
            bytes: *const u8,
            bytes_length: usize,
            value: *mut u16,
            value_words: usize,
        ) -> u16;

        pub fn solkverva_write_long(
            value: *const u16,
            value_words: usize,
            bytes: *mut u8,
            bytes_length: usize,
        ) -> u16;

        pub fn solkverva_longer(
            old: *const u8,
            old_length: usize,
            bytes: *mut u8,
            bytes_length: usize,
        ) -> u16;

        pub fn solkverva_shorter(
            long: *const u8,
            long_length: usize,
            bytes: *mut u8,
            bytes_length: usize,
        ) -> u16;
    }
}

/// One message from the bytes of a long record: the number, which is also the
/// answer's first word.
#[inline]
pub fn message_long(
    ram: &mut [u16],
    reply: &mut [u16],
    settings: &[u16],
    remembered: &mut [u16],
    bytes: &[u8],
    answer: &mut [u16],
) -> u16 {
    // SAFETY: each pointer and length is a slice's, and what is written is
    // borrowed for this call alone.
    unsafe {
        linked::solkverva_message_long(
            ram.as_mut_ptr(),
            ram.len(),
            reply.as_mut_ptr(),
            reply.len(),
            settings.as_ptr(),
            settings.len(),
            remembered.as_mut_ptr(),
            remembered.len(),
            bytes.as_ptr(),
            bytes.len(),
            answer.as_mut_ptr(),
            answer.len(),
        )
    }
}

/// The reader of long records: 0, 4 or 5, and the value's words.
#[inline]
pub fn read_long(bytes: &[u8], value: &mut [u16]) -> u16 {
    let (bytes, length) = (bytes.as_ptr(), bytes.len());
    // SAFETY: as for `message_long`.
    unsafe { linked::solkverva_read_long(bytes, length, value.as_mut_ptr(), value.len()) }
}

/// The writer of long records: 0 or 5, and the record's bytes.
#[inline]
pub fn write_long(value: &[u16], bytes: &mut [u8]) -> u16 {
    let (value, words) = (value.as_ptr(), value.len());
    // SAFETY: as for `message_long`.
    unsafe { linked::solkverva_write_long(value, words, bytes.as_mut_ptr(), bytes.len()) }
}

/// Old to new: 0, 4 or 5, and the record's 96 bytes.
#[inline]
pub fn longer(old: &[u8], bytes: &mut [u8]) -> u16 {
    let (old, length) = (old.as_ptr(), old.len());
    // SAFETY: as for `message_long`.
    unsafe { linked::solkverva_longer(old, length, bytes.as_mut_ptr(), bytes.len()) }
}

/// New to old: 0, 4, 5 or 10, and the record's 80 bytes.
#[inline]
pub fn shorter(long: &[u8], bytes: &mut [u8]) -> u16 {
    let (long, length) = (long.as_ptr(), long.len());
    // SAFETY: as for `message_long`.
    unsafe { linked::solkverva_shorter(long, length, bytes.as_mut_ptr(), bytes.len()) }
}
