//! The header's functions that tell who put a word where it is, over slices.

mod linked {
    extern "C" {
        pub fn solkverva_who_fill(
            ram: *mut u16,
            ram_words: usize,
            numbers: *mut u64,
            numbers_length: usize,
            marks: *mut u16,
            marks_words: usize,
            settings: *const u16,
            settings_words: usize,
            remembered: *mut u16,
            remembered_words: usize,
            records: *mut u64,
            records_length: usize,
            trace: *const u8,
            trace_length: usize,
        ) -> u16;

        pub fn solkverva_who_entry(
            numbers: *const u64,
            numbers_length: usize,
            marks: *const u16,
            marks_words: usize,
            address: u16,
            last: *mut u64,
            last_length: usize,
            part: *mut u16,
            part_words: usize,
        ) -> u16;

        pub fn solkverva_who(
            ram: *mut u16,
            ram_words: usize,
            settings: *const u16,
            settings_words: usize,
            address: u16,
            trace: *const u8,
            trace_length: usize,
            last: *mut u64,
            last_length: usize,
            part: *mut u16,
            part_words: usize,
        ) -> u16;
    }
}

/// A part of a trace for every address at once: 0, 1 or 3. RAM and the tables
/// go on from what they hold.
#[inline]
pub fn who_fill(
    ram: &mut [u16],
    numbers: &mut [u64],
    marks: &mut [u16],
    settings: &[u16],
    remembered: &mut [u16],
    records: &mut [u64],
    trace: &[u8],
) -> u16 {
    // SAFETY: each pointer and length is a slice's, and what is written is
    // borrowed for this call alone.
    unsafe {
        linked::solkverva_who_fill(
            ram.as_mut_ptr(),
            ram.len(),
            numbers.as_mut_ptr(),
            numbers.len(),
            marks.as_mut_ptr(),
            marks.len(),
            settings.as_ptr(),
            settings.len(),
            remembered.as_mut_ptr(),
            remembered.len(),
            records.as_mut_ptr(),
            records.len(),
            trace.as_ptr(),
            trace.len(),
        )
    }
}

/// What filled tables say of an address: 0, 1, 5 or 12, the record and the
/// part.
#[inline]
pub fn who_entry(
    numbers: &[u64],
    marks: &[u16],
    address: u16,
    last: &mut [u64],
    part: &mut [u16],
) -> u16 {
    // SAFETY: as for `who_fill`.
    unsafe {
        linked::solkverva_who_entry(
            numbers.as_ptr(),
            numbers.len(),
            marks.as_ptr(),
            marks.len(),
            address,
            last.as_mut_ptr(),
            last.len(),
            part.as_mut_ptr(),
            part.len(),
        )
    }
}

/// One address of a whole trace: 0, 1, 3 or 12, the record and the part. RAM
/// holds the image, and afterwards what the trace leaves.
#[inline]
pub fn who(
    ram: &mut [u16],
    settings: &[u16],
    address: u16,
    trace: &[u8],
    last: &mut [u64],
    part: &mut [u16],
) -> u16 {
    // SAFETY: as for `who_fill`.
    unsafe {
        linked::solkverva_who(
            ram.as_mut_ptr(),
            ram.len(),
            settings.as_ptr(),
            settings.len(),
            address,
            trace.as_ptr(),
            trace.len(),
            last.as_mut_ptr(),
            last.len(),
            part.as_mut_ptr(),
            part.len(),
        )
    }
}
