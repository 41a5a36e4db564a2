//! The header's functions that describe a cell and the stack, over slices.

mod linked {
    extern "C" {
        pub fn solkverva_describe_cell(
            ram: *const u16,
            ram_words: usize,
            settings: *const u16,
            settings_words: usize,
            cell: u16,
            description: *mut u16,
            description_words: usize,
        ) -> u16;

        pub fn solkverva_describe_stack(
            ram: *const u16,
            ram_words: usize,
            settings: *const u16,
            settings_words: usize,
            description: *mut u16,
            description_words: usize,
        ) -> u16;
    }
}

/// What a cell is like: the number, 0, 1 or 3, and the words that tell it.
#[inline]
pub fn describe_cell(ram: &[u16], settings: &[u16], cell: u16, description: &mut [u16]) -> u16 {
    // SAFETY: each pointer and length is a slice's, and what is written is
    // borrowed for this call alone.
    unsafe {
        linked::solkverva_describe_cell(
            ram.as_ptr(),
            ram.len(),
            settings.as_ptr(),
            settings.len(),
            cell,
            description.as_mut_ptr(),
            description.len(),
        )
    }
}

/// What the stack is like: the number, 0, 1 or 3, and the words that tell it.
#[inline]
pub fn describe_stack(ram: &[u16], settings: &[u16], description: &mut [u16]) -> u16 {
    // SAFETY: as for `describe_cell`.
    unsafe {
        linked::solkverva_describe_stack(
            ram.as_ptr(),
            ram.len(),
            settings.as_ptr(),
            settings.len(),
            description.as_mut_ptr(),
            description.len(),
        )
    }
}
