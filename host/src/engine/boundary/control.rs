//! The header's functions that run an instruction list, over slices.

mod linked {
    extern "C" {
        pub fn solkverva_control(
            ram: *const u16,
            ram_words: usize,
            start: u16,
            flags: u16,
            budget: u64,
            trace: *const u8,
            trace_length: usize,
            machine: *mut u64,
            machine_length: usize,
            ran: *mut u64,
            ran_length: usize,
        ) -> u16;

        pub fn solkverva_control_on(
            ram: *const u16,
            ram_words: usize,
            budget: u64,
            trace: *const u8,
            trace_length: usize,
            machine: *mut u64,
            machine_length: usize,
            ran: *mut u64,
            ran_length: usize,
        ) -> u16;
    }
}

/// A run from a start address: the number, 0, 1 or 15.
#[inline]
pub fn control(
    ram: &[u16],
    start: u16,
    flags: u16,
    budget: u64,
    trace: &[u8],
    machine: &mut [u64],
    ran: &mut [u64],
) -> u16 {
    // SAFETY: each pointer and length is a slice's, and what is written is
    // borrowed for this call alone.
    unsafe {
        linked::solkverva_control(
            ram.as_ptr(),
            ram.len(),
            start,
            flags,
            budget,
            trace.as_ptr(),
            trace.len(),
            machine.as_mut_ptr(),
            machine.len(),
            ran.as_mut_ptr(),
            ran.len(),
        )
    }
}

/// A run that goes on from a machine: the number, 0 or 1.
#[inline]
pub fn control_on(
    ram: &[u16],
    budget: u64,
    trace: &[u8],
    machine: &mut [u64],
    ran: &mut [u64],
) -> u16 {
    // SAFETY: as for `control`.
    unsafe {
        linked::solkverva_control_on(
            ram.as_ptr(),
            ram.len(),
            budget,
            trace.as_ptr(),
            trace.len(),
            machine.as_mut_ptr(),
            machine.len(),
            ran.as_mut_ptr(),
            ran.len(),
        )
    }
}
