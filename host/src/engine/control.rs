//! The proved controller, with the types of [`crate::controller`].

use super::boundary;
use crate::controller::machine::MOST_CALLS;
use crate::controller::{End, Machine, Outcome, Ran};

/// Numbers that a machine is lent as.
pub const MACHINE_NUMBERS: usize = 9;
/// Numbers that a run is told in: how it ended, and its steps.
pub const RAN_NUMBERS: usize = 2;

/// Runs the list at `start`; refuses with 1 and 15.
pub fn start(ram: &[u16], trace: &[u8], start: u16, flags: u8, budget: u64) -> Result<Ran, u16> {
    let (mut machine, mut ran) = ([0; MACHINE_NUMBERS], [0; RAN_NUMBERS]);
    let flags = flags.into();
    let number = boundary::control(ram, start, flags, budget, trace, &mut machine, &mut ran);
    told(number, machine, ran)
}

/// Goes on from what a run left; refuses with 1.
pub fn go_on(ram: &[u16], trace: &[u8], machine: Machine, budget: u64) -> Result<Ran, u16> {
    go_on_lent(ram, trace, machine_numbers(&machine), budget)
}

/// Goes on from a machine as any nine numbers tell it.
pub fn go_on_lent(
    ram: &[u16],
    trace: &[u8],
    machine: [u64; MACHINE_NUMBERS],
    budget: u64,
) -> Result<Ran, u16> {
    let (mut machine, mut ran) = (machine, [0; RAN_NUMBERS]);
    let number = boundary::control_on(ram, budget, trace, &mut machine, &mut ran);
    told(number, machine, ran)
}

fn told(number: u16, machine: [u64; MACHINE_NUMBERS], ran: [u64; RAN_NUMBERS]) -> Result<Ran, u16> {
    let end = match (number, ran[0]) {
        (0, 1) => End::Halt,
        (0, 2) => End::BadInstruction,
        (0, 3) => End::NoOutcome,
        (0, _) => End::Budget,
        (number, _) => return Err(number),
    };
    Ok(Ran {
        end,
        steps: ran[1],
        machine: machine_of(machine),
    })
}

/// A machine as the header's nine numbers.
pub fn machine_numbers(machine: &Machine) -> [u64; MACHINE_NUMBERS] {
    let last = machine.last;
    let bits = [last.no_status, last.other_fault, last.good_transfer];
    let last = (0..).zip(bits).map(|(n, bit)| u64::from(bit) << n).sum();
    let [first, second, third, fourth] = machine.calls().map(|call| call as u64);
    [
        machine.pointer as u64,
        machine.flags.into(),
        last,
        machine.depth() as u64,
        first,
        second,
        third,
        fourth,
        machine.place as u64,
    ]
}

/// The machine that nine numbers tell.
pub fn machine_of(numbers: [u64; MACHINE_NUMBERS]) -> Machine {
    let [pointer, flags, last, depth, first, second, third, fourth, place] = numbers;
    let calls: [u64; MOST_CALLS] = [first, second, third, fourth];
    let mut machine = Machine::new(pointer as usize, flags as u8);
    machine.last = Outcome {
        no_status: last & 1 != 0,
        other_fault: last & 2 != 0,
        good_transfer: last & 4 != 0,
    };
    machine.place = place as usize;
    machine.with_calls(calls.map(|call| call as usize), depth as usize)
}
