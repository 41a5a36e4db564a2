//! The machine that carries instructions out, and its run under a budget.

use super::opcode::{Fault, OpCode, Operation, INVERSE};
use super::outcome::Outcome;
use super::planted::{
    with_planted, Planted, BUDGET_AFTER_FETCH, DAMAGED_PASSED_OVER, DEPTH_FIVE, EVEN_PARITY,
    FALSE_FLAG_SKIPPED, FALSE_NOT_COUNTED, RETURN_BELOW_HALTS, UNEXECUTED_USES_OUTCOME,
    WRAPS_AT_END,
};
use crate::terminal::cells::check_ram;
use crate::terminal::read_record;
use crate::terminal::records::RECORD_BYTES;
use crate::terminal::refusal;

/// Subroutines nest four deep.
pub const MOST_CALLS: usize = 4;

/// What stands between two instructions.
#[derive(Clone, Copy, Debug, Default, PartialEq, Eq)]
pub struct Machine {
    /// The instruction list pointer. It may lie behind RAM.
    pub pointer: usize,
    /// GP0 to GP7, GP0 in the lowest bit.
    pub flags: u8,
    pub last: Outcome,
    /// The call stack: the first `depth` are in use. The room for a fifth is
    /// for a planted error alone.
    calls: [usize; MOST_CALLS + 1],
    depth: usize,
    /// The trace's place, in bytes.
    pub place: usize,
}

impl Machine {
    pub fn new(pointer: usize, flags: u8) -> Machine {
        Machine {
            pointer,
            flags,
            ..Machine::default()
        }
    }

    /// With a call stack. A depth over four counts as four.
    pub fn with_calls(self, calls: [usize; MOST_CALLS], depth: usize) -> Machine {
        let mut machine = self;
        machine.calls[..MOST_CALLS].copy_from_slice(&calls);
        machine.depth = depth.min(MOST_CALLS);
        machine
    }

    pub fn depth(&self) -> usize {
        self.depth
    }

    /// The four words of the call stack, those not in use too.
    pub fn calls(&self) -> [usize; MOST_CALLS] {
        self.calls[..MOST_CALLS].try_into().expect("four")
    }

    /// Whether the condition code field holds (000, table 103).
    #[inline(always)]
    pub fn condition(&self, field: u16) -> bool {
        let bad_message = self.last.no_status || self.last.other_fault;
        let holds = match field & 0x0F {
            flag @ 0..=7 => self.flags >> flag & 1 == 1,
            0x8 => self.last.no_status,
            0x9 => self.last.other_fault,
            0xA => self.last.good_transfer,
            0xC => bad_message,
            0xF => true,
            // No record shows a masked status bit or a retry.
            _ => false,
        };
        holds != (field & INVERSE != 0)
    }
}

/// Why a run ended.
#[derive(Clone, Copy, Debug, PartialEq, Eq)]
pub enum End {
    Halt,
    BadInstruction,
    NoOutcome,
    Budget,
}

/// A run that was not refused.
#[derive(Clone, Copy, Debug, PartialEq, Eq)]
pub struct Ran {
    pub end: End,
    /// Instructions carried out.
    pub steps: u64,
    pub machine: Machine,
}

/// Runs the list at `start`; refuses with 1 and 15.
pub fn start(ram: &[u16], trace: &[u8], start: u16, flags: u8, budget: u64) -> Result<Ran, u16> {
    start_planted(Planted::None, ram, trace, start, flags, budget)
}

/// [`start`] of a controller with an error planted in it.
pub fn start_planted(
    planted: Planted,
    ram: &[u16],
    trace: &[u8],
    start: u16,
    flags: u8,
    budget: u64,
) -> Result<Ran, u16> {
    check_ram(ram)?;
    let start = usize::from(start);
    if start + 2 > ram.len() {
        return Err(refusal::START);
    }
    let machine = Machine::new(start, flags);
    Ok(with_planted!(planted, run(ram, trace, machine, budget)))
}

/// Goes on from what a run left; refuses with 1.
pub fn go_on(ram: &[u16], trace: &[u8], machine: Machine, budget: u64) -> Result<Ran, u16> {
    go_on_planted(Planted::None, ram, trace, machine, budget)
}

/// [`go_on`] of a controller with an error planted in it.
pub fn go_on_planted(
    planted: Planted,
    ram: &[u16],
    trace: &[u8],
    machine: Machine,
    budget: u64,
) -> Result<Ran, u16> {
    check_ram(ram)?;
    Ok(with_planted!(planted, run(ram, trace, machine, budget)))
}

fn run<const PLANTED: u8>(ram: &[u16], trace: &[u8], machine: Machine, budget: u64) -> Ran {
    let mut machine = machine;
    let mut steps = 0;
    let end = loop {
        if steps == budget {
            let bad = PLANTED == BUDGET_AFTER_FETCH && fetch::<PLANTED>(ram, &machine).is_none();
            break if bad {
                End::BadInstruction
            } else {
                End::Budget
            };
        }
        match step::<PLANTED>(ram, trace, &mut machine) {
            Stepped::On => steps += 1,
            Stepped::Uncounted => {}
            Stepped::Ended(End::Halt) => {
                steps += 1;
                break End::Halt;
            }
            Stepped::Ended(end) => break end,
        }
    };
    Ran {
        end,
        steps,
        machine,
    }
}

enum Stepped {
    On,
    /// Only with a planted error.
    Uncounted,
    Ended(End),
}

/// The op code word and its parameter, if they lie in RAM and the word is one.
#[inline(always)]
fn fetch<const PLANTED: u8>(ram: &[u16], machine: &Machine) -> Option<(OpCode, u16)> {
    let at = match PLANTED {
        WRAPS_AT_END if !ram.is_empty() => machine.pointer % ram.len(),
        _ => machine.pointer,
    };
    let pair = ram.get(at..)?.get(..2)?;
    let read = match OpCode::read(pair[0]) {
        Err(Fault::Parity) if PLANTED == EVEN_PARITY => OpCode::read(pair[0] ^ 0x8000),
        read => read,
    };
    Some((read.ok()?, pair[1]))
}

#[inline(always)]
fn step<const PLANTED: u8>(ram: &[u16], trace: &[u8], machine: &mut Machine) -> Stepped {
    let (op, parameter) = match fetch::<PLANTED>(ram, machine) {
        Some(fetched) => fetched,
        None => return Stepped::Ended(End::BadInstruction),
    };
    let next = machine.pointer + 2;
    let heeds = op.is_conditional() || PLANTED == FALSE_FLAG_SKIPPED;
    if heeds && !machine.condition(op.condition) {
        machine.pointer = next;
        if PLANTED == UNEXECUTED_USES_OUTCOME && op.operation == Operation::Xeq {
            machine.place = (machine.place + RECORD_BYTES).min(trace.len());
        }
        return match PLANTED {
            FALSE_NOT_COUNTED => Stepped::Uncounted,
            _ => Stepped::On,
        };
    }
    let most = if PLANTED == DEPTH_FIVE { 5 } else { MOST_CALLS };
    match op.operation {
        Operation::Xeq => match outcome::<PLANTED>(trace, machine.place) {
            Some((outcome, place)) => {
                machine.last = outcome;
                machine.place = place;
                machine.pointer = next;
            }
            None => return Stepped::Ended(End::NoOutcome),
        },
        Operation::Jmp => machine.pointer = usize::from(parameter),
        Operation::Cal => {
            if machine.depth >= most {
                return Stepped::Ended(End::BadInstruction);
            }
            machine.calls[machine.depth] = next;
            machine.depth += 1;
            machine.pointer = usize::from(parameter);
        }
        Operation::Rtn => {
            if machine.depth == 0 {
                return Stepped::Ended(match PLANTED {
                    RETURN_BELOW_HALTS => End::Halt,
                    _ => End::BadInstruction,
                });
            }
            machine.depth -= 1;
            machine.pointer = machine.calls[machine.depth];
        }
        Operation::Hlt => {
            machine.pointer = next;
            return Stepped::Ended(End::Halt);
        }
        Operation::Flg => {
            machine.flags = flags_after(machine.flags, parameter);
            machine.pointer = next;
        }
    }
    Stepped::On
}

/// Bit n sets flag n, bit n + 8 clears it, both toggle it.
fn flags_after(flags: u8, parameter: u16) -> u8 {
    let [clear, set] = parameter.to_be_bytes();
    let toggle = clear & set;
    ((flags | set) & !clear | toggle & !flags) & !(toggle & flags)
}

/// The next whole record as an outcome, and the place after it.
#[inline(always)]
fn outcome<const PLANTED: u8>(trace: &[u8], place: usize) -> Option<(Outcome, usize)> {
    let mut place = place;
    loop {
        let bytes = trace.get(place..)?.get(..RECORD_BYTES)?;
        place += RECORD_BYTES;
        match read_record(bytes) {
            Ok(record) => return Some((Outcome::of(&record), place)),
            Err(_) if PLANTED == DAMAGED_PASSED_OVER => {}
            Err(_) => return None,
        }
    }
}
