//! What a comparison of the controller has met: how often each class of case
//! occurred.

use super::{Asked, Told};
use crate::compare::classes;
use crate::controller::machine::MOST_CALLS;
use crate::controller::opcode::{Fault, OpCode, Operation};
use crate::controller::{go_on, End, Machine, Ran};
use crate::terminal::records::RECORD_BYTES;
use crate::terminal::{read_record, refusal};

/// Steps of a run that are looked at one by one.
const LOOKED_AT: usize = 200;

classes! {
    Started "runs started",
    Refused1 "runs refused with 1, RAM length",
    Refused15 "runs refused with 15, start address",
    WentOn "runs that went on",
    Halted "ended by a halt",
    Bad "ended by a bad instruction",
    NoOutcome "ended without an outcome",
    Budget "ended by the budget",
    BudgetZero "budgets of 0",
    LastStepHalts "halts with the last step of the budget",
    Executed "messages executed",
    Jumped "jumps",
    Called "calls",
    Returned "returns",
    Flagged "flag instructions",
    FalseFlag "flag instructions with a false condition",
    Passed "instructions whose condition was false",
    ByFlag "conditions on a flag",
    ByMessage "conditions 8 to E on a message",
    Inverted "inverted conditions that held",
    InverseOfE "inverses of E",
    EvenParity "words with even parity",
    WrongPattern "words whose bits 9-5 are not 01010",
    OtherCode "op codes that are none of the six",
    OffTheEnd "pairs that do not lie in RAM",
    FifthCall "calls at depth four",
    NoCall "returns at depth zero",
    NoStatus "messages without status",
    OtherFault "messages with another fault",
    GoodTransfer "good block transfers",
    Damaged "outcomes that break their layout",
    Tail "tails where an outcome was asked for",
    Spent "traces used up",
    Odd "instructions at odd addresses",
}

impl Coverage {
    pub fn runs(&self) -> u64 {
        use Class::*;
        let runs = [Started, Refused1, Refused15];
        runs.into_iter().map(|class| self.count(class)).sum()
    }

    /// Takes in what was asked and told; both sides told the same.
    pub fn take_in(&mut self, asked: &Asked, told: &Told) {
        use Class::*;
        for (run, (ran, budget)) in told.iter().zip(&asked.budgets).enumerate() {
            match ran {
                Ok(ran) => {
                    self.note(Started, run == 0);
                    self.note(WentOn, run > 0);
                    self.take_in_run(ran, *budget);
                }
                Err(number) => {
                    self.note(Refused1, run == 0 && *number == refusal::RAM_LENGTH);
                    self.note(Refused15, run == 0 && *number == refusal::START);
                }
            }
        }
        if let Some(Ok(_)) = told.first() {
            self.take_in_steps(asked, Machine::new(asked.start.into(), asked.flags));
            self.take_in_steps(asked, asked.lent);
        }
    }

    fn take_in_run(&mut self, ran: &Ran, budget: u64) {
        use Class::*;
        self.note(Halted, ran.end == End::Halt);
        self.note(Bad, ran.end == End::BadInstruction);
        self.note(NoOutcome, ran.end == End::NoOutcome);
        self.note(Budget, ran.end == End::Budget);
        self.note(BudgetZero, budget == 0);
        self.note(LastStepHalts, ran.end == End::Halt && ran.steps == budget);
    }

    /// The first steps from a machine, one by one.
    fn take_in_steps(&mut self, asked: &Asked, mut machine: Machine) {
        for _ in 0..LOOKED_AT {
            let Asked { ram, trace, .. } = asked;
            self.take_in_step(ram, trace, &machine);
            match go_on(ram, trace, machine, 1) {
                Ok(ran) if ran.end == End::Budget => machine = ran.machine,
                _ => return,
            }
        }
    }

    fn take_in_step(&mut self, ram: &[u16], trace: &[u8], machine: &Machine) {
        use Class::*;
        let pair = ram.get(machine.pointer..).and_then(|rest| rest.get(..2));
        self.note(OffTheEnd, pair.is_none());
        let word = match pair {
            Some(pair) => pair[0],
            None => return,
        };
        let read = OpCode::read(word);
        self.note(EvenParity, read == Err(Fault::Parity));
        self.note(WrongPattern, read == Err(Fault::Pattern));
        self.note(OtherCode, matches!(read, Err(Fault::Code(_))));
        self.note(Odd, machine.pointer % 2 == 1);
        if let Ok(op) = read {
            self.take_in_instruction(trace, machine, op);
        }
    }

    fn take_in_instruction(&mut self, trace: &[u8], machine: &Machine, op: OpCode) {
        use Class::*;
        let holds = machine.condition(op.condition);
        self.note(Passed, op.is_conditional() && !holds);
        self.note(FalseFlag, !op.is_conditional() && !holds);
        self.note(ByFlag, op.condition & 0x08 == 0);
        self.note(ByMessage, (0x08..0x0F).contains(&(op.condition & 0x0F)));
        self.note(Inverted, holds && op.condition & 0x10 != 0);
        self.note(InverseOfE, op.condition == 0x1E);
        if op.is_conditional() && !holds {
            return;
        }
        match op.operation {
            Operation::Xeq => self.take_in_outcome(trace, machine),
            Operation::Jmp => self.note(Jumped, true),
            Operation::Cal => {
                self.note(Called, machine.depth() < MOST_CALLS);
                self.note(FifthCall, machine.depth() == MOST_CALLS);
            }
            Operation::Rtn => {
                self.note(Returned, machine.depth() > 0);
                self.note(NoCall, machine.depth() == 0);
            }
            Operation::Flg => self.note(Flagged, true),
            Operation::Hlt => {}
        }
    }

    fn take_in_outcome(&mut self, trace: &[u8], machine: &Machine) {
        use Class::*;
        let rest = trace.get(machine.place..).unwrap_or_default();
        self.note(Spent, rest.is_empty());
        self.note(Tail, (1..RECORD_BYTES).contains(&rest.len()));
        if let Some(bytes) = rest.get(..RECORD_BYTES) {
            let read = read_record(bytes);
            self.note(Damaged, read.is_err());
            if let Ok(record) = read {
                let outcome = crate::controller::Outcome::of(&record);
                self.note(Executed, true);
                self.note(NoStatus, outcome.no_status);
                self.note(OtherFault, outcome.other_fault);
                self.note(GoodTransfer, outcome.good_transfer);
            }
        }
    }
}
