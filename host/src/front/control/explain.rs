//! A run in words, a line for each step.

use std::io::Write;

use super::{Run, Stop};
use crate::controller::machine::MOST_CALLS;
use crate::controller::opcode::{Fault, OpCode, Operation};
use crate::controller::{End, Machine, Ran};
use crate::engine;
use crate::front::names::count;
use crate::front::say;
use crate::front::source::Source;
use crate::terminal::records::RECORD_BYTES;
use crate::text::list::{condition_name, instruction};

/// Runs step by step, and says each.
pub(super) fn explain(run: &Run, source: &Source, output: &mut dyn Write) -> Result<Ran, Stop> {
    let mut ran = Ran {
        end: End::Budget,
        steps: 0,
        machine: run.begin()?,
    };
    while ran.end == End::Budget && ran.steps < run.budget {
        let before = ran.machine;
        let step = run.step(before)?;
        ran = Ran {
            steps: ran.steps + step.steps,
            ..step
        };
        let number = match step.steps {
            0 => "-".to_string(),
            _ => ran.steps.to_string(),
        };
        let line = line(run, source, &before, &step);
        writeln!(output, "{number:>4} {line}").map_err(Stop::Output)?;
    }
    Ok(ran)
}

fn line(run: &Run, source: &Source, before: &Machine, step: &Ran) -> String {
    let at = before.pointer;
    let pair = run.ram.get(at..).and_then(|rest| rest.get(..2));
    let (word, parameter) = match pair {
        Some(pair) => (pair[0], pair[1]),
        None => return format!("{at:04X}: bad, no pair of words is left in RAM here"),
    };
    match OpCode::read(word) {
        Err(fault) => format!("{at:04X} {word:04X}: bad, {}", why_bad(fault)),
        Ok(op) => {
            let text = instruction(word, parameter).unwrap_or_default();
            let what = what(run, source, before, step, op);
            format!("{at:04X} {text}: {what}")
        }
    }
}

fn why_bad(fault: Fault) -> String {
    match fault {
        Fault::Parity => "the word has even parity".into(),
        Fault::Pattern => "bits 9-5 are not 01010".into(),
        Fault::Code(code) => format!("op code {code:02X} is none of the six"),
    }
}

fn what(run: &Run, source: &Source, before: &Machine, step: &Ran, op: OpCode) -> String {
    let after = &step.machine;
    if op.is_conditional() && !before.condition(op.condition) {
        return format!(
            "passed over, {} does not hold",
            condition_name(op.condition)
        );
    }
    match op.operation {
        Operation::Xeq if step.end == End::NoOutcome => no_outcome(run, before),
        Operation::Xeq => executed(run, source, before, after),
        Operation::Jmp => format!("goes to {:04X}", after.pointer),
        Operation::Cal if step.end == End::BadInstruction => {
            format!("bad, {MOST_CALLS} calls are open already")
        }
        Operation::Cal => format!("calls, depth {}", after.depth()),
        Operation::Rtn if step.end == End::BadInstruction => "bad, no call is open".into(),
        Operation::Rtn => format!("returns to {:04X}", after.pointer),
        Operation::Hlt => "halts".into(),
        Operation::Flg => format!("flags {:02X}, were {:02X}", after.flags, before.flags),
    }
}

/// The record that was the message's outcome, and what the conditions see.
fn executed(run: &Run, source: &Source, before: &Machine, after: &Machine) -> String {
    let bytes = &run.trace[before.place..after.place];
    let (_, record) = engine::read_record(bytes);
    let asked = say::command(record.command, &source.settings, &source.owners);
    let last = &after.last;
    let mut said = Vec::new();
    if last.no_status {
        said.push("no status");
    }
    if last.other_fault {
        said.push("a fault");
    }
    if last.good_transfer {
        said.push("a good block transfer");
    }
    if said.is_empty() {
        said.push("good");
    }
    let number = after.place / RECORD_BYTES;
    format!("record {number}, {asked}; {}", said.join(" and "))
}

fn no_outcome(run: &Run, before: &Machine) -> String {
    let rest = run.trace.get(before.place..).unwrap_or_default();
    let number = before.place / RECORD_BYTES + 1;
    match rest.get(..RECORD_BYTES) {
        Some(bytes) => {
            let faults = say::layout_faults(bytes).join(" and ");
            format!("no outcome, record {number} breaks its layout: {faults}")
        }
        None => {
            let records = run.trace.len() / RECORD_BYTES;
            format!(
                "no outcome left, the trace has {}",
                count(records as u64, "record")
            )
        }
    }
}
