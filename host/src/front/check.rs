//! `check`: the whole-area check, with what is unsound named and why.

use std::io::Write;
use std::process::ExitCode;

use super::names::{addresses, cell_name, cell_runs};
use super::options::Given;
use super::problem::{self, Problem};
use super::say;
use super::soundness::{by_faults, cell_faults, stack_faults};
use super::source::Source;
use crate::engine;

pub fn run(given: &Given, output: &mut dyn Write) -> Result<ExitCode, Problem> {
    let source = Source::open(given)?;
    let ram = source.whole_image()?;
    let (number, cell) = engine::check_area(&ram, &source.settings);
    let text = match number {
        0 => sound(&ram, &source),
        9 => unsound_cells(&ram, &source, cell),
        8 => {
            let faults = stack_faults(&ram, &source.settings).join(" and ");
            format!("8: {}: {faults}\n", say::refusal(8, &source.settings))
        }
        number => format!("{number}: {}\n", say::refusal(number, &source.settings)),
    };
    let status = if number == 0 {
        ExitCode::SUCCESS
    } else {
        ExitCode::FAILURE
    };
    match output.write_all(text.as_bytes()).map_err(problem::output) {
        // The status is an answer too, for whoever reads nothing else.
        Ok(()) | Err(Problem::Closed) => Ok(status),
        Err(problem) => Err(problem),
    }
}

fn sound(ram: &[u16], source: &Source) -> String {
    let stack = engine::describe_stack(ram, &source.settings);
    let stack = addresses(&stack.expect("the check has passed").block);
    format!("0: the stack {stack} is sound, and so is every cell\n")
}

/// The lowest unsound cell is the check's answer; the others follow.
fn unsound_cells(ram: &[u16], source: &Source, cell: u16) -> String {
    let Source {
        settings, owners, ..
    } = source;
    let name = cell_name(owners, cell);
    let faults = cell_faults(ram, settings, cell).join(" and ");
    let mut text = format!("9 {cell}: {name} is unsound: {faults}\n");
    let unsound = engine::label_area(ram, settings).map_or_else(|_| Vec::new(), |it| it.unsound);
    if unsound.len() > 1 {
        text += &format!("unsound cells in all: {}\n", unsound.len());
        for (cells, faults) in by_faults(ram, settings, &unsound) {
            text += &format!("    {}: {faults}\n", cell_runs(&cells));
        }
    }
    text
}
