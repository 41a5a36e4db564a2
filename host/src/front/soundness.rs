//! Why a stack or a cell is unsound, in words. Which faults there are is the
//! proved library's answer.

use std::ops::Range;

use super::names::addresses;
use crate::engine;
use crate::terminal::cells::{DESCRIPTOR_WORDS, FIXED_AREAS};
use crate::terminal::described::{cell_fault, stack_fault};
use crate::terminal::Settings;

/// What is wrong with a stack; empty where nothing is.
pub fn stack_faults(ram: &[u16], settings: &Settings) -> Vec<String> {
    let stack = match engine::describe_stack(ram, settings) {
        Ok(stack) => stack,
        Err(_) => return Vec::new(),
    };
    let (pointer, block) = (stack.pointer, addresses(&stack.block));
    let has = |fault: u16| stack.faults & fault != 0;
    let mut faults = Vec::new();
    if has(stack_fault::POINTER_OFF) {
        faults.push(format!("its pointer {pointer:04X} is not a multiple of 4"));
    }
    if has(stack_fault::POINTER_OVER) {
        let highest = ram.len() - DESCRIPTOR_WORDS;
        faults.push(format!("its pointer {pointer:04X} is over {highest:04X}"));
    } else if has(stack_fault::BLOCK_OVER_END) {
        faults.push(format!("its block {block} leaves the RAM"));
    }
    let areas = [
        (stack_fault::LOW_AREA, fixed_area(0)),
        (stack_fault::HIGH_AREA, fixed_area(1)),
    ];
    faults.extend(met("its block", &stack.block, stack.faults, &areas));
    faults
}

/// What is wrong with a cell beside a sound stack; empty where nothing is.
pub fn cell_faults(ram: &[u16], settings: &Settings, number: u16) -> Vec<String> {
    let cell = engine::describe_cell(ram, settings, number);
    let stack = engine::describe_stack(ram, settings);
    let (cell, stack) = match (cell, stack) {
        (Ok(cell), Ok(stack)) => (cell, stack),
        _ => return Vec::new(),
    };
    let (pointer, window) = (cell.pointer, addresses(&cell.window));
    let has = |fault: u16| cell.faults & fault != 0;
    let mut faults = Vec::new();
    if has(cell_fault::POINTER_OUTSIDE) {
        faults.push(format!("its pointer {pointer:04X} is outside the RAM"));
    } else if has(cell_fault::WINDOW_OVER_END) {
        faults.push(format!("its window {window} goes over the RAM's end"));
    }
    if has(cell_fault::DOUBLE_OFF) {
        faults.push(format!(
            "its double pointer {pointer:04X} is not a multiple of 32"
        ));
    }
    let areas = [
        (cell_fault::LOW_AREA, fixed_area(0)),
        (cell_fault::HIGH_AREA, fixed_area(1)),
        (
            cell_fault::STACK,
            format!("the stack {}", addresses(&stack.block)),
        ),
    ];
    faults.extend(met("its window", &cell.window, cell.faults, &areas));
    faults
}

fn fixed_area(place: usize) -> String {
    format!("the fixed area {}", addresses(&FIXED_AREAS[place]))
}

/// What a run of words meets, of the areas whose faults are set.
fn met(what: &str, range: &Range<usize>, set: u16, areas: &[(u16, String)]) -> Option<String> {
    let met = areas.iter().filter(|(fault, _)| set & fault != 0);
    let met: Vec<&str> = met.map(|(_, area)| area.as_str()).collect();
    let run = addresses(range);
    (!met.is_empty()).then(|| format!("{what} {run} meets {}", met.join(" and ")))
}

/// Cells with the same faults, in the order of their first.
pub fn by_faults(ram: &[u16], settings: &Settings, cells: &[u16]) -> Vec<(Vec<u16>, String)> {
    let mut groups: Vec<(Vec<u16>, String)> = Vec::new();
    for &cell in cells {
        let faults = cell_faults(ram, settings, cell).join(" and ");
        match groups.iter_mut().find(|(_, known)| *known == faults) {
            Some((cells, _)) => cells.push(cell),
            None => groups.push((vec![cell], faults)),
        }
    }
    groups
}
