//! Shared words told in lines, plainly or as HTML.

use std::ops::Range;

use super::{writes, CellSharing, Named, Quiet, Region};
use crate::front::names::{ability, addresses, cell_name, cell_runs, count, listed};
use crate::text::Owners;

/// How cells and addresses are written.
pub trait Pen {
    fn cell(&self, cell: u16) -> String;
    fn places(&self, words: &Range<usize>) -> String;
}

/// Plain text.
pub struct Plain<'a>(pub &'a Owners);

impl Pen for Plain<'_> {
    fn cell(&self, cell: u16) -> String {
        cell_name(self.0, cell)
    }

    fn places(&self, words: &Range<usize>) -> String {
        addresses(words)
    }
}

/// What is said of cells that nobody owns and that had no message.
pub fn quiet_cells(number: usize) -> String {
    format!("{}, never used and unowned,", count(number as u64, "cell"))
}

/// `A and B can write; C only sends`, of names and how many they are.
fn can(writers: (String, usize), senders: (String, usize)) -> String {
    let (writers, able) = writers;
    let (senders, only_sending) = senders;
    let only = if only_sending == 1 {
        "only sends"
    } else {
        "only send"
    };
    match (able, only_sending) {
        (0, _) => format!("{senders} {only}"),
        (_, 0) => format!("{writers} can write"),
        _ => format!("{writers} can write; {senders} {only}"),
    }
}

/// What cells can do, with their names from `name`.
fn able(cells: &[u16], name: impl Fn(&[u16]) -> String) -> String {
    let (writers, senders): (Vec<u16>, Vec<u16>) = cells.iter().partition(|&&cell| writes(cell));
    can(
        (name(&writers), writers.len()),
        (name(&senders), senders.len()),
    )
}

/// `receive 19 (Anna), which can write, at 0480-049F`.
fn named_line(named: &Named, pen: &dyn Pen) -> String {
    format!(
        "{}, which {}, at {}",
        pen.cell(named.cell),
        ability(named.writes),
        pen.places(&named.words)
    )
}

/// `76 cells, never used and unowned, at 0000-001F: receive 1-30 can write; ..`
pub fn quiet_line(quiet: &Quiet, pen: &dyn Pen) -> String {
    format!(
        "{} at {}: {}",
        quiet_cells(quiet.cells.len()),
        pen.places(&quiet.words),
        able(&quiet.cells, cell_runs)
    )
}

/// A line for each named cell in a cell's window, and one for each group.
pub fn cell_lines(sharing: &CellSharing, pen: &dyn Pen) -> Vec<String> {
    let named = sharing.named.iter().map(|named| named_line(named, pen));
    let quiet = sharing.quiet.iter().map(|quiet| quiet_line(quiet, pen));
    named.chain(quiet).collect()
}

/// A run of shared words: those who are named, and those who are not.
pub fn region_lines(region: &Region, pen: &dyn Pen) -> Vec<String> {
    let mut lines = Vec::new();
    if !region.named.is_empty() {
        let names = |cells: &[u16]| -> String {
            let names: Vec<String> = cells.iter().map(|&cell| pen.cell(cell)).collect();
            listed(&names)
        };
        lines.push(format!(
            "{}: {}",
            pen.places(&region.words),
            able(&region.named, names)
        ));
    }
    if let Some(quiet) = &region.quiet {
        let lie = match (quiet.cells.len(), quiet.together) {
            (1, _) => "lies at",
            (_, true) => "lie together at",
            (_, false) => "lie at",
        };
        lines.push(format!(
            "{} {lie} {}: {}",
            quiet_cells(quiet.cells.len()),
            pen.places(&quiet.words),
            able(&quiet.cells, cell_runs)
        ));
    }
    lines
}
