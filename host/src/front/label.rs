//! `label`: which cells share words, and which of them can write there. For
//! people, by words and with those who matter first; with `--pairs`, pair by
//! pair.

use std::io::Write;
use std::process::ExitCode;

use super::names::{self, ability, addresses, bare_cell_name, cell_name, cell_runs, KINDS};
use super::options::Given;
use super::problem::{self, Problem};
use super::replay::Replay;
use super::say;
use super::sharing::words::{cell_lines, region_lines, Plain};
use super::sharing::{writes, Sharing};
use super::soundness::{cell_faults, stack_faults};
use super::source::Source;
use super::used::Used;
use crate::engine;
use crate::terminal::cells::Kind;
use crate::terminal::label::AreaLabel;
use crate::text::decimal;

pub fn run(given: &Given, output: &mut dyn Write) -> Result<ExitCode, Problem> {
    let subaddress = match given.files.get(1) {
        Some(word) => Some(subaddress(&word.to_string_lossy())?),
        None => None,
    };
    let mut source = Source::open(given)?;
    let text = text(&mut source, subaddress, given.has("--pairs"))?;
    output.write_all(text.as_bytes()).map_err(problem::output)?;
    Ok(ExitCode::SUCCESS)
}

fn subaddress(word: &str) -> Result<u16, Problem> {
    let number = decimal(word).filter(|number| (1..=30).contains(number));
    number.map(|number| number as u16).ok_or_else(|| {
        let text = format!("label: found {word:?}, expected a subaddress from 1 to 30");
        Problem::Use(text)
    })
}

/// The label of a subaddress, or else of the whole area.
pub fn text(source: &mut Source, subaddress: Option<u16>, pairs: bool) -> Result<String, Problem> {
    let ram = source.whole_image()?;
    let label = engine::label_area(&ram, &source.settings);
    let label = label.map_err(|number| refused(source, &ram, number))?;
    // Pairs are the same whoever owns or uses a cell.
    let used = if pairs {
        Used::default()
    } else {
        used(source, &ram)?
    };
    let told = Told {
        source,
        sharing: Sharing {
            ram: &ram,
            settings: &source.settings,
            owners: &source.owners,
            used: &used,
        },
        pairs,
    };
    Ok(match subaddress {
        Some(subaddress) => told.subaddress(subaddress),
        None => told.area(&label),
    })
}

/// The cells that have an accepted message in the trace.
fn used(source: &mut Source, ram: &[u16]) -> Result<Used, Problem> {
    let mut replay = Replay::new(ram.to_vec(), source.settings);
    while let Some(bytes) = source.next_record()? {
        replay.message(bytes);
    }
    Ok(replay.used)
}

fn refused(source: &Source, ram: &[u16], number: u16) -> Problem {
    let mut why = say::refusal(number, &source.settings).to_string();
    if number == 8 {
        let faults = stack_faults(ram, &source.settings);
        why += &format!(": {}", faults.join(" and "));
    }
    Problem::Input(format!("{}: refused with {number}: {why}", source.name))
}

struct Told<'a> {
    source: &'a Source,
    sharing: Sharing<'a>,
    pairs: bool,
}

impl Told<'_> {
    /// What the cells share, and the unsound cells.
    fn area(&self, label: &AreaLabel) -> String {
        let mut text = match self.pairs {
            true => self.pairs(label),
            false => self.regions(label),
        };
        if !label.unsound.is_empty() {
            text += &format!("unsound: {}\n", cell_runs(&label.unsound));
        }
        let advice = match self.pairs {
            true => "",
            false => "; --pairs lists each",
        };
        text += &match label.pairs.len() {
            0 => "no two cells share a word\n".to_string(),
            pairs => format!("{} in all{advice}\n", names::count(pairs as u64, "pair")),
        };
        text
    }

    /// A line for each run of shared words, and under it those who neither own
    /// nor use it.
    fn regions(&self, label: &AreaLabel) -> String {
        let mut text = String::new();
        for region in self.sharing.of_area(label) {
            for (place, line) in region_lines(&region, &Plain(&self.source.owners))
                .iter()
                .enumerate()
            {
                let indent = if place == 0 { "" } else { "    " };
                text += &format!("{indent}{line}\n");
            }
        }
        text
    }

    /// A line for each pair of cells that meet.
    fn pairs(&self, label: &AreaLabel) -> String {
        let pairs = label.pairs.iter();
        pairs
            .map(|&(lower, higher)| self.pair(lower, higher))
            .collect()
    }

    fn pair(&self, lower: u16, higher: u16) -> String {
        let words = addresses(&self.sharing.words(lower, higher));
        let [a, b] = [lower, higher].map(|cell| cell_name(&self.source.owners, cell));
        let can = match [lower, higher].map(writes) {
            [true, true] => "both write".to_string(),
            [false, false] => "both only send".to_string(),
            [first, second] => {
                let [a, b] = [lower, higher].map(bare_cell_name);
                format!("{a} {}, {b} {}", ability(first), ability(second))
            }
        };
        format!("{a} and {b} share {words}: {can}\n")
    }

    /// For each cell of a subaddress, who else is in its window.
    fn subaddress(&self, subaddress: u16) -> String {
        let settings = &self.source.settings;
        let kinds = KINDS.into_iter();
        kinds
            .filter(|&kind| kind != Kind::Broadcast || settings.has_broadcast_cells())
            .map(|kind| self.cell(names::cell_number(kind, subaddress)))
            .collect()
    }

    /// A cell's listing. Of what refuses one, only 9 is left: the area has a
    /// label.
    fn cell(&self, cell: u16) -> String {
        let (ram, settings) = (self.sharing.ram, self.sharing.settings);
        let name = cell_name(&self.source.owners, cell);
        let lines = match self.pairs {
            true => self.listing(cell),
            false => self.told(cell),
        };
        let window = addresses(&self.sharing.window(cell));
        match lines {
            None => {
                let faults = cell_faults(ram, settings, cell).join(" and ");
                format!("{name} is unsound: {faults}\n")
            }
            Some(lines) if lines.is_empty() => format!("{name} shares {window} with nobody\n"),
            Some(lines) => {
                let lines: String = lines.iter().map(|line| format!("    {line}\n")).collect();
                format!("{name} shares {window} with\n{lines}")
            }
        }
    }

    /// Every cell that shares the window, one by one.
    fn listing(&self, cell: u16) -> Option<Vec<String>> {
        let sharers = engine::label_cell(self.sharing.ram, self.sharing.settings, cell).ok()?;
        let line = |other: u16, writes: bool| {
            let words = addresses(&self.sharing.words(cell, other));
            let name = cell_name(&self.source.owners, other);
            format!("{name}, which {}, at {words}", ability(writes))
        };
        Some(sharers.iter().map(|it| line(it.cell, it.writes)).collect())
    }

    fn told(&self, cell: u16) -> Option<Vec<String>> {
        let sharing = self.sharing.of_cell(cell).ok()?;
        Some(cell_lines(&sharing, &Plain(&self.source.owners)))
    }
}
