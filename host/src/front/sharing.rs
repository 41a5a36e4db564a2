//! Who shares words with whom, for people: cells that somebody owns or that
//! had a message are named, each; the others are told together. Which cells
//! share words is the proved library's answer.

pub mod words;

use std::ops::Range;

use super::names::{kind_of, subaddress_of};
use super::used::Used;
use crate::engine;
use crate::terminal::cells::Kind;
use crate::terminal::label::{AreaLabel, Sharer};
use crate::terminal::Settings;
use crate::text::Owners;

pub struct Sharing<'a> {
    pub ram: &'a [u16],
    pub settings: &'a Settings,
    pub owners: &'a Owners,
    pub used: &'a Used,
}

/// Cells that were never used and that nobody owns, with the words that they
/// share.
#[derive(Clone, Debug, PartialEq, Eq)]
pub struct Quiet {
    pub words: Range<usize>,
    pub cells: Vec<u16>,
    /// These words are the whole window of each.
    pub together: bool,
}

/// A cell that is named, with the words that it shares.
#[derive(Clone, Debug, PartialEq, Eq)]
pub struct Named {
    pub cell: u16,
    pub writes: bool,
    pub words: Range<usize>,
    /// The owner of the cell that was asked about is to be warned of it.
    pub warns: bool,
}

/// Who is in a cell's window: first those that its owner is to be warned of.
#[derive(Clone, Debug, Default, PartialEq, Eq)]
pub struct CellSharing {
    pub named: Vec<Named>,
    pub quiet: Vec<Quiet>,
}

impl CellSharing {
    pub fn is_empty(&self) -> bool {
        self.named.is_empty() && self.quiet.is_empty()
    }

    pub fn warns(&self) -> bool {
        self.named.iter().any(|named| named.warns)
    }
}

/// What an owner must know of shared words; what comes first is told first.
#[derive(Clone, Copy, Debug, PartialEq, Eq, PartialOrd, Ord)]
enum Weight {
    /// Another's cell, owned or used, can write where a cell that is owned or
    /// used has its words; so many of the two were never used.
    Others(usize),
    /// A used cell of the same owner can.
    Own(usize),
    /// No such cell can, but one that is owned or used shares them.
    Harmless,
    /// Nobody owns or uses them.
    Nobody,
}

/// A run of words that the same cells share.
#[derive(Clone, Debug, PartialEq, Eq)]
pub struct Region {
    pub words: Range<usize>,
    pub named: Vec<u16>,
    pub quiet: Option<Quiet>,
    weight: Weight,
}

impl Region {
    fn quiet_cells(&self) -> usize {
        self.quiet.as_ref().map_or(0, |quiet| quiet.cells.len())
    }
}

/// What a cell can do in its window, whatever its tables say.
pub fn writes(cell: u16) -> bool {
    kind_of(cell) != Kind::Transmit
}

fn common(a: &Range<usize>, b: &Range<usize>) -> Range<usize> {
    a.start.max(b.start)..a.end.min(b.end)
}

impl Sharing<'_> {
    fn is_owned(&self, cell: u16) -> bool {
        self.owners.of(subaddress_of(cell)).is_some()
    }

    fn is_named(&self, cell: u16) -> bool {
        self.is_owned(cell) || self.used.has(cell)
    }

    /// Whether two cells are in one hand: of one subaddress, or of one owner.
    pub fn same_owner(&self, a: u16, b: u16) -> bool {
        let [a, b] = [a, b].map(subaddress_of);
        a == b || self.owners.of(a).is_some() && self.owners.of(a) == self.owners.of(b)
    }

    /// Whether a cell's owner is to be warned of another cell in its window:
    /// of one that can write, and is another owner's or in use.
    fn warns(&self, cell: u16, other: u16) -> bool {
        let of_another = self.is_owned(other) && !self.same_owner(cell, other);
        cell != other && writes(other) && (of_another || self.used.has(other))
    }

    /// The window of a cell that the label speaks of.
    pub fn window(&self, cell: u16) -> Range<usize> {
        let cell = engine::describe_cell(self.ram, self.settings, cell);
        cell.expect("RAM and settings are not refused").window
    }

    /// The words that two cells share.
    pub fn words(&self, a: u16, b: u16) -> Range<usize> {
        common(&self.window(a), &self.window(b))
    }

    /// Who is in a cell's window; 1, 3, 8 and 9 refuse.
    pub fn of_cell(&self, cell: u16) -> Result<CellSharing, u16> {
        let mut sharing = CellSharing::default();
        for Sharer {
            cell: other,
            writes,
        } in engine::label_cell(self.ram, self.settings, cell)?
        {
            let words = self.words(cell, other);
            if self.is_named(other) {
                sharing.named.push(Named {
                    cell: other,
                    writes,
                    words,
                    warns: self.warns(cell, other),
                });
            } else {
                self.add_quiet(&mut sharing.quiet, other, words);
            }
        }
        sharing
            .named
            .sort_by_key(|named| (!named.warns, named.cell));
        Ok(sharing)
    }

    fn add_quiet(&self, groups: &mut Vec<Quiet>, cell: u16, words: Range<usize>) {
        let whole = self.window(cell) == words;
        match groups.iter_mut().find(|quiet| quiet.words == words) {
            Some(quiet) => {
                quiet.cells.push(cell);
                quiet.together &= whole;
            }
            None => groups.push(Quiet {
                words,
                cells: vec![cell],
                together: whole,
            }),
        }
    }

    /// The runs of words that are shared, what an owner must know first. The
    /// cells of each are pairs of the label, and each pair is in one or more.
    pub fn of_area(&self, label: &AreaLabel) -> Vec<Region> {
        let mut cells: Vec<u16> = label.pairs.iter().flat_map(|&(a, b)| [a, b]).collect();
        cells.sort_unstable();
        cells.dedup();
        let windows = cells.into_iter().map(|cell| (cell, self.window(cell)));
        let shared = shared_runs(&windows.collect::<Vec<_>>());
        let regions = shared.into_iter();
        let mut regions: Vec<Region> = regions
            .map(|(words, cells)| self.region(words, cells))
            .collect();
        // Where the many lie together that were never set, nobody made a mistake.
        regions.sort_by_key(|it| (it.weight, it.quiet_cells(), it.words.start));
        regions
    }

    fn region(&self, words: Range<usize>, cells: Vec<u16>) -> Region {
        let weight = self.weight(&cells);
        let (named, others): (Vec<u16>, Vec<u16>) =
            cells.into_iter().partition(|&cell| self.is_named(cell));
        let mut quiet = Vec::new();
        for cell in others {
            self.add_quiet(&mut quiet, cell, words.clone());
        }
        Region {
            words,
            named,
            quiet: quiet.pop(),
            weight,
        }
    }

    fn weight(&self, cells: &[u16]) -> Weight {
        let named = cells.iter().filter(|&&cell| self.is_named(cell));
        let weight = |&cell: &u16| {
            let warning = cells.iter().filter(|&&other| self.warns(cell, other));
            let weights = warning.map(|&other| {
                let used = [cell, other].map(|it| usize::from(self.used.has(it)));
                let unused = 2 - used[0] - used[1];
                match self.same_owner(cell, other) {
                    false => Weight::Others(unused),
                    true => Weight::Own(unused),
                }
            });
            weights.min().unwrap_or(Weight::Harmless)
        };
        named.map(weight).min().unwrap_or(Weight::Nobody)
    }
}

/// The runs of words in which two windows or more lie, each as long as it can
/// be, with the cells whose windows they are.
fn shared_runs(windows: &[(u16, Range<usize>)]) -> Vec<(Range<usize>, Vec<u16>)> {
    let ends = windows
        .iter()
        .flat_map(|(_, window)| [window.start, window.end]);
    let mut cuts: Vec<usize> = ends.collect();
    cuts.sort_unstable();
    cuts.dedup();
    let mut runs: Vec<(Range<usize>, Vec<u16>)> = Vec::new();
    for cut in cuts.windows(2) {
        let inside = windows
            .iter()
            .filter(|(_, window)| window.contains(&cut[0]));
        let cells: Vec<u16> = inside.map(|(cell, _)| *cell).collect();
        if cells.len() >= 2 {
            // No window begins or ends at a cut unless the cells change there.
            runs.push((cut[0]..cut[1], cells));
        }
    }
    runs
}
