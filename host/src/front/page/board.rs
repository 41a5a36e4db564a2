//! All that the page tells, after a whole trace.

use std::collections::VecDeque;

use crate::engine;
use crate::front::explain::{asked_cell, why_refused};
use crate::front::heard;
use crate::front::history::{Accepted, Facts, History};
use crate::front::names::{cell_number, kind_of, KINDS};
use crate::front::problem::Problem;
use crate::front::replay::{Moved, Replay};
use crate::front::sharing::{CellSharing, Region, Sharing};
use crate::front::source::Source;
use crate::front::used::CELLS;
use crate::terminal::cells::Kind;
use crate::terminal::label::AreaLabel;
use crate::terminal::{refusal, Answer, Record, Settings};
use crate::text::Owners;

/// How many refused messages are told one by one.
pub const REFUSED_SHOWN: usize = 16;

/// A message as a cell's section tells it.
#[derive(Clone, Debug)]
pub struct Message {
    pub record: u64,
    pub facts: Facts,
    /// The words that it stored or sent, in their order.
    pub words: Vec<Moved>,
}

/// The newest messages of a cell.
#[derive(Clone, Debug, Default)]
pub struct Newest {
    pub any: Option<Message>,
    /// The newest whose words arrived as they were meant to.
    pub good: Option<Message>,
}

/// A refused record.
pub struct Refused {
    pub record: u64,
    pub number: u16,
    bytes: Vec<u8>,
}

pub struct Board {
    pub file: String,
    pub owners: Owners,
    pub history: History,
    newest: Vec<Newest>,
    /// The last refused records, oldest first.
    pub refused: VecDeque<Refused>,
    pub refused_in_all: u64,
    /// For each unsound cell, how many of its messages were refused for that.
    refused_of: [u64; CELLS],
    /// The short tail behind the last record.
    pub tail: usize,
    /// The whole-area check: number and lowest unsound cell.
    pub check: (u16, u16),
    label: Result<AreaLabel, u16>,
}

impl Board {
    /// Plays a whole trace.
    pub fn read(source: &mut Source) -> Result<Board, Problem> {
        let image = source.whole_image()?;
        let settings = source.settings;
        let mut board = Board {
            file: source.name.clone(),
            owners: source.owners.clone(),
            check: engine::check_area(&image, &settings),
            label: engine::label_area(&image, &settings),
            history: History::new(Replay::with_walk(image, settings)),
            newest: vec![Newest::default(); CELLS],
            refused: VecDeque::new(),
            refused_in_all: 0,
            refused_of: [0; CELLS],
            tail: 0,
        };
        while let Some(bytes) = source.next_record()? {
            board.record(bytes);
        }
        board.tail = source.tail();
        Ok(board)
    }

    fn record(&mut self, bytes: &[u8]) {
        match self.history.message(bytes) {
            (answer, Some(message)) => self.accepted(&answer, message),
            (answer, None) => self.refused(bytes, answer.number),
        }
    }

    fn accepted(&mut self, answer: &Answer, message: Accepted) {
        let Accepted { facts, words } = message;
        let message = Message {
            record: self.history.replay.records,
            facts,
            words,
        };
        let newest = &mut self.newest[usize::from(answer.cell)];
        if facts.outcome.is_good() {
            newest.good = Some(message.clone());
        }
        newest.any = Some(message);
    }

    fn refused(&mut self, bytes: &[u8], number: u16) {
        self.refused_in_all += 1;
        if number == refusal::CELL {
            let cell = asked_cell(bytes, self.settings());
            self.refused_of[usize::from(cell)] += 1;
        }
        if self.refused.len() == REFUSED_SHOWN {
            self.refused.pop_front();
        }
        self.refused.push_back(Refused {
            record: self.history.replay.records,
            number,
            bytes: bytes.to_vec(),
        });
    }

    /// The value of a refused record; none where its layout is broken.
    pub fn record_of(&self, refused: &Refused) -> Option<Record> {
        let (number, heard) = heard::read(&refused.bytes);
        (number == 0).then_some(heard.record)
    }

    /// Why a record was refused. No message makes anything sound or unsound,
    /// so the RAM of the end says it too.
    pub fn why(&self, refused: &Refused) -> String {
        let Refused { number, bytes, .. } = refused;
        why_refused(self.ram(), self.settings(), &self.owners, bytes, *number)
    }

    pub fn settings(&self) -> &Settings {
        &self.history.replay.settings
    }

    pub fn ram(&self) -> &[u16] {
        &self.history.replay.ram
    }

    pub fn records(&self) -> u64 {
        self.history.replay.records
    }

    pub fn newest(&self, cell: u16) -> &Newest {
        &self.newest[usize::from(cell)]
    }

    /// The number that keeps every message out, if one does.
    pub fn refused_area(&self) -> Option<u16> {
        self.label.as_ref().err().copied()
    }

    /// Unsound cells, in rising number.
    pub fn unsound(&self) -> &[u16] {
        self.label.as_ref().map_or(&[], |label| &label.unsound)
    }

    /// How many messages were refused since their cell, this one, is unsound.
    pub fn refused_of(&self, cell: u16) -> u64 {
        self.refused_of[usize::from(cell)]
    }

    /// How many pairs of cells share words.
    pub fn pairs(&self) -> usize {
        self.label.as_ref().map_or(0, |label| label.pairs.len())
    }

    fn sharing(&self) -> Sharing<'_> {
        Sharing {
            ram: self.ram(),
            settings: self.settings(),
            owners: &self.owners,
            used: &self.history.replay.used,
        }
    }

    /// Who shares a sound cell's window.
    pub fn sharers(&self, cell: u16) -> CellSharing {
        self.sharing().of_cell(cell).unwrap_or_default()
    }

    /// The runs of words that are shared.
    pub fn shared(&self) -> Vec<Region> {
        let label = self.label.as_ref();
        label.map_or_else(|_| Vec::new(), |label| self.sharing().of_area(label))
    }

    /// The cells of a subaddress.
    pub fn cells_of(&self, subaddress: u16) -> Vec<u16> {
        let separate = self.settings().has_broadcast_cells();
        let kinds = KINDS.into_iter();
        kinds
            .filter(|&kind| kind != Kind::Broadcast || separate)
            .map(|kind| cell_number(kind, subaddress))
            .collect()
    }

    /// The owners in the order of their lowest subaddress, each with all of
    /// his. Without owners, the subaddresses that had a message.
    pub fn by_owner(&self) -> Vec<(Option<&str>, Vec<u16>)> {
        if self.owners.is_empty() {
            let had = |subaddress: &u16| {
                let cells = self.cells_of(*subaddress);
                cells.iter().any(|&cell| self.newest(cell).any.is_some())
            };
            return vec![(None, (1..=30).filter(had).collect())];
        }
        let mut owners: Vec<(Option<&str>, Vec<u16>)> = Vec::new();
        for (subaddress, name) in self.owners.iter() {
            match owners.iter_mut().find(|(owner, _)| *owner == Some(name)) {
                Some((_, subaddresses)) => subaddresses.push(subaddress),
                None => owners.push((Some(name), vec![subaddress])),
            }
        }
        owners
    }

    /// Whether two cells have the same owner.
    pub fn same_owner(&self, a: u16, b: u16) -> bool {
        self.sharing().same_owner(a, b)
    }

    /// Whether a cell stores words.
    pub fn stores(&self, cell: u16) -> bool {
        kind_of(cell) != Kind::Transmit
    }
}
