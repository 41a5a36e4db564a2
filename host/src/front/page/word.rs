//! A word of a window: where it comes from, as a mark and in words.

use super::board::{Board, Newest};
use super::fate::stands;
use crate::front::names::cell_name;
use crate::terminal::who::Origin;
use crate::terminal::writes::Part;

/// Where a word comes from, seen from the cell in whose window it stands.
#[derive(Clone, Copy, Debug, PartialEq, Eq)]
pub enum Mark {
    /// The cell's newest good message.
    Newest,
    /// An older good message of the cell.
    Older,
    /// A message of the cell that was not good.
    Faulty,
    /// Another cell's message.
    Other(u16),
    /// As in the image.
    Image,
}

#[derive(Clone, Debug)]
pub struct Word {
    pub address: usize,
    pub word: u16,
    pub mark: Mark,
    pub origin: Option<Origin>,
    /// The cell's pointer stands here.
    pub is_next: bool,
    /// The newest good message of a cell that only sends, where it sent this
    /// very word: nobody has written there since.
    pub sent_by: Option<u64>,
}

/// The words of a sound cell's window.
pub fn window_words(board: &Board, cell: u16) -> Vec<Word> {
    let view = board.history.replay.cell(cell);
    let newest = board.newest(cell);
    let word = |address: usize| {
        let origin = board.history.replay.origin(address);
        Word {
            address,
            word: board.ram()[address],
            mark: mark(board, newest, cell, address, &origin),
            origin,
            is_next: address == usize::from(view.pointer),
            sent_by: sent_by(board, newest, cell, address),
        }
    };
    view.window.clone().map(word).collect()
}

fn sent_by(board: &Board, newest: &Newest, cell: u16, address: usize) -> Option<u64> {
    let message = newest.good.as_ref().filter(|_| !board.stores(cell))?;
    let sent = message.words.iter().find(|word| word.address == address)?;
    stands(board, sent).then_some(message.record)
}

fn mark(
    board: &Board,
    newest: &Newest,
    cell: u16,
    address: usize,
    origin: &Option<Origin>,
) -> Mark {
    let origin = match origin {
        None => return Mark::Image,
        Some(origin) => origin,
    };
    let good = board.history.facts(address).outcome.is_good();
    let newest = newest.good.as_ref().map(|message| message.record);
    match (origin.cell == cell, good) {
        (false, _) => Mark::Other(origin.cell),
        (true, false) => Mark::Faulty,
        (true, true) if newest == Some(origin.record) => Mark::Newest,
        (true, true) => Mark::Older,
    }
}

/// Record, tag and place, and whose: `record 4, tag 0004, word 1: for receive
/// 19 (Anna)`. Of a run of words, the first and the last.
pub fn tell(board: &Board, first: &Word, last: &Word) -> String {
    let origin = match &first.origin {
        None => return "as in the image".to_string(),
        Some(origin) => origin,
    };
    let facts = board.history.facts(first.address);
    let words = match (origin.part, last.origin.map(|origin| origin.part)) {
        (Part::Data(first), Some(Part::Data(last))) if first < last => {
            format!("words {first} to {last}")
        }
        (Part::Data(place), _) => format!("word {place}"),
        _ => "no data word".to_string(),
    };
    let whose = match first.mark {
        Mark::Newest => "the newest good message".to_string(),
        Mark::Older => "an older good message".to_string(),
        Mark::Faulty | Mark::Image => format!("{} message", facts.outcome.verdict()),
        Mark::Other(cell) => {
            let verdict = match facts.outcome.is_good() {
                true => String::new(),
                false => format!("{}, ", facts.outcome.verdict()),
            };
            format!("{verdict}for {}", cell_name(&board.owners, cell))
        }
    };
    format!(
        "record {}, tag {:04X}, {words}: {whose}",
        origin.record, facts.tag
    )
}
