//! What stands in a cell's window and is not to be taken for its good words:
//! words of its messages that were not good, and words of others.

use super::board::Board;
use super::html::{self, places};
use super::word::{window_words, Mark};
use crate::front::history::Passed;

/// Words that messages left which were not good.
pub struct Left {
    /// What kept these messages from being good.
    pub verdict: String,
    /// Whether the pointer has passed the words.
    pub passed: Passed,
    pub places: Vec<usize>,
}

pub fn left_behind(board: &Board, cell: u16) -> Vec<Left> {
    let mut all: Vec<Left> = Vec::new();
    let words = window_words(board, cell).into_iter();
    for word in words.filter(|word| word.mark == Mark::Faulty) {
        let verdict = board.history.facts(word.address).outcome.verdict();
        let passed = board.history.passed(cell, word.address);
        let known = all
            .iter_mut()
            .find(|left| left.verdict == verdict && left.passed == passed);
        match known {
            Some(left) => left.places.push(word.address),
            None => all.push(Left {
                verdict,
                passed,
                places: vec![word.address],
            }),
        }
    }
    all
}

/// `faulty words left behind at 0415-0416: the pointer has not passed them`, of
/// so many runs at most.
pub fn tell_left(left: &Left, most: usize) -> String {
    let passed = match left.passed {
        Passed::No => "has not passed them",
        Passed::Yes => "has passed them",
        Passed::AndBack => "has passed them, and is back at their block",
    };
    let places = places(&left.places, most);
    format!(
        "<b class=\"lost\">{} words left behind</b> at {places}: the pointer {passed}",
        left.verdict
    )
}

/// `words for receive 19 (Anna) at 0480-0483`, for each cell of others that has
/// written into the window.
pub fn tell_others(board: &Board, cell: u16, most: usize) -> Vec<String> {
    let mut others: Vec<(u16, Vec<usize>)> = Vec::new();
    for word in window_words(board, cell) {
        match word.mark {
            Mark::Other(other) if !board.same_owner(cell, other) => {
                match others.iter_mut().find(|(known, _)| *known == other) {
                    Some((_, places)) => places.push(word.address),
                    None => others.push((other, vec![word.address])),
                }
            }
            _ => {}
        }
    }
    let tell = |(other, at): &(u16, Vec<usize>)| {
        let name = html::cell(&board.owners, *other);
        format!(
            "<b class=\"lost\">words for {name}</b> at {}",
            places(at, most)
        )
    };
    others.iter().map(tell).collect()
}
