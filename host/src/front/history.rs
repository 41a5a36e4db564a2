//! What is known of the messages that stored the words of RAM.

use std::ops::Range;

use super::heard::{self, Tag};
use super::names::kind_of;
use super::outcome::Outcome;
use super::replay::{Moved, Replay};
use super::say;
use super::used::CELLS;
use crate::terminal::cells::{Kind, Scheme, DESCRIPTOR_WORDS};
use crate::terminal::Answer;

/// What is kept of a message beside its number.
#[derive(Clone, Copy, Debug, Default, PartialEq, Eq)]
pub struct Facts {
    pub tag: Tag,
    /// The member number of a long record.
    pub member: Option<u16>,
    pub outcome: Outcome,
    /// The other terminal's command, where the message was a transfer.
    pub transmit_command: Option<u16>,
    /// How often the cell's pointer had gone elsewhere before the message, and
    /// after it.
    turns: (u64, u64),
}

/// What is known of a message that was just accepted.
pub struct Accepted {
    pub facts: Facts,
    /// The words that it stored or sent, in their order.
    pub words: Vec<Moved>,
}

/// Whether a cell's pointer has passed words in its window since they were
/// written there.
#[derive(Clone, Copy, Debug, PartialEq, Eq)]
pub enum Passed {
    No,
    Yes,
    /// Of two blocks: it has, and stands at their block again.
    AndBack,
}

/// A replay that keeps the facts of every message whose words are still there.
pub struct History {
    pub replay: Replay,
    /// For each address, of the message that stored its word last; for the
    /// first word of a stack entry, of the entry's message.
    facts: Vec<Facts>,
    /// For each cell, how often its pointer has gone elsewhere.
    turns: [u64; CELLS],
}

impl History {
    pub fn new(replay: Replay) -> History {
        History {
            facts: vec![Facts::default(); replay.ram.len()],
            replay,
            turns: [0; CELLS],
        }
    }

    /// The next record: its answer, and of an accepted one what is known.
    pub fn message(&mut self, bytes: &[u8]) -> (Answer, Option<Accepted>) {
        let answer = self.replay.message(bytes);
        if answer.number != 0 {
            return (answer, None);
        }
        let mut words = self.replay.moved(&answer);
        let facts = self.facts_of(bytes, &answer, words.len());
        if kind_of(answer.cell) != Kind::Transmit {
            for word in &words {
                self.facts[word.address] = facts;
            }
        }
        for word in &mut words {
            let came = self.facts[word.address].outcome;
            word.came = word.origin.map(|_| came);
        }
        let stack = self.replay.stack();
        self.facts[entry_before(&stack.block, stack.pointer.into())] = facts;
        (answer, Some(Accepted { facts, words }))
    }

    /// The facts of the message that was just accepted.
    fn facts_of(&mut self, bytes: &[u8], answer: &Answer, words: usize) -> Facts {
        let heard = heard::read(bytes).1;
        let turns = &mut self.turns[usize::from(answer.cell)];
        let before = *turns;
        if answer.pointer_before != answer.pointer_after {
            *turns += 1;
        }
        Facts {
            tag: heard.tag,
            member: heard.member,
            outcome: Outcome::new(answer, &heard.record, &self.replay.settings, words),
            transmit_command: say::transmit_command(&heard.record),
            turns: (before, *turns),
        }
    }

    /// Whether the pointer of a cell has passed the word that a message for it
    /// left at an address. In a circle the message's own move passes it, and no
    /// later one without writing there.
    pub fn passed(&self, cell: u16, address: usize) -> Passed {
        let (before, after) = self.facts[address].turns;
        let since = self.turns[usize::from(cell)] - before;
        match self.replay.cell(cell).scheme {
            Scheme::Double if since % 2 == 1 => Passed::Yes,
            Scheme::Double if since > 0 => Passed::AndBack,
            Scheme::Circular(_) if after > before => Passed::Yes,
            _ => Passed::No,
        }
    }

    /// The facts of the message whose data word stands at an address, or
    /// whose stack entry begins there.
    pub fn facts(&self, address: usize) -> Facts {
        self.facts[address]
    }
}

/// Where the stack entry before this one begins.
pub fn entry_before(block: &Range<usize>, place: usize) -> usize {
    let end = if place == block.start {
        block.end
    } else {
        place
    };
    end - DESCRIPTOR_WORDS
}
