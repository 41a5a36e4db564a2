//! Makes a case on which two terminals differ small enough to be read.

use super::case::{Case, Message, State};
use crate::terminal::cells::RAM_WORDS;
use crate::terminal::records::{Record, RECORD_WORDS};
use crate::terminal::{Remembered, Settings};

/// The smallest case found that still differs.
pub fn shrink(case: &Case, differs: impl Fn(&Case) -> bool) -> Case {
    let mut shrinking = Shrinking::new(case, differs);
    while shrinking.round() {}
    shrinking.smallest
}

/// Something that shows a difference, on its way to become smaller.
///
/// Every step takes something away, and a step that loses the difference is
/// taken back; there are rounds of steps until none is left that keeps it.
pub(crate) struct Shrinking<T, F> {
    pub smallest: T,
    differs: F,
}

impl<T: Clone + PartialEq, F: Fn(&T) -> bool> Shrinking<T, F> {
    pub fn new(large: &T, differs: F) -> Shrinking<T, F> {
        Shrinking {
            smallest: large.clone(),
            differs,
        }
    }

    /// Keeps a change if it changes something and the difference stays.
    pub fn take(&mut self, change: impl FnOnce(&mut T)) -> bool {
        let changed = self.changed(change);
        let keep = changed != self.smallest && (self.differs)(&changed);
        if keep {
            self.smallest = changed;
        }
        keep
    }

    /// Whether the difference stays with a change, which is not kept.
    pub fn shows(&self, change: impl FnOnce(&mut T)) -> bool {
        (self.differs)(&self.changed(change))
    }

    fn changed(&self, change: impl FnOnce(&mut T)) -> T {
        let mut changed = self.smallest.clone();
        change(&mut changed);
        changed
    }

    /// Zeroes what a terminal starts from, RAM in blocks that become smaller.
    pub fn zero_state(&mut self, state: impl Fn(&mut T) -> &mut State) -> bool {
        let mut smaller = self.take(|t| state(t).reply.fill(0));
        smaller |= self.take(|t| state(t).remembered = Remembered::default());
        let length = state(&mut self.smallest).ram.len();
        let mut size = length.next_power_of_two();
        while size > 0 {
            for start in (0..length).step_by(size) {
                let block = start..length.min(start + size);
                let words = &state(&mut self.smallest).ram[block.clone()];
                if words.iter().any(|&word| word != 0) {
                    smaller |= self.take(|t| state(t).ram[block].fill(0));
                }
            }
            size /= 2;
        }
        smaller
    }

    /// Turns settings off.
    pub fn simplify_settings(&mut self, settings: impl Fn(&mut T) -> &mut Settings) -> bool {
        let mut smaller = false;
        for (_, switch) in Settings::SWITCHES {
            smaller |= self.take(|t| *switch(settings(t)) = false);
        }
        smaller |= self.take(|t| settings(t).broadcast = true);
        smaller
    }

    /// Takes words and faults out of a record.
    pub fn simplify_record(&mut self, record: impl Fn(&mut T) -> &mut Record) -> bool {
        let mut smaller = false;
        let mut attempt = |change: &dyn Fn(&mut Record)| {
            smaller |= self.take(|t| change(record(t)));
        };
        attempt(&|record| record.tag = 0);
        attempt(&|record| record.transmit_command = 0);
        attempt(&|record| record.flags = 0);
        attempt(&|record| record.flags /= 2);
        for flag in 0..16 {
            attempt(&|record| record.flags &= !(1 << flag));
        }
        for place in 0..RECORD_WORDS {
            attempt(&|record| record.words[place] = 0);
        }
        attempt(&|record| record.count = 0);
        attempt(&|record| record.count /= 2);
        attempt(&|record| record.count = record.count.saturating_sub(1));
        smaller
    }
}

/// The same on the card of 4,096 words, with as much of it lent.
fn on_small_card(case: &mut Case) {
    let Case { state, request } = case;
    let card = state.card_words();
    if card > RAM_WORDS {
        state.ram.drain(RAM_WORDS..card);
        request.ram_words = match request.ram_words {
            words if words >= card - 1 => words - (card - RAM_WORDS),
            words => words.min(state.ram.len()),
        };
    }
}

impl<F: Fn(&Case) -> bool> Shrinking<Case, F> {
    /// One round of every step; whether anything became smaller.
    fn round(&mut self) -> bool {
        let mut smaller = self.take(on_small_card);
        smaller |= self.zero_state(|case| &mut case.state);
        smaller |= self.simplify_settings(|case| &mut case.request.settings);
        match self.smallest.request.message.clone() {
            Message::Bytes(bytes) => smaller |= self.shrink_bytes(bytes),
            Message::Value(_) => {
                smaller |= self.simplify_record(|case| match &mut case.request.message {
                    Message::Value(record) => record,
                    Message::Bytes(_) => unreachable!("no step makes bytes of a value"),
                })
            }
        }
        smaller
    }

    fn shrink_bytes(&mut self, mut bytes: Vec<u8>) -> bool {
        let mut smaller = false;
        for place in 0..bytes.len() {
            for less in [0, bytes[place] / 2, bytes[place].saturating_sub(1)] {
                let before = bytes[place];
                // Most are 0 after a round, and a large RAM is slow to copy.
                if less == before {
                    continue;
                }
                bytes[place] = less;
                if self.take(|case| case.request.message = Message::Bytes(bytes.clone())) {
                    smaller = true;
                } else {
                    bytes[place] = before;
                }
            }
        }
        smaller
    }
}
