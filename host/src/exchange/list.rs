//! A list of messages, what it starts from, and its exchanges.

use super::condition::{is_well_formed, may_exchange, Forgotten, Use};
use crate::compare::case::State;
use crate::compare::Side;
use crate::terminal::message::REPLY_WORDS;
use crate::terminal::{Record, Settings};

#[derive(Clone, Debug, PartialEq, Eq)]
pub struct List {
    pub settings: Settings,
    /// What both orders start from.
    pub start: State,
    /// How much of the reply room is lent.
    pub reply_words: usize,
    /// The messages in the old order; a message's number is its place here.
    pub messages: Vec<Record>,
    /// Places: what stands at each and what stands behind it change places, in
    /// the order as it is by then.
    pub exchanges: Vec<usize>,
}

impl List {
    /// The numbers of the messages, as they were heard.
    pub fn old_order(&self) -> Vec<usize> {
        (0..self.messages.len()).collect()
    }

    /// The numbers of the messages, exchanged.
    pub fn new_order(&self) -> Vec<usize> {
        self.order_after(self.exchanges.len())
    }

    /// The numbers of the messages after the first so many exchanges.
    pub fn order_after(&self, exchanges: usize) -> Vec<usize> {
        let mut order = self.old_order();
        for &place in &self.exchanges[..exchanges] {
            order.swap(place, place + 1);
        }
        order
    }

    /// What each message uses, by its number.
    pub fn uses(&self) -> Vec<Use> {
        let used = |record| Use::read(&self.start.ram, &self.settings, record);
        self.messages.iter().map(used).collect()
    }

    /// The number that the whole-area check answers at the start.
    pub fn area(&self, side: &impl Side) -> u16 {
        side.check_area(self.start.card(), &self.settings).0
    }

    /// Why demand 3 does not speak of this list, but for a condition that is
    /// forgotten; none if it does.
    pub fn objection(&self, side: &impl Side, forgotten: Forgotten) -> Option<String> {
        let area = self.area(side);
        if area != 0 {
            return Some(format!("the whole-area check answers {area}"));
        }
        if self.reply_words < REPLY_WORDS {
            return Some(format!("{} reply words are too few", self.reply_words));
        }
        let ill_formed = |record| !is_well_formed(&self.settings, record);
        if let Some(number) = self.messages.iter().position(ill_formed) {
            let message = number + 1;
            return Some(format!("message {message} is no well-formed data message"));
        }
        if self.messages.is_empty() {
            return Some("there is no message".into());
        }
        self.forbidden_exchange(forgotten)
    }

    fn forbidden_exchange(&self, forgotten: Forgotten) -> Option<String> {
        let uses = self.uses();
        let mut order = self.old_order();
        for &place in &self.exchanges {
            let (a, b) = (order[place], order[place + 1]);
            if !may_exchange(&uses[a], &uses[b], forgotten) {
                let (a, b) = (a + 1, b + 1);
                return Some(format!("messages {a} and {b} may not change places"));
            }
            order.swap(place, place + 1);
        }
        None
    }
}
