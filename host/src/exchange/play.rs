//! A list played in an order, and what each of its messages shows.

use std::fmt::{self, Write};

use super::list::List;
use crate::compare::case::{ask, AnswerRoom, Answers, Message, Request, State};
use crate::compare::coverage::Before;
use crate::compare::Side;
use crate::terminal::boundary::ANSWER_WORDS;
use crate::terminal::cells::{Stack, DESCRIPTOR_WORDS};
use crate::terminal::{write_record, Answer};
use crate::text::write_words;

/// Interrupt bit 6: the stack wrapped.
const STACK_ROLLOVER: u16 = 0x0040;
/// The place of the interrupt word in an answer.
const INTERRUPT: usize = ANSWER_WORDS - 1;

/// What a message shows to whoever looks after it.
#[derive(Clone, Debug, Default, PartialEq, Eq)]
pub struct Shown {
    pub answer: Answer,
    /// The words that say it, and the one behind them.
    pub words: AnswerRoom,
    /// The four stack words that it wrote.
    pub descriptor: [u16; DESCRIPTOR_WORDS],
    /// The words that it sent.
    pub reply: Vec<u16>,
    /// Whether the words that it tells of are there: no descriptor is outside
    /// RAM, and no reply is longer than its room.
    pub is_whole: bool,
}

impl Shown {
    pub fn wraps_stack(&self) -> bool {
        self.answer.interrupt & STACK_ROLLOVER != 0
    }

    /// What is shown, for a person to read.
    pub fn write(&self, text: &mut String) -> fmt::Result {
        let Answer {
            number, interrupt, ..
        } = self.answer;
        if number != 0 {
            return write!(text, "refused with {number}");
        }
        text.push_str("descriptor");
        write_words(text, &self.descriptor)?;
        write!(text, ", interrupt word {interrupt:04X}, sends")?;
        write_words(text, &self.reply)
    }
}

/// An order of the messages' numbers, what each message shows, by its number,
/// and what they leave.
#[derive(Clone, Debug, PartialEq, Eq)]
pub struct Played {
    pub order: Vec<usize>,
    pub shown: Vec<Shown>,
    pub end: State,
}

impl Played {
    /// All but the bit that a message need not keep.
    pub fn without_rollover(mut self) -> Played {
        for shown in &mut self.shown {
            shown.answer.interrupt &= !STACK_ROLLOVER;
            shown.words[INTERRUPT] &= !STACK_ROLLOVER;
        }
        self
    }
}

/// Plays the list from its start in an order. The watcher sees each message.
pub fn play(
    side: &impl Side,
    list: &List,
    order: Vec<usize>,
    mut watch: impl FnMut(&Before, &Request, &Answers),
) -> Played {
    let mut end = list.start.clone();
    let mut shown = vec![Shown::default(); list.messages.len()];
    for &number in &order {
        let request = request(list, message(list, number));
        let before = Before::read(&end, &request);
        let stack = Stack::read(&end.ram, &list.settings);
        let answers = ask(side, &mut end, &request);
        watch(&before, &request, &answers);
        shown[number] = show(&stack, &end, &answers);
    }
    Played { order, shown, end }
}

/// One message as its bytes, the next as its value.
fn message(list: &List, number: usize) -> Message {
    let record = list.messages[number];
    match write_record(&record) {
        Ok(bytes) if number % 2 == 0 => Message::Bytes(bytes.to_vec()),
        _ => Message::Value(record),
    }
}

/// What is asked of a terminal with a message of the list.
pub fn request(list: &List, message: Message) -> Request {
    Request {
        settings: list.settings,
        ram_words: list.start.card_words(),
        reply_words: list.reply_words,
        message,
        checks_area: false,
    }
}

/// What shows after a message, from the stack before it. A terminal that has
/// gone wrong may have no such words.
fn show(stack: &Stack, state: &State, answers: &Answers) -> Shown {
    let answer = answers.answer;
    let entry = state.card().get(stack.descriptor());
    let mut descriptor = [0; DESCRIPTOR_WORDS];
    if let Some(words) = entry {
        descriptor.copy_from_slice(words);
    }
    let words_sent = usize::from(answer.answered) + usize::from(answer.sent);
    let reply = state.reply.get(..words_sent);
    Shown {
        answer,
        words: answers.words,
        descriptor,
        reply: reply.unwrap_or_default().to_vec(),
        is_whole: entry.is_some() && reply.is_some(),
    }
}
