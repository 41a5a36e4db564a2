//! Both orders of a list, and whether they are as demand 3 says.

use std::fmt::{self, Write};

use super::list::List;
use super::play::{play, Played, Shown};
use crate::compare::case::{room_of, Answers, Lines, Request};
use crate::compare::coverage::Before;
use crate::compare::Side;
use crate::terminal::cells::Stack;
use crate::terminal::Remembered;

pub struct Both {
    pub old: Played,
    pub new: Played,
}

impl Both {
    /// The watcher sees each message of the new order.
    pub fn play(
        side: &impl Side,
        list: &List,
        watch: impl FnMut(&Before, &Request, &Answers),
    ) -> Both {
        Both {
            old: play(side, list, list.old_order(), |_, _, _| ()),
            new: play(side, list, list.new_order(), watch),
        }
    }

    /// Whether the new order is as said; and the old one, as the new one of no
    /// exchange at all.
    pub fn is_as_said(&self, list: &List) -> bool {
        let orders = self.orders();
        orders.into_iter().all(|(_, played)| {
            played.clone().without_rollover() == said(list, &self.old, &played.order)
        })
    }

    /// A line for each message of both orders: what it shows.
    pub fn lines(&self) -> String {
        let mut text = String::new();
        let written = self.write_lines(&mut text);
        written.expect("writing to a string never fails");
        text
    }

    fn write_lines(&self, text: &mut String) -> fmt::Result {
        for (name, played) in self.orders() {
            writeln!(text, "{name} order:")?;
            for &number in &played.order {
                write!(text, "message {}: ", number + 1)?;
                played.shown[number].write(text)?;
                writeln!(text)?;
            }
        }
        Ok(())
    }

    /// A line for each difference: what is said, then what is so.
    pub fn differences(&self, list: &List) -> String {
        let mut text = String::new();
        for (name, played) in self.orders() {
            let said = said(list, &self.old, &played.order);
            let found = played.clone().without_rollover();
            for &number in &played.order {
                let lines = shown_differences(&said.shown[number], &found.shown[number]);
                let message = format!("{name} order, message {}", number + 1);
                push_part(&mut text, message, lines);
            }
            let lines = said.end.differences(&found.end);
            push_part(&mut text, format!("{name} order, at the end"), lines);
        }
        text
    }

    fn orders(&self) -> [(&'static str, &Played); 2] {
        [("old", &self.old), ("new", &self.new)]
    }
}

fn shown_differences(said: &Shown, found: &Shown) -> String {
    let mut lines = Lines(String::new());
    lines.said(&said.answer, &said.words, &found.answer, &found.words);
    lines.debug(
        "the words that it tells of are there",
        &said.is_whole,
        &found.is_whole,
    );
    lines.words("descriptor", &said.descriptor, &found.descriptor);
    lines.words("sent", &said.reply, &found.reply);
    lines.0
}

fn push_part(text: &mut String, name: String, lines: String) {
    if !lines.is_empty() {
        *text += &format!("{name}:\n{lines}");
    }
}

/// All that is said of an order of the messages' numbers, from what they show
/// in the old order.
fn said(list: &List, old: &Played, order: &[usize]) -> Played {
    // "Each message keeps its reply, descriptor and interrupt word, except the
    // stack-rollover bit." "All RAM outside the stack ends equal, and so does
    // the stack pointer."
    let mut said = old.clone().without_rollover();
    said.order = order.to_vec();
    let mut stack = Stack::read(&list.start.ram, &list.settings);
    said.end.ram[stack.block.clone()].copy_from_slice(&list.start.ram[stack.block.clone()]);
    said.end.reply.copy_from_slice(&list.start.reply);
    // Nothing behind RAM is anybody's.
    let card = list.start.card_words();
    said.end.ram[card..].copy_from_slice(&list.start.ram[card..]);
    for &number in order {
        let shown = &mut said.shown[number];
        // None is refused, and no word is other than its answer says.
        shown.answer.number = 0;
        shown.words = room_of(&shown.answer);
        shown.is_whole = true;
        // "The stack holds the last descriptors that fit, in the new order;"
        said.end.ram[stack.descriptor()].copy_from_slice(&shown.descriptor);
        stack.pointer = stack.next().0;
        // The reply buffer: what each sends goes over its front.
        said.end.reply[..shown.reply.len()].copy_from_slice(&shown.reply);
        // "the remembered command and status are the new last message's."
        said.end.remembered = Remembered {
            command: list.messages[number].command,
            status: shown.answer.status,
        };
    }
    said
}
