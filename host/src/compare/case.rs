//! One case of a comparison: all that a terminal is given, and all that comes
//! of it.

use std::fmt::Write;

use super::sides::Side;
use crate::terminal::boundary::{
    answer_of, answer_words, remembered_of, remembered_words, ANSWER_WORDS, REMEMBERED_WORDS,
    VALUE_WORDS,
};
use crate::terminal::cells::RAM_WORDS;
use crate::terminal::records::RECORD_BYTES;
use crate::terminal::{Answer, MessageRef, Record, Remembered, Settings};

/// Words behind those that are lent; no terminal may touch them.
pub const GUARD_WORDS: usize = 64;
pub const GUARD: u16 = 0xEEEE;
/// Words of room for the reply, lent or not.
pub const REPLY_ROOM: usize = 40;
/// What is handed back, and a word behind it that no terminal may touch.
pub type AnswerRoom = [u16; ANSWER_WORDS + 1];
type ValueRoom = [u16; VALUE_WORDS + 1];
type BytesRoom = [u8; RECORD_BYTES + 1];
const GUARD_BYTE: u8 = 0xEE;

/// What a terminal works on and what it remembers.
#[derive(Clone, Debug, PartialEq, Eq)]
pub struct State {
    pub ram: Vec<u16>,
    pub reply: Vec<u16>,
    pub remembered: Remembered,
}

impl Default for State {
    fn default() -> State {
        State::of_card(RAM_WORDS)
    }
}

impl State {
    /// A card with so many words of RAM.
    pub fn of_card(ram_words: usize) -> State {
        let mut ram = vec![0; ram_words + GUARD_WORDS];
        ram[ram_words..].fill(GUARD);
        State {
            ram,
            reply: vec![0; REPLY_ROOM],
            remembered: Remembered::default(),
        }
    }

    /// How many words of RAM its card has.
    pub fn card_words(&self) -> usize {
        self.ram.len() - GUARD_WORDS
    }

    /// The RAM of its card.
    pub fn card(&self) -> &[u16] {
        &self.ram[..self.card_words()]
    }

    /// Whether another state is the same, of RAM in its first words alone.
    pub fn begins_as(&self, other: &State, words: usize) -> bool {
        self.ram[..words] == other.ram[..words]
            && self.reply == other.reply
            && self.remembered == other.remembered
    }
}

/// A message, as bytes of any length or as a value.
#[derive(Clone, Debug, PartialEq, Eq)]
pub enum Message {
    Bytes(Vec<u8>),
    Value(Record),
}

/// What is asked of a terminal beside what it works on.
#[derive(Clone, Debug, PartialEq, Eq)]
pub struct Request {
    pub settings: Settings,
    /// How much of the RAM is lent.
    pub ram_words: usize,
    /// How much of the reply room is lent.
    pub reply_words: usize,
    pub message: Message,
    /// Whether the whole-area check is asked for too.
    pub checks_area: bool,
}

/// All that a terminal answers, in room that was filled with guards.
#[derive(Clone, Debug, PartialEq, Eq)]
pub struct Answers {
    pub area: Option<(u16, u16)>,
    /// What the reader makes of bytes.
    pub read: Option<(u16, ValueRoom)>,
    /// What the writer makes of a value.
    pub written: Option<(u16, BytesRoom)>,
    pub number: u16,
    pub words: AnswerRoom,
    /// What is behind the words that are remembered.
    pub behind_remembered: u16,
    /// What the words say.
    pub answer: Answer,
}

/// The words that say this, as they are handed back.
pub fn room_of(answer: &Answer) -> AnswerRoom {
    let mut room = [GUARD; ANSWER_WORDS + 1];
    room[..ANSWER_WORDS].copy_from_slice(&answer_words(answer));
    room
}

/// Asks one side; the state then holds what the message left.
pub fn ask(side: &impl Side, state: &mut State, request: &Request) -> Answers {
    let settings = &request.settings;
    let ram = &mut state.ram[..request.ram_words];
    let reply = &mut state.reply[..request.reply_words];
    let area = request.checks_area.then(|| side.check_area(ram, settings));
    let (read, written, message) = match &request.message {
        Message::Bytes(bytes) => {
            let mut value = [GUARD; VALUE_WORDS + 1];
            let read = (side.read_record(bytes, &mut value), value);
            (Some(read), None, MessageRef::Bytes(bytes))
        }
        Message::Value(record) => {
            let mut bytes = [GUARD_BYTE; RECORD_BYTES + 1];
            let written = (side.write_record(record, &mut bytes), bytes);
            (None, Some(written), MessageRef::Value(record))
        }
    };
    let mut words = [GUARD; ANSWER_WORDS + 1];
    let mut remembered = [GUARD; REMEMBERED_WORDS + 1];
    remembered[..REMEMBERED_WORDS].copy_from_slice(&remembered_words(state.remembered));
    let number = side.carry_out(ram, reply, settings, &mut remembered, message, &mut words);
    state.remembered = remembered_of(&remembered);
    Answers {
        area,
        read,
        written,
        number,
        words,
        behind_remembered: remembered[REMEMBERED_WORDS],
        answer: answer_of(&words),
    }
}

/// What a terminal starts from and what is asked of it.
#[derive(Clone, Debug, PartialEq, Eq)]
pub struct Case {
    pub state: State,
    pub request: Request,
}

impl Case {
    pub fn run(&self, side: &impl Side) -> (Answers, State) {
        let mut state = self.state.clone();
        let answers = ask(side, &mut state, &self.request);
        (answers, state)
    }

    /// Whether two terminals answer differently or leave something different.
    pub fn differs(&self, left: &impl Side, right: &impl Side) -> bool {
        self.run(left) != self.run(right)
    }

    /// A line for each difference: what it is, then the two sides' values.
    pub fn differences(&self, left: &impl Side, right: &impl Side) -> String {
        let (left_answers, left_state) = self.run(left);
        let (right_answers, right_state) = self.run(right);
        let mut lines = Lines(String::new());
        lines.debug("area", &left_answers.area, &right_answers.area);
        lines.debug("reader", &left_answers.read, &right_answers.read);
        lines.debug("writer", &left_answers.written, &right_answers.written);
        lines.answers(&left_answers, &right_answers);
        lines.state(&left_state, &right_state);
        lines.0
    }
}

impl State {
    /// A line for each word in which another state differs.
    pub fn differences(&self, other: &State) -> String {
        let mut lines = Lines(String::new());
        lines.state(self, other);
        lines.0
    }
}

impl Answers {
    /// What was answered, for a person to read.
    pub fn lines(&self) -> String {
        let mut lines = Lines(String::new());
        if let Some((number, cell)) = self.area {
            lines.push(format_args!("whole-area check: {number}, cell {cell}"));
        }
        if let Some((number, _)) = self.read {
            lines.push(format_args!("reader: {number}"));
        }
        if let Some((number, _)) = self.written {
            lines.push(format_args!("writer: {number}"));
        }
        let answer = &self.answer;
        lines.push(format_args!("number: {}", answer.number));
        if answer.number == 0 {
            let sent = if answer.answered { "sent" } else { "not sent" };
            lines.push(format_args!("block status: {:04X}", answer.block_status));
            lines.push(format_args!("cell: {}", answer.cell));
            lines.push(format_args!(
                "pointer: {:04X}, then {:04X}",
                answer.pointer_before, answer.pointer_after
            ));
            lines.push(format_args!("status: {:04X}, {sent}", answer.status));
            lines.push(format_args!("data words sent: {}", answer.sent));
            lines.push(format_args!("interrupt word: {:04X}", answer.interrupt));
        }
        lines.0
    }
}

/// Lines for a person to read, of two sides' values where they differ.
pub(crate) struct Lines(pub String);

impl Lines {
    pub fn push(&mut self, line: std::fmt::Arguments) {
        writeln!(self.0, "{line}").expect("writing to a string never fails");
    }

    pub fn debug<T: std::fmt::Debug + PartialEq>(&mut self, name: &str, left: &T, right: &T) {
        if left != right {
            self.push(format_args!("{name}: {left:?}, {right:?}"));
        }
    }

    fn word(&mut self, name: &str, left: u16, right: u16) {
        if left != right {
            self.push(format_args!("{name}: {left:04X}, {right:04X}"));
        }
    }

    pub fn words(&mut self, name: &str, left: &[u16], right: &[u16]) {
        for (place, (&left, &right)) in left.iter().zip(right).enumerate() {
            self.word(&format!("{name} {place:04X}"), left, right);
        }
    }

    fn state(&mut self, left: &State, right: &State) {
        let (left_memory, right_memory) = (left.remembered, right.remembered);
        self.word(
            "remembered command",
            left_memory.command,
            right_memory.command,
        );
        self.word("remembered status", left_memory.status, right_memory.status);
        self.words("ram", &left.ram, &right.ram);
        self.words("reply", &left.reply, &right.reply);
    }

    fn answers(&mut self, left: &Answers, right: &Answers) {
        self.debug("number returned", &left.number, &right.number);
        self.said(&left.answer, &left.words, &right.answer, &right.words);
        let behind = [left.behind_remembered, right.behind_remembered];
        self.word("behind what is remembered", behind[0], behind[1]);
    }

    /// Answers by their names, and word for word where they say the same.
    pub fn said(&mut self, left: &Answer, words: &[u16], right: &Answer, other_words: &[u16]) {
        self.answer(left, right);
        if left == right {
            self.words("answer", words, other_words);
        }
    }

    fn answer(&mut self, left: &Answer, right: &Answer) {
        self.debug("number", &left.number, &right.number);
        self.word("block status", left.block_status, right.block_status);
        self.debug("cell", &left.cell, &right.cell);
        self.word("pointer before", left.pointer_before, right.pointer_before);
        self.word("pointer after", left.pointer_after, right.pointer_after);
        self.word("status", left.status, right.status);
        self.debug("status sent", &left.answered, &right.answered);
        self.debug("data words sent", &left.sent, &right.sent);
        self.word("interrupt word", left.interrupt, right.interrupt);
    }
}
