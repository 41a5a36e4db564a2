//! A case as text that a person can read, change and run again.
//!
//! The lines of [`crate::text`] stand for RAM and for a message that keeps its
//! layout; `owner` lines say nothing here. These come beside them, each once:
//!
//! - `settings address N area A|B stack N` and then the names of the yes/no
//!   settings that are on;
//! - `lent ram N reply N`: how many words are lent of each;
//! - `remembered COMMAND STATUS`;
//! - `reply WORD...`: what stands in the reply room, from its front on;
//! - `bytes BYTE...`: a message as bytes, in any number;
//! - `value COMMAND from WORD tag WORD flags WORD count N words WORD...`: a
//!   message as a value that keeps the layout or breaks it; words left out are
//!   0000.
//!
//! Left out, the settings are those of the trace program, and all RAM of the card
//! and 33 words of reply are lent. There is one message in all.

use std::fmt::{self, Write};

use super::case::{Case, Message, Request, State, GUARD_WORDS, REPLY_ROOM};
use crate::terminal::cells::LARGE_RAM_WORDS;
use crate::terminal::message::REPLY_WORDS;
use crate::terminal::records::{Record, RECORD_BYTES};
use crate::terminal::trace::image_words;
use crate::terminal::Settings;
use crate::text::{
    mismatch, read_settings, shown, unpack_ram, write_record, write_settings, write_words,
    Mismatch, Packer, TextError, Tokens,
};

/// The text of a case.
pub fn write_case(case: &Case) -> String {
    let mut text = String::new();
    write_lines(&mut text, case).expect("writing to a string never fails");
    text
}

fn write_lines(text: &mut String, case: &Case) -> fmt::Result {
    let Case { state, request } = case;
    write_settings(text, request.settings)?;
    let (ram, reply) = (request.ram_words, request.reply_words);
    writeln!(text, "lent ram {ram} reply {reply}")?;
    text.push_str("remembered");
    write_words(text, &[state.remembered.command, state.remembered.status])?;
    writeln!(text)?;
    if state.reply.iter().any(|&word| word != 0) {
        text.push_str("reply");
        write_words(text, &state.reply)?;
        writeln!(text)?;
    }
    text.push_str(&unpack_ram(state.card()));
    match &request.message {
        Message::Bytes(bytes) if bytes.len() == RECORD_BYTES => write_record(text, bytes),
        Message::Bytes(bytes) => write_bytes(text, bytes),
        Message::Value(record) => write_value(text, record),
    }
}

fn write_bytes(text: &mut String, bytes: &[u8]) -> fmt::Result {
    text.push_str("bytes");
    for byte in bytes {
        write!(text, " {byte:02X}")?;
    }
    writeln!(text)
}

fn write_value(text: &mut String, record: &Record) -> fmt::Result {
    let Record {
        command,
        transmit_command,
        tag,
        flags,
        count,
        words,
    } = record;
    write!(
        text,
        "value {command:04X} from {transmit_command:04X} tag {tag:04X} "
    )?;
    write!(text, "flags {flags:04X} count {count} words")?;
    let last = words.iter().rposition(|&word| word != 0);
    write_words(text, &words[..last.map_or(0, |place| place + 1)])?;
    writeln!(text)
}

/// The case that a text stands for.
pub fn read_case(text: &str) -> Result<Case, TextError> {
    let mut reading = Reading::new();
    let mut last = 0;
    for (line, number) in text.lines().zip(1..) {
        let read = reading.line(line);
        read.map_err(|mismatch| mismatch.in_line(number))?;
        last = number;
    }
    let case = reading.finish();
    case.map_err(|mismatch| mismatch.in_line(last))
}

/// A case of which some lines are read.
struct Reading {
    case: Case,
    /// Has the lines that traces have too.
    packer: Packer,
    /// What was met of which there is only one.
    met: Vec<&'static str>,
}

/// What the lines are called that are a message.
const MESSAGE: &str = "message";

const LINES: &str =
    "settings, owner, lent, remembered, reply, card, ram, message, raw, bytes or value";
const LENT: &str = "lent line";

impl Reading {
    fn new() -> Reading {
        Reading {
            case: Case {
                state: State::default(),
                request: Request {
                    settings: Settings::TRACE,
                    ram_words: 0,
                    reply_words: REPLY_WORDS,
                    message: Message::Bytes(Vec::new()),
                    checks_area: true,
                },
            },
            packer: Packer::new(),
            met: Vec::new(),
        }
    }

    fn line(&mut self, line: &str) -> Result<(), Mismatch> {
        let mut tokens = Tokens::new(line);
        let kind = match tokens.next() {
            None => return Ok(()),
            Some("card" | "ram" | "owner") => return self.packer.line(line.as_bytes()),
            Some("message" | "raw") => {
                self.packer.line(line.as_bytes())?;
                return self.once(MESSAGE);
            }
            Some(name) => self.own_line(name, &mut tokens)?,
        };
        tokens.end()?;
        self.once(kind)
    }

    /// Reads a line that only cases have; returns what it is called.
    fn own_line(&mut self, name: &str, tokens: &mut Tokens) -> Result<&'static str, Mismatch> {
        let Case { state, request } = &mut self.case;
        match name {
            "settings" => {
                request.settings = read_settings(tokens)?;
                Ok("settings line")
            }
            "lent" => {
                (request.ram_words, request.reply_words) = read_lent(tokens)?;
                Ok(LENT)
            }
            "remembered" => {
                state.remembered.command = tokens.hex_word("a command")?;
                state.remembered.status = tokens.hex_word("a status word")?;
                Ok("remembered line")
            }
            "reply" => {
                read_words(tokens, &mut state.reply)?;
                Ok("reply line")
            }
            "bytes" => {
                request.message = Message::Bytes(tokens.bytes()?);
                Ok(MESSAGE)
            }
            "value" => {
                request.message = Message::Value(read_value(tokens)?);
                Ok(MESSAGE)
            }
            _ => mismatch(shown(Some(name)), LINES),
        }
    }

    fn once(&mut self, kind: &'static str) -> Result<(), Mismatch> {
        if self.met.contains(&kind) {
            return mismatch(format!("a second {kind}"), "one");
        }
        self.met.push(kind);
        Ok(())
    }

    fn finish(mut self) -> Result<Case, Mismatch> {
        if !self.met.contains(&MESSAGE) {
            return mismatch("no message", "a message, raw, bytes or value line");
        }
        let read = self.packer.finish();
        let Case { state, request } = &mut self.case;
        state.ram = State::of_card(read.ram_words).ram;
        state.ram[..read.ram_words].copy_from_slice(&image_words(&read.image));
        if !self.met.contains(&LENT) {
            request.ram_words = read.ram_words;
        }
        if request.ram_words > state.ram.len() {
            let found = format!("{} words of RAM lent", request.ram_words);
            return mismatch(found, format!("up to {}", state.ram.len()));
        }
        if !read.records.is_empty() {
            request.message = Message::Bytes(read.records);
        }
        Ok(self.case)
    }
}

fn read_lent(tokens: &mut Tokens) -> Result<(usize, usize), Mismatch> {
    tokens.name("ram")?;
    let ram = tokens.decimal("words of RAM", LARGE_RAM_WORDS + GUARD_WORDS)?;
    tokens.name("reply")?;
    Ok((ram, tokens.decimal("words of reply", REPLY_ROOM)?))
}

fn read_value(tokens: &mut Tokens) -> Result<Record, Mismatch> {
    let mut record = Record {
        command: tokens.hex_word("a command")?,
        ..Record::default()
    };
    tokens.name("from")?;
    record.transmit_command = tokens.hex_word("a transmit command")?;
    tokens.name("tag")?;
    record.tag = tokens.hex_word("a time tag")?;
    tokens.name("flags")?;
    record.flags = tokens.hex_word("flags")?;
    tokens.name("count")?;
    record.count = tokens.decimal("a count", 0xFFFF)? as u16;
    tokens.name("words")?;
    read_words(tokens, &mut record.words)?;
    Ok(record)
}

/// The words up to the end of the line, as far as there is room.
fn read_words(tokens: &mut Tokens, room: &mut [u16]) -> Result<(), Mismatch> {
    for word in room {
        if tokens.at_end() {
            break;
        }
        *word = tokens.hex_word("a word")?;
    }
    Ok(())
}
