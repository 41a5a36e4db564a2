//! The proved terminal in the middle of a trace.

use super::heard;
use super::outcome::Outcome;
use super::used::Used;
use crate::engine::{self, Walk};
use crate::terminal::cells::Kind;
use crate::terminal::described::{CellDescription, StackDescription};
use crate::terminal::message::REPLY_WORDS;
use crate::terminal::records::RECORD_BYTES;
use crate::terminal::who::Origin;
use crate::terminal::writes::Part;
use crate::terminal::{Answer, MessageRef, Remembered, Settings};

/// A data word that a message stored or sent.
#[derive(Clone, Copy, Debug, PartialEq, Eq)]
pub struct Moved {
    pub address: usize,
    pub word: u16,
    /// Who had written it last when the message was done: where it was stored,
    /// the message itself.
    pub origin: Option<Origin>,
    /// How that message went, where it is known.
    pub came: Option<Outcome>,
}

impl Moved {
    /// What kept the message that it came with from being good, if anything did.
    pub fn not_good(&self) -> Option<String> {
        let came = self.came.filter(|came| !came.is_good());
        came.map(|came| came.verdict())
    }
}

/// Where words lie, in their order.
pub fn places(words: &[Moved]) -> Vec<usize> {
    words.iter().map(|word| word.address).collect()
}

pub struct Replay {
    pub settings: Settings,
    pub ram: Vec<u16>,
    pub reply: [u16; REPLY_WORDS],
    remembered: Remembered,
    /// Whole records met so far, refused ones too.
    pub records: u64,
    /// The cells that had an accepted message.
    pub used: Used,
    /// Who wrote each word, where that is asked for and the settings are good.
    pub walk: Option<Walk>,
}

impl Replay {
    pub fn new(image: Vec<u16>, settings: Settings) -> Replay {
        Replay {
            settings,
            ram: image,
            reply: [0; REPLY_WORDS],
            remembered: Remembered::default(),
            records: 0,
            used: Used::default(),
            walk: None,
        }
    }

    /// A replay that also tells who wrote each word.
    pub fn with_walk(image: Vec<u16>, settings: Settings) -> Replay {
        let walk = Walk::new(&image, &settings).ok();
        Replay {
            walk,
            ..Replay::new(image, settings)
        }
    }

    /// The next record, old or long.
    pub fn message(&mut self, bytes: &[u8]) -> Answer {
        let message = if heard::is_long(bytes) {
            MessageRef::Long(bytes)
        } else {
            MessageRef::Bytes(bytes)
        };
        let (answer, remembered) = engine::carry_out(
            &mut self.ram,
            &mut self.reply,
            &self.settings,
            self.remembered,
            message,
        );
        self.remembered = remembered;
        self.records += 1;
        if answer.number == 0 {
            self.used.by(answer.cell);
        }
        if let Some(walk) = &mut self.walk {
            walk.record(&old_part(bytes));
        }
        answer
    }

    /// The cell of an accepted message, with the pointer before it. No message
    /// moves a window or changes a scheme.
    pub fn cell_of(&self, answer: &Answer) -> CellDescription {
        CellDescription {
            pointer: answer.pointer_before,
            ..self.cell(answer.cell)
        }
    }

    /// A cell as it stands now. Nobody asks about one where RAM or settings
    /// are refused.
    pub fn cell(&self, number: u16) -> CellDescription {
        let cell = engine::describe_cell(&self.ram, &self.settings, number);
        cell.expect("RAM and settings are not refused")
    }

    /// The stack as it stands now, as of [`Replay::cell`].
    pub fn stack(&self) -> StackDescription {
        let stack = engine::describe_stack(&self.ram, &self.settings);
        stack.expect("RAM and settings are not refused")
    }

    /// The data words of the message that was just accepted, in their order:
    /// those that it stored, or else those that it sent.
    pub fn moved(&self, answer: &Answer) -> Vec<Moved> {
        let cell = self.cell_of(answer);
        let words = from_pointer(&cell).map(|address| Moved {
            address,
            word: self.ram[address],
            origin: self.origin(address),
            came: None,
        });
        if cell.kind == Kind::Transmit {
            let sent = self.reply[1..].iter().take(answer.sent.into());
            let words = words.zip(sent);
            words.map(|(it, &word)| Moved { word, ..it }).collect()
        } else {
            let stored = words.zip(1..);
            let stored = stored.take_while(|(word, place)| self.just_stored(word, *place));
            stored.map(|(word, _)| word).collect()
        }
    }

    /// Who wrote a word of RAM last; none where it is as in the image.
    pub fn origin(&self, address: usize) -> Option<Origin> {
        let walk = self.walk.as_ref()?;
        walk.who(address as u16).ok().flatten()
    }

    fn just_stored(&self, word: &Moved, place: u16) -> bool {
        word.origin.map_or(false, |origin| {
            origin.record == self.records && origin.part == Part::Data(place)
        })
    }
}

/// The record of 80 bytes whose message is that of a record, old or long. A long
/// one that is not read does nothing, and neither does a record of 255s.
fn old_part(bytes: &[u8]) -> [u8; RECORD_BYTES] {
    let mut old = [0xFF; RECORD_BYTES];
    if !heard::is_long(bytes) || heard::read(bytes).0 == 0 {
        old.copy_from_slice(&bytes[..RECORD_BYTES]);
    }
    old
}

/// The places of a whole message from the cell's pointer on, wrapping at the
/// window's end.
fn from_pointer(cell: &CellDescription) -> impl Iterator<Item = usize> {
    let pointer = usize::from(cell.pointer);
    let length = cell.window.len();
    let start = cell.window.start;
    (0..REPLY_WORDS - 1).map(move |place| start + (pointer - start + place) % length)
}
