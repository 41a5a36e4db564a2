//! From text to bytes.

use super::lines::lines;
use super::list::{ListText, Lists};
use super::message::{read_long_message, read_message};
use super::owners::Owners;
use super::settings::read_settings;
use super::tokens::{mismatch, shown, Mismatch, TextError, Tokens};
use crate::terminal::cells::{LARGE_RAM_WORDS, RAM_WORDS};
use crate::terminal::long::LONG_BYTES;
use crate::terminal::records::RECORD_BYTES;
use crate::terminal::trace::IMAGE_BYTES;
use crate::terminal::Settings;

/// What a text says.
pub struct TraceText {
    /// The image, whole or cut short.
    pub image: Vec<u8>,
    /// How many words of RAM its card has.
    pub ram_words: usize,
    /// The records, and perhaps a short tail.
    pub records: Vec<u8>,
    /// None where the text leaves them to the trace program.
    pub settings: Option<Settings>,
    pub owners: Owners,
    /// Whether its records have 96 bytes.
    pub long: bool,
    /// What it says of a controller's run.
    pub list: ListText,
    /// The line that names the 64K card.
    card_line: Option<usize>,
}

impl TraceText {
    /// The image and the records, as the trace program reads them.
    pub fn bytes(&self) -> Result<Vec<u8>, TextError> {
        match self.card_line {
            None => Ok([&self.image[..], &self.records].concat()),
            Some(line) => Err(TextError {
                line,
                found: "card 64K".into(),
                expected: "a text of the card of 4,096 words: bytes have no place for the card, \
                           and an image is always 8192"
                    .into(),
            }),
        }
    }
}

/// The bytes that a text stands for.
pub fn pack(text: &[u8]) -> Result<Vec<u8>, TextError> {
    read_text(text)?.bytes()
}

/// All that a text says.
pub fn read_text(text: &[u8]) -> Result<TraceText, TextError> {
    read_lines(text, |packer, line| packer.line(line))
}

/// A text with settings and owner lines only.
pub fn read_names(text: &[u8]) -> Result<TraceText, TextError> {
    read_lines(text, |packer, line| {
        let text = utf8(line)?;
        match Tokens::new(text).next() {
            None | Some("settings" | "owner") => packer.line(line),
            Some("card") => mismatch(
                "card beside bytes",
                "settings or owner: bytes are always of the card of 4,096 words",
            ),
            other => mismatch(shown(other), "settings or owner"),
        }
    })
}

fn read_lines(
    text: &[u8],
    read: impl Fn(&mut Packer, &[u8]) -> Result<(), Mismatch>,
) -> Result<TraceText, TextError> {
    let mut packer = Packer::new();
    let text = text.strip_prefix(BYTE_ORDER_MARK).unwrap_or(text);
    for (index, line) in lines(text).enumerate() {
        let read = read(&mut packer, line);
        read.map_err(|mismatch| mismatch.in_line(index + 1))?;
    }
    packer.resolve()?;
    Ok(packer.finish())
}

/// Some editors put it before the first line.
const BYTE_ORDER_MARK: &[u8] = b"\xEF\xBB\xBF";

fn utf8(line: &[u8]) -> Result<&str, Mismatch> {
    let text = std::str::from_utf8(line);
    text.or_else(|_| mismatch("bytes that are not text", "text in UTF-8"))
}

/// How far the text has come; lines of an earlier part are refused, since they
/// would be read as happening later than they do.
#[derive(PartialEq, PartialOrd)]
enum Part {
    Start,
    Ram,
    Records,
    Tail,
}

/// Takes a text in, line by line.
pub struct Packer {
    image: Vec<u8>,
    /// The line that names the 64K card.
    card_line: Option<usize>,
    records: Vec<u8>,
    part: Part,
    settings: Option<Settings>,
    owners: Owners,
    /// As a records line says; none where there is no such line.
    long: Option<bool>,
    /// Lines taken in so far.
    lines: usize,
    lists: Lists,
}

impl Packer {
    pub fn new() -> Packer {
        Packer {
            image: vec![0; IMAGE_BYTES],
            card_line: None,
            records: Vec::new(),
            part: Part::Start,
            settings: None,
            owners: Owners::default(),
            long: None,
            lines: 0,
            lists: Lists::default(),
        }
    }

    /// Puts the addresses of labels where they were named.
    pub fn resolve(&mut self) -> Result<(), TextError> {
        let Packer { image, lists, .. } = self;
        lists.finish(|place, address| {
            image[2 * place..2 * place + 2].copy_from_slice(&address.to_be_bytes())
        })
    }

    pub fn finish(self) -> TraceText {
        TraceText {
            ram_words: self.ram_words(),
            image: self.image,
            records: self.records,
            card_line: self.card_line,
            settings: self.settings,
            owners: self.owners,
            long: self.long.unwrap_or(false),
            list: self.lists.said,
        }
    }

    pub fn line(&mut self, line: &[u8]) -> Result<(), Mismatch> {
        self.lines += 1;
        let mut tokens = Tokens::new(utf8(line)?);
        match tokens.next() {
            None => return Ok(()),
            Some(name) if Lists::takes(name) => self.list_line(name, &mut tokens)?,
            Some("settings") => self.settings_line(&mut tokens)?,
            Some("owner") => self.owner_line(&mut tokens)?,
            Some("records") => self.records_line(&mut tokens)?,
            Some("card") => self.card_line(&mut tokens)?,
            Some("image") => self.image_line(&mut tokens)?,
            Some("ram") => self.ram_line(&mut tokens)?,
            Some("message") => self.message_line(&mut tokens)?,
            Some("raw") => self.raw_line(&mut tokens)?,
            other => {
                let expected =
                    "settings, owner, records, card, image, ram, message, raw or a line of a list";
                return mismatch(shown(other), expected);
            }
        }
        tokens.end()
    }

    /// `settings ...`: for the whole trace.
    fn settings_line(&mut self, tokens: &mut Tokens) -> Result<(), Mismatch> {
        self.before_records("settings")?;
        if self.settings.is_some() {
            return mismatch("a second settings line", "one");
        }
        self.settings = Some(read_settings(tokens)?);
        Ok(())
    }

    /// `owner SUBADDRESS NAME`
    fn owner_line(&mut self, tokens: &mut Tokens) -> Result<(), Mismatch> {
        self.before_records("owner")?;
        self.owners.read(tokens)
    }

    /// `records 80` or `records 96`: how long each record is.
    fn records_line(&mut self, tokens: &mut Tokens) -> Result<(), Mismatch> {
        self.before_records("records")?;
        if self.long.is_some() {
            return mismatch("a second records line", "one");
        }
        self.long = match tokens.next() {
            Some("80") => Some(false),
            Some("96") => Some(true),
            other => return mismatch(shown(other), "records 80 or records 96"),
        };
        Ok(())
    }

    /// How many bytes each record has.
    fn record_bytes(&self) -> usize {
        match self.long {
            Some(true) => LONG_BYTES,
            _ => RECORD_BYTES,
        }
    }

    fn before_records(&self, name: &str) -> Result<(), Mismatch> {
        if self.part > Part::Ram {
            let expected = format!("every {name} line before the first record");
            return mismatch(format!("{name} after a record"), expected);
        }
        Ok(())
    }

    /// `card 64K`: RAM has 65,536 words.
    fn card_line(&mut self, tokens: &mut Tokens) -> Result<(), Mismatch> {
        if self.card_line.is_some() {
            return mismatch("a second card line", "one");
        }
        if self.part != Part::Start {
            let expected = "card before the first line of RAM";
            return mismatch("card after image, ram, a list or a record", expected);
        }
        match tokens.next() {
            Some("64K") => self.card_line = Some(self.lines),
            other => return mismatch(shown(other), "64K"),
        }
        self.image.resize(2 * LARGE_RAM_WORDS, 0);
        Ok(())
    }

    fn ram_words(&self) -> usize {
        match self.card_line {
            Some(_) => LARGE_RAM_WORDS,
            None => RAM_WORDS,
        }
    }

    /// `image LENGTH`: the input stops inside the image.
    fn image_line(&mut self, tokens: &mut Tokens) -> Result<(), Mismatch> {
        if self.part != Part::Start || self.card_line.is_some() {
            return mismatch("image after another line", "image as the first line");
        }
        let length = tokens.decimal("the image's length in bytes", IMAGE_BYTES - 1)?;
        self.image.truncate(length);
        self.part = Part::Ram;
        Ok(())
    }

    /// `ram ADDRESS WORD...`
    fn ram_line(&mut self, tokens: &mut Tokens) -> Result<(), Mismatch> {
        self.before_records("ram")?;
        self.part = Part::Ram;
        let mut address = usize::from(tokens.hex_word("an address")?);
        loop {
            let word = tokens.hex_word("a RAM word")?;
            self.set_word(address, word)?;
            address += 1;
            if tokens.at_end() {
                return Ok(());
            }
        }
    }

    /// A line of an instruction list; an instruction is two words of RAM.
    fn list_line(&mut self, name: &str, tokens: &mut Tokens) -> Result<(), Mismatch> {
        self.before_records("list")?;
        self.part = Part::Ram;
        if let Some((at, words)) = self.lists.line(self.lines, name, tokens)? {
            for (place, word) in (at..).zip(words) {
                self.set_word(place, word)?;
            }
        }
        Ok(())
    }

    fn set_word(&mut self, address: usize, word: u16) -> Result<(), Mismatch> {
        if address >= self.ram_words() {
            let expected = format!("an address up to {:04X}", self.ram_words() - 1);
            return mismatch(format!("address {address:04X}"), expected);
        }
        let length = self.image.len();
        match self.image.get_mut(2 * address..) {
            Some([high, low, ..]) => [*high, *low] = word.to_be_bytes(),
            Some([high]) if word & 0xFF == 0 => *high = (word >> 8) as u8,
            _ => {
                return mismatch(
                    format!("word {word:04X} at address {address:04X}"),
                    format!("no word beyond the image's {length} bytes"),
                )
            }
        }
        Ok(())
    }

    fn message_line(&mut self, tokens: &mut Tokens) -> Result<(), Mismatch> {
        self.enter_records("message")?;
        if self.long == Some(true) {
            self.records.extend_from_slice(&read_long_message(tokens)?);
        } else {
            self.records.extend_from_slice(&read_message(tokens)?);
        }
        Ok(())
    }

    /// `raw BYTES...`: a whole record as it stands, or a shorter tail.
    fn raw_line(&mut self, tokens: &mut Tokens) -> Result<(), Mismatch> {
        self.enter_records("raw")?;
        let bytes = tokens.bytes()?;
        let whole = self.record_bytes();
        match bytes.len() {
            length if length == whole => {}
            length if (1..whole).contains(&length) => self.part = Part::Tail,
            length => return mismatch(format!("{length} bytes"), format!("1 to {whole} bytes")),
        }
        self.records.extend_from_slice(&bytes);
        Ok(())
    }

    fn enter_records(&mut self, name: &str) -> Result<(), Mismatch> {
        if self.image.len() < 2 * self.ram_words() {
            return mismatch(name, "no records after a short image");
        }
        if self.part == Part::Tail {
            let whole = self.record_bytes();
            let expected = format!("nothing after a raw line of fewer than {whole} bytes");
            return mismatch(name, expected);
        }
        self.part = Part::Records;
        Ok(())
    }
}
