//! Who put a word where it is, from the proved terminal: the same answers as
//! [`crate::terminal::who`].

use super::boundary;
use crate::terminal::boundary::{
    origin_of, settings_words, PART_WORDS, REMEMBERED_WORDS, SETTINGS_WORDS,
};
use crate::terminal::who::Origin;
use crate::terminal::Settings;

/// What no call answers: a word that is not written shows.
const UNANSWERED: ([u64; 1], [u16; PART_WORDS]) = ([u64::MAX], [u16::MAX; PART_WORDS]);

/// Who wrote each word of RAM, as far as a trace was walked.
#[derive(Clone, Debug)]
pub struct Walk {
    settings: [u16; SETTINGS_WORDS],
    ram: Vec<u16>,
    /// For each address the last record that wrote it, and which part it was.
    numbers: Vec<u64>,
    marks: Vec<u16>,
    remembered: [u16; REMEMBERED_WORDS],
    records: [u64; 1],
}

impl Walk {
    /// Refuses with 1 and 3.
    pub fn new(image: &[u16], settings: &Settings) -> Result<Walk, u16> {
        let mut walk = Walk {
            settings: settings_words(settings),
            ram: image.to_vec(),
            numbers: vec![0; image.len()],
            marks: vec![0; image.len()],
            remembered: [0; REMEMBERED_WORDS],
            records: [0],
        };
        match walk.go_on(&[]) {
            0 => Ok(walk),
            number => Err(number),
        }
    }

    /// One record more; a refused one is counted and writes nothing.
    pub fn record(&mut self, bytes: &[u8]) {
        self.go_on(bytes);
    }

    /// All whole records of a part of a trace. The number is what refuses RAM or
    /// settings: 0, once there is a walk.
    pub fn go_on(&mut self, part: &[u8]) -> u16 {
        boundary::who_fill(
            &mut self.ram,
            &mut self.numbers,
            &mut self.marks,
            &self.settings,
            &mut self.remembered,
            &mut self.records,
            part,
        )
    }

    /// RAM as it stands now.
    pub fn ram(&self) -> &[u16] {
        &self.ram
    }

    pub fn records(&self) -> u64 {
        self.records[0]
    }

    /// None where the word is as in the image; refuses with 12.
    pub fn who(&self, address: u16) -> Result<Option<Origin>, u16> {
        let (mut last, mut part) = UNANSWERED;
        let number = boundary::who_entry(&self.numbers, &self.marks, address, &mut last, &mut part);
        origin_of(number, &last, &part)
    }
}

/// Who wrote the word at an address, after a whole trace.
pub fn who(
    image: &[u16],
    settings: &Settings,
    trace: &[u8],
    address: u16,
) -> Result<Option<Origin>, u16> {
    let (mut last, mut part) = UNANSWERED;
    let mut ram = image.to_vec();
    let words = settings_words(settings);
    let number = boundary::who(&mut ram, &words, address, trace, &mut last, &mut part);
    origin_of(number, &last, &part)
}
