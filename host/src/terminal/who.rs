//! Who put this word here: for an address of RAM, the last record of a trace
//! that wrote it. Found by walking the list of writes of every message.

use super::cells::check_ram;
use super::read_record;
use super::refusal;
use super::settings::Settings;
use super::writes::{writes, Part};

/// The last write of a word.
#[derive(Clone, Copy, Debug, PartialEq, Eq)]
pub struct Origin {
    /// The record, counted from 1, refused ones too.
    pub record: u64,
    /// The cell of its message.
    pub cell: u16,
    pub part: Part,
}

/// Who wrote each word of RAM, as far as a trace was walked.
#[derive(Clone, Debug)]
pub struct Walk {
    settings: Settings,
    ram: Vec<u16>,
    records: u64,
    /// For each address its last write; none where it is as in the image.
    origins: Vec<Option<Origin>>,
}

impl Walk {
    /// Refuses with 1 and 3.
    pub fn new(image: &[u16], settings: &Settings) -> Result<Walk, u16> {
        check_ram(image)?;
        settings.check()?;
        Ok(Walk {
            settings: *settings,
            ram: image.to_vec(),
            records: 0,
            origins: vec![None; image.len()],
        })
    }

    /// One record more; a refused one is counted and writes nothing.
    pub fn record(&mut self, bytes: &[u8]) {
        self.records += 1;
        let list = read_record(bytes).and_then(|it| writes(&self.ram, &self.settings, &it));
        if let Ok((cell, list)) = list {
            for write in list {
                self.ram[write.address] = write.word;
                self.origins[write.address] = Some(Origin {
                    record: self.records,
                    cell,
                    part: write.part,
                });
            }
        }
    }

    /// RAM as it stands now.
    pub fn ram(&self) -> &[u16] {
        &self.ram
    }

    pub fn records(&self) -> u64 {
        self.records
    }

    /// None where the word is as in the image; refuses with 12.
    pub fn who(&self, address: u16) -> Result<Option<Origin>, u16> {
        let origin = self.origins.get(usize::from(address));
        origin.copied().ok_or(refusal::BEYOND_RAM)
    }
}

/// Who wrote the word at an address, after a whole trace: whole records, and
/// perhaps a short tail, which is none.
pub fn who(
    image: &[u16],
    settings: &Settings,
    trace: &[u8],
    address: u16,
) -> Result<Option<Origin>, u16> {
    let mut walk = Walk::new(image, settings)?;
    walk.who(address)?;
    for record in trace.chunks_exact(super::records::RECORD_BYTES) {
        walk.record(record);
    }
    walk.who(address)
}
