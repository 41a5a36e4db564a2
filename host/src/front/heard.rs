//! Records of either length, as the program reads and shows them.

use std::fmt;

use crate::engine;
use crate::terminal::long::LONG_BYTES;
use crate::terminal::Record;
use crate::text::Owners;

/// A time tag: four digits, and eight where the record has an upper half.
#[derive(Clone, Copy, Debug, Default, PartialEq, Eq)]
pub struct Tag {
    lower: u16,
    upper: Option<u16>,
}

impl Tag {
    /// Whether it is longer than the tag of an old record.
    pub fn outlasts(&self) -> bool {
        self.upper.map_or(false, |upper| upper != 0)
    }
}

impl fmt::UpperHex for Tag {
    fn fmt(&self, f: &mut fmt::Formatter) -> fmt::Result {
        if let Some(upper) = self.upper {
            write!(f, "{upper:04X}")?;
        }
        write!(f, "{:04X}", self.lower)
    }
}

/// What a record says.
#[derive(Clone, Copy, Debug)]
pub struct Heard {
    pub record: Record,
    pub tag: Tag,
    /// Of a long record.
    pub member: Option<u16>,
}

pub fn is_long(bytes: &[u8]) -> bool {
    bytes.len() == LONG_BYTES
}

/// Reads a record of either length: the number, and what it says.
pub fn read(bytes: &[u8]) -> (u16, Heard) {
    let (number, record, upper, member) = if is_long(bytes) {
        let (number, long) = engine::long::read_long(bytes);
        (number, long.old, Some(long.upper), Some(long.member))
    } else {
        let (number, record) = engine::read_record(bytes);
        (number, record, None, None)
    };
    let tag = Tag {
        lower: record.tag,
        upper,
    };
    let heard = Heard {
        record,
        tag,
        member,
    };
    (number, heard)
}

/// For the end of a sentence: `, member 7 (Anna)`, or nothing where the record
/// has no member number.
pub fn member(member: Option<u16>, owners: &Owners) -> String {
    match member.map(|number| (number, owners.member(number))) {
        None => String::new(),
        Some((number, Some(name))) => format!(", member {number} ({name})"),
        Some((number, None)) => format!(", member {number}"),
    }
}
