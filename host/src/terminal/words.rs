//! Fields of 16-bit words.

/// A command word.
#[derive(Clone, Copy, Debug, PartialEq, Eq)]
pub struct Command(pub u16);

impl Command {
    pub fn address(self) -> u16 {
        self.0 >> 11
    }

    pub fn is_transmit(self) -> bool {
        self.0 & 0x0400 != 0
    }

    pub fn subaddress(self) -> u16 {
        (self.0 >> 5) & 31
    }

    /// Bits 4-0 as they stand; see [`Command::word_count`] for their meaning.
    pub fn count_field(self) -> u16 {
        self.0 & 31
    }

    /// The number of data words asked for, 1 to 32.
    pub fn word_count(self) -> u16 {
        match self.count_field() {
            0 => 32,
            count => count,
        }
    }

    /// The number of data words that are to be heard with the command.
    pub fn expected_words(self) -> u16 {
        if self.is_transmit() {
            0
        } else {
            self.word_count()
        }
    }
}

/// A word with the given bit set if `on`, else 0.
pub(crate) fn bit(number: u32, on: bool) -> u16 {
    u16::from(on) << number
}
