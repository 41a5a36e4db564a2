//! The sides of a comparison: what a terminal is asked, and the words that it
//! hands back, into whatever it is lent.

use crate::terminal::boundary::{put_or_zero, put_outcome, remembered_of, value_words};
use crate::terminal::{
    carry_out_planted, check_area, read_record_planted, write_record_planted, MessageRef, Planted,
    Record, Settings,
};

/// A terminal that can be compared with another.
pub trait Side {
    /// The number, and the lowest unsound cell beside 9.
    fn check_area(&self, ram: &[u16], settings: &Settings) -> (u16, u16);

    /// The number.
    fn carry_out(
        &self,
        ram: &mut [u16],
        reply: &mut [u16],
        settings: &Settings,
        remembered: &mut [u16],
        message: MessageRef,
        answer: &mut [u16],
    ) -> u16;

    /// The number; the words of the value.
    fn read_record(&self, bytes: &[u8], value: &mut [u16]) -> u16;

    /// The number; the bytes of the record.
    fn write_record(&self, record: &Record, bytes: &mut [u8]) -> u16;
}

/// The terminal of this package, with an error planted in it or with none.
pub struct Plain(pub Planted);

impl Side for Plain {
    fn check_area(&self, ram: &[u16], settings: &Settings) -> (u16, u16) {
        check_area(ram, settings)
    }

    fn carry_out(
        &self,
        ram: &mut [u16],
        reply: &mut [u16],
        settings: &Settings,
        remembered: &mut [u16],
        message: MessageRef,
        answer: &mut [u16],
    ) -> u16 {
        let before = remembered_of(remembered);
        let outcome = carry_out_planted(self.0, ram, reply, settings, before, message);
        put_outcome(outcome, remembered, answer)
    }

    fn read_record(&self, bytes: &[u8], value: &mut [u16]) -> u16 {
        let read = read_record_planted(self.0, bytes);
        put_or_zero(value, read.map(|record| value_words(&record)))
    }

    fn write_record(&self, record: &Record, bytes: &mut [u8]) -> u16 {
        put_or_zero(bytes, write_record_planted(self.0, record))
    }
}

/// The proved terminal.
#[cfg(feature = "engine")]
pub struct Proved;

#[cfg(feature = "engine")]
impl Side for Proved {
    fn check_area(&self, ram: &[u16], settings: &Settings) -> (u16, u16) {
        crate::engine::check_area(ram, settings)
    }

    fn carry_out(
        &self,
        ram: &mut [u16],
        reply: &mut [u16],
        settings: &Settings,
        remembered: &mut [u16],
        message: MessageRef,
        answer: &mut [u16],
    ) -> u16 {
        use crate::engine::boundary;
        let settings = crate::terminal::boundary::settings_words(settings);
        match message {
            MessageRef::Bytes(bytes) => {
                boundary::message(ram, reply, &settings, remembered, bytes, answer)
            }
            MessageRef::Long(bytes) => {
                boundary::message_long(ram, reply, &settings, remembered, bytes, answer)
            }
            MessageRef::Value(record) => {
                let value = value_words(record);
                boundary::message_value(ram, reply, &settings, remembered, &value, answer)
            }
        }
    }

    fn read_record(&self, bytes: &[u8], value: &mut [u16]) -> u16 {
        crate::engine::boundary::read(bytes, value)
    }

    fn write_record(&self, record: &Record, bytes: &mut [u8]) -> u16 {
        crate::engine::boundary::write(&value_words(record), bytes)
    }
}
