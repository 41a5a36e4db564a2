//! A small random generator (xorshift), the same in every run for a seed, and
//! the random inputs that tests and comparisons share.

use crate::terminal::records::{Record, FLAG_NO_STATUS, FLAG_TRANSFER, TOO_MANY};
use crate::terminal::settings::BROADCAST_ADDRESS;
use crate::terminal::words::Command;
use crate::terminal::Settings;

#[derive(Clone, Debug)]
pub struct Random(u64);

impl Random {
    pub fn new(seed: u64) -> Random {
        Random(seed.wrapping_mul(0x9E37_79B9_7F4A_7C15) | 1)
    }

    /// The next 48 bits.
    pub fn draw(&mut self) -> u64 {
        self.0 ^= self.0 << 13;
        self.0 ^= self.0 >> 7;
        self.0 ^= self.0 << 17;
        self.0 >> 16
    }

    /// A number from 0 on and under `limit`.
    pub fn below(&mut self, limit: usize) -> usize {
        (self.draw() % limit as u64) as usize
    }

    /// Yes in one of `one_in` cases.
    pub fn chance(&mut self, one_in: usize) -> bool {
        self.below(one_in) == 0
    }

    pub fn word(&mut self) -> u16 {
        self.draw() as u16
    }

    pub fn pick<T: Copy>(&mut self, choices: &[T]) -> T {
        choices[self.below(choices.len())]
    }

    pub fn bytes(&mut self, length: usize) -> Vec<u8> {
        (0..length).map(|_| self.draw() as u8).collect()
    }

    /// Settings that are not refused.
    pub fn settings(&mut self) -> Settings {
        let broadcast = !self.chance(4);
        let highest = !broadcast && self.chance(2);
        Settings {
            address: if highest { 31 } else { self.below(31) as u16 },
            area_b: self.chance(2),
            stack_size: self.pick(&[256, 512, 1024, 2048]),
            overwrite_invalid: self.chance(2),
            separate_broadcast: self.chance(2),
            illegal_receive_disable: self.chance(2),
            busy_receive_disable: self.chance(2),
            busy_always: self.chance(8),
            service_request: self.chance(2),
            subsystem_flag: self.chance(2),
            terminal_flag: self.chance(2),
            broadcast,
        }
    }

    /// A record that keeps its layout, mostly to `address` and mostly good.
    pub fn record(&mut self, address: u16) -> Record {
        let to = match self.below(16) {
            0 => self.below(32) as u16,
            1..=4 => BROADCAST_ADDRESS,
            _ => address,
        };
        let command = to << 11 | self.word() & 0x07FF;
        self.record_for(Command(command))
    }

    /// A record of this command that keeps its layout, with or without faults;
    /// one of four receives is a transfer.
    pub fn record_for(&mut self, command: Command) -> Record {
        let mut record = Record {
            command: command.0,
            tag: self.word(),
            flags: self.pick(&[0, 0, 0, 0, 0, 0, 0, 0, 1, 1, 1, 1, 1, 1, 2, 3, 4, 5, 6, 7]),
            count: self.count_for(command),
            ..Record::default()
        };
        if !command.is_transmit() && self.chance(4) {
            self.make_transfer(&mut record);
        }
        let held = record.words_held();
        record.words[..held].fill_with(|| self.word());
        record
    }

    /// The words that the command expects, or another number of them.
    fn count_for(&mut self, command: Command) -> u16 {
        let expected = command.expected_words();
        match self.below(9) {
            0 => self.below(34) as u16,
            1 => expected.saturating_sub(1),
            2 => (expected + 1).min(TOO_MANY),
            _ => expected,
        }
    }

    /// One of three transfers has faults of its own, alone or together.
    fn make_transfer(&mut self, record: &mut Record) {
        record.flags |= FLAG_TRANSFER;
        record.transmit_command = match self.below(4) {
            0 => self.pick(&[0, 1, record.command, record.command | 0x0400, 0xFFFF]),
            _ => self.word() | 0x0400,
        };
        if self.chance(3) {
            record.flags |= self.pick(&[1, 1, 2, 2, 4, 4, 3, 5, 6, 7]) * FLAG_NO_STATUS;
            record.count = 0;
        }
    }
}
