//! A terminal to run messages on, and plain ways to write records.

pub use plain_terminal::random::Random;
use plain_terminal::terminal::records::RECORD_WORDS;
use plain_terminal::terminal::words::Command;
use plain_terminal::terminal::{
    carry_out, write_record, Answer, MessageRef, Record, Remembered, Settings,
};

/// Stands in the reply buffer where nothing was written.
pub const UNTOUCHED: u16 = 0xEEEE;

/// A terminal with everything it is lent.
#[derive(Clone, Debug, PartialEq)]
pub struct Terminal {
    pub ram: Vec<u16>,
    pub reply: Vec<u16>,
    pub settings: Settings,
    pub remembered: Remembered,
}

impl Terminal {
    pub fn new(settings: Settings, image: &[(usize, u16)]) -> Terminal {
        let mut ram = vec![0; 4096];
        for &(address, word) in image {
            ram[address] = word;
        }
        Terminal {
            ram,
            reply: vec![UNTOUCHED; 40],
            settings,
            remembered: Remembered::default(),
        }
    }

    /// The terminal of the edges: RT 5, SA 3 circular with 128 words.
    pub fn with_circle(pointer: u16) -> Terminal {
        Terminal::new(Settings::TRACE, &[(0x0143, pointer), (0x01A3, 0x0120)])
    }

    /// Carries out a record, by its bytes and by its value, which must agree.
    pub fn run(&mut self, record: &Record) -> Answer {
        let mut twin = self.clone();
        let answer = twin.run_value(record);
        let bytes = write_record(record).expect("the record keeps its layout");
        assert_eq!(self.run_bytes(&bytes), answer);
        assert_eq!(*self, twin);
        answer
    }

    pub fn run_bytes(&mut self, bytes: &[u8]) -> Answer {
        self.carry_out(MessageRef::Bytes(bytes))
    }

    pub fn run_value(&mut self, record: &Record) -> Answer {
        self.carry_out(MessageRef::Value(record))
    }

    fn carry_out(&mut self, message: MessageRef) -> Answer {
        let (answer, remembered) = carry_out(
            &mut self.ram,
            &mut self.reply,
            &self.settings,
            self.remembered,
            message,
        );
        self.remembered = remembered;
        answer
    }

    /// Runs a record and shows its columns as the trace program would.
    pub fn columns(&mut self, record: &Record) -> String {
        let answer = self.run(record);
        if answer.number != 0 {
            return format!("{}", answer.number);
        }
        let status = if answer.answered {
            format!("{:04X}", answer.status)
        } else {
            "none".to_string()
        };
        format!(
            "{:04X} {:04X} {:04X} {status} {} {:04X}",
            answer.block_status,
            answer.pointer_before,
            answer.pointer_after,
            answer.sent,
            answer.interrupt
        )
    }
}

/// A record whose words are `words`, without flags.
pub fn record(command: u16, words: &[u16]) -> Record {
    let mut record = Record {
        command,
        tag: 0x7A60,
        count: words.len() as u16,
        ..Record::default()
    };
    record.words[..words.len()].copy_from_slice(words);
    record
}

/// A record with `count` words A000, A001, ... and the flags given.
pub fn heard(command: u16, count: u16, flags: u16) -> Record {
    let words: Vec<u16> = numbered_words(0xA000, usize::from(count).min(RECORD_WORDS));
    Record {
        count,
        flags,
        ..record(command, &words)
    }
}

/// The faultless record for a command.
pub fn good(command: u16) -> Record {
    heard(command, Command(command).expected_words(), 0)
}

pub fn numbered_words(first: u16, count: usize) -> Vec<u16> {
    (first..).take(count).collect()
}
