//! Errors that only raw words show: a yes that is no 1, a refusal that leaves
//! words behind, a word behind those that are handed back. Each is planted in
//! the proved side's words, and each is found.

use plain_terminal::compare::coverage::Coverage;
use plain_terminal::compare::sides::{Proved, Side};
use plain_terminal::compare::{compare, Plain};
use plain_terminal::exchange::run::{compare_lists, Met};
use plain_terminal::exchange::Forgotten;
use plain_terminal::terminal::{MessageRef, Planted, Record, Settings};

/// What a call hands back: its number, and what it was lent.
struct Handed<'a> {
    number: u16,
    remembered: &'a mut [u16],
    answer: &'a mut [u16],
    value: &'a mut [u16],
    bytes: &'a mut [u8],
}

/// The proved terminal, whose words are changed on their way.
struct Odd(fn(&mut Handed));

impl Odd {
    fn change(&self, mut handed: Handed) -> u16 {
        (self.0)(&mut handed);
        handed.number
    }
}

impl Side for Odd {
    fn check_area(&self, ram: &[u16], settings: &Settings) -> (u16, u16) {
        Proved.check_area(ram, settings)
    }

    fn carry_out(
        &self,
        ram: &mut [u16],
        reply: &mut [u16],
        settings: &Settings,
        remembered: &mut [u16],
        message: MessageRef,
        answer: &mut [u16],
    ) -> u16 {
        let number = Proved.carry_out(ram, reply, settings, remembered, message, answer);
        self.change(Handed {
            number,
            remembered,
            answer,
            value: &mut [],
            bytes: &mut [],
        })
    }

    fn read_record(&self, bytes: &[u8], value: &mut [u16]) -> u16 {
        let number = Proved.read_record(bytes, value);
        self.change(Handed {
            number,
            remembered: &mut [],
            answer: &mut [],
            value,
            bytes: &mut [],
        })
    }

    fn write_record(&self, record: &Record, bytes: &mut [u8]) -> u16 {
        let number = Proved.write_record(record, bytes);
        self.change(Handed {
            number,
            remembered: &mut [],
            answer: &mut [],
            value: &mut [],
            bytes,
        })
    }
}

/// Places in an answer.
const SENT_STATUS: usize = 6;
const SENT_WORDS: usize = 7;

type Change = (&'static str, fn(&mut Handed));

const CHANGES: [Change; 9] = [
    ("a yes that is no 1", |it| {
        if let Some(word @ 1) = it.answer.get_mut(SENT_STATUS) {
            *word = 2;
        }
    }),
    ("a refusal that leaves a word of the answer", |it| {
        if let (1.., Some(word)) = (it.number, it.answer.get_mut(1)) {
            *word = 0xEEEE;
        }
    }),
    ("a number that is answered and not returned", |it| {
        if !it.answer.is_empty() {
            it.number = 0;
        }
    }),
    ("a word behind the answer", |it| {
        it.answer.last_mut().into_iter().for_each(|word| *word = 0);
    }),
    ("a word behind what is remembered", |it| {
        let behind = it.remembered.last_mut();
        behind.into_iter().for_each(|word| *word = 0);
    }),
    ("a refused record that leaves a word of its value", |it| {
        if let (1.., [.., transmit_command, _]) = (it.number, &mut *it.value) {
            *transmit_command = 0xEEEE;
        }
    }),
    ("a word behind a value", |it| {
        it.value.last_mut().into_iter().for_each(|word| *word = 0);
    }),
    ("a refused value that leaves a byte", |it| {
        if let (1.., [.., last, _]) = (it.number, &mut *it.bytes) {
            *last = 0xEE;
        }
    }),
    ("a byte behind a record", |it| {
        it.bytes.last_mut().into_iter().for_each(|byte| *byte = 0);
    }),
];

#[test]
fn messages_show_each() {
    for (name, change) in CHANGES {
        let mut coverage = Coverage::default();
        let found = compare(
            &Plain(Planted::None),
            &Odd(change),
            1,
            20_000,
            &mut coverage,
        );
        let case = found.expect(name).case;
        let told = case.differences(&Plain(Planted::None), &Odd(change));
        assert!(!told.is_empty(), "{name}");
    }
}

/// Both orders have the same error, so that they do not differ from each other.
#[test]
fn exchanges_show_each() {
    let sent_too_many: Change = ("a reply longer than its room", |it| {
        if let Some(word) = it.answer.get_mut(SENT_WORDS) {
            *word = 99;
        }
    });
    for (name, change) in [CHANGES[0], CHANGES[3], sent_too_many] {
        let mut met = Met::default();
        let found = compare_lists(&Odd(change), Forgotten::Nothing, 1..200, &mut met);
        assert!(found.is_some(), "{name}");
    }
    let unchanged = Odd(|_| ());
    let mut met = Met::default();
    let found = compare_lists(&unchanged, Forgotten::Nothing, 1..200, &mut met);
    assert!(found.is_none());
}
