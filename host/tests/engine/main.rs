//! The proved terminal, called through its boundary. Needs the feature
//! `engine`.

mod broadcast;
#[path = "../terminal/card.rs"]
mod card;
mod files;
mod guards;
mod labels;
mod page;
mod soundness;
mod tables;

use plain_terminal::compare::case::{Case, Message, Request, State};
use plain_terminal::compare::coverage::Coverage;
use plain_terminal::compare::shrink::shrink;
use plain_terminal::compare::sides::Proved;
use plain_terminal::compare::{compare, Plain};
use plain_terminal::engine::boundary as proved;
use plain_terminal::random::Random;
use plain_terminal::terminal::boundary::{self as plain, settings_words, value_words, VALUE_WORDS};
use plain_terminal::terminal::{write_record, Planted, Record, Settings};

/// The example of the scope document: RT 5, a circle of 128 words.
fn example_ram() -> Vec<u16> {
    let mut ram = vec![0; 4096];
    ram[0x0143] = 0x047E;
    ram[0x01A3] = 0x0120;
    ram[0x0163] = 0x0500;
    ram
}

fn four_words() -> Record {
    let mut record = Record {
        command: 0x2864,
        tag: 0x0102,
        count: 4,
        ..Record::default()
    };
    record.words[..4].copy_from_slice(&[0x1111, 0x2222, 0x3333, 0x4444]);
    record
}

#[test]
fn the_example_through_the_boundary() {
    let mut ram = example_ram();
    let mut reply = [0xEEEE; 33];
    let mut remembered = [0; 2];
    let mut answer = [0xEEEE; 9];
    let number = proved::message(
        &mut ram,
        &mut reply,
        &settings_words(&Settings::TRACE),
        &mut remembered,
        &write_record(&four_words()).unwrap(),
        &mut answer,
    );
    let expected = [0, 0x8080, 3, 0x047E, 0x0402, 0x2800, 1, 0, 0x0403];
    assert_eq!((number, answer), (0, expected));
    assert_eq!(remembered, [0x2864, 0x2800]);
    assert_eq!(reply[..2], [0x2800, 0xEEEE]);
    assert_eq!(ram[0x047E..0x0480], [0x1111, 0x2222]);
    assert_eq!(ram[0x0400..0x0402], [0x3333, 0x4444]);
    assert_eq!(ram[..4], [0x8080, 0x0102, 0x047E, 0x2864]);
    assert_eq!([ram[0x0100], ram[0x0143]], [4, 0x0402]);
}

#[test]
fn a_short_comparison_finds_nothing() {
    let mut coverage = Coverage::default();
    let finding = compare(
        &Plain(Planted::None),
        &Proved,
        9_000_000,
        20_000,
        &mut coverage,
    );
    assert!(finding.is_none());
}

/// The comparison can fail: each error planted in the plain side is caught,
/// and in a case that a person can read.
#[test]
fn every_planted_error_is_caught() {
    for planted in Planted::ERRORS {
        let plain = Plain(planted);
        let mut coverage = Coverage::default();
        let finding = compare(&plain, &Proved, 1, 100_000, &mut coverage);
        let case = finding.expect(planted.name()).case;
        let smallest = shrink(&case, |case| case.differs(&plain, &Proved));
        let words = smallest.state.ram.iter().filter(|&&word| word != 0).count();
        assert!(words <= 4, "{}: {words} words", planted.name());
    }
}

/// Every byte of flags with each kind of command, of bytes 2-3 and of count:
/// reader, writer and both kinds of message.
#[test]
fn every_byte_of_flags() {
    let (good, proved) = (Plain(Planted::None), Proved);
    let mut accepted = 0;
    for flags in 0..=255 {
        for command in [0x2864, 0x2C64, 0x3064, 0xF864, 0xFC64] {
            for (transmit_command, count) in [(0, 0), (0, 4), (0x1443, 0), (1, 4), (0x8000, 33)] {
                let mut record = Record {
                    command,
                    transmit_command,
                    flags,
                    ..four_words()
                };
                record.count = count;
                record.words[usize::from(count.min(32))..].fill(0);
                let mut bytes = [0; 80];
                bytes[..2].copy_from_slice(&command.to_be_bytes());
                bytes[2..4].copy_from_slice(&transmit_command.to_be_bytes());
                bytes[6..8].copy_from_slice(&[flags as u8, count as u8]);
                for message in [Message::Bytes(bytes.to_vec()), Message::Value(record)] {
                    let case = example_case(message);
                    assert!(!case.differs(&good, &proved), "{record:?}");
                    accepted += u32::from(case.run(&proved).0.answer.number == 0);
                }
            }
        }
    }
    // Flags 0 to 7 without a transmit command, on the four commands for this
    // terminal; flag 8 on its two receive commands: with flags 16 to 64 and no
    // word, and with none of them.
    assert_eq!(accepted, 2 * (8 * 4 * 2 + 8 * 2 * (7 * 2 + 5)));
}

fn example_case(message: Message) -> Case {
    let mut state = State::default();
    state.ram[..4096].copy_from_slice(&example_ram());
    Case {
        state,
        request: Request {
            settings: Settings::TRACE,
            ram_words: 4096,
            reply_words: 33,
            message,
            checks_area: false,
        },
    }
}

/// A slice whose length is any, up to a few more words than are used.
fn any_length<T: Copy>(random: &mut Random, words: &[T], more: T) -> Vec<T> {
    let mut slice = words.to_vec();
    slice.resize(random.below(words.len() + 4), more);
    slice
}

/// Settings words, of which yes may be any but 0.
fn random_settings(random: &mut Random) -> Vec<u16> {
    let mut words = settings_words(&random.settings());
    for place in (1..2).chain(3..words.len()) {
        if words[place] != 0 {
            words[place] = random.pick(&[1, 1, 2, 0x0100, 0xFFFF]);
        }
    }
    any_length(random, &words, 0xEEEE)
}

#[test]
fn slices_of_any_length_for_a_message() {
    let mut random = Random::new(1);
    for _ in 0..20_000 {
        let settings = random_settings(&mut random);
        let address = settings.first().copied().unwrap_or(0);
        let record = random.record(address);
        let bytes = any_length(&mut random, &write_record(&record).unwrap(), 0);
        let value = any_length(&mut random, &value_words(&record), 0xEEEE);
        let remembered = any_length(&mut random, &[0x1234, 0x5678], 0xEEEE);
        let answer = any_length(&mut random, &[0xEEEE; 9], 0xEEEE);

        let mut left = (example_ram(), [0xEEEE; 33], remembered, answer);
        let mut right = left.clone();
        let (ram, reply, remembered, answer) = &mut left;
        let plain = [
            plain::message(ram, reply, &settings, remembered, &bytes, answer),
            plain::message_value(ram, reply, &settings, remembered, &value, answer),
        ];
        let (ram, reply, remembered, answer) = &mut right;
        let proved = [
            proved::message(ram, reply, &settings, remembered, &bytes, answer),
            proved::message_value(ram, reply, &settings, remembered, &value, answer),
        ];
        assert_eq!((plain, left), (proved, right));
    }
}

#[test]
fn slices_of_any_length_for_the_rest() {
    let mut random = Random::new(2);
    for _ in 0..5_000 {
        let settings = random_settings(&mut random);
        let ram = example_ram();
        assert_eq!(
            plain::check_area(&ram, &settings),
            proved::check_area(&ram, &settings)
        );

        let record = random.record(5);
        let bytes = any_length(&mut random, &write_record(&record).unwrap(), 0);
        let mut left = any_length(&mut random, &[0xEEEE; VALUE_WORDS], 0xEEEE);
        let mut right = left.clone();
        assert_eq!(
            plain::read(&bytes, &mut left),
            proved::read(&bytes, &mut right)
        );
        assert_eq!(left, right);

        let value = any_length(&mut random, &value_words(&record), 0xEEEE);
        let mut left = any_length(&mut random, &[0xEE; 80], 0xEE);
        let mut right = left.clone();
        assert_eq!(
            plain::write(&value, &mut left),
            proved::write(&value, &mut right)
        );
        assert_eq!(left, right);
    }
}

#[test]
fn edges_of_both_cards() {
    card::run_all(&Proved);
}
