//! Who put this word here.

use std::panic::catch_unwind;

use plain_terminal::compare::origins::compare;
use plain_terminal::compare::origins::coverage::Coverage;
use plain_terminal::compare::origins::sides::{ERRORS, PLAIN};
use plain_terminal::terminal::boundary::origin_of;
use plain_terminal::terminal::trace::{image_words, IMAGE_BYTES};
use plain_terminal::terminal::who::{who, Origin, Walk};
use plain_terminal::terminal::writes::Part;
use plain_terminal::terminal::{write_record, Settings};
use plain_terminal::text::pack;

use crate::helpers::Random;
use crate::rules::random_terminal;

const RT5: Settings = Settings::TRACE;

fn asked(text: &str, address: u16) -> Option<Origin> {
    let input = pack(text.as_bytes()).unwrap();
    let (image, trace) = input.split_at(IMAGE_BYTES);
    who(&image_words(image), &RT5, trace, address).unwrap()
}

fn origin(record: u64, cell: u16, part: Part) -> Option<Origin> {
    Some(Origin { record, cell, part })
}

const WORKED: &str = "ram 0143 047E\nram 01A3 0120\nram 0163 0500\n\
    message 2864 words 1111 2222 3333 4444\n\
    message 3064 words 1111 2222 3333 4444\n\
    message 2C62\n";

#[test]
fn each_kind_of_write() {
    let data = |place| origin(1, 3, Part::Data(place));
    assert_eq!(asked(WORKED, 0x047E), data(1));
    assert_eq!(asked(WORKED, 0x047F), data(2));
    assert_eq!(asked(WORKED, 0x0400), data(3));
    assert_eq!(asked(WORKED, 0x0401), data(4));
    assert_eq!(asked(WORKED, 0x0402), None);
    assert_eq!(asked(WORKED, 0x0143), origin(1, 3, Part::Pointer));
    // A transmit from one block moves no pointer.
    assert_eq!(asked(WORKED, 0x0163), None);
    for (address, place) in (0..4).zip(1..) {
        assert_eq!(asked(WORKED, address), origin(1, 3, Part::Stack(place)));
        assert_eq!(
            asked(WORKED, address + 4),
            origin(3, 35, Part::Stack(place))
        );
    }
    assert_eq!(asked(WORKED, 8), None);
    assert_eq!(asked(WORKED, 0x0100), origin(3, 35, Part::StackPointer));
}

/// The header's words are read as it has them, and others not at all.
#[test]
fn words_that_no_call_gives() {
    let read = |number, last, part: [u16; 3]| origin_of(number, &[last], &part);
    assert_eq!(read(0, 0, [0, 0, 0]), Ok(None));
    assert_eq!(read(12, 0, [0, 0, 0]), Err(12));
    assert_eq!(read(0, 7, [1, 67, 32]), Ok(origin(7, 67, Part::Data(32))));
    assert_eq!(read(0, 7, [2, 3, 0]), Ok(origin(7, 3, Part::Pointer)));
    assert_eq!(read(0, 7, [3, 3, 4]), Ok(origin(7, 3, Part::Stack(4))));
    assert_eq!(read(0, 7, [4, 3, 0]), Ok(origin(7, 3, Part::StackPointer)));
    for (number, last, part) in [
        (0, 7, [5, 3, 0]),
        (0, 7, [0, 3, 0]),
        (0, 7, [0, 0, 0]),
        (0, 0, [1, 3, 1]),
        (0, 0, [0, 3, 0]),
        (0, 7, [1, 3, 0]),
        (0, 7, [1, 3, 33]),
        (0, 7, [2, 3, 1]),
        (0, 7, [3, 3, 5]),
        (0, 7, [4, 3, 1]),
        (12, 7, [0, 0, 0]),
        (12, 0, [0, 0, 1]),
    ] {
        let odd = catch_unwind(|| read(number, last, part));
        assert!(odd.is_err(), "{number} {last} {part:?}");
    }
}

/// The same word again is a write, and the later record has it.
#[test]
fn the_last_write_counts_though_nothing_changes() {
    let text = "ram 0143 0480\nmessage 2861 words 7777\nmessage 2861 words 7777\n\
        message 2861 words 8888 tag 1\nmessage 2861 flags sync\n";
    assert_eq!(asked(text, 0x0480), origin(3, 3, Part::Data(1)));
    let again = text.replace("8888", "7777");
    assert_eq!(asked(&again, 0x0480), origin(3, 3, Part::Data(1)));
}

/// A pointer that is kept back, or moves on by no word, is not written.
#[test]
fn pointers_that_stay_are_not_written() {
    let text = "ram 0143 0480\nram 01A3 0120\nmessage 2862 words 1\n";
    assert_eq!(asked(text, 0x0143), None);
    assert_eq!(asked(text, 0x0480), origin(1, 3, Part::Data(1)));
}

#[test]
fn a_tail_is_no_record_and_refused_records_write_nothing() {
    let text = format!("{WORKED}raw 01 02\n");
    assert_eq!(asked(&text, 0x0100), origin(3, 35, Part::StackPointer));
    let unsound = "ram 0100 0200\nmessage 2864 words 1 2 3 4\n";
    for address in [0x0000, 0x0100, 0x0200, 0x0480] {
        assert_eq!(asked(unsound, address), None);
    }
}

#[test]
fn refusals_in_their_order() {
    let image = vec![0; 4096];
    let wrong = Settings {
        stack_size: 0,
        ..RT5
    };
    assert_eq!(who(&image[1..], &wrong, &[], 0x1000), Err(1));
    assert_eq!(who(&image, &wrong, &[], 0x1000), Err(3));
    assert_eq!(who(&image, &RT5, &[], 0x1000), Err(12));
    assert_eq!(who(&image, &RT5, &[], 0x0FFF), Ok(None));
    let large = vec![0; 65_536];
    assert_eq!(who(&large[1..], &RT5, &[], 0x1000), Err(1));
    assert_eq!(who(&large, &RT5, &[], 0xFFFF), Ok(None));
}

/// The list of writes, carried out, is what the message does: RAM is the same
/// after every record. And each origin names the word that it wrote.
#[test]
fn random_traces() {
    let mut random = Random::new(5);
    for _ in 0..200 {
        let mut terminal = random_terminal(&mut random);
        let image = terminal.ram.clone();
        let mut walk = Walk::new(&image, &terminal.settings).unwrap();
        let mut written = image.clone();
        for record in 1..=40 {
            let value = random.record(terminal.settings.address);
            let bytes = write_record(&value).unwrap();
            walk.record(&bytes);
            terminal.run_bytes(&bytes);
            assert_eq!(walk.ram(), &terminal.ram[..]);
            assert_eq!(walk.records(), record);
            for address in 0..0x1000 {
                let origin = walk.who(address).unwrap();
                if origin.map_or(false, |origin| origin.record == record) {
                    written[usize::from(address)] = walk.ram()[usize::from(address)];
                }
            }
            // What nobody wrote is as it was.
            assert_eq!(written, terminal.ram);
        }
    }
}

/// Each error that can be planted in this side shows on random traces.
#[test]
fn planted_errors_of_origins_show() {
    for (name, wrong) in ERRORS {
        let mut coverage = Coverage::default();
        let found = compare(&PLAIN, &wrong, 1, 600, &mut coverage);
        assert!(found.is_some(), "{name} does not show");
    }
}
