//! The labels of the proved terminal.

use plain_terminal::compare::labels::coverage::Coverage;
use plain_terminal::compare::labels::draw::Asked;
use plain_terminal::compare::labels::sides::{ERRORS, PLAIN, PROVED};
use plain_terminal::compare::labels::{compare, shrink};
use plain_terminal::engine::boundary as proved;
use plain_terminal::engine::{label_area, label_cell};
use plain_terminal::random::Random;
use plain_terminal::terminal::boundary as plain;
use plain_terminal::terminal::boundary::{COUNTS_WORDS, LISTING_WORDS, PAIRS_WORDS, UNSOUND_WORDS};
use plain_terminal::terminal::label;
use plain_terminal::terminal::trace::image_words;
use plain_terminal::terminal::Settings;
use plain_terminal::text::pack;

use crate::{any_length, random_settings};

const MAKERS: &[u8] = include_bytes!("../../../examples/makers.txt");
const SEPARATE: Settings = Settings {
    separate_broadcast: true,
    ..Settings::TRACE
};

#[test]
fn a_short_comparison_finds_nothing() {
    let mut coverage = Coverage::default();
    assert_eq!(compare(&PLAIN, &PROVED, 9_000_000, 50, &mut coverage), None);
}

/// The comparison can fail: each planted error is caught, and in an image that
/// a person can read.
#[test]
fn every_planted_error_is_caught() {
    for (name, plain) in ERRORS {
        let seed = compare(&plain, &PROVED, 1, 100, &mut Coverage::default());
        let asked = Asked::draw(seed.expect(name));
        let smallest = shrink(&plain, &PROVED, &asked);
        let words = smallest.ram[..4096].iter().filter(|&&word| word != 0);
        assert!(words.count() <= 4, "{name}");
    }
}

/// The makers' programming example: 82 unused cells point to one block, and
/// four cells meet in the block of subaddress 30, by mistake one of them.
#[test]
fn the_makers_example() {
    let packed = pack(MAKERS).expect("the sample is a text");
    let ram = image_words(&packed[..8192]);
    let label = label_area(&ram, &SEPARATE).unwrap();
    assert_eq!(label.unsound, []);
    assert_eq!(label.pairs.len(), 82 * 81 / 2 + 6);
    let used = [7, 19, 30, 33, 62, 71, 83, 94];
    let of_used = |(lower, _): &&(u16, u16)| used.contains(lower);
    let pairs: Vec<_> = label.pairs.iter().filter(of_used).copied().collect();
    let meeting = [(30, 62), (30, 83), (30, 94), (62, 83), (62, 94), (83, 94)];
    assert_eq!(pairs, meeting);
    assert_eq!(label::label_area(&ram, &SEPARATE), Ok(label));

    // 27 receive cells and 28 transmit cells are not in use.
    let together = label_area(&ram, &Settings::TRACE).unwrap();
    assert_eq!(together.pairs.len(), 55 * 54 / 2 + 1);
    for cell in 0..=97 {
        let plain = label::label_cell(&ram, &SEPARATE, cell);
        assert_eq!(label_cell(&ram, &SEPARATE, cell), plain, "cell {cell}");
    }
}

/// "If there are several unused subaddresses for an RT, it is recommended that
/// the Lookup Table pointers for these be initialized to the same value."
#[test]
fn unused_subaddresses_on_one_block() {
    let mut ram = vec![0; 4096];
    ram[0x0140..0x01A0].fill(0x0400);
    let label = label_area(&ram, &SEPARATE).unwrap();
    assert_eq!((label.unsound.len(), label.pairs.len()), (0, PAIRS_WORDS));
    let listing = label_cell(&ram, &SEPARATE, 30).unwrap();
    assert_eq!(listing.len(), 89);
    let able = listing.iter().filter(|sharer| sharer.writes).count();
    assert_eq!(able, 59);

    // Of these, 5 to 7 get words of their own; they leave the others' listings.
    for (subaddress, pointer) in (5..=7).zip((0x0500..).step_by(32)) {
        for table in [0x0140, 0x0160, 0x0180] {
            ram[table + subaddress] = pointer;
        }
    }
    let label = label_area(&ram, &SEPARATE).unwrap();
    assert_eq!(label.pairs.len(), 81 * 80 / 2 + 3 * 3);

    // Subaddresses 0 and 31 "generally get loaded with the same pointer value":
    // they are mode commands', and no label speaks of them.
    for cell in [0, 31, 32, 63, 64, 95] {
        assert_eq!(label_cell(&ram, &SEPARATE, cell), Err(9));
    }
}

#[test]
fn slices_of_any_length() {
    let mut random = Random::new(3);
    for seed in 0..2_000 {
        let ram = Asked::draw(seed).ram;
        let ram = &ram[..4096];
        let settings = random_settings(&mut random);
        let cell = random.below(98) as u16;
        let mut room = |words: usize| any_length(&mut random, &vec![0xEEEE; words], 0xEEEE);

        let mut left = room(LISTING_WORDS);
        let mut right = left.clone();
        assert_eq!(
            plain::label_cell(ram, &settings, cell, &mut left),
            proved::label_cell(ram, &settings, cell, &mut right)
        );
        assert_eq!(left, right);

        let mut left = [COUNTS_WORDS, UNSOUND_WORDS, PAIRS_WORDS].map(&mut room);
        let mut right = left.clone();
        let [counts, unsound, pairs] = &mut left;
        let plain = plain::label_area(ram, &settings, counts, unsound, pairs);
        let [counts, unsound, pairs] = &mut right;
        let proved = proved::label_area(ram, &settings, counts, unsound, pairs);
        assert_eq!((plain, left), (proved, right));
    }
}
