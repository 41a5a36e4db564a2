//! The edges of both cards: the same image can be sound on one and unsound on
//! the other. The same file is run on the proved terminal.

use plain_terminal::compare::case::{ask, Message, Request, State};
use plain_terminal::compare::{Plain, Side};
use plain_terminal::terminal::cells::{LARGE_RAM_WORDS, RAM_WORDS};
use plain_terminal::terminal::message::REPLY_WORDS;
use plain_terminal::terminal::{Answer, Planted, Record, Settings};

const CARDS: [usize; 2] = [RAM_WORDS, LARGE_RAM_WORDS];

/// A terminal on a card, with some words of RAM.
struct Card {
    state: State,
    settings: Settings,
}

impl Card {
    fn new(ram_words: usize, words: &[(usize, u16)]) -> Card {
        let mut state = State::of_card(ram_words);
        for &(place, word) in words {
            state.ram[place] = word;
        }
        Card {
            state,
            settings: Settings::TRACE,
        }
    }

    /// A receive of as many words as the command asks for, each its place.
    fn receive(&mut self, side: &impl Side, command: u16, first: u16) -> Answer {
        let mut record = Record {
            command,
            count: (command + 31) % 32 + 1,
            ..Record::default()
        };
        let held = usize::from(record.count);
        for (word, place) in record.words[..held].iter_mut().zip(first..) {
            *word = place;
        }
        let request = Request {
            settings: self.settings,
            ram_words: self.state.card_words(),
            reply_words: REPLY_WORDS,
            message: Message::Value(record),
            checks_area: false,
        };
        ask(side, &mut self.state, &request).answer
    }
}

/// The numbers of a message to a cell, on the small card and on the other.
fn cell(side: &impl Side, control: u16, pointer: u16) -> [u16; 2] {
    CARDS.map(|words| {
        let image = [(0x0143, pointer), (0x01A3, control)];
        let answer = Card::new(words, &image).receive(side, 0x2864, 1);
        answer.number
    })
}

/// The same with another stack.
fn stack(side: &impl Side, size: u16, pointer: u16) -> [u16; 2] {
    CARDS.map(|words| {
        let mut card = Card::new(words, &[(0x0100, pointer), (0x0143, 0x0400)]);
        card.settings.stack_size = size;
        card.receive(side, 0x2864, 1).number
    })
}

fn lengths(side: &impl Side) {
    let none = [0, 4095, 4097, 12_288, 65_535, 65_537];
    for (words, number) in none
        .map(|it| (it, 1))
        .into_iter()
        .chain([(4096, 0), (65_536, 0)])
    {
        let mut ram = vec![0; words];
        if let Some(pointer) = ram.get_mut(0x0143) {
            *pointer = 0x0400;
        }
        let mut reply = [0; REPLY_WORDS];
        let record = Record {
            command: 0x2861,
            count: 1,
            ..Record::default()
        };
        let message = plain_terminal::terminal::MessageRef::Value(&record);
        let settings = Settings::TRACE;
        let told = side.carry_out(
            &mut ram,
            &mut reply,
            &settings,
            &mut [0; 2],
            message,
            &mut [],
        );
        assert_eq!(told, number, "{words}");
        let area = side.check_area(&ram, &settings).0;
        assert_eq!(area == 1, number == 1, "{words}");
    }
}

fn single_windows(side: &impl Side) {
    let told = [0x0FE0, 0x0FE1, 0x0FFF, 0x1000, 0x2FE0, 0xFFE0, 0xFFE1].map(|it| cell(side, 0, it));
    assert_eq!(
        told,
        [[0, 0], [9, 0], [9, 0], [9, 0], [9, 0], [9, 0], [9, 9]]
    );
}

fn stacks(side: &impl Side) {
    for (size, pointer, numbers) in [
        (256, 0x0FFC, [0, 0]),
        (256, 0x1000, [8, 0]),
        (256, 0xFFFC, [8, 0]),
        (256, 0xFFFD, [8, 8]),
        (256, 0xFFFE, [8, 8]),
        (2048, 0x0FFC, [0, 0]),
        (2048, 0xF800, [8, 0]),
        (2048, 0xFFFC, [8, 0]),
    ] {
        assert_eq!(stack(side, size, pointer), numbers, "{size} {pointer:04X}");
    }
}

/// The first and the last place, and one too low.
fn large_circles(side: &impl Side) {
    for (control, pointer, number) in [
        (0x00C0, 0x0FFF, 9),
        (0x00C0, 0x1000, 0),
        (0x00C0, 0x1FFF, 0),
        (0x00C0, 0xF000, 0),
        (0x00C0, 0xFFFF, 0),
        (0x00E0, 0x1FFF, 9),
        (0x00E0, 0x2000, 0),
        (0x00E0, 0x3FFF, 0),
        (0x00E0, 0xE000, 0),
        (0x00E0, 0xFFFF, 0),
    ] {
        let told = cell(side, control, pointer);
        assert_eq!(told, [9, number], "{control:04X} {pointer:04X}");
    }
}

/// The makers' downloads: so many messages of 32 words fill a circle, and the
/// last alone rolls over.
fn downloads(side: &impl Side) {
    for (control, messages) in [(0x01C0, 128), (0x01E0, 256)] {
        let mut card = Card::new(LARGE_RAM_WORDS, &[(0x0143, 0x2000), (0x01A3, control)]);
        for message in 1..=messages {
            let pointer = 0x2000 + 32 * (message - 1);
            let answer = card.receive(side, 0x2860, pointer);
            let is_last = message == messages;
            assert_eq!(answer.pointer_before, pointer);
            let after = if is_last { 0x2000 } else { pointer + 32 };
            assert_eq!(answer.pointer_after, after);
            assert_eq!(answer.block_status, if is_last { 0x8080 } else { 0x8000 });
            // The stack of 256 words wraps after 64 messages.
            assert_eq!(answer.interrupt & 0x0400 != 0, is_last);
        }
        let circle = 0x2000..0x2000 + 32 * messages;
        for address in circle {
            assert_eq!(card.state.ram[usize::from(address)], address);
        }
        assert_eq!(card.state.ram[usize::from(0x2000 + 32 * messages)], 0);
    }
}

/// A window that ends with RAM: its last words, and the first behind its end.
fn over_the_end(side: &impl Side) {
    let mut card = Card::new(LARGE_RAM_WORDS, &[(0x0143, 0xFFFE), (0x01A3, 0x01C0)]);
    let guards = card.state.ram[LARGE_RAM_WORDS..].to_vec();
    let answer = card.receive(side, 0x2864, 0xA000);
    assert_eq!(
        [answer.number, answer.block_status, answer.pointer_after],
        [0, 0x8080, 0xF002]
    );
    assert_eq!(card.state.ram[0xFFFE..LARGE_RAM_WORDS], [0xA000, 0xA001]);
    assert_eq!(card.state.ram[0xF000..0xF003], [0xA002, 0xA003, 0]);
    assert_eq!(card.state.ram[LARGE_RAM_WORDS..], guards);
}

/// The last entry of the stack, at the end of RAM.
fn last_entry(side: &impl Side) {
    let image = [(0x0100, 0xFFFC), (0x0143, 0x1FFE), (0x01A3, 0x00C0)];
    let mut card = Card::new(LARGE_RAM_WORDS, &image);
    let answer = card.receive(side, 0x2864, 1);
    assert_eq!([answer.number, answer.interrupt], [0, 0x0043]);
    assert_eq!(
        card.state.ram[0xFFFC..LARGE_RAM_WORDS],
        [0x8080, 0, 0x1FFE, 0x2864]
    );
    assert_eq!(card.state.ram[0x0100], 0xFF00);
}

pub fn run_all(side: &impl Side) {
    lengths(side);
    single_windows(side);
    stacks(side);
    large_circles(side);
    downloads(side);
    over_the_end(side);
    last_entry(side);
}

#[test]
fn edges_of_both_cards() {
    run_all(&Plain(Planted::None));
}
