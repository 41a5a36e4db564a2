//! The numbers that refuse: both sides of each, their order, and that a
//! refusal leaves everything as it was.

use plain_terminal::terminal::{write_record, Answer, Record, Remembered, Settings};

use crate::helpers::{good, Random, Terminal};

/// Everything a message is given, ready to be spoiled.
#[derive(Clone)]
struct Given {
    terminal: Terminal,
    bytes: Vec<u8>,
}

impl Given {
    /// A message that is accepted.
    fn sound() -> Given {
        let mut terminal = Terminal::with_circle(0x047E);
        terminal.remembered = Remembered {
            command: 0x1234,
            status: 0x5678,
        };
        Given {
            terminal,
            bytes: write_record(&good(0x2864)).unwrap().to_vec(),
        }
    }

    /// The number, after making sure that a refusal changes nothing.
    fn number(&self) -> u16 {
        let mut after = self.terminal.clone();
        let answer = after.run_bytes(&self.bytes);
        if answer.number != 0 {
            let refused = Answer {
                number: answer.number,
                ..Answer::default()
            };
            assert_eq!(answer, refused);
            assert_eq!(after, self.terminal);
        }
        answer.number
    }
}

/// For each number from 1 on, one way to bring it about.
const SPOILERS: [fn(&mut Given); 9] = [
    |given| given.terminal.ram.push(0),
    |given| given.terminal.reply.truncate(32),
    |given| given.terminal.settings.stack_size = 300,
    |given| given.bytes.truncate(79),
    |given| given.bytes[2] = 1,
    |given| given.bytes[0] = given.bytes[0] & 0x07 | 6 << 3,
    |given| {
        given.bytes[0] &= 0xFC;
        given.bytes[1] &= 0x1F;
    },
    |given| given.terminal.ram[0x0100] = 0x0200,
    |given| given.terminal.ram[0x0143] = 0x0300,
];

#[test]
fn each_number_alone() {
    assert_eq!(Given::sound().number(), 0);
    for (index, spoil) in SPOILERS.into_iter().enumerate() {
        let mut given = Given::sound();
        spoil(&mut given);
        assert_eq!(given.number(), index as u16 + 1);
    }
}

#[test]
fn the_lower_number_comes_first() {
    for (lower, spoil_lower) in SPOILERS.into_iter().enumerate() {
        for spoil_higher in SPOILERS.into_iter().skip(lower + 1) {
            let mut given = Given::sound();
            spoil_higher(&mut given);
            spoil_lower(&mut given);
            assert_eq!(given.number(), lower as u16 + 1);
        }
    }
}

#[test]
fn all_at_once_and_mended_one_by_one() {
    for mended in 0..=SPOILERS.len() {
        let mut given = Given::sound();
        for spoil in SPOILERS.into_iter().skip(mended) {
            spoil(&mut given);
        }
        let expected = (mended + 1) % (SPOILERS.len() + 1);
        assert_eq!(given.number(), expected as u16);
    }
}

#[test]
fn ram_length() {
    for (length, number) in [(0, 1), (4095, 1), (4096, 0), (4097, 1), (65536, 0)] {
        let mut given = Given::sound();
        given.terminal.ram.resize(length, 0);
        assert_eq!(given.number(), number, "{length}");
    }
}

#[test]
fn reply_length() {
    for (length, number) in [(0, 2), (32, 2), (33, 0), (34, 0), (1000, 0)] {
        let mut given = Given::sound();
        given.terminal.reply.resize(length, 0);
        assert_eq!(given.number(), number, "{length}");
    }
}

#[test]
fn rt_address() {
    for (address, number) in [(5, 0), (30, 6), (31, 3), (32, 3), (0xFFFF, 3)] {
        let mut given = Given::sound();
        given.terminal.settings.address = address;
        assert_eq!(given.number(), number, "{address}");
    }
}

#[test]
fn stack_size() {
    for (size, number) in [
        (0, 3),
        (128, 3),
        (255, 3),
        (256, 0),
        (257, 3),
        (512, 0),
        (768, 3),
        (1024, 0),
        (2048, 0),
        (4096, 3),
        (0xFFFF, 3),
    ] {
        let mut given = Given::sound();
        given.terminal.settings.stack_size = size;
        given.terminal.ram[0x0100] = 0x0800;
        assert_eq!(given.number(), number, "{size}");
    }
    let accepted = (0..=u16::MAX).filter(|&stack_size| {
        let settings = Settings {
            stack_size,
            ..Settings::TRACE
        };
        settings.check().is_ok()
    });
    assert_eq!(accepted.collect::<Vec<_>>(), [256, 512, 1024, 2048]);
}

#[test]
fn record_length() {
    for (length, number) in [(0, 4), (79, 4), (80, 0), (81, 4), (160, 4)] {
        let mut given = Given::sound();
        given.bytes.resize(length, 0);
        assert_eq!(given.number(), number, "{length}");
    }
}

#[test]
fn record_layout() {
    for (place, value, number) in [
        (2, 1, 5),
        (3, 1, 5),
        (6, 7, 0),
        (6, 8, 0),
        (6, 15, 0),
        (6, 16, 5),
        (6, 24, 5),
        (6, 0x80, 5),
        (6, 0x88, 5),
        (7, 3, 5),
        (7, 33, 0),
        (7, 34, 5),
        (8, 1, 5),
        (15, 1, 5),
        (16, 1, 0),
        (23, 1, 0),
        (24, 1, 5),
        (79, 1, 5),
    ] {
        let mut given = Given::sound();
        given.bytes[place] = value;
        assert_eq!(given.number(), number, "byte {place} = {value}");
    }
}

#[test]
fn record_values_are_tested_for_their_layout_too() {
    let run = |change: fn(&mut Record)| {
        let mut record = good(0x2864);
        change(&mut record);
        let mut terminal = Terminal::with_circle(0x047E);
        let before = terminal.clone();
        let answer = terminal.run_value(&record);
        assert_eq!(terminal == before, answer.number != 0);
        answer.number
    };
    assert_eq!(run(|_| ()), 0);
    assert_eq!(run(|r| r.flags = 8), 0);
    assert_eq!(run(|r| r.flags = 16), 5);
    assert_eq!(run(|r| r.flags = 24), 5);
    assert_eq!(run(|r| (r.flags, r.command) = (8, 0x2C64)), 5);
    assert_eq!(run(|r| r.transmit_command = 0x1443), 5);
    assert_eq!(run(|r| r.flags = 0x0100), 5);
    assert_eq!(run(|r| r.count = 33), 0);
    assert_eq!(run(|r| r.count = 34), 5);
    assert_eq!(run(|r| r.count = 3), 5);
    assert_eq!(run(|r| r.words[4] = 1), 5);
    // 5 comes before 6.
    assert_eq!(run(|r| (r.count, r.command) = (34, 0x3064)), 5);
}

#[test]
fn record_values_come_after_what_is_lent() {
    let broken = Record {
        count: 34,
        ..good(0x2864)
    };
    let mut terminal = Terminal::with_circle(0x047E);
    assert_eq!(terminal.run_value(&broken).number, 5);
    terminal.settings.address = 31;
    assert_eq!(terminal.run_value(&broken).number, 3);
    terminal.reply.truncate(32);
    assert_eq!(terminal.run_value(&broken).number, 2);
    terminal.ram.truncate(4095);
    assert_eq!(terminal.run_value(&broken).number, 1);
}

#[test]
fn other_addresses() {
    for address in 0..=31 {
        let mut terminal = Terminal::with_circle(0x047E);
        let answer = terminal.run(&good(address << 11 | 0x0064));
        let expected = if matches!(address, 5 | 31) { 0 } else { 6 };
        assert_eq!(answer.number, expected, "RT {address}");
    }
}

#[test]
fn subaddresses() {
    for sub in 0..=31 {
        for transmit in [0x0000, 0x0400] {
            let mut terminal = Terminal::new(Settings::TRACE, &[]);
            terminal.ram[0x0140..0x01A0].fill(0x0400);
            let answer = terminal.run(&good(0x2804 | transmit | sub << 5));
            let expected = if matches!(sub, 0 | 31) { 7 } else { 0 };
            assert_eq!(answer.number, expected, "SA {sub}");
        }
    }
}

#[test]
fn address_before_subaddress() {
    let mut terminal = Terminal::with_circle(0x047E);
    assert_eq!(terminal.run(&good(0x3000)).number, 6);
    assert_eq!(terminal.run(&good(0x2800)).number, 7);
    assert_eq!(terminal.run(&good(0xF800)).number, 7);
}

#[test]
fn stack_and_cell() {
    let number = |stack: u16, pointer: u16, control: u16| {
        let image = [(0x0100, stack), (0x0143, pointer), (0x01A3, control)];
        Terminal::new(Settings::TRACE, &image)
            .run(&good(0x2864))
            .number
    };
    assert_eq!(number(0x0000, 0x0FE0, 0), 0);
    assert_eq!(number(0x0000, 0x0FE1, 0), 9);
    assert_eq!(number(0x0200, 0x0FE0, 0), 8);
    assert_eq!(number(0x0200, 0x0FE1, 0), 8);
    assert_eq!(number(0x0002, 0x0FE0, 0), 8);
    assert_eq!(number(0x0400, 0x0400, 0), 9);
    assert_eq!(number(0x0400, 0x0500, 0), 0);
    assert_eq!(number(0x0000, 0x0420, 0x8000), 0);
    assert_eq!(number(0x0000, 0x0421, 0x8000), 9);
}

#[test]
fn only_the_messages_own_cell_is_tested() {
    let mut terminal = Terminal::with_circle(0x047E);
    assert_eq!(terminal.ram[0x0163], 0x0000);
    assert_eq!(terminal.run(&good(0x2C64)).number, 9);
    assert_eq!(terminal.run(&good(0x2864)).number, 0);
    // A message that would move no word is tested all the same.
    terminal.settings.busy_always = true;
    assert_eq!(terminal.run(&good(0x2C64)).number, 9);
    // Broadcast without separation goes to the receive cell.
    assert_eq!(terminal.run(&good(0xF864)).number, 0);
    terminal.settings.separate_broadcast = true;
    assert_eq!(terminal.run(&good(0xF864)).number, 9);
}

#[test]
fn no_other_case_is_refused() {
    let mut random = Random::new(5);
    for _ in 0..5_000 {
        let mut terminal = Terminal::new(random.settings(), &[]);
        terminal.ram[0x0100] = 0x0800;
        terminal.ram[0x0104] = 0x0800;
        terminal.ram[0x0140..0x01A0].fill(0x0400);
        terminal.ram[0x01C0..0x0220].fill(0x0400);
        for place in (0x0240..0x0248).chain(0x0300..0x0400) {
            terminal.ram[place] = random.word();
        }
        let record = random.record(terminal.settings.address);
        let address = record.command >> 11;
        let sub = record.command >> 5 & 31;
        let broadcast = terminal.settings.broadcast && address == 31;
        let expected = if address != terminal.settings.address && !broadcast {
            6
        } else if sub == 0 || sub == 31 {
            7
        } else {
            0
        };
        assert_eq!(terminal.run(&record).number, expected);
    }
}
