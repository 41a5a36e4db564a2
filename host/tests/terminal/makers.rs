//! Worked examples from the makers' guides, each in the terms of the scope
//! document.

use plain_terminal::terminal::cells::{Cell, Kind, Scheme};
use plain_terminal::terminal::records::{
    FLAG_BUS_B, FLAG_GAP, FLAG_INVALID_WORD, FLAG_NO_STATUS, FLAG_SECOND, FLAG_TRANSFER,
    FLAG_WRONG_SYNC,
};
use plain_terminal::terminal::tables::{busy_place, illegal_place, BitPlace};
use plain_terminal::terminal::words::Command;
use plain_terminal::terminal::{check_area, trace_output, write_record, Record, Settings};

use crate::helpers::{good, heard, numbered_words, record, Terminal, UNTOUCHED};
use crate::trace::image;

const RT5: Settings = Settings::TRACE;

fn rt(address: u16) -> Settings {
    Settings { address, ..RT5 }
}

fn fields(command: u16) -> (u16, bool, u16, u16) {
    let command = Command(command);
    (
        command.address(),
        command.is_transmit(),
        command.subaddress(),
        command.word_count(),
    )
}

/// Commands as the makers read them.
#[test]
fn command_words() {
    assert_eq!(fields(0x0C22), (1, true, 1, 2));
    assert_eq!(fields(0x0842), (1, false, 2, 2));
    assert_eq!(fields(0x0824), (1, false, 1, 4));
    assert_eq!(fields(0x1863), (3, false, 3, 3));
    assert_eq!(fields(0x1443), (2, true, 2, 3));
    assert_eq!(fields(0x282A), (5, false, 1, 10));
    assert_eq!(fields(0x3020), (6, false, 1, 32));
    assert_eq!(fields(0x4485), (8, true, 4, 5));
    assert_eq!(fields(0x3C40), (7, true, 2, 32));
}

#[test]
fn cell_of_a_transmit() {
    let mut terminal = Terminal::new(rt(1), &[(0x0161, 0x0400)]);
    assert_eq!(terminal.run(&good(0x0C22)).cell, 33);
}

#[test]
fn two_words_of_zero() {
    let mut terminal = Terminal::new(rt(1), &[(0x0142, 0x0400)]);
    let message = record(0x0842, &[0, 0]);
    assert_eq!(terminal.columns(&message), "8000 0400 0400 0800 0 0003");
    assert_eq!(terminal.remembered.command, 0x0842);
}

#[test]
fn four_words() {
    let words = [0x1111, 0x2222, 0x3333, 0x4444];
    let mut terminal = Terminal::new(rt(1), &[(0x0141, 0x0400)]);
    assert_eq!(
        terminal.columns(&record(0x0824, &words)),
        "8000 0400 0400 0800 0 0003"
    );
    assert_eq!(terminal.ram[0x0400..0x0404], words);
    assert_eq!(terminal.ram[..4], [0x8000, 0x7A60, 0x0400, 0x0824]);
}

/// A transfer on bus B from terminal 2, subaddress 2, to terminal 3.
#[test]
fn three_words_from_another_terminal() {
    let mut terminal = Terminal::new(rt(3), &[(0x0143, 0x0400)]);
    let message = Record {
        transmit_command: 0x1443,
        flags: FLAG_BUS_B | FLAG_TRANSFER,
        ..record(0x1863, &[0x0001, 0x0002, 0x0003])
    };
    assert_eq!(terminal.columns(&message), "A800 0400 0400 1800 0 0003");
    assert_eq!(terminal.ram[0x0400..0x0404], [1, 2, 3, 0]);
    assert_eq!(terminal.ram[..4], [0xA800, 0x7A60, 0x0400, 0x1863]);
}

#[test]
fn mode_commands_are_refused() {
    let mut terminal = Terminal::new(rt(4), &[]);
    assert_eq!(terminal.columns(&record(0x2011, &[0xABCD])), "7");
}

#[test]
fn a_program_for_four_terminals() {
    let mut data: Vec<u16> = (0..16).map(|digit| 0x1111 * digit).collect();
    data.extend((0..16).map(|place| 1 << place));
    let mut input = image(&[(0x0141, 0x0400)]);
    let records = [
        record(0x282A, &data[..10]),
        record(0x3020, &data),
        record(0x4485, &[]),
        record(0x3C40, &[]),
    ];
    for record in &records {
        input.extend(write_record(record).unwrap());
    }
    let expected = "1 0 8000 0400 0400 2800 0 0003\n2 6\n3 6\n4 6\nend 4\n";
    assert_eq!(String::from_utf8(trace_output(&input)).unwrap(), expected);

    let mut terminal = Terminal::new(RT5, &[(0x0141, 0x0400)]);
    terminal.run(&records[0]);
    assert_eq!(terminal.ram[0x0400..0x040A], data[..10]);
    assert_eq!(terminal.ram[0x040A], 0);

    for (address, lookup, record, expected) in [
        (6, 0x0141, records[1], "8000 0400 0400 3000 0 0003"),
        (8, 0x0164, records[2], "8000 0400 0400 4000 5 0003"),
        (7, 0x0162, records[3], "8000 0400 0400 3800 32 0003"),
    ] {
        let mut terminal = Terminal::new(rt(address), &[(lookup, 0x0400)]);
        assert_eq!(terminal.columns(&record), expected);
    }
}

#[test]
fn illegal_bit_of_32_words() {
    let expected = BitPlace {
        word: 0x0386,
        bit: 0,
    };
    assert_eq!(illegal_place(&Settings::TRACE, Command(0x2860)), expected);
}

/// All status bits of the settings together.
#[test]
fn status_bits() {
    let mut terminal = Terminal::with_circle(0x0400);
    terminal.settings.service_request = true;
    terminal.settings.subsystem_flag = true;
    terminal.settings.terminal_flag = true;
    assert_eq!(terminal.run(&good(0x2864)).status, 0x2905);
}

fn cells_of(control: u16) -> [Cell; 3] {
    let terminal = Terminal::new(RT5, &[(0x01A3, control)]);
    [Kind::Receive, Kind::Transmit, Kind::Broadcast]
        .map(|kind| Cell::read(&terminal.ram, &RT5, kind, 3))
}

#[test]
fn control_words() {
    let [receive, transmit, broadcast] = cells_of(0x018C);
    assert_eq!(receive.scheme, Scheme::Circular(1024));
    assert_eq!(transmit.scheme, Scheme::Single);
    assert_eq!(broadcast.scheme, Scheme::Circular(1024));
    assert!(receive.circular_interrupt && broadcast.circular_interrupt);
    assert!(!receive.message_interrupt && !broadcast.message_interrupt);

    let [receive, transmit, broadcast] = cells_of(0x8210);
    assert_eq!(receive.scheme, Scheme::Double);
    assert_eq!(transmit.scheme, Scheme::Single);
    assert_eq!(broadcast.scheme, Scheme::Double);
    assert!(receive.message_interrupt && broadcast.message_interrupt);
    assert!(!transmit.message_interrupt);

    let cells = cells_of(0x4000);
    assert!(cells.iter().all(|cell| cell.scheme == Scheme::Single));
    assert!(cells[1].message_interrupt);
}

fn circle(pointer: u16, control: u16) -> Terminal {
    Terminal::new(RT5, &[(0x0143, pointer), (0x01A3, control)])
}

#[test]
fn rollover_at_the_top_of_256_words() {
    let mut fixed_area = circle(0x0190, 0x0140);
    let cell = Cell::read(&fixed_area.ram, &RT5, Kind::Receive, 3);
    assert_eq!(cell.window(), 0x0100..0x0200);
    assert_eq!(fixed_area.columns(&good(0x2860)), "9");

    let mut terminal = circle(0x0590, 0x0140);
    assert_eq!(
        terminal.columns(&good(0x2860)),
        "8000 0590 05B0 2800 0 0003"
    );
    assert_eq!(
        terminal.columns(&good(0x2860)),
        "8000 05B0 05D0 2800 0 0003"
    );
    assert_eq!(
        terminal.columns(&good(0x2860)),
        "8000 05D0 05F0 2800 0 0003"
    );
    let mut longer = terminal.clone();
    assert_eq!(
        terminal.columns(&good(0x2870)),
        "8080 05F0 0500 2800 0 0403"
    );

    assert_eq!(longer.columns(&good(0x2860)), "8080 05F0 0510 2800 0 0403");
    assert_eq!(longer.ram[0x05F0..0x0600], numbered_words(0xA000, 16));
    assert_eq!(longer.ram[0x0500..0x0510], numbered_words(0xA010, 16));
    assert_eq!(longer.ram[0x0600], 0);
}

#[test]
fn a_thousand_words() {
    let mut terminal = circle(0x0818, 0x0180);
    for _ in 0..30 {
        assert_eq!(terminal.run(&good(0x2860)).block_status, 0x8000);
    }
    assert_eq!(
        terminal.columns(&good(0x2860)),
        "8000 0BD8 0BF8 2800 0 0003"
    );
    assert_eq!(
        terminal.columns(&good(0x2868)),
        "8080 0BF8 0800 2800 0 0403"
    );

    let mut terminal = circle(0x0818, 0x0180);
    for _ in 0..39 {
        assert_eq!(terminal.run(&good(0x2879)).block_status, 0x8000);
    }
    let last = terminal.run(&good(0x2879));
    assert_eq!((last.block_status, last.pointer_after), (0x8080, 0x0800));
}

#[test]
fn failed_messages_are_simply_sent_again() {
    let mut terminal = circle(0x0818, 0x0180);
    for _ in 0..31 {
        assert_eq!(terminal.run(&heard(0x2860, 7, 0)).block_status, 0x9420);
        assert_eq!(terminal.run(&good(0x2860)).block_status, 0x8000);
    }
    assert_eq!(
        terminal.columns(&good(0x2868)),
        "8080 0BF8 0800 2800 0 0403"
    );
}

#[test]
fn messages_in_each_circle() {
    for (field, pointer, messages) in [
        (1, 0x0400, 4),
        (2, 0x0400, 8),
        (3, 0x0400, 16),
        (4, 0x0400, 32),
        (5, 0x0800, 64),
    ] {
        let mut terminal = circle(pointer, 0x0100 | field << 5);
        for number in 1..=messages {
            let answer = terminal.run(&good(0x2860));
            let last = number == messages;
            let expected = if last { pointer } else { pointer + 32 * number };
            assert_eq!(answer.pointer_after, expected);
            assert_eq!(answer.block_status, if last { 0x8080 } else { 0x8000 });
            assert_eq!(answer.interrupt & 0x0400 != 0, last);
        }
    }
}

#[test]
fn the_host_sends_a_block_again() {
    for control in [0x1000, 0x3000] {
        let mut terminal = Terminal::new(RT5, &[(0x0163, 0x0800), (0x01A3, control)]);
        let block = numbered_words(0x5000, 32);
        terminal.ram[0x0800..0x0820].copy_from_slice(&block);
        for _ in 0..2 {
            terminal.reply.fill(UNTOUCHED);
            let answer = terminal.run(&good(0x2C60));
            assert_eq!(answer.pointer_after, 0x0820);
            assert_eq!(answer.interrupt, 0x0003);
            assert_eq!(terminal.reply[1..33], block);
            terminal.ram[0x0163] = 0x0800;
        }
    }
}

#[test]
fn no_subaddress_reaches_a_lookup_word() {
    let mut terminal = Terminal::new(RT5, &[(0x0144, 0x0163), (0x0164, 0x0163)]);
    assert_eq!(terminal.columns(&good(0x2881)), "9");
    assert_eq!(terminal.columns(&good(0x2C81)), "9");
}

/// Pointers and control words of the subaddresses that RT 7 uses.
const RT7_CELLS: [(usize, u16); 11] = [
    (0x0147, 0x0800),
    (0x0153, 0x0440),
    (0x0161, 0x0400),
    (0x015E, 0x0480),
    (0x017E, 0x0480),
    (0x0187, 0x0C00),
    (0x0193, 0x04A0),
    (0x019E, 0x0480),
    (0x01A1, 0x4000),
    (0x01A7, 0x018C),
    (0x01B3, 0x8210),
];

/// RT 7's illegal table: from, to, and the word that stands there.
const RT7_ILLEGAL: [(usize, usize, u16); 22] = [
    (0x0300, 0x0300, 0xFFFF),
    (0x0301, 0x0301, 0xFFFD),
    (0x0302, 0x030D, 0xFFFF),
    (0x0310, 0x0325, 0xFFFF),
    (0x0328, 0x033B, 0xFFFF),
    (0x033E, 0x033E, 0xFFFF),
    (0x033F, 0x033F, 0xFFFD),
    (0x0340, 0x0340, 0xFE05),
    (0x0341, 0x0341, 0xFFFF),
    (0x037E, 0x037E, 0xFE05),
    (0x037F, 0x0380, 0xFFFF),
    (0x0381, 0x0381, 0xFFFD),
    (0x0382, 0x038D, 0xFFFF),
    (0x0390, 0x03A5, 0xFFFF),
    (0x03A8, 0x03BB, 0xFFFF),
    (0x03BE, 0x03BE, 0xFFFF),
    (0x03BF, 0x03BF, 0xFFFD),
    (0x03C0, 0x03C0, 0xFE00),
    (0x03C1, 0x03C1, 0xFFF2),
    (0x03C4, 0x03FB, 0xFFFF),
    (0x03FE, 0x03FE, 0xFE00),
    (0x03FF, 0x03FF, 0xFFF2),
];

/// RT 7, the makers' example of a complete terminal.
fn rt7() -> Terminal {
    let settings = Settings {
        address: 7,
        separate_broadcast: true,
        illegal_receive_disable: true,
        busy_receive_disable: true,
        ..RT5
    };
    let mut terminal = Terminal::new(settings, &[(0x0120, 0x1234)]);
    for table in [0x0140, 0x0160, 0x0180] {
        terminal.ram[table + 1..table + 31].fill(0x04E0);
    }
    for (address, word) in RT7_CELLS {
        terminal.ram[address] = word;
    }
    for (first, last, word) in RT7_ILLEGAL {
        terminal.ram[first..=last].fill(word);
    }
    terminal.ram[0x0400..0x0420].copy_from_slice(&numbered_words(0, 32));
    terminal
}

#[test]
fn the_area_is_sound() {
    let mut terminal = rt7();
    assert_eq!(check_area(&terminal.ram, &terminal.settings), (0, 0));
    terminal.settings.separate_broadcast = false;
    assert_eq!(check_area(&terminal.ram, &terminal.settings), (0, 0));
    // As the pseudo code prints it.
    terminal.settings.separate_broadcast = true;
    terminal.ram[0x019E] = 0x4080;
    assert_eq!(check_area(&terminal.ram, &terminal.settings), (9, 94));
}

#[test]
fn legal_subaddresses() {
    let legal = |base: u16| -> Vec<u16> {
        (1..=30)
            .filter(|sub| {
                let answers = (0..32).map(|count| rt7().run(&good(base | sub << 5 | count)));
                let legal = answers.map(|answer| answer.block_status & 0x0040 == 0);
                let legal: Vec<bool> = legal.collect();
                assert!(legal.iter().all(|&one| one == legal[0]));
                legal[0]
            })
            .collect()
    };
    assert_eq!(legal(0x3800), [7, 19, 30]);
    assert_eq!(legal(0x3C00), [1, 30]);
    assert_eq!(legal(0xF800), [7, 19, 30]);
}

#[test]
fn transmit_from_subaddress_1() {
    let mut terminal = rt7();
    assert_eq!(
        terminal.columns(&good(0x3C20)),
        "8000 0400 0400 3800 32 0007"
    );
    assert_eq!(terminal.reply[0], 0x3800);
    assert_eq!(terminal.reply[1..33], numbered_words(0, 32));
    assert_eq!(terminal.ram[..4], [0x8000, 0x7A60, 0x0400, 0x3C20]);
}

#[test]
fn a_full_circle_at_subaddress_7() {
    let mut terminal = rt7();
    assert_eq!(
        terminal.columns(&good(0x38E0)),
        "8000 0800 0820 3800 0 0003"
    );
    for _ in 2..32 {
        assert_eq!(terminal.run(&good(0x38E0)).block_status, 0x8000);
    }
    assert_eq!(
        terminal.columns(&good(0x38E0)),
        "8080 0BE0 0800 3800 0 0403"
    );
}

#[test]
fn double_buffer_at_subaddress_19() {
    let mut terminal = rt7();
    assert_eq!(
        terminal.columns(&good(0x3A60)),
        "8000 0440 0460 3800 0 0007"
    );
    assert_eq!(
        terminal.columns(&good(0x3A60)),
        "8000 0460 0440 3800 0 0007"
    );
    assert_eq!(
        terminal.columns(&heard(0x3A60, 31, 0)),
        "9420 0440 0440 none 0 0017"
    );
}

#[test]
fn data_wraps_around_at_subaddress_30() {
    let mut terminal = rt7();
    assert_eq!(
        terminal.columns(&good(0x3BC0)),
        "8000 0480 0480 3800 0 0003"
    );
    assert_eq!(
        terminal.columns(&good(0x3FC0)),
        "8000 0480 0480 3800 32 0003"
    );
    assert_eq!(terminal.reply[1..33], good(0x3BC0).words);
}

/// The makers' own mistake: the flip lands on subaddress 30's block.
#[test]
fn broadcasts_land_in_another_block() {
    let mut terminal = rt7();
    let first = record(0xFA60, &numbered_words(0xB000, 32));
    let second = record(0xFA60, &numbered_words(0xC000, 32));
    assert_eq!(terminal.columns(&first), "8000 04A0 0480 none 0 0007");
    assert_eq!(terminal.ram[0x04A0..0x04C0], first.words);
    assert_eq!(terminal.remembered.status, 0x3810);
    assert_eq!(terminal.columns(&second), "8000 0480 04A0 none 0 0007");
    assert_eq!(terminal.ram[0x0480..0x04A0], second.words);
    terminal.run(&good(0x3FC0));
    assert_eq!(terminal.reply[1..33], second.words);
    assert_eq!(terminal.ram[0x04C0..0x04E0], [0; 32]);
}

#[test]
fn unused_receive() {
    let mut terminal = rt7();
    assert_eq!(
        terminal.columns(&good(0x3821)),
        "8040 04E0 04E0 3C00 0 4003"
    );
    assert_eq!(terminal.ram[0x04E0], 0);
    terminal.settings.illegal_receive_disable = false;
    assert_eq!(
        terminal.columns(&good(0x3821)),
        "8040 04E0 04E0 3C00 0 4003"
    );
    assert_eq!(terminal.ram[0x04E0], 0xA000);
}

#[test]
fn unused_transmit() {
    assert_eq!(rt7().columns(&good(0x3C41)), "8040 04E0 04E0 3C00 0 4003");
}

#[test]
fn broadcast_to_subaddress_7() {
    let mut terminal = rt7();
    assert_eq!(
        terminal.columns(&good(0xF8E0)),
        "8000 0C00 0C20 none 0 0003"
    );
    assert_eq!(terminal.remembered.status, 0x3810);
}

#[test]
fn the_other_block_differs_in_bit_5() {
    for (pointer, other) in [(0x0400, 0x0420), (0x0440, 0x0460)] {
        let mut terminal = circle(pointer, 0x8000);
        assert_eq!(terminal.run(&good(0x2864)).pointer_after, other);
        let newest = usize::from(other ^ 0x0020);
        assert_eq!(terminal.ram[newest], 0xA000);
        assert_eq!(terminal.run(&good(0x2864)).pointer_after, pointer);
    }
}

#[test]
fn without_bit_15_the_active_block_stays() {
    let mut terminal = circle(0x0420, 0x0200);
    assert_eq!(
        terminal.columns(&good(0x2864)),
        "8000 0420 0420 2800 0 0007"
    );
    assert_eq!(terminal.ram[0x0420], 0xA000);
    terminal.ram[0x01A3] = 0x8200;
    assert_eq!(
        terminal.columns(&good(0x2864)),
        "8000 0420 0400 2800 0 0007"
    );
}

#[test]
fn messages_in_each_stack() {
    for (size, start, messages) in [
        (256, 0x0000, 64),
        (512, 0x0400, 128),
        (1024, 0x0400, 256),
        (2048, 0x0800, 512),
    ] {
        let image = [(0x0100, start), (0x0143, 0x0280)];
        let mut terminal = Terminal::new(RT5, &image);
        terminal.settings.stack_size = size;
        for number in 1..=messages {
            let wrapped = terminal.run(&good(0x2864)).interrupt & 0x0040 != 0;
            assert_eq!(wrapped, number == messages);
            if number == messages - 1 {
                assert_eq!(terminal.ram[0x0100], start + size - 4);
            }
        }
        assert_eq!(terminal.ram[0x0100], start);
        let last = usize::from(start + size - 4);
        assert_eq!(
            terminal.ram[last..last + 4],
            [0x8000, 0x7A60, 0x0280, 0x2864]
        );
    }
}

#[test]
fn the_stack_keeps_to_its_block_and_leaves_other_words() {
    let mut terminal = Terminal::new(RT5, &[(0x0100, 0x05F8), (0x0143, 0x0280)]);
    terminal.ram[0x0500..0x0600].fill(0x7777);
    for pointer in [0x05FC, 0x0500, 0x0504] {
        terminal.run(&good(0x2864));
        assert_eq!(terminal.ram[0x0100], pointer);
    }
    assert!(terminal.ram[0x0504..0x05F8]
        .iter()
        .all(|&word| word == 0x7777));
    assert_eq!(terminal.ram[0x0600], 0);
}

#[test]
fn one_word_legal_two_words_not() {
    let mut terminal = Terminal::new(RT5, &[(0x0382, 0x0004), (0x0141, 0x0400)]);
    assert_eq!(
        terminal.columns(&good(0x2821)),
        "8000 0400 0400 2800 0 0003"
    );
    terminal.ram[0x0400] = 0;
    let mut disabled = terminal.clone();
    assert_eq!(
        terminal.columns(&good(0x2822)),
        "8040 0400 0400 2C00 0 4003"
    );
    assert_eq!(terminal.ram[0x0400..0x0402], [0xA000, 0xA001]);
    disabled.settings.illegal_receive_disable = true;
    assert_eq!(
        disabled.columns(&good(0x2822)),
        "8040 0400 0400 2C00 0 4003"
    );
    assert_eq!(disabled.ram[0x0400..0x0402], [0, 0]);
}

#[test]
fn ten_words_legal_nine_not() {
    let mut terminal = Terminal::new(RT5, &[(0x0382, 0x0200), (0x0141, 0x0400)]);
    assert_eq!(terminal.run(&good(0x282A)).block_status, 0x8000);
    assert_eq!(terminal.run(&good(0x2829)).block_status, 0x8040);
}

#[test]
fn broadcast_transmit_may_be_illegal_too() {
    let mut terminal = Terminal::new(RT5, &[(0x0163, 0x0400)]);
    assert_eq!(
        terminal.columns(&good(0xFC64)),
        "9401 0400 0400 none 0 0013"
    );
    assert_eq!(terminal.remembered.status, 0x2C10);
    terminal.ram[0x0346] = 0x0010;
    assert_eq!(
        terminal.columns(&good(0xFC64)),
        "9441 0400 0400 none 0 4013"
    );
}

/// The scope document's formula, not the makers', places own and broadcast.
#[test]
fn busy_places() {
    for (command, word, bit) in [
        (0x2C00, 0x0246, 0),
        (0x2FE0, 0x0247, 15),
        (0x2800, 0x0244, 0),
        (0xF800, 0x0240, 0),
        (0xFFE0, 0x0243, 15),
    ] {
        let place = busy_place(&Settings::TRACE, Command(command));
        assert_eq!(place, BitPlace { word, bit });
    }
}

#[test]
fn busy_subaddress() {
    let image = [
        (0x0244, 0x0008),
        (0x0246, 0x0008),
        (0x0143, 0x0400),
        (0x0163, 0x0500),
    ];
    let mut terminal = Terminal::new(RT5, &image);
    let mut disabled = terminal.clone();
    assert_eq!(
        terminal.columns(&good(0x2864)),
        "8000 0400 0400 2808 0 0003"
    );
    assert_eq!(terminal.ram[0x0400], 0xA000);
    assert_eq!(
        terminal.columns(&good(0x2C64)),
        "8000 0500 0500 2808 0 0003"
    );

    disabled.settings.busy_receive_disable = true;
    assert_eq!(
        disabled.columns(&good(0x2864)),
        "8000 0400 0400 2808 0 0003"
    );
    assert_eq!(disabled.ram[0x0400], 0);
}

#[test]
fn table_of_faults() {
    for (flags, count, block_status) in [
        (FLAG_WRONG_SYNC, 2, 0x9410),
        (FLAG_WRONG_SYNC | FLAG_INVALID_WORD, 2, 0x9418),
        (FLAG_INVALID_WORD, 2, 0x9408),
        (0, 2, 0x9420),
        (0, 5, 0x9420),
    ] {
        let mut terminal = Terminal::new(RT5, &[(0x0143, 0x0400)]);
        let expected = format!("{block_status:04X} 0400 0400 none 0 0013");
        assert_eq!(terminal.columns(&heard(0x2864, count, flags)), expected);
        assert_eq!(terminal.remembered.status, 0x2C00);
        let stored = usize::from(count.min(4));
        assert_eq!(
            terminal.ram[0x0400..0x0400 + stored],
            numbered_words(0xA000, stored)
        );
        assert_eq!(terminal.ram[0x0400 + stored], 0);
    }
    let mut terminal = Terminal::new(RT5, &[(0x0143, 0x0400)]);
    assert_eq!(
        terminal.columns(&heard(0x2864, 4, FLAG_BUS_B)),
        "A000 0400 0400 2800 0 0003"
    );
}

/// The rows of the table for transfers. The makers would have 9A00 without a
/// status, since their bit 10 sums up fewer faults; rule 7 has it for any.
#[test]
fn table_of_faults_in_transfers() {
    for (flags, count, block_status) in [
        (0, 4, 0x8800),
        (FLAG_NO_STATUS, 0, 0x9E00),
        (FLAG_GAP, 0, 0x9C04),
        (FLAG_SECOND, 0, 0x9C02),
        (0, 2, 0x9C20),
        (FLAG_INVALID_WORD, 2, 0x9C08),
        (FLAG_WRONG_SYNC, 2, 0x9C10),
    ] {
        let mut terminal = Terminal::new(RT5, &[(0x0143, 0x0400)]);
        let message = Record {
            transmit_command: 0x1444,
            ..heard(0x2864, count, FLAG_TRANSFER | flags)
        };
        let (answered, remembered) = match block_status {
            0x8800 => ("2800 0 0003", 0x2800),
            _ => ("none 0 0013", 0x2C00),
        };
        let expected = format!("{block_status:04X} 0400 0400 {answered}");
        assert_eq!(terminal.columns(&message), expected);
        assert_eq!(terminal.remembered.status, remembered);
    }
}

/// Where one receive cell may lie beside a stack at 0000.
#[test]
fn memory_map() {
    for (control, pointer, number) in [
        (0x0000, 0x0260, 0),
        (0x0000, 0x02E0, 0),
        (0x0000, 0x0400, 0),
        (0x0000, 0x0FE0, 0),
        (0x0000, 0x0248, 0),
        (0x0000, 0x0247, 9),
        (0x0000, 0x02E1, 9),
        (0x0000, 0x0FE1, 9),
        (0x8000, 0x0280, 0),
        (0x8000, 0x02C0, 0),
        (0x8000, 0x0260, 9),
        (0x0020, 0x0280, 0),
        (0x0020, 0x0200, 9),
    ] {
        let answer = circle(pointer, control).run(&good(0x2864));
        assert_eq!(answer.number, number, "{control:04X} {pointer:04X}");
    }
}
