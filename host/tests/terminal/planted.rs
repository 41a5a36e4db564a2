//! Each planted error shows where it should, and only there.

use plain_terminal::terminal::trace::planted_trace_output;
use plain_terminal::terminal::{
    carry_out_planted, read_record_planted, trace_output, write_record, write_record_planted,
    Answer, MessageRef, Planted, Record,
};

use crate::helpers::{good, heard, Terminal};
use crate::trace::example_image;

fn run(planted: Planted, terminal: &mut Terminal, record: &Record) -> Answer {
    let (answer, remembered) = carry_out_planted(
        planted,
        &mut terminal.ram,
        &mut terminal.reply,
        &terminal.settings,
        terminal.remembered,
        MessageRef::Bytes(&write_record(record).unwrap()),
    );
    terminal.remembered = remembered;
    answer
}

#[test]
fn the_pointer_after_in_the_descriptor() {
    let mut terminal = Terminal::with_circle(0x047E);
    let planted = Planted::PointerAfterInDescriptor;
    let answer = run(planted, &mut terminal, &good(0x2864));
    assert_eq!(terminal.ram[2], 0x0402);
    assert_eq!(answer, Terminal::with_circle(0x047E).run(&good(0x2864)));
}

#[test]
fn rollover_although_kept_back() {
    let mut terminal = Terminal::with_circle(0x047E);
    let planted = Planted::RolloverWhenKeptBack;
    let answer = run(planted, &mut terminal, &heard(0x2864, 2, 0));
    assert_eq!(answer.block_status, 0x94A0);
    assert_eq!(answer.pointer_after, 0x047E);
    assert_eq!(answer.interrupt, 0x0413);
}

#[test]
fn wrapping_by_the_word_count() {
    let mut terminal = Terminal::with_circle(0x047E);
    let planted = Planted::WrapByWordCount;
    run(planted, &mut terminal, &good(0x2864));
    let words = [0xA000, 0xA001, 0xA002, 0xA003];
    assert_eq!(terminal.ram[0x047E..0x0482], words);
    assert_eq!(terminal.ram[0x0400], 0);
}

/// The error has to stay harmless where the next window is past the RAM.
#[test]
fn wrapping_by_the_word_count_at_the_end_of_ram() {
    let mut terminal = Terminal::with_circle(0x0FFE);
    terminal.ram[0x0100] = 0x0400;
    let answer = run(Planted::WrapByWordCount, &mut terminal, &good(0x2864));
    assert_eq!(answer.number, 0);
    assert_eq!(terminal.ram[0x0FFE..], [0xA000, 0xA001]);
    assert_eq!(terminal.ram[..2], [0xA002, 0xA003]);
}

#[test]
fn a_faulty_message_stores_where_it_is_disabled() {
    let mut terminal = Terminal::with_circle(0x0400);
    terminal.ram[0x0386] = 0x0010;
    terminal.settings.illegal_receive_disable = true;
    let planted = Planted::FaultyStoresWhenDisabled;
    run(planted, &mut terminal, &good(0x2864));
    assert_eq!(terminal.ram[0x0400], 0);
    run(planted, &mut terminal, &heard(0x2864, 2, 0));
    assert_eq!(terminal.ram[0x0400..0x0403], [0xA000, 0xA001, 0]);
}

#[test]
fn count_field_0_as_no_words() {
    let mut terminal = Terminal::with_circle(0x0400);
    let planted = Planted::ZeroCountIsNone;
    let answer = run(planted, &mut terminal, &good(0x2860));
    assert_eq!(answer.block_status, 0x9420);
    assert_eq!(terminal.ram[0x0400], 0);
    assert_eq!(
        run(planted, &mut terminal, &good(0x2864)).block_status,
        0x8000
    );
}

fn transfer(command: u16, count: u16, flags: u16) -> Record {
    Record {
        transmit_command: 0x1443,
        ..heard(command, count, 8 | flags)
    }
}

/// What a planted error makes of a record's value.
fn value(planted: Planted, record: &Record) -> Answer {
    let mut terminal = Terminal::with_circle(0x0400);
    terminal.ram[0x0163] = 0x0500;
    let (ram, reply) = (&mut terminal.ram, &mut terminal.reply);
    let (settings, remembered) = (&terminal.settings, terminal.remembered);
    let message = MessageRef::Value(record);
    carry_out_planted(planted, ram, reply, settings, remembered, message).0
}

#[test]
fn bits_of_transfers() {
    let planted = Planted::CountBesideTransferFault;
    assert_eq!(
        value(planted, &transfer(0x2864, 0, 16)).block_status,
        0x9E20
    );
    assert_eq!(value(planted, &transfer(0x2864, 3, 4)).block_status, 0x9C08);

    let planted = Planted::TransferBitsExchanged;
    assert_eq!(
        value(planted, &transfer(0x2864, 0, 16)).block_status,
        0x9C04
    );
    assert_eq!(
        value(planted, &transfer(0x2864, 0, 32)).block_status,
        0x9E00
    );
    assert_eq!(
        value(planted, &transfer(0x2864, 0, 64)).block_status,
        0x9C02
    );

    let mut terminal = Terminal::with_circle(0x0400);
    let planted = Planted::TransmitCommandInDescriptor;
    run(planted, &mut terminal, &transfer(0x2864, 4, 0));
    run(planted, &mut terminal, &good(0x2864));
    assert_eq!([terminal.ram[3], terminal.ram[7]], [0x1443, 0x2864]);
    assert_eq!(terminal.remembered.command, 0x2864);
}

/// Each lets through what the others refuse, in the reader and the writer too.
#[test]
fn layouts_that_are_let_through() {
    let unmarked = Record {
        flags: 0,
        ..transfer(0x2864, 4, 0)
    };
    let broken = [
        (Planted::UnmarkedTransmitCommand, unmarked),
        (Planted::TransferOnTransmit, transfer(0x2C64, 0, 0)),
        (Planted::CountWithTransferFault, transfer(0x2864, 4, 16)),
    ];
    for planted in Planted::ERRORS {
        for (let_through, record) in broken {
            let number = if planted == let_through { 0 } else { 5 };
            assert_eq!(value(planted, &record).number, number, "{}", planted.name());
            let written = write_record_planted(planted, &record);
            assert_eq!(written.err().unwrap_or(0), number);
            if let Ok(bytes) = written {
                assert_eq!(read_record_planted(planted, &bytes), Ok(record));
            }
        }
    }
}

/// The number of a message to a terminal on the 64K card, or on none.
fn on_card(planted: Planted, ram_words: usize, image: &[(usize, u16)]) -> u16 {
    let mut terminal = Terminal::with_circle(0x0400);
    terminal.ram.resize(ram_words, 0);
    for &(place, word) in image {
        terminal.ram[place] = word;
    }
    run(planted, &mut terminal, &good(0x2864)).number
}

#[test]
fn errors_of_the_64k_card() {
    let large = 65_536;
    let plain: &[(usize, u16)] = &[];
    let beyond: &[(usize, u16)] = &[(0x0143, 0x1400)];
    let circle: &[(usize, u16)] = &[(0x0143, 0x1400), (0x01A3, 0x00C0)];
    let stack: &[(usize, u16)] = &[(0x0100, 0xFFFC)];
    for (planted, ram_words, image, good, wrong) in [
        (Planted::LongerRamTaken, 12_288, plain, 1, 0),
        (Planted::SmallEndAlways, large, beyond, 0, 9),
        (Planted::LargeCircleRefused, large, circle, 0, 9),
        (Planted::StackBelowSmallEnd, large, stack, 0, 8),
    ] {
        assert_eq!(on_card(Planted::None, ram_words, image), good);
        assert_eq!(on_card(planted, ram_words, image), wrong);
        assert_eq!(on_card(planted, 4096, plain), 0);
    }
    assert_eq!(on_card(Planted::LargeCircleRefused, large, beyond), 0);
    assert_eq!(on_card(Planted::StackBelowSmallEnd, large, beyond), 0);
}

#[test]
fn traces_can_be_planted_too() {
    let mut input = example_image();
    input.extend(write_record(&heard(0x2864, 2, 0)).unwrap());
    input.extend(write_record(&good(0x2860)).unwrap());
    let good_output = trace_output(&input);
    let output = |planted| planted_trace_output(planted, &input);
    assert_eq!(output(Planted::None), good_output);
    assert_ne!(output(Planted::RolloverWhenKeptBack), good_output);
    assert_ne!(output(Planted::ZeroCountIsNone), good_output);
    // These two show in RAM only, which the trace does not print.
    assert_eq!(output(Planted::PointerAfterInDescriptor), good_output);
    assert_eq!(output(Planted::WrapByWordCount), good_output);
}
