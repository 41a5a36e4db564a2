//! The rules of one message: the proved cases P1 to P12, both sides of every
//! edge, and a slow restatement run against random messages.

use plain_terminal::terminal::records::{FLAG_BUS_B, FLAG_INVALID_WORD, FLAG_WRONG_SYNC};
use plain_terminal::terminal::tables::{busy_place, illegal_place, BitPlace};
use plain_terminal::terminal::words::Command;
use plain_terminal::terminal::{Remembered, Settings};

use crate::helpers::{good, heard, numbered_words, record, Terminal, UNTOUCHED};

#[test]
fn p1_words_wrap_inside_the_circle() {
    let mut terminal = Terminal::with_circle(0x047E);
    let message = record(0x2864, &[0x1111, 0x2222, 0x3333, 0x4444]);
    assert_eq!(terminal.columns(&message), "8080 047E 0402 2800 0 0403");
    assert_eq!(terminal.ram[0x047E..0x0481], [0x1111, 0x2222, 0]);
    assert_eq!(terminal.ram[0x0400..0x0403], [0x3333, 0x4444, 0]);
    assert_eq!(terminal.ram[0x0143], 0x0402);
    assert_eq!(
        terminal.ram[0x0000..0x0005],
        [0x8080, 0x7A60, 0x047E, 0x2864, 0]
    );
    assert_eq!(terminal.ram[0x0100], 0x0004);
    assert_eq!(terminal.reply[..2], [0x2800, UNTOUCHED]);
    let remembered = Remembered {
        command: 0x2864,
        status: 0x2800,
    };
    assert_eq!(terminal.remembered, remembered);
}

#[test]
fn p2_reaching_the_end_is_a_rollover() {
    let mut terminal = Terminal::with_circle(0x047C);
    assert_eq!(
        terminal.columns(&good(0x2864)),
        "8080 047C 0400 2800 0 0403"
    );
}

#[test]
fn p3_one_short_of_the_end_is_none() {
    let mut terminal = Terminal::with_circle(0x047B);
    assert_eq!(
        terminal.columns(&good(0x2864)),
        "8000 047B 047F 2800 0 0003"
    );
}

#[test]
fn p4_a_fault_keeps_the_pointer_back_under_overwrite_invalid() {
    let mut terminal = Terminal::with_circle(0x047E);
    let short = heard(0x2864, 2, 0);
    assert_eq!(terminal.columns(&short), "9420 047E 047E none 0 0013");
    assert_eq!(terminal.ram[0x047E..0x0480], [0xA000, 0xA001]);
    assert_eq!(terminal.ram[0x0400], 0);
}

#[test]
fn p5_without_overwrite_invalid_it_moves() {
    let mut terminal = Terminal::with_circle(0x047E);
    terminal.settings.overwrite_invalid = false;
    let short = heard(0x2864, 2, 0);
    assert_eq!(terminal.columns(&short), "94A0 047E 0400 none 0 0413");
}

#[test]
fn p6_an_invalid_word_hides_the_count_fault() {
    let mut terminal = Terminal::with_circle(0x047E);
    let faulty = heard(0x2864, 2, FLAG_INVALID_WORD);
    assert_eq!(terminal.columns(&faulty), "9408 047E 047E none 0 0013");
}

fn double_terminal(pointer: u16) -> Terminal {
    Terminal::new(Settings::TRACE, &[(0x0143, pointer), (0x01A3, 0x8000)])
}

#[test]
fn p7_a_valid_message_flips_a_double_buffer() {
    let mut terminal = double_terminal(0x0420);
    assert_eq!(
        terminal.columns(&good(0x2864)),
        "8000 0420 0400 2800 0 0003"
    );
    assert_eq!(terminal.ram[0x0420], 0xA000);
    assert_eq!(
        terminal.columns(&good(0x2864)),
        "8000 0400 0420 2800 0 0003"
    );
}

#[test]
fn p8_a_faulty_one_does_not() {
    for overwrite_invalid in [true, false] {
        let mut terminal = double_terminal(0x0420);
        terminal.settings.overwrite_invalid = overwrite_invalid;
        let short = heard(0x2864, 3, 0);
        assert_eq!(terminal.columns(&short), "9420 0420 0420 none 0 0013");
        assert_eq!(terminal.ram[0x0420..0x0424], [0xA000, 0xA001, 0xA002, 0]);
    }
}

#[test]
fn p9_count_field_0_expects_32_words() {
    for (count, block_status) in [(31, 0x9420), (32, 0x8080), (33, 0x9420), (0, 0x9420)] {
        let mut terminal = Terminal::with_circle(0x047E);
        let answer = terminal.run(&heard(0x2860, count, 0));
        assert_eq!(answer.block_status, block_status, "count {count}");
    }
}

#[test]
fn p10_illegal_bit() {
    let place = illegal_place(&Settings::TRACE, Command(0x2864));
    let expected = BitPlace {
        word: 0x0386,
        bit: 4,
    };
    assert_eq!(place, expected);
    let mut terminal = Terminal::with_circle(0x047E);
    terminal.ram[0x0386] = !0x0010;
    assert_eq!(terminal.clone().run(&good(0x2864)).block_status, 0x8080);
    terminal.ram[0x0386] = 0x0010;
    assert_eq!(
        terminal.columns(&good(0x2864)),
        "80C0 047E 0402 2C00 0 4403"
    );
}

#[test]
fn p11_busy_bit() {
    let place = busy_place(&Settings::TRACE, Command(0x2864));
    let expected = BitPlace {
        word: 0x0244,
        bit: 3,
    };
    assert_eq!(place, expected);
    let mut terminal = Terminal::with_circle(0x047E);
    terminal.ram[0x0244] = !0x0008;
    assert_eq!(terminal.clone().run(&good(0x2864)).status, 0x2800);
    terminal.ram[0x0244] = 0x0008;
    assert_eq!(
        terminal.columns(&good(0x2864)),
        "8080 047E 0402 2808 0 0403"
    );
}

#[test]
fn p12_a_broadcast_is_not_answered() {
    let mut terminal = Terminal::with_circle(0x047E);
    assert_eq!(
        terminal.columns(&good(0xF864)),
        "8080 047E 0402 none 0 0403"
    );
    assert!(terminal.reply.iter().all(|&word| word == UNTOUCHED));
    let remembered = Remembered {
        command: 0xF864,
        status: 0x2810,
    };
    assert_eq!(terminal.remembered, remembered);
}

#[test]
fn faults_and_their_block_status() {
    const BOTH: u16 = FLAG_WRONG_SYNC | FLAG_INVALID_WORD;
    for (count, flags, block_status) in [
        (4, 0, 0x8000),
        (3, 0, 0x9420),
        (5, 0, 0x9420),
        (33, 0, 0x9420),
        (0, 0, 0x9420),
        (4, FLAG_BUS_B, 0xA000),
        (3, FLAG_BUS_B, 0xB420),
        (4, FLAG_WRONG_SYNC, 0x9410),
        (2, FLAG_WRONG_SYNC, 0x9410),
        (4, FLAG_INVALID_WORD, 0x9408),
        (33, FLAG_INVALID_WORD, 0x9408),
        (2, BOTH, 0x9418),
        (2, BOTH | FLAG_BUS_B, 0xB418),
    ] {
        let mut terminal = Terminal::with_circle(0x0400);
        let answer = terminal.run(&heard(0x2864, count, flags));
        assert_eq!(answer.block_status, block_status, "{count} {flags}");
        let faulty = block_status & 0x1000 != 0;
        assert_eq!(answer.answered, !faulty);
        assert_eq!(answer.status, if faulty { 0x2C00 } else { 0x2800 });
        assert_eq!(answer.interrupt, if faulty { 0x0013 } else { 0x0003 });
    }
}

#[test]
fn no_more_words_are_stored_than_asked_for() {
    for (count, flags, stored) in [(5, 0, 4), (33, 0, 4), (33, FLAG_WRONG_SYNC, 4), (1, 4, 1)] {
        let mut terminal = Terminal::with_circle(0x0400);
        terminal.run(&heard(0x2864, count, flags));
        let words = numbered_words(0xA000, stored);
        assert_eq!(terminal.ram[0x0400..0x0400 + stored], words);
        assert_eq!(terminal.ram[0x0400 + stored], 0);
    }
}

#[test]
fn a_transmit_expects_no_words() {
    for (count, flags, block_status, sent) in [
        (0, 0, 0x8000, 4),
        (1, 0, 0x9420, 0),
        (33, 0, 0x9420, 0),
        (0, FLAG_WRONG_SYNC, 0x9410, 0),
    ] {
        let mut terminal = Terminal::new(Settings::TRACE, &[(0x0163, 0x0400)]);
        let answer = terminal.run(&heard(0x2C64, count, flags));
        assert_eq!(answer.block_status, block_status);
        assert_eq!(answer.sent, sent);
        assert_eq!(answer.answered, sent > 0);
    }
}

#[test]
fn a_transmit_is_read_around_the_circle() {
    let mut terminal = Terminal::new(Settings::TRACE, &[(0x0163, 0x047E), (0x01A3, 0x2400)]);
    let words = numbered_words(0x5000, 128);
    terminal.ram[0x0400..0x0480].copy_from_slice(&words);
    assert_eq!(
        terminal.columns(&good(0x2C64)),
        "8080 047E 0402 2800 4 0403"
    );
    let expected = [0x2800, 0x507E, 0x507F, 0x5000, 0x5001, UNTOUCHED];
    assert_eq!(terminal.reply[..6], expected);
    assert_eq!(
        terminal.columns(&good(0x2C60)),
        "8000 0402 0422 2800 32 0003"
    );
    assert_eq!(terminal.reply[1..33], words[2..34]);
    assert_eq!(terminal.reply[33], UNTOUCHED);
}

#[test]
fn a_refused_transmit_answers_with_status_only() {
    for (address, status, block_status) in [(0x03C6, 0x2C00, 0x8040), (0x0246, 0x2808, 0x8000)] {
        let mut terminal = Terminal::new(Settings::TRACE, &[(0x0163, 0x047E), (0x01A3, 0x0400)]);
        terminal.ram[address] = 0xFFFF;
        let answer = terminal.run(&good(0x2C64));
        assert!(answer.answered);
        assert_eq!(answer.status, status);
        assert_eq!(answer.block_status, block_status);
        assert_eq!(answer.sent, 0);
        assert_eq!(answer.pointer_after, 0x047E);
        assert_eq!(terminal.reply[..2], [status, UNTOUCHED]);
    }
}

#[test]
fn bit_15_never_doubles_a_transmit_cell() {
    let mut terminal = Terminal::new(Settings::TRACE, &[(0x0163, 0x0421), (0x01A3, 0x8000)]);
    assert_eq!(
        terminal.columns(&good(0x2C64)),
        "8000 0421 0421 2800 4 0003"
    );
}

#[test]
fn a_broadcast_transmit_is_a_contents_fault() {
    let mut terminal = Terminal::new(Settings::TRACE, &[(0x0163, 0x0400)]);
    assert_eq!(
        terminal.columns(&good(0xFC64)),
        "9401 0400 0400 none 0 0013"
    );
    assert_eq!(terminal.remembered.status, 0x2C10);
    assert_eq!(
        terminal.columns(&heard(0xFC64, 1, 0)),
        "9421 0400 0400 none 0 0013"
    );
    // It uses the transmit cell under separate-broadcast too.
    terminal.settings.separate_broadcast = true;
    assert_eq!(terminal.run(&good(0xFC64)).cell, 35);
}

#[test]
fn broadcasts_use_their_own_cell_only_when_separate() {
    let image = [(0x0143, 0x0400), (0x0183, 0x0500), (0x01A3, 0x0210)];
    let mut terminal = Terminal::new(Settings::TRACE, &image);
    let answer = terminal.run(&good(0xF864));
    assert_eq!((answer.cell, answer.pointer_before), (3, 0x0400));
    terminal.settings.separate_broadcast = true;
    let answer = terminal.run(&good(0xF864));
    assert_eq!((answer.cell, answer.pointer_before), (67, 0x0500));
    let answer = terminal.run(&good(0x2864));
    assert_eq!((answer.cell, answer.pointer_before), (3, 0x0400));
}

#[test]
fn interrupts_come_from_the_cell_used() {
    let image = [(0x0143, 0x0400), (0x0183, 0x0500), (0x01A3, 0x0010)];
    let mut terminal = Terminal::new(Settings::TRACE, &image);
    assert_eq!(terminal.run(&good(0xF864)).interrupt, 0x0003);
    terminal.settings.separate_broadcast = true;
    assert_eq!(terminal.run(&good(0xF864)).interrupt, 0x0007);
    assert_eq!(terminal.run(&good(0x2864)).interrupt, 0x0003);
}

#[test]
fn a_rollover_interrupts_only_where_asked() {
    let mut terminal = Terminal::with_circle(0x047E);
    terminal.ram[0x01A3] = 0x0020;
    assert_eq!(
        terminal.columns(&good(0x2864)),
        "8080 047E 0402 2800 0 0003"
    );
}

#[test]
fn broadcast_has_its_own_illegal_and_busy_bits() {
    let mut terminal = Terminal::with_circle(0x0400);
    terminal.ram[0x0306] = 0x0010;
    terminal.ram[0x0240] = 0x0008;
    assert_eq!(terminal.run(&good(0x2864)).status, 0x2800);
    let answer = terminal.run(&good(0xF864));
    assert_eq!(answer.status, 0x2C18);
    assert_eq!(answer.block_status, 0x8040);
    assert!(!answer.answered);
}

#[test]
fn disabled_transfers_store_nothing_faulty_or_not() {
    for (table, illegal) in [(0x0386, true), (0x0244, false)] {
        for count in [4, 2] {
            let mut terminal = Terminal::with_circle(0x0400);
            terminal.ram[table] = 0xFFFF;
            assert_eq!(terminal.clone().run(&heard(0x2864, count, 0)).number, 0);
            terminal.settings.illegal_receive_disable = illegal;
            terminal.settings.busy_receive_disable = !illegal;
            let answer = terminal.run(&heard(0x2864, count, 0));
            assert_eq!(answer.pointer_after, 0x0400);
            assert_eq!(terminal.ram[0x0400..0x0404], [0; 4]);
            assert_eq!(terminal.ram[0x0100], 0x0004);
        }
    }
}

#[test]
fn one_disable_does_not_stand_for_the_other() {
    for (table, illegal) in [(0x0386, false), (0x0244, true)] {
        let mut terminal = Terminal::with_circle(0x0400);
        terminal.ram[table] = 0xFFFF;
        terminal.settings.illegal_receive_disable = illegal;
        terminal.settings.busy_receive_disable = !illegal;
        assert_eq!(terminal.run(&good(0x2864)).pointer_after, 0x0404);
        assert_eq!(terminal.ram[0x0400], 0xA000);
    }
}

#[test]
fn a_disabled_double_buffer_does_not_flip() {
    let mut terminal = double_terminal(0x0400);
    terminal.ram[0x0386] = 0x0010;
    assert_eq!(terminal.clone().run(&good(0x2864)).pointer_after, 0x0420);
    terminal.settings.illegal_receive_disable = true;
    assert_eq!(
        terminal.columns(&good(0x2864)),
        "8040 0400 0400 2C00 0 4003"
    );
}

#[test]
fn busy_always_holds_for_every_command() {
    let mut terminal = Terminal::with_circle(0x0400);
    terminal.ram[0x0163] = 0x0500;
    terminal.settings.busy_always = true;
    assert_eq!(terminal.run(&good(0x2864)).status, 0x2808);
    assert_eq!(terminal.run(&good(0xF864)).status, 0x2818);
    let answer = terminal.run(&good(0x2C64));
    assert_eq!((answer.status, answer.sent), (0x2808, 0));
}

#[test]
fn status_bits_of_the_settings() {
    let base = Settings::TRACE;
    for (settings, status) in [
        (
            Settings {
                service_request: true,
                ..base
            },
            0x2900,
        ),
        (
            Settings {
                subsystem_flag: true,
                ..base
            },
            0x2804,
        ),
        (
            Settings {
                terminal_flag: true,
                ..base
            },
            0x2801,
        ),
    ] {
        let mut terminal = Terminal::with_circle(0x0400);
        terminal.settings = settings;
        assert_eq!(terminal.run(&good(0x2864)).status, status);
    }
}

#[test]
fn rt_0_sends_a_status_of_zero() {
    let mut terminal = Terminal::with_circle(0x0400);
    terminal.settings.address = 0;
    assert_eq!(
        terminal.columns(&good(0x0064)),
        "8000 0400 0404 0000 0 0003"
    );
    assert_eq!(terminal.reply[..2], [0, UNTOUCHED]);
}

#[test]
fn rt_30_is_an_address_like_any_other() {
    let mut terminal = Terminal::with_circle(0x0400);
    terminal.settings.address = 30;
    assert_eq!(
        terminal.columns(&good(0xF064)),
        "8000 0400 0404 F000 0 0003"
    );
}

#[test]
fn the_stack_wraps_inside_its_block() {
    for (pointer, after, interrupt) in [
        (0x00F8, 0x00FC, 0x0003),
        (0x00FC, 0x0000, 0x0043),
        (0x0EFC, 0x0E00, 0x0043),
        (0x0FFC, 0x0F00, 0x0043),
    ] {
        let mut terminal = Terminal::with_circle(0x0400);
        terminal.ram[0x0100] = pointer;
        assert_eq!(terminal.run(&good(0x2864)).interrupt, interrupt);
        assert_eq!(terminal.ram[0x0100], after);
        let place = usize::from(pointer);
        let descriptor = [0x8000, 0x7A60, 0x0400, 0x2864];
        assert_eq!(terminal.ram[place..place + 4], descriptor);
    }
}

#[test]
fn area_b_has_its_own_stack() {
    let image = [(0x0104, 0x0800), (0x01C3, 0x0400), (0x0100, 0x0200)];
    let mut terminal = Terminal::new(Settings::TRACE, &image);
    terminal.settings.area_b = true;
    assert_eq!(terminal.run(&good(0x2864)).number, 0);
    assert_eq!(terminal.ram[0x0104], 0x0804);
    assert_eq!(terminal.ram[0x0100], 0x0200);
    assert_eq!(terminal.ram[0x0800], 0x8000);
}

#[test]
fn every_table_bit_belongs_to_one_command() {
    let mut illegal_met = vec![false; 256 * 16];
    let mut busy_met = [false; 8 * 16];
    for address in [5, 31] {
        for rest in 0..0x0800 {
            let command = Command(address << 11 | rest);
            let place = illegal_place(&Settings::TRACE, command);
            let index = (place.word - 0x0300) * 16 + usize::from(place.bit);
            assert!(!std::mem::replace(&mut illegal_met[index], true));
            let place = busy_place(&Settings::TRACE, command);
            busy_met[(place.word - 0x0240) * 16 + usize::from(place.bit)] = true;
        }
    }
    assert!(illegal_met.iter().all(|&met| met));
    assert!(busy_met.iter().all(|&met| met));
}

#[test]
fn no_flags_and_no_words_still_make_a_message() {
    let mut terminal = Terminal::with_circle(0x047F);
    terminal.settings.overwrite_invalid = false;
    let silent = heard(0x2864, 0, 0);
    assert_eq!(terminal.columns(&silent), "9420 047F 047F none 0 0013");
}
