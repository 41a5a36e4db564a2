//! RT-to-RT transfers: which records may say so, and what they do.

use plain_terminal::terminal::layout::broken_rules;
use plain_terminal::terminal::records::{FLAG_BUS_B, FLAG_INVALID_WORD, FLAG_WRONG_SYNC};
use plain_terminal::terminal::words::Command;
use plain_terminal::terminal::{read_record, write_record, Record, Settings};

use crate::helpers::{good, heard, numbered_words, Random, Terminal};

/// A transfer from terminal 2, subaddress 2: so many words with these flags
/// beside flag 8.
fn transfer(command: u16, count: u16, flags: u16) -> Record {
    Record {
        transmit_command: 0x1443,
        ..heard(command, count, 8 | flags)
    }
}

/// What the request says of a record that else keeps its layout: "5 also when
/// flag 8 is on a transmit command, when flags 16 to 64 or bytes 2-3 are set
/// without flag 8, or when the count is not 0 with flags 16 to 64."
fn is_refused(record: &Record) -> bool {
    let flag_8 = record.flags & 8 == 8;
    let flags_16_to_64 =
        record.flags & 16 == 16 || record.flags & 32 == 32 || record.flags & 64 == 64;
    let on_a_transmit_command = record.command & 0x0400 != 0;
    record.flags >= 128
        || flag_8 && on_a_transmit_command
        || flags_16_to_64 && !flag_8
        || record.transmit_command != 0 && !flag_8
        || record.count != 0 && flags_16_to_64
}

/// Every byte of flags with every kind of command, of bytes 2-3 and of count.
#[test]
fn every_byte_of_flags() {
    let mut kept = 0;
    for flags in 0..=255 {
        for command in [0x2864, 0x2C64, 0x3064, 0x3464, 0xF864, 0xFC64] {
            for transmit_command in [0, 0x0001, 0x0100, 0x1443, 0xFFFF] {
                for count in [0, 1, 4, 32, 33] {
                    let record = Record {
                        transmit_command,
                        ..heard(command, count, flags)
                    };
                    let expected = is_refused(&record).then_some(5);
                    let written = write_record(&record);
                    assert_eq!(written.err(), expected, "{record:?}");
                    kept += u32::from(expected.is_none());
                    let mut bytes = write_record(&heard(command, count, 0)).unwrap();
                    bytes[2..4].copy_from_slice(&transmit_command.to_be_bytes());
                    bytes[6] = flags as u8;
                    assert_eq!(read_record(&bytes).err(), expected, "{record:?}");
                    assert_eq!(broken_rules(&bytes).is_empty(), expected.is_none());
                    if expected.is_none() {
                        assert_eq!(read_record(&bytes), Ok(record));
                        assert_eq!(written, Ok(bytes));
                    }
                }
            }
        }
    }
    // Flags 0 to 7 with bytes 2-3 zero; flag 8 on the three receive commands,
    // with flags 16 to 64 and no word, and with none of them and any count.
    assert_eq!(kept, 8 * 6 * 5 + 8 * 3 * 5 * (7 + 5));
}

#[test]
fn a_broken_rule_is_told_where_the_reader_refuses() {
    let mut random = Random::new(21);
    let mut refused = 0;
    for _ in 0..20_000 {
        let mut bytes = write_record(&random.record(5)).unwrap();
        bytes[random.below(80)] = random.draw() as u8;
        if random.chance(2) {
            bytes[6] ^= 1 << random.below(8);
        }
        let is_refused = read_record(&bytes).is_err();
        assert_eq!(!broken_rules(&bytes).is_empty(), is_refused, "{bytes:?}");
        refused += u32::from(is_refused);
    }
    assert!((2_000..18_000).contains(&refused), "{refused}");
}

/// "Block status gains 11 for the transfer, and 9, 2 and 1 for these three; each
/// is a fault, and with any of them no count fault is set."
#[test]
fn block_status_of_every_transfer() {
    for flags in (8..128).filter(|flags| flags & 8 == 8) {
        let early = flags & 0x70 != 0;
        let count = if early { 0 } else { 4 };
        let mut terminal = Terminal::with_circle(0x0400);
        let answer = terminal.run(&transfer(0x2864, count, flags));
        let mut expected = 0x8000 | 0x0800;
        for (flag, bits) in [
            (1, 0x2000),
            (2, 0x1410),
            (4, 0x1408),
            (16, 0x1600),
            (32, 0x1404),
            (64, 0x1402),
        ] {
            expected |= if flags & flag != 0 { bits } else { 0 };
        }
        assert_eq!(answer.block_status, expected, "flags {flags}");
        let fault = expected & 0x1000 != 0;
        assert_eq!(answer.interrupt & 0x0010 != 0, fault, "flags {flags}");
        assert_eq!(answer.status & 0x0400 != 0, fault, "flags {flags}");
        assert_eq!(answer.answered, !fault, "flags {flags}");
    }
}

/// A count fault is set in a transfer where no flag tells more.
#[test]
fn words_that_are_missing_or_too_many() {
    for (count, flags, block_status) in [
        (0, 0, 0x9C20),
        (3, 0, 0x9C20),
        (4, 0, 0x8800),
        (5, 0, 0x9C20),
        (33, 0, 0x9C20),
        (3, FLAG_WRONG_SYNC, 0x9C10),
        (3, FLAG_INVALID_WORD, 0x9C08),
    ] {
        let mut terminal = Terminal::with_circle(0x0400);
        let answer = terminal.run(&transfer(0x2864, count, flags));
        assert_eq!(answer.block_status, block_status, "{count} {flags}");
        let stored = usize::from(count.min(4));
        assert_eq!(
            terminal.ram[0x0400..0x0400 + stored],
            numbered_words(0xA000, stored)
        );
        assert_eq!(terminal.ram[0x0400 + stored], 0);
    }
}

/// The descriptor and what is remembered have the receive command alone, and
/// the transmit command, 0 or any other, changes nothing at all.
#[test]
fn the_transmit_command_is_neither_judged_nor_stored() {
    let mut ends = Vec::new();
    for transmit_command in [0x1443, 0, 0x2864, 0x2C64, 0x1063, 0x1400, 0xFFFF] {
        let mut terminal = Terminal::with_circle(0x047E);
        let record = Record {
            transmit_command,
            ..transfer(0x2864, 4, 0)
        };
        let answer = terminal.run(&record);
        assert_eq!(terminal.ram[..4], [0x8880, 0x7A60, 0x047E, 0x2864]);
        assert_eq!(terminal.remembered.command, 0x2864);
        ends.push((answer, terminal));
    }
    assert!(ends.iter().all(|end| *end == ends[0]));
}

/// A transfer that went wrong before its first word stores nothing, and its
/// pointer stays, whatever overwrite-invalid says.
#[test]
fn early_faults_leave_nothing_but_an_entry() {
    for control in [0x0000, 0x0120, 0x8000] {
        for overwrite_invalid in [false, true] {
            let settings = Settings {
                overwrite_invalid,
                ..Settings::TRACE
            };
            let mut terminal = Terminal::new(settings, &[(0x0143, 0x0460), (0x01A3, control)]);
            let mut expected = terminal.ram.clone();
            terminal.run(&transfer(0x2860, 0, 16));
            expected[..4].copy_from_slice(&[0x9E00, 0x7A60, 0x0460, 0x2860]);
            expected[0x0100] = 4;
            assert_eq!(terminal.ram, expected);
        }
    }
}

#[test]
fn a_broadcast_may_be_a_transfer() {
    let mut terminal = Terminal::with_circle(0x0400);
    assert_eq!(
        terminal.columns(&transfer(0xF864, 4, 0)),
        "8800 0400 0404 none 0 0003"
    );
    assert_eq!(terminal.remembered.status, 0x2810);
    assert_eq!(
        terminal.columns(&transfer(0xF864, 0, 16)),
        "9E00 0404 0404 none 0 0013"
    );
    assert_eq!(terminal.remembered.status, 0x2C10);
}

/// 5 does not ask whose command it is, so it comes before 6 and 7; a transfer
/// that keeps its layout is refused like any message.
#[test]
fn other_refusals_of_transfers() {
    for (command, number) in [
        (0x2864, 0),
        (0x3064, 6),
        (0x2804, 7),
        (0x2BE4, 7),
        (0x2C64, 5),
        (0x3464, 5),
        (0x2C04, 5),
        (0xFC64, 5),
    ] {
        let mut terminal = Terminal::with_circle(0x0400);
        let answer = terminal.run_value(&transfer(command, 4, 0));
        assert_eq!(answer.number, number, "{command:04X}");
    }
}

/// Old records mean what they meant: no bit of a transfer is ever set.
#[test]
fn without_flag_8_no_bit_of_a_transfer_is_set() {
    let mut random = Random::new(22);
    let mut accepted = 0;
    for _ in 0..20_000 {
        let address = random.pick(&[0x2800, 0x2C00, 0xF800, 0xFC00]);
        let command = Command(address | 3 << 5 | random.word() & 31);
        let record = random.record_for(command);
        let mut terminal = Terminal::with_circle(0x0400);
        terminal.ram[0x0163] = 0x0500;
        let answer = terminal.run(&record);
        assert_eq!(answer.number, 0);
        if record.flags & 8 == 0 {
            assert_eq!(answer.block_status & 0x0A06, 0, "{record:?}");
            accepted += 1;
        }
    }
    assert!((10_000..20_000).contains(&accepted), "{accepted}");
}

/// Apart from bit 11 a transfer without early faults is a message as before.
#[test]
fn a_transfer_is_a_message_but_for_bit_11() {
    for count in 0..=33 {
        for flags in 0..=7 {
            let mut terminal = Terminal::with_circle(0x0470);
            let mut twin = terminal.clone();
            let mut answer = terminal.run(&transfer(0x2870, count, flags));
            assert_eq!(answer.block_status & 0x0800, 0x0800);
            answer.block_status &= !0x0800;
            terminal.ram[0] &= !0x0800;
            assert_eq!(answer, twin.run(&heard(0x2870, count, flags)));
            assert_eq!(terminal, twin);
        }
    }
}

/// On bus B, to a terminal whose message is illegal and busy: all bits at once.
#[test]
fn a_transfer_can_be_illegal_and_busy() {
    let mut terminal = Terminal::with_circle(0x0400);
    terminal.ram[0x0386] = 0x0010;
    terminal.ram[0x0244] = 0x0008;
    let answer = terminal.run(&transfer(0x2864, 4, FLAG_BUS_B));
    assert_eq!((answer.block_status, answer.status), (0xA840, 0x2C08));
    let answer = terminal.run(&transfer(0x2864, 0, 127));
    assert_eq!(answer.block_status, 0xBE5E);
    assert_eq!(terminal.run(&good(0x2861)).block_status, 0x8000);
}
