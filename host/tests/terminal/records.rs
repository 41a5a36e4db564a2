//! Command words and message records.

use plain_terminal::terminal::words::Command;
use plain_terminal::terminal::{read_record, write_record, Record};

use crate::helpers::{good, heard, record, Random};

#[test]
fn command_fields() {
    let command = Command(0x2864);
    assert_eq!(command.address(), 5);
    assert!(!command.is_transmit());
    assert_eq!(command.subaddress(), 3);
    assert_eq!(command.word_count(), 4);

    let last = Command(0xFFFF);
    assert_eq!(last.address(), 31);
    assert!(last.is_transmit());
    assert_eq!(last.subaddress(), 31);
    assert_eq!(last.word_count(), 31);
}

#[test]
fn count_field_0_is_32_words() {
    assert_eq!(Command(0x2860).count_field(), 0);
    assert_eq!(Command(0x2860).word_count(), 32);
    assert_eq!(Command(0x2861).word_count(), 1);
    assert_eq!(Command(0x287F).word_count(), 31);
}

#[test]
fn every_command_is_its_fields_put_together() {
    for word in 0..=u16::MAX {
        let command = Command(word);
        let rebuilt = command.address() << 11
            | u16::from(command.is_transmit()) << 10
            | command.subaddress() << 5
            | (command.word_count() % 32);
        assert_eq!(rebuilt, word);
    }
}

#[test]
fn bytes_of_a_record() {
    let record = Record {
        tag: 0x1234,
        flags: 5,
        ..record(0x2864, &[0xABCD, 0x0102])
    };
    let mut expected = [0; 80];
    expected[..8].copy_from_slice(&[0x28, 0x64, 0, 0, 0x12, 0x34, 5, 2]);
    expected[16..20].copy_from_slice(&[0xAB, 0xCD, 0x01, 0x02]);
    assert_eq!(write_record(&record), Ok(expected));
    assert_eq!(read_record(&expected), Ok(record));

    let transfer = Record {
        transmit_command: 0x1443,
        flags: 13,
        ..record
    };
    expected[2..4].copy_from_slice(&[0x14, 0x43]);
    expected[6] = 13;
    assert_eq!(write_record(&transfer), Ok(expected));
    assert_eq!(read_record(&expected), Ok(transfer));
}

#[test]
fn last_word_is_in_the_last_bytes() {
    let mut record = heard(0x2860, 32, 0);
    record.words[31] = 0xBEEF;
    let bytes = write_record(&record).unwrap();
    assert_eq!(bytes[78..], [0xBE, 0xEF]);
}

#[test]
fn only_80_bytes_are_a_record() {
    let bytes = write_record(&good(0x2864)).unwrap();
    let mut longer = bytes.to_vec();
    longer.push(0);
    assert_eq!(read_record(&[]), Err(4));
    assert_eq!(read_record(&bytes[..79]), Err(4));
    assert_eq!(read_record(&longer), Err(4));
    assert!(read_record(&bytes).is_ok());
    assert_eq!(read_record(&[0; 80]), Ok(Record::default()));
}

#[test]
fn a_wrong_length_comes_before_a_broken_layout() {
    assert_eq!(read_record(&[0xFF; 79]), Err(4));
    assert_eq!(read_record(&[0xFF; 80]), Err(5));
}

/// Every byte alone: which values may it have in a record of zeros?
#[test]
fn each_byte_of_the_layout() {
    for place in 0..80 {
        for value in 0..=255 {
            let mut bytes = [0; 80];
            bytes[place] = value;
            let allowed = match place {
                0 | 1 | 4 | 5 => true,
                // A transfer may have no words and any fault.
                6 => value <= 7 || value <= 127 && value & 8 != 0,
                7 => value <= 33,
                _ => value == 0,
            };
            let expected = if allowed { 0 } else { 5 };
            let number = read_record(&bytes).err().unwrap_or(0);
            assert_eq!(number, expected, "byte {place} = {value}");
        }
    }
}

#[test]
fn words_after_the_counted_ones_are_zero() {
    for count in 0..=33 {
        for place in 0..32 {
            let mut bytes = [0; 80];
            bytes[7] = count;
            bytes[16 + 2 * place + 1] = 1;
            let expected = if place < usize::from(count) { 0 } else { 5 };
            let number = read_record(&bytes).err().unwrap_or(0);
            assert_eq!(number, expected, "count {count}, word {place}");
        }
    }
}

#[test]
fn neither_flags_nor_command_bind_the_count() {
    for flags in 0..=7 {
        for count in 0..=33 {
            let record = heard(0x2864, count, flags);
            assert!(write_record(&record).is_ok());
        }
    }
}

#[test]
fn values_that_break_the_layout_are_not_written() {
    let broken = |change: fn(&mut Record)| {
        let mut record = heard(0x2864, 4, 0);
        change(&mut record);
        write_record(&record).err()
    };
    assert_eq!(broken(|_| ()), None);
    assert_eq!(broken(|r| r.flags = 7), None);
    assert_eq!(broken(|r| r.flags = 15), None);
    assert_eq!(broken(|r| r.flags = 16), Some(5));
    assert_eq!(broken(|r| r.flags = 24), Some(5));
    assert_eq!(broken(|r| r.flags = 136), Some(5));
    assert_eq!(broken(|r| r.flags = 0x0100), Some(5));
    assert_eq!(broken(|r| r.flags = 0x0108), Some(5));
    assert_eq!(broken(|r| r.transmit_command = 1), Some(5));
    assert_eq!(broken(|r| r.count = 33), None);
    assert_eq!(broken(|r| r.count = 34), Some(5));
    assert_eq!(broken(|r| r.count = 0x0104), Some(5));
    assert_eq!(broken(|r| r.count = 3), Some(5));
    assert_eq!(broken(|r| r.words[3] = 0), None);
    assert_eq!(broken(|r| r.words[4] = 1), Some(5));
    assert_eq!(broken(|r| r.words[31] = 1), Some(5));
}

#[test]
fn reading_undoes_writing() {
    let mut random = Random::new(1);
    for _ in 0..10_000 {
        let record = random.record(5);
        let bytes = write_record(&record).unwrap();
        assert_eq!(read_record(&bytes), Ok(record));
    }
}

#[test]
fn writing_undoes_reading() {
    let mut random = Random::new(2);
    for _ in 0..10_000 {
        let mut bytes = write_record(&random.record(5)).unwrap();
        let place = random.below(80);
        bytes[place] = random.draw() as u8;
        if let Ok(record) = read_record(&bytes) {
            assert_eq!(write_record(&record), Ok(bytes));
        }
    }
}
