//! Addresses 29 to 32 with broadcast on and off, and a command to every
//! address: the proved terminal against plain Rust.

use plain_terminal::engine::boundary as proved;
use plain_terminal::terminal::boundary::{self as plain, settings_words, value_words};
use plain_terminal::terminal::{Record, Settings};

/// Both halves of the tables differ, and so do the three cells; the broadcast
/// cell is sound or not.
fn ram(sound: bool) -> Vec<u16> {
    let mut ram = vec![0; 4096];
    ram[0x0143] = 0x047E;
    ram[0x0163] = 0x0500;
    ram[0x0183] = if sound { 0x0600 } else { 0x0100 };
    ram[0x01A3] = 0x0120;
    ram[0x0240] = 0x0008;
    ram[0x0306] = 0x0010;
    ram
}

fn settings() -> Vec<Settings> {
    let mut all = Vec::new();
    for address in 29..=32 {
        for (broadcast, separate_broadcast) in
            [(true, true), (true, false), (false, true), (false, false)]
        {
            all.push(Settings {
                address,
                broadcast,
                separate_broadcast,
                ..Settings::TRACE
            });
        }
    }
    all
}

/// What a command is answered, and all that it leaves.
type Left = (u16, Vec<u16>, [u16; 33], [u16; 2], [u16; 9]);
type Message = fn(&mut [u16], &mut [u16], &[u16], &mut [u16], &[u16], &mut [u16]) -> u16;

fn ask(message: Message, settings: &Settings, ram: &[u16], command: u16) -> Left {
    let transmit = command & 0x0400 != 0;
    let record = Record {
        command,
        count: if transmit { 0 } else { 4 },
        ..Record::default()
    };
    let mut left = (0, ram.to_vec(), [0xEEEE; 33], [0x1234, 0x5678], [0xEEEE; 9]);
    let (number, ram, reply, remembered, answer) = &mut left;
    let words = settings_words(settings);
    *number = message(
        ram,
        reply,
        &words,
        remembered,
        &value_words(&record),
        answer,
    );
    left
}

#[test]
fn every_address_is_taken_and_refused_alike() {
    let mut numbers = [0; 10];
    for settings in settings() {
        for sound in [false, true] {
            let ram = ram(sound);
            let words = settings_words(&settings);
            assert_eq!(
                plain::check_area(&ram, &words),
                proved::check_area(&ram, &words),
                "{settings:?}"
            );
            for address in 0..32 {
                for rest in [0x0064, 0x0464] {
                    let command = address << 11 | rest;
                    let left = ask(plain::message_value, &settings, &ram, command);
                    let right = ask(proved::message_value, &settings, &ram, command);
                    assert_eq!(left, right, "{settings:?}, command {command:04X}");
                    numbers[usize::from(left.0)] += 1;
                }
            }
        }
    }
    // Of each address and broadcast there are four settings and images. With
    // broadcast on 29 and 30 are accepted, each with four commands, but for the
    // receive command that meets an unsound broadcast cell; with it off 29 to 31
    // with two. One value of an address has 64 commands.
    assert_eq!(numbers[0], 2 * 4 * 4 - 2 + 3 * 4 * 2);
    assert_eq!(numbers[9], 2);
    assert_eq!(numbers[3], 3 * 4 * 64);
    assert_eq!(numbers[6], 5 * 4 * 64 - numbers[0] - numbers[9]);
}

/// Eleven words of settings, as callers had them before, have broadcast on.
#[test]
fn eleven_words_have_broadcast_on() {
    let off = Settings {
        broadcast: false,
        ..Settings::TRACE
    };
    let on = settings_words(&Settings::TRACE);
    let words = settings_words(&off);
    assert_eq!(words[..11], on[..11]);
    let record = Record {
        command: 0xF864,
        count: 4,
        ..Record::default()
    };
    let ask = |words: &[u16]| {
        let (mut ram, mut reply) = (ram(true), [0; 33]);
        let (mut remembered, mut answer) = ([0; 2], [0; 9]);
        let value = value_words(&record);
        proved::message_value(
            &mut ram,
            &mut reply,
            words,
            &mut remembered,
            &value,
            &mut answer,
        );
        answer
    };
    assert_eq!(ask(&words[..11]), ask(&on));
    assert_eq!(ask(&words[..11])[5..7], [0x2818 | 0x0400, 0]);
    assert_eq!(ask(&words)[0], 6);
}
