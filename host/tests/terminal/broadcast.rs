//! Address 31, where broadcast is on and where it is off.

use plain_terminal::terminal::label::{label_area, label_cell};
use plain_terminal::terminal::tables::{busy_place, illegal_place};
use plain_terminal::terminal::words::Command;
use plain_terminal::terminal::{check_area, Settings};

use crate::helpers::{good, Terminal};

/// The member's trainer: broadcast off, and it answers at 31.
const TRAINER: Settings = Settings {
    address: 31,
    broadcast: false,
    ..Settings::TRACE
};

/// Receive 3 at 0400, transmit 3 at 0500; broadcast 3 points to the stack.
const IMAGE: [(usize, u16); 4] = [
    (0x0143, 0x0400),
    (0x0163, 0x0500),
    (0x0500, 0xAAAA),
    (0x0501, 0xBBBB),
];

#[test]
fn settings_that_are_refused() {
    for (address, broadcast, refused) in [
        (29, true, false),
        (30, true, false),
        (31, true, true),
        (32, true, true),
        (29, false, false),
        (30, false, false),
        (31, false, false),
        (32, false, true),
        (0xFFFF, false, true),
    ] {
        let settings = Settings {
            address,
            broadcast,
            ..Settings::TRACE
        };
        let expected = if refused { Err(3) } else { Ok(()) };
        assert_eq!(settings.check(), expected, "{address} {broadcast}");
    }
}

#[test]
fn whose_a_command_is() {
    for address in 0..=31 {
        for broadcast in [true, false] {
            let mut terminal = Terminal::new(Settings::TRACE, &IMAGE);
            terminal.settings.broadcast = broadcast;
            let answer = terminal.run(&good(address << 11 | 0x0064));
            let taken = address == 5 || address == 31 && broadcast;
            let expected = if taken { 0 } else { 6 };
            assert_eq!(answer.number, expected, "RT {address}, {broadcast}");
        }
        let answer = Terminal::new(TRAINER, &IMAGE).run(&good(address << 11 | 0x0064));
        let expected = if address == 31 { 0 } else { 6 };
        assert_eq!(answer.number, expected, "RT {address}, the trainer");
    }
}

#[test]
fn the_trainer_answers_at_31() {
    let mut terminal = Terminal::new(TRAINER, &IMAGE);
    assert_eq!(
        terminal.columns(&good(0xF864)),
        "8000 0400 0400 F800 0 0003"
    );
    assert_eq!(terminal.reply[0], 0xF800);
    assert_eq!(terminal.remembered.status, 0xF800);
    // A transmit at 31 is no contents fault.
    assert_eq!(
        terminal.columns(&good(0xFC62)),
        "8000 0500 0500 F800 2 0003"
    );
    assert_eq!(terminal.reply[..3], [0xF800, 0xAAAA, 0xBBBB]);
}

#[test]
fn the_tables_have_its_commands_as_own() {
    let own = illegal_place(&Settings::TRACE, Command(0x2864));
    assert_eq!(illegal_place(&TRAINER, Command(0xF864)), own);
    let own = busy_place(&Settings::TRACE, Command(0x2864));
    assert_eq!(busy_place(&TRAINER, Command(0xF864)), own);

    let mut terminal = Terminal::new(TRAINER, &IMAGE);
    terminal.ram[0x0306] = 0x0010;
    terminal.ram[0x0240] = 0x0008;
    assert_eq!(terminal.run(&good(0xF864)).status, 0xF800);
    terminal.ram[0x0386] = 0x0010;
    assert_eq!(terminal.run(&good(0xF864)).status, 0xFC00);
    terminal.ram[0x0244] = 0x0008;
    assert_eq!(terminal.run(&good(0xF864)).status, 0xFC08);
}

/// With broadcast off, separate-broadcast changes nothing at all.
#[test]
fn separate_broadcast_has_no_effect() {
    let together = TRAINER;
    let separate = Settings {
        separate_broadcast: true,
        ..TRAINER
    };
    let mut image = IMAGE.to_vec();
    let pointers = (0x0141..0x015F).chain(0x0161..0x017F);
    image.extend(
        pointers
            .filter(|place| place % 32 != 3)
            .map(|place| (place, 0x0600)),
    );
    let mut left = Terminal::new(together, &image);
    assert_eq!(check_area(&left.ram, &together), (0, 0));
    assert_eq!(check_area(&left.ram, &separate), (0, 0));
    let label = label_area(&left.ram, &separate).unwrap();
    assert_eq!(Ok(&label), label_area(&left.ram, &together).as_ref());
    assert!(label.unsound.is_empty());
    assert!(label.pairs.iter().all(|&(_, higher)| higher < 64));
    for cell in 64..96 {
        assert_eq!(label_cell(&left.ram, &separate, cell), Err(9), "{cell}");
    }
    let mut right = Terminal::new(separate, &image);
    for command in [0xF864, 0xFC62, 0xF8A1] {
        assert_eq!(left.run(&good(command)), right.run(&good(command)));
    }
    assert_eq!(left.ram, right.ram);
    assert_eq!(left.remembered, right.remembered);

    // With broadcast on the same cells are read, and are unsound.
    let on = Settings {
        address: 30,
        broadcast: true,
        ..separate
    };
    assert_eq!(check_area(&left.ram, &on), (9, 65));
}
