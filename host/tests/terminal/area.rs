//! Cells, the stack and the whole-area check.

use plain_terminal::terminal::cells::{Cell, Kind, Scheme, Stack};
use plain_terminal::terminal::{check_area, Settings};

use crate::helpers::{good, Random, Terminal};

const RT5: Settings = Settings::TRACE;

fn cell(kind: Kind, control: u16, pointer: u16) -> Cell {
    let terminal = Terminal::new(
        RT5,
        &[
            (0x0143, pointer),
            (0x0163, pointer),
            (0x0183, pointer),
            (0x01A3, control),
        ],
    );
    Cell::read(&terminal.ram, &RT5, kind, 3)
}

/// Whether a receive cell is sound beside a stack of 256 words at `stack`.
fn is_sound_beside(stack: u16, control: u16, pointer: u16) -> bool {
    let terminal = Terminal::new(RT5, &[(0x0100, stack)]);
    let stack = Stack::read(&terminal.ram, &RT5);
    cell(Kind::Receive, control, pointer).is_sound(4096, &stack)
}

fn is_sound(control: u16, pointer: u16) -> bool {
    is_sound_beside(0x0000, control, pointer)
}

fn stack_is_sound(size: u16, pointer: u16) -> bool {
    let settings = Settings {
        stack_size: size,
        ..RT5
    };
    let terminal = Terminal::new(settings, &[(0x0100, pointer)]);
    Stack::read(&terminal.ram, &settings).is_sound(4096)
}

/// RAM in which every cell is single at 0400.
fn sound_terminal(settings: Settings) -> Terminal {
    let mut terminal = Terminal::new(settings, &[]);
    terminal.ram[0x0140..0x01A0].fill(0x0400);
    terminal.ram[0x01C0..0x0220].fill(0x0400);
    terminal
}

#[test]
fn control_word_of_each_kind() {
    let schemes = |control| {
        [Kind::Receive, Kind::Transmit, Kind::Broadcast]
            .map(|kind| cell(kind, control, 0x0400).scheme)
    };
    use Scheme::{Circular, Double, Single};
    assert_eq!(schemes(0x0000), [Single, Single, Single]);
    assert_eq!(schemes(0x8000), [Double, Single, Double]);
    assert_eq!(schemes(0x0020), [Circular(128), Single, Single]);
    assert_eq!(schemes(0x0400), [Single, Circular(128), Single]);
    assert_eq!(schemes(0x0001), [Single, Single, Circular(128)]);
    // Bit 15 gives way to a size.
    assert_eq!(schemes(0x8020), [Circular(128), Single, Double]);
    assert_eq!(schemes(0x8001), [Double, Single, Circular(128)]);
    let all_sevens = 0x8000 | 7 << 10 | 7 << 5 | 7;
    assert_eq!(schemes(all_sevens), [Circular(8192); 3]);
}

#[test]
fn interrupt_bits_of_each_kind() {
    let bits = |kind, control| {
        let cell = cell(kind, control, 0x0400);
        (cell.message_interrupt, cell.circular_interrupt)
    };
    for (kind, message, circular) in [
        (Kind::Transmit, 14, 13),
        (Kind::Receive, 9, 8),
        (Kind::Broadcast, 4, 3),
    ] {
        assert_eq!(bits(kind, 1 << message), (true, false));
        assert_eq!(bits(kind, 1 << circular), (false, true));
        assert_eq!(bits(kind, !(1 << message | 1 << circular)), (false, false));
    }
}

#[test]
fn size_fields() {
    for (field, size) in [
        (1, 128),
        (2, 256),
        (3, 512),
        (4, 1024),
        (5, 2048),
        (6, 4096),
        (7, 8192),
    ] {
        let cell = cell(Kind::Receive, field << 5, 0x0400);
        assert_eq!(cell.scheme, Scheme::Circular(size));
        assert_eq!(cell.window().len(), usize::from(size));
    }
}

#[test]
fn windows() {
    let window = |control, pointer| cell(Kind::Receive, control, pointer).window();
    assert_eq!(window(0, 0x0403), 0x0403..0x0423);
    assert_eq!(window(0x8000, 0x0420), 0x0400..0x0440);
    assert_eq!(window(0x8000, 0x0400), 0x0400..0x0440);
    assert_eq!(window(0x0020, 0x047E), 0x0400..0x0480);
    assert_eq!(window(0x0020, 0x0480), 0x0480..0x0500);
    assert_eq!(window(0x00A0, 0x0FFF), 0x0800..0x1000);
}

#[test]
fn cell_numbers() {
    for (kind, number) in [
        (Kind::Receive, 3),
        (Kind::Transmit, 35),
        (Kind::Broadcast, 67),
    ] {
        assert_eq!(cell(kind, 0, 0).number(), number);
    }
}

#[test]
fn areas_have_their_own_tables() {
    let mut terminal = Terminal::new(RT5, &[(0x01C3, 0x0500), (0x0223, 0x0320)]);
    terminal.settings.area_b = true;
    let cell = Cell::read(&terminal.ram, &terminal.settings, Kind::Receive, 3);
    assert_eq!(cell.pointer, 0x0500);
    assert_eq!(cell.scheme, Scheme::Circular(128));
    assert!(cell.message_interrupt && cell.circular_interrupt);
    terminal.ram[0x0104] = 0x0800;
    assert_eq!(
        Stack::read(&terminal.ram, &terminal.settings).pointer,
        0x0800
    );
}

#[test]
fn single_cells_at_their_edges() {
    for (pointer, sound) in [
        (0x0247, false),
        (0x0248, true),
        (0x02E0, true),
        (0x02E1, false),
        (0x03FF, false),
        (0x0400, true),
        (0x0FE0, true),
        (0x0FE1, false),
        (0x0FFF, false),
        (0x1000, false),
        (0xFFE0, false),
        (0xFFFF, false),
    ] {
        assert_eq!(is_sound(0, pointer), sound, "{pointer:04X}");
    }
    assert!(is_sound_beside(0x0400, 0, 0x0000));
    assert!(is_sound_beside(0x0400, 0, 0x00E0));
    assert!(!is_sound_beside(0x0400, 0, 0x00E1));
}

#[test]
fn double_cells_at_their_edges() {
    for (pointer, sound) in [
        (0x0400, true),
        (0x0420, true),
        (0x0410, false),
        (0x0421, false),
        (0x0260, false),
        (0x0280, true),
        (0x02A0, true),
        (0x02E0, true),
        (0x0300, false),
        (0x0FE0, true),
        (0x0FFF, false),
        (0x1000, false),
        (0xFFE0, false),
    ] {
        assert_eq!(is_sound(0x8000, pointer), sound, "{pointer:04X}");
    }
}

#[test]
fn circular_cells_at_their_edges() {
    for (field, pointer, sound) in [
        (1, 0x027F, false),
        (1, 0x0280, true),
        (1, 0x02FF, true),
        (1, 0x0300, false),
        (1, 0x03FF, false),
        (1, 0x0400, true),
        (1, 0x0FFF, true),
        (1, 0x1000, false),
        (2, 0x02FF, false),
        (2, 0x0400, true),
        (4, 0x03FF, false),
        (4, 0x0400, true),
        (5, 0x07FF, false),
        (5, 0x0800, true),
        (5, 0x0FFF, true),
    ] {
        assert_eq!(
            is_sound(field << 5, pointer),
            sound,
            "{field} {pointer:04X}"
        );
    }
}

#[test]
fn the_two_largest_circles_are_never_sound() {
    for field in [6, 7] {
        for pointer in 0..=u16::MAX {
            assert!(!is_sound(field << 5, pointer));
        }
    }
}

#[test]
fn cells_keep_clear_of_the_active_stack() {
    for (pointer, sound) in [
        (0x04E0, true),
        (0x04E1, false),
        (0x0500, false),
        (0x05FF, false),
        (0x0600, true),
    ] {
        assert_eq!(is_sound_beside(0x0510, 0, pointer), sound, "{pointer:04X}");
    }
    assert!(!is_sound_beside(0x0510, 0x0060, 0x0400));
    assert!(is_sound_beside(0x0510, 0x0040, 0x0400));
}

#[test]
fn the_other_areas_stack_does_not_count() {
    let mut terminal = Terminal::new(RT5, &[(0x0104, 0x0400), (0x0143, 0x0400)]);
    assert_eq!(terminal.run(&good(0x2864)).number, 0);
    terminal.ram[0x0100] = 0x0400;
    assert_eq!(terminal.run(&good(0x2864)).number, 9);
}

#[test]
fn stacks_at_their_edges() {
    for (size, pointer, sound) in [
        (256, 0x0000, true),
        (256, 0x00FC, true),
        (256, 0x00FE, false),
        (256, 0x0001, false),
        (256, 0x0002, false),
        (256, 0x0004, true),
        (256, 0x0100, false),
        (256, 0x0200, false),
        (256, 0x02FC, false),
        (256, 0x0300, false),
        (256, 0x03FC, false),
        (256, 0x0400, true),
        (256, 0x0FFC, true),
        (256, 0x0FFD, false),
        (256, 0x1000, false),
        (256, 0xFFFC, false),
        (512, 0x0000, false),
        (512, 0x0400, true),
        (512, 0x0FFC, true),
        (1024, 0x0000, false),
        (1024, 0x0400, true),
        (1024, 0x0FFC, true),
        (2048, 0x0400, false),
        (2048, 0x07FC, false),
        (2048, 0x0800, true),
        (2048, 0x0FFC, true),
        (2048, 0x1000, false),
    ] {
        assert_eq!(stack_is_sound(size, pointer), sound, "{size} {pointer:04X}");
    }
}

#[test]
fn a_sound_area() {
    for area_b in [false, true] {
        for separate_broadcast in [false, true] {
            let settings = Settings {
                area_b,
                separate_broadcast,
                ..RT5
            };
            let terminal = sound_terminal(settings);
            assert_eq!(check_area(&terminal.ram, &settings), (0, 0));
        }
    }
}

#[test]
fn the_lowest_unsound_cell_is_named() {
    let mut settings = Settings {
        separate_broadcast: true,
        ..RT5
    };
    let mut terminal = sound_terminal(settings);
    for number in [94, 65, 62, 33, 30, 2, 1] {
        terminal.ram[0x0140 + number] = 0x0FE1;
        assert_eq!(check_area(&terminal.ram, &settings), (9, number as u16));
    }
    let mut terminal = sound_terminal(settings);
    terminal.ram[0x0140 + 94] = 0x0FE1;
    settings.separate_broadcast = false;
    assert_eq!(check_area(&terminal.ram, &settings), (0, 0));
}

#[test]
fn subaddresses_0_and_31_are_not_looked_at() {
    let settings = Settings {
        separate_broadcast: true,
        ..RT5
    };
    let mut terminal = sound_terminal(settings);
    for number in [0, 31, 32, 63, 64, 95] {
        terminal.ram[0x0140 + number] = 0xFFFF;
    }
    terminal.ram[0x01A0] = 0xFFFF;
    terminal.ram[0x01BF] = 0xFFFF;
    assert_eq!(check_area(&terminal.ram, &settings), (0, 0));
}

#[test]
fn area_refusals_and_their_order() {
    let mut terminal = sound_terminal(RT5);
    let mut settings = RT5;
    terminal.ram[0x0141] = 0x0FE1;
    assert_eq!(check_area(&terminal.ram, &settings), (9, 1));
    terminal.ram[0x0100] = 0x0200;
    assert_eq!(check_area(&terminal.ram, &settings), (8, 0));
    settings.address = 31;
    assert_eq!(check_area(&terminal.ram, &settings), (3, 0));
    assert_eq!(check_area(&terminal.ram[..4095], &settings), (1, 0));
    terminal.ram.push(0);
    assert_eq!(check_area(&terminal.ram, &settings), (1, 0));
    assert_eq!(check_area(&[], &settings), (1, 0));
}

/// Soundness word by word, without any arithmetic on ranges.
#[test]
fn soundness_agrees_with_a_word_by_word_look() {
    let mut random = Random::new(3);
    for _ in 0..20_000 {
        let pointer = random.word() & random.pick(&[0x0FFF, 0x1FFF, 0x0FE0, 0xFFFF]);
        let control = random.pick(&[0, 0x8000, 0x0020, 0x0040, 0x0060, 0x0080, 0x00A0, 0x00C0]);
        let stack = random.pick(&[0x0000, 0x0400, 0x0600, 0x0F00]);
        let window = cell(Kind::Receive, control, pointer).window();
        let usable = |word: usize| {
            let fixed = matches!(word, 0x0100..=0x0247 | 0x0300..=0x03FF);
            word <= 0x0FFF && !fixed && word / 256 != usize::from(stack) / 256
        };
        let expected = window.clone().all(usable) && (control != 0x8000 || pointer & 31 == 0);
        assert!(window.contains(&usize::from(pointer)));
        assert_eq!(is_sound_beside(stack, control, pointer), expected);
    }
}
