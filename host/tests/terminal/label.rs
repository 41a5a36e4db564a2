//! The label on shared pages.

use plain_terminal::terminal::cells::{cells_read, Cell, Stack};
use plain_terminal::terminal::label::{label_area, label_cell, AreaLabel, Sharer};
use plain_terminal::terminal::{check_area, Settings};

use crate::helpers::{Random, Terminal};
use crate::rules::random_terminal;

const RT5: Settings = Settings::TRACE;

/// Cells with their pointers; all others point to 0000, into the stack.
fn area(settings: Settings, cells: &[(usize, u16)]) -> Terminal {
    let mut terminal = Terminal::new(settings, &[]);
    for &(cell, pointer) in cells {
        terminal.ram[0x0140 + cell] = pointer;
    }
    terminal
}

fn sharers(terminal: &Terminal, cell: u16) -> Vec<(u16, bool)> {
    let listing = label_cell(&terminal.ram, &terminal.settings, cell).unwrap();
    let plain = |Sharer { cell, writes }| (cell, writes);
    listing.into_iter().map(plain).collect()
}

fn pairs(terminal: &Terminal) -> Vec<(u16, u16)> {
    label_area(&terminal.ram, &terminal.settings).unwrap().pairs
}

/// Anna's two blocks and Bert's block, as the class has them.
fn owners() -> Terminal {
    let mut terminal = area(RT5, &[(19, 0x04A0), (30, 0x0480), (32 + 30, 0x0480)]);
    terminal.ram[0x01B3] = 0x8000;
    terminal
}

#[test]
fn the_makers_mistake_is_found() {
    let terminal = owners();
    assert_eq!(sharers(&terminal, 19), [(30, true), (62, false)]);
    assert_eq!(sharers(&terminal, 30), [(19, true), (62, false)]);
    assert_eq!(sharers(&terminal, 62), [(19, true), (30, true)]);
    assert_eq!(pairs(&terminal), [(19, 30), (19, 62), (30, 62)]);
}

/// The cells left at 0000 lie in the stack.
#[test]
fn unsound_cells_are_named_and_take_no_part() {
    let terminal = owners();
    let label = label_area(&terminal.ram, &RT5).unwrap();
    assert_eq!(label.unsound.len(), 57);
    assert_eq!(label.unsound[..3], [1, 2, 3]);
    assert!(!label.unsound.contains(&62));
    for cell in label.unsound {
        assert_eq!(label_cell(&terminal.ram, &RT5, cell), Err(9));
    }
}

#[test]
fn windows_that_only_touch_do_not_meet() {
    assert_eq!(pairs(&area(RT5, &[(1, 0x0480), (2, 0x04A0)])), []);
    assert_eq!(pairs(&area(RT5, &[(1, 0x0480), (2, 0x049F)])), [(1, 2)]);
}

#[test]
fn two_cells_that_only_send_are_a_pair() {
    let terminal = area(RT5, &[(33, 0x0480), (34, 0x0490)]);
    assert_eq!(pairs(&terminal), [(33, 34)]);
    assert_eq!(sharers(&terminal, 33), [(34, false)]);
}

#[test]
fn broadcast_cells_are_read_where_they_are_separate() {
    let cells = [(3, 0x0480), (64 + 3, 0x0480)];
    assert_eq!(pairs(&area(RT5, &cells)), []);
    assert_eq!(label_cell(&area(RT5, &cells).ram, &RT5, 67), Err(9));
    let separate = Settings {
        separate_broadcast: true,
        ..RT5
    };
    let terminal = area(separate, &cells);
    assert_eq!(pairs(&terminal), [(3, 67)]);
    assert_eq!(sharers(&terminal, 3), [(67, true)]);
}

#[test]
fn refusals_in_their_order() {
    let terminal = owners();
    let ask = |ram: &[u16], settings: &Settings, cell| {
        let area = label_area(ram, settings).map_or_else(|number| number, |_| 0);
        let one = label_cell(ram, settings, cell).map_or_else(|number| number, |_| 0);
        (area, one)
    };
    let wrong = Settings { address: 31, ..RT5 };
    let mut unsound_stack = terminal.ram.clone();
    unsound_stack[0x0100] = 2;
    assert_eq!(ask(&terminal.ram[1..], &wrong, 0), (1, 1));
    assert_eq!(ask(&unsound_stack, &wrong, 0), (3, 3));
    assert_eq!(ask(&unsound_stack, &RT5, 0), (8, 8));
    for cell in [0, 31, 32, 63, 64, 67, 95, 96, 0xFFFF] {
        assert_eq!(ask(&terminal.ram, &RT5, cell), (0, 9), "cell {cell}");
    }
    assert_eq!(ask(&terminal.ram, &RT5, 30), (0, 0));
}

/// Whether each word of RAM lies in a window.
fn words(cell: &Cell) -> Vec<bool> {
    let window = cell.window();
    (0..0x1000).map(|word| window.contains(&word)).collect()
}

/// What a label says, worked out word by word.
fn expected(ram: &[u16], settings: &Settings) -> AreaLabel {
    let stack = Stack::read(ram, settings);
    let mut label = AreaLabel::default();
    let mut sound: Vec<(u16, Vec<bool>)> = Vec::new();
    for cell in cells_read(ram, settings) {
        if cell.is_sound(ram.len(), &stack) {
            sound.push((cell.number(), words(&cell)));
        } else {
            label.unsound.push(cell.number());
        }
    }
    for (lower, a) in &sound {
        for (higher, b) in &sound {
            if lower < higher && a.iter().zip(b).any(|(&a, &b)| a && b) {
                label.pairs.push((*lower, *higher));
            }
        }
    }
    label
}

#[test]
fn random_areas() {
    let mut random = Random::new(3);
    let mut met = [0; 3];
    for _ in 0..60 {
        let terminal = random_terminal(&mut random);
        let (ram, settings) = (&terminal.ram, &terminal.settings);
        let label = label_area(ram, settings).unwrap();
        assert_eq!(label, expected(ram, settings));
        let first = label.unsound.first().copied().unwrap_or(0);
        assert_eq!(check_area(ram, settings).1, first);
        for &(lower, higher) in &label.pairs {
            for (one, other) in [(lower, higher), (higher, lower)] {
                assert!(sharers(&terminal, one).contains(&(other, other / 32 != 1)));
            }
        }
        let kinds = [
            usize::from(first != 0),
            label.unsound.len(),
            label.pairs.len(),
        ];
        met.iter_mut()
            .zip(kinds)
            .for_each(|(sum, more)| *sum += more);
    }
    assert!(met.iter().all(|&times| times > 20), "{met:?}");
}
