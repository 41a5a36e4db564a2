//! What the program says of windows and faults agrees with the proved answers.

use plain_terminal::engine;
use plain_terminal::front::soundness::{cell_faults, stack_faults};
use plain_terminal::random::Random;
use plain_terminal::terminal::cells::{cells_read, meet, Cell};
use plain_terminal::terminal::described::{describe_cell, describe_stack};
use plain_terminal::terminal::Settings;

/// Any image, most of it sound, with pointers at the edges of all areas.
fn random_image(random: &mut Random, settings: &Settings) -> Vec<u16> {
    let mut ram = vec![0; 4096];
    let edges = [
        0x0000, 0x00E0, 0x0100, 0x0227, 0x0248, 0x02E0, 0x0300, 0x03FF, 0x0400, 0x0FE0,
    ];
    let stack = random.pick(&[
        0, 0, 4, 0x0404, 0x0800, 0x0C00, 0x0F00, 0x0FFC, 0x0200, 2, 0x1000,
    ]);
    ram[if settings.area_b { 0x0104 } else { 0x0100 }] = stack;
    let table = if settings.area_b { 0x01C0 } else { 0x0140 };
    for place in table..table + 96 {
        let near = random.pick(&edges) + random.below(4) as u16;
        let sound = 0x0400 + 32 * random.below(0x60) as u16;
        let any = random.word();
        ram[place] = random.pick(&[sound, sound, near, near.wrapping_sub(3), any]);
    }
    for place in table + 96..table + 128 {
        let word = random.word();
        ram[place] = random.pick(&[0, 0x8000, word & 0x8C63, word]);
    }
    ram
}

#[test]
fn reasons_are_given_where_something_is_unsound() {
    let mut random = Random::new(11);
    let mut numbers = [0; 10];
    for _ in 0..400 {
        let settings = random.settings();
        let ram = random_image(&mut random, &settings);
        let (number, lowest) = engine::check_area(&ram, &settings);
        numbers[usize::from(number)] += 1;
        assert_eq!(stack_faults(&ram, &settings).is_empty(), number != 8);
        let stack = engine::describe_stack(&ram, &settings);
        assert_eq!(stack, describe_stack(&ram, &settings));
        for number in 0..96 {
            let cell = engine::describe_cell(&ram, &settings, number);
            assert_eq!(cell, describe_cell(&ram, &settings, number), "{number}");
        }
        let label = match engine::label_area(&ram, &settings) {
            Ok(label) => label,
            Err(refused) => {
                assert_eq!(refused, number);
                continue;
            }
        };
        assert_eq!(label.unsound.first().copied().unwrap_or(0), lowest);
        let cells: Vec<Cell> = cells_read(&ram, &settings).collect();
        for cell in &cells {
            let faulty = !cell_faults(&ram, &settings, cell.number()).is_empty();
            assert_eq!(faulty, label.unsound.contains(&cell.number()), "{cell:?}");
        }
        let sound = cells
            .iter()
            .filter(|it| !label.unsound.contains(&it.number()));
        let sound: Vec<&Cell> = sound.collect();
        for (place, lower) in sound.iter().enumerate() {
            for higher in &sound[place + 1..] {
                let pair = (lower.number(), higher.number());
                let shares = meet(&lower.window(), &higher.window());
                assert_eq!(shares, label.pairs.contains(&pair), "{pair:?}");
            }
        }
    }
    assert!(numbers[8] > 20 && numbers[9] > 20, "{numbers:?}");
}
