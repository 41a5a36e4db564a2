//! The sides of a comparison of labels and descriptions: the functions of the
//! header, over slices, and errors to be planted in them.

use crate::terminal::boundary as plain;

type CellLabel = fn(&[u16], &[u16], u16, &mut [u16]) -> u16;
type AreaLabel = fn(&[u16], &[u16], &mut [u16], &mut [u16], &mut [u16]) -> u16;
type CellDescription = fn(&[u16], &[u16], u16, &mut [u16]) -> u16;
type StackDescription = fn(&[u16], &[u16], &mut [u16]) -> u16;

#[derive(Clone, Copy)]
pub struct LabelSide {
    pub cell: CellLabel,
    pub area: AreaLabel,
    pub described_cell: CellDescription,
    pub described_stack: StackDescription,
}

/// This package's labels.
pub const PLAIN: LabelSide = LabelSide {
    cell: plain::label_cell,
    area: plain::label_area,
    described_cell: plain::describe_cell,
    described_stack: plain::describe_stack,
};

/// The proved terminal's.
#[cfg(feature = "engine")]
pub const PROVED: LabelSide = LabelSide {
    cell: crate::engine::boundary::label_cell,
    area: crate::engine::boundary::label_area,
    described_cell: crate::engine::boundary::describe_cell,
    described_stack: crate::engine::boundary::describe_stack,
};

/// This package's labels, always with this word in the settings.
macro_rules! setting {
    ($place:expr, $word:expr) => {
        LabelSide {
            cell: |ram, settings, cell, listing| {
                plain::label_cell(ram, &with(settings, $place, $word), cell, listing)
            },
            area: |ram, settings, counts, unsound, pairs| {
                let settings = with(settings, $place, $word);
                plain::label_area(ram, &settings, counts, unsound, pairs)
            },
            ..PLAIN
        }
    };
}

/// Errors by name: this package's labels, each wrong in one way.
pub const ERRORS: [(&str, LabelSide); 7] = [
    ("area-a-always", setting!(AREA, 0)),
    ("broadcast-always", setting!(SEPARATE, 1)),
    ("broadcast-never-off", setting!(OFF, 0)),
    (
        "all-write",
        LabelSide {
            cell: |ram, settings, cell, listing| {
                let number = plain::label_cell(ram, settings, cell, listing);
                let listed = 2 * listing.first().copied().map_or(0, usize::from);
                let marks = listing.iter_mut().take(listed + 1).skip(2).step_by(2);
                marks.for_each(|mark| *mark = 1);
                number
            },
            ..PLAIN
        },
    ),
    (
        "higher-first",
        LabelSide {
            area: |ram, settings, counts, unsound, pairs| {
                let number = plain::label_area(ram, settings, counts, unsound, pairs);
                let listed = counts.get(1).copied().map_or(0, usize::from);
                let pairs = pairs.iter_mut().take(listed);
                pairs.for_each(|pair| *pair = pair.swap_bytes());
                number
            },
            ..PLAIN
        },
    ),
    (
        "window-at-pointer",
        LabelSide {
            described_cell: |ram, settings, cell, description| {
                let number = plain::describe_cell(ram, settings, cell, description);
                if let [_, _, _, _, pointer, start, ..] = description {
                    *start = *pointer;
                }
                number
            },
            ..PLAIN
        },
    ),
    (
        "one-fault-alone",
        LabelSide {
            described_stack: |ram, settings, description| {
                let number = plain::describe_stack(ram, settings, description);
                if let [_, _, _, faults, ..] = description {
                    // The lowest bit that is set.
                    *faults &= faults.wrapping_neg();
                }
                number
            },
            ..PLAIN
        },
    ),
];

/// Places in the settings.
const AREA: usize = 1;
const SEPARATE: usize = 4;
const OFF: usize = 11;

fn with(settings: &[u16], place: usize, word: u16) -> Vec<u16> {
    let mut settings = settings.to_vec();
    settings[place] = word;
    settings
}
