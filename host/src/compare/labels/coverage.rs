//! What a comparison of labels has met: how often each class of case occurred.

use super::draw::{Asked, KINDS};
use super::{cell_numbers, Answers};
use crate::compare::classes;
use crate::terminal::boundary::PAIRS_WORDS;
use crate::terminal::cells::{
    cells_read, meet, Cell, Kind, Scheme, Stack, FIXED_AREAS, LARGE_RAM_WORDS, RAM_WORDS,
};
use crate::terminal::described::{describe_cell, describe_stack, stack_fault};
use crate::terminal::refusal;
use crate::terminal::Settings;

classes! {
    AreaListed "whole areas listed",
    Area1 "whole areas refused with 1, RAM length",
    Area3 "whole areas refused with 3, settings",
    Area8 "whole areas refused with 8, stack",
    CellListed "cells listed",
    Cell1 "cells refused with 1, RAM length",
    Cell3 "cells refused with 3, settings",
    Cell8 "cells refused with 8, stack",
    Cell9Unsound "cells refused with 9, unsound",
    Cell9Mode "cells refused with 9, subaddress 0 or 31",
    Cell9Broadcast "cells refused with 9, broadcast cells that are not read",
    Cell9None "cells refused with 9, no cell at all",
    AreaA "area A",
    AreaB "area B",
    Stack256 "stack of 256 words",
    Stack512 "stack of 512 words",
    Stack1024 "stack of 1024 words",
    Stack2048 "stack of 2048 words",
    Separate "broadcast cells of their own",
    Together "broadcast with receive",
    SeparateOff "broadcast off, though separate-broadcast is on",
    Receives "pairs of receive cells",
    Transmits "pairs of transmit cells",
    Broadcasts "pairs of broadcast cells",
    ReceiveTransmit "pairs of a receive and a transmit cell",
    ReceiveBroadcast "pairs of a receive and a broadcast cell",
    TransmitBroadcast "pairs of a transmit and a broadcast cell",
    Singles "pairs of single buffers",
    Doubles "pairs of double buffers",
    Circles "pairs of circles",
    SingleDouble "pairs of a single and a double buffer",
    SingleCircle "pairs of a single buffer and a circle",
    DoubleCircle "pairs of a double buffer and a circle",
    OneWord "pairs that share one word",
    Touching "windows that touch and do not meet",
    NoPair "areas without a pair",
    Sparse "areas with 1 to 30 pairs",
    Dense "areas with over 1000 pairs",
    AllPairs "areas with all 4005 pairs",
    NoPairRoom "areas with less room than pairs",
    NoneUnsound "areas without an unsound cell",
    AllUnsound "areas in which all cells are unsound",
    PastEnd "cells unsound, past the end of RAM",
    OnFixed "cells unsound, on a fixed area",
    OnStack "cells unsound, on the stack",
    Unread "cells described that are not read",
    TwoFaults "cells described with two faults",
    StackOff "stacks described, pointer no multiple of 4",
    StackOver "stacks described, pointer over 4 below RAM's end",
    LargeListed "areas of the 64K card listed",
    BeyondSmallEnd "pairs beyond 0FFF",
    LargeCircles "pairs with a circle of 4096 or 8192 words",
    LargeUnsound "circles of 4096 or 8192 words unsound on the 64K card",
    StackFixed "stacks described, on a fixed area",
    DoubleOff "cells unsound, double and no multiple of 32",
    Alone "cells that share with none",
    WithAll "cells that share with all 89 others",
}

impl Coverage {
    pub fn images(&self) -> u64 {
        use Class::*;
        let areas = [AreaListed, Area1, Area3, Area8];
        areas.into_iter().map(|class| self.count(class)).sum()
    }

    /// Takes in what was asked and answered; the answers are both sides'.
    pub fn take_in(&mut self, asked: &Asked, answers: &Answers) {
        use Class::*;
        self.note(Area1, answers.area == refusal::RAM_LENGTH);
        self.note(Area3, answers.area == refusal::SETTINGS);
        self.note(Area8, answers.area == refusal::STACK);
        for (cell, (number, _)) in cell_numbers().zip(&answers.cells) {
            self.take_in_cell(&asked.settings, cell, *number);
        }
        self.take_in_descriptions(asked);
        if answers.area == 0 {
            self.note(AreaListed, true);
            self.take_in_settings(&asked.settings);
            self.take_in_area(asked);
        }
    }

    fn take_in_cell(&mut self, settings: &Settings, cell: u16, number: u16) {
        use Class::*;
        self.note(CellListed, number == 0);
        self.note(Cell1, number == refusal::RAM_LENGTH);
        self.note(Cell3, number == refusal::SETTINGS);
        self.note(Cell8, number == refusal::STACK);
        if number == refusal::CELL {
            let class = match cell {
                96.. => Cell9None,
                _ if matches!(cell % 32, 0 | 31) => Cell9Mode,
                64.. if !settings.has_broadcast_cells() => Cell9Broadcast,
                _ => Cell9Unsound,
            };
            self.note(class, true);
        }
    }

    fn take_in_descriptions(&mut self, asked: &Asked) {
        use Class::*;
        let ram = &asked.ram[..asked.ram_words];
        for number in cell_numbers() {
            if let Ok(cell) = describe_cell(ram, &asked.settings, number) {
                self.note(Unread, !cell.is_read);
                self.note(TwoFaults, cell.is_read && cell.faults.count_ones() == 2);
            }
        }
        if let Ok(stack) = describe_stack(ram, &asked.settings) {
            let fixed = stack_fault::LOW_AREA | stack_fault::HIGH_AREA;
            self.note(StackOff, stack.faults & stack_fault::POINTER_OFF != 0);
            self.note(StackOver, stack.faults & stack_fault::POINTER_OVER != 0);
            self.note(StackFixed, stack.faults & fixed != 0);
        }
    }

    fn take_in_settings(&mut self, settings: &Settings) {
        use Class::*;
        self.note(AreaA, !settings.area_b);
        self.note(AreaB, settings.area_b);
        self.note(Stack256, settings.stack_size == 256);
        self.note(Stack512, settings.stack_size == 512);
        self.note(Stack1024, settings.stack_size == 1024);
        self.note(Stack2048, settings.stack_size == 2048);
        self.note(Separate, settings.has_broadcast_cells());
        self.note(Together, settings.broadcast && !settings.separate_broadcast);
        self.note(
            SeparateOff,
            !settings.broadcast && settings.separate_broadcast,
        );
    }

    fn take_in_area(&mut self, asked: &Asked) {
        use Class::*;
        let ram = &asked.ram[..asked.ram_words];
        self.note(LargeListed, ram.len() == LARGE_RAM_WORDS);
        let stack = Stack::read(ram, &asked.settings);
        let cells = cells_read(ram, &asked.settings);
        let (sound, unsound): (Vec<Cell>, Vec<Cell>) =
            cells.partition(|cell| cell.is_sound(ram.len(), &stack));
        self.note(NoneUnsound, unsound.is_empty());
        self.note(AllUnsound, sound.is_empty());
        for cell in &unsound {
            self.take_in_unsound(cell, &stack, ram.len());
        }
        let mut pairs = 0;
        for (place, lower) in sound.iter().enumerate() {
            for higher in &sound[place + 1..] {
                pairs += usize::from(self.take_in_two(lower, higher));
            }
            let shared = |other: &&Cell| meet(&lower.window(), &other.window());
            let others = sound.iter().filter(shared).count() - 1;
            self.note(Alone, others == 0);
            self.note(WithAll, others + 1 == KINDS.len() * 30);
        }
        self.note(NoPair, pairs == 0);
        self.note(Sparse, (1..=30).contains(&pairs));
        self.note(Dense, pairs > 1000);
        self.note(AllPairs, pairs == PAIRS_WORDS);
        self.note(NoPairRoom, pairs > asked.pairs_room);
    }

    fn take_in_unsound(&mut self, cell: &Cell, stack: &Stack, ram_words: usize) {
        use Class::*;
        let window = cell.window();
        let fixed = FIXED_AREAS.iter().any(|area| meet(area, &window));
        let off = cell.scheme == Scheme::Double && cell.pointer % 32 != 0;
        self.note(PastEnd, window.end > ram_words);
        let on_large = ram_words == LARGE_RAM_WORDS;
        self.note(LargeUnsound, on_large && is_large(cell));
        self.note(OnFixed, fixed);
        self.note(OnStack, meet(&window, &stack.block));
        self.note(DoubleOff, off);
    }

    /// Takes in two sound cells; returns whether they meet.
    fn take_in_two(&mut self, lower: &Cell, higher: &Cell) -> bool {
        use Class::*;
        let (one, other) = (lower.window(), higher.window());
        self.note(Touching, one.end == other.start || other.end == one.start);
        if !meet(&one, &other) {
            return false;
        }
        let shared = one.end.min(other.end) - one.start.max(other.start);
        self.note(OneWord, shared == 1);
        self.note(BeyondSmallEnd, one.start.max(other.start) >= RAM_WORDS);
        self.note(LargeCircles, is_large(lower) || is_large(higher));
        let kinds = match (lower.kind, higher.kind) {
            (Kind::Receive, Kind::Receive) => Receives,
            (Kind::Transmit, Kind::Transmit) => Transmits,
            (Kind::Broadcast, Kind::Broadcast) => Broadcasts,
            (Kind::Receive, Kind::Transmit) => ReceiveTransmit,
            (Kind::Receive, _) => ReceiveBroadcast,
            _ => TransmitBroadcast,
        };
        self.note(kinds, true);
        let schemes = match (lower.scheme, higher.scheme) {
            (Scheme::Single, Scheme::Single) => Singles,
            (Scheme::Double, Scheme::Double) => Doubles,
            (Scheme::Circular(_), Scheme::Circular(_)) => Circles,
            (Scheme::Single, Scheme::Double) | (Scheme::Double, Scheme::Single) => SingleDouble,
            (Scheme::Single, _) | (_, Scheme::Single) => SingleCircle,
            _ => DoubleCircle,
        };
        self.note(schemes, true);
        true
    }
}

fn is_large(cell: &Cell) -> bool {
    matches!(cell.scheme, Scheme::Circular(4096 | 8192))
}
