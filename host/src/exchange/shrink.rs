//! Makes a list that shows a difference small enough to be read.

use super::list::List;
use crate::compare::shrink::Shrinking;
use crate::terminal::cells::{control_place, lookup_place, stack_pointer_place, Kind};
use crate::terminal::message::REPLY_WORDS;

/// The smallest list found that still differs.
pub fn shrink_list(list: &List, differs: impl Fn(&List) -> bool) -> List {
    let mut shrinking = Shrinking::new(list, differs);
    shrinking.keep_one_exchange();
    while shrinking.round() {}
    shrinking.smallest
}

impl<F: Fn(&List) -> bool> Shrinking<List, F> {
    /// One exchange that makes the difference, in the order that it found.
    fn keep_one_exchange(&mut self) {
        let list = self.smallest.clone();
        let mut without = 0;
        let mut with = list.exchanges.len();
        while without + 1 < with {
            let middle = (without + with) / 2;
            if self.shows(|list| list.exchanges.truncate(middle)) {
                with = middle;
            } else {
                without = middle;
            }
        }
        let order = list.order_after(without);
        self.take(|list| {
            list.messages = order.iter().map(|&n| list.messages[n]).collect();
            list.exchanges = list.exchanges[without..with].to_vec();
        });
    }

    /// One round of every step; whether anything became smaller.
    fn round(&mut self) -> bool {
        let mut smaller = self.drop_messages();
        smaller |= self.take(|list| list.reply_words = REPLY_WORDS);
        smaller |= self.move_stack();
        for subaddress in 1..=30 {
            smaller |= self.take(|list| clear_cells(list, subaddress));
        }
        smaller |= self.zero_state(|list| &mut list.start);
        smaller |= self.simplify_settings(|list| &mut list.settings);
        for number in 0..self.smallest.messages.len() {
            smaller |= self.simplify_record(|list| &mut list.messages[number]);
        }
        smaller
    }

    /// Drops messages, in runs that become shorter.
    fn drop_messages(&mut self) -> bool {
        let mut smaller = false;
        let mut run = self.smallest.messages.len().next_power_of_two();
        while run > 0 {
            let mut first = 0;
            while first < self.smallest.messages.len() {
                if self.take(|list| drop_run(list, first, run)) {
                    smaller = true;
                } else {
                    first += run;
                }
            }
            run /= 2;
        }
        smaller
    }

    /// Moves a stack of the smallest size to where the rest of RAM can be zero.
    fn move_stack(&mut self) -> bool {
        let is_moved = |list: &List| {
            let pointer = list.start.ram[stack_pointer_place(&list.settings)];
            list.settings.stack_size == 256 && pointer >= 0x0400
        };
        if is_moved(&self.smallest) {
            return false;
        }
        (0x04..0x10).rev().any(|block| {
            self.take(|list| {
                list.settings.stack_size = 256;
                list.start.ram[stack_pointer_place(&list.settings)] = block << 8;
            })
        })
    }
}

/// Zeroes the pointers of a subaddress and its control word.
fn clear_cells(list: &mut List, subaddress: u16) {
    let (ram, settings) = (&mut list.start.ram, &list.settings);
    ram[control_place(settings, subaddress)] = 0;
    for kind in [Kind::Receive, Kind::Transmit, Kind::Broadcast] {
        ram[lookup_place(settings, kind, subaddress)] = 0;
    }
}

/// The list without a run of its messages, and without their exchanges.
fn drop_run(list: &mut List, first: usize, run: usize) {
    let last = list.messages.len().min(first + run);
    let is_dropped = |number: usize| (first..last).contains(&number);
    let mut order = list.old_order();
    let mut exchanges = Vec::new();
    for &place in &list.exchanges {
        if !is_dropped(order[place]) && !is_dropped(order[place + 1]) {
            let kept = order[..place].iter().filter(|&&n| !is_dropped(n));
            exchanges.push(kept.count());
        }
        order.swap(place, place + 1);
    }
    list.messages.drain(first..last);
    list.exchanges = exchanges;
}
