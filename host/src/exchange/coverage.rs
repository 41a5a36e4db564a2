//! What the lists have met: how often each class of list and of exchange
//! occurred. The classes of messages are those of [`crate::compare::coverage`].

use super::condition::Use;
use super::list::List;
use super::said::Both;
use crate::compare::classes;
use crate::terminal::cells::{Stack, DESCRIPTOR_WORDS};
use crate::terminal::message::REPLY_WORDS;
use crate::terminal::settings::BROADCAST_ADDRESS;
use crate::terminal::words::Command;
use crate::terminal::Answer;

classes! {
    Lists "lists",
    OneMessage "lists of one message",
    NoExchange "lists with no exchange",
    EqualRecords "lists with equal records",
    ManyReplyWords "lists with more than 33 reply words",
    OtherOrder "lists that end in another order",
    OtherLast "lists that end with another message",
    OtherStack "lists that leave another stack",
    OtherReply "lists that leave another reply",
    StackWrapped "lists whose stack wrapped",
    OtherWraps "lists whose stack wrapped under another message",
    StackAtStart "lists from the first entry of the stack's block",
    StackAtEnd "lists from the last entry of the stack's block",
    Overfull256 "lists with more descriptors than 256 words hold",
    Overfull512 "lists with more descriptors than 512 words hold",
    Overfull1024 "lists with more descriptors than 1024 words hold",
    Overfull2048 "lists with more descriptors than 2048 words hold",
    Exchanges "exchanges",
    ReceivesApart "exchanges of two receives, windows apart",
    MixedApart "exchanges of a receive and a transmit, windows apart",
    TransmitsApart "exchanges of two transmits, windows apart",
    TransmitsMeet "exchanges of two transmits, windows meet",
    OneSubaddress "exchanges in two cells of one subaddress",
    Faultless "exchanges with no fault",
    PointersMove "exchanges with two pointers that move",
    Faulty "exchanges with a faulty message",
    Illegal "exchanges with an illegal message",
    Busy "exchanges with a busy message",
    Broadcast "exchanges with a broadcast message",
    Transfer "exchanges with a good transfer",
    TransferFault "exchanges with a transfer without status, with a wrong gap or a bad second command",
    Off "exchanges with broadcast off",
    At31 "exchanges at address 31, with broadcast off",
    Equal "exchanges with a message that has an equal in its list",
    KeptCell "neighbours left in place: one cell",
    KeptReceives "neighbours left in place: two receives, windows meet",
    KeptMixed "neighbours left in place: a receive and a transmit, windows meet",
}

impl Coverage {
    pub fn lists(&self) -> u64 {
        self.count(Class::Lists)
    }

    pub fn exchanges(&self) -> u64 {
        self.count(Class::Exchanges)
    }

    pub fn take_in(&mut self, list: &List, both: &Both) {
        self.take_in_list(list, both);
        self.take_in_stack(list, both);
        self.take_in_exchanges(list, both);
    }

    fn take_in_list(&mut self, list: &List, both: &Both) {
        use Class::*;
        let (old, new) = (&both.old, &both.new);
        self.note(Lists, true);
        self.note(OneMessage, list.messages.len() == 1);
        self.note(NoExchange, list.exchanges.is_empty());
        self.note(EqualRecords, has_equal(list).contains(&true));
        self.note(ManyReplyWords, list.reply_words > REPLY_WORDS);
        self.note(OtherOrder, old.order != new.order);
        self.note(OtherLast, old.order.last() != new.order.last());
        self.note(OtherReply, old.end.reply != new.end.reply);
    }

    fn take_in_stack(&mut self, list: &List, both: &Both) {
        use Class::*;
        let stack = Stack::read(&list.start.ram, &list.settings);
        let block = stack.block.clone();
        let wrapping = |played: &super::play::Played| -> Vec<bool> {
            played
                .shown
                .iter()
                .map(|shown| shown.wraps_stack())
                .collect()
        };
        let (old, new) = (wrapping(&both.old), wrapping(&both.new));
        self.note(
            OtherStack,
            both.old.end.ram[block.clone()] != both.new.end.ram[block.clone()],
        );
        self.note(StackWrapped, new.contains(&true));
        self.note(OtherWraps, old != new);
        self.note(StackAtStart, stack.descriptor().start == block.start);
        self.note(StackAtEnd, stack.descriptor().end == block.end);
        let overfull = match list.settings.stack_size {
            256 => Overfull256,
            512 => Overfull512,
            1024 => Overfull1024,
            _ => Overfull2048,
        };
        self.note(
            overfull,
            list.messages.len() * DESCRIPTOR_WORDS > block.len(),
        );
    }

    fn take_in_exchanges(&mut self, list: &List, both: &Both) {
        let uses = list.uses();
        let equal = has_equal(list);
        let mut order = list.old_order();
        for &place in &list.exchanges {
            let pair = [order[place], order[place + 1]];
            self.take_in_uses(pair.map(|number| &uses[number]));
            self.take_in_answers(pair.map(|number| &both.old.shown[number].answer));
            let command = |number: usize| Command(list.messages[number].command);
            let broadcast = pair
                .iter()
                .any(|&number| list.settings.is_broadcast(command(number)));
            self.note(Class::Broadcast, broadcast);
            self.note(Class::Off, !list.settings.broadcast);
            self.note(Class::At31, list.settings.address == BROADCAST_ADDRESS);
            self.note(Class::Equal, pair.iter().any(|&number| equal[number]));
            order.swap(place, place + 1);
        }
        for pair in order.windows(2) {
            self.take_in_neighbours(&uses[pair[0]], &uses[pair[1]]);
        }
    }

    /// What two that were exchanged use.
    fn take_in_uses(&mut self, [a, b]: [&Use; 2]) {
        use Class::*;
        let class = match (a.sends, b.sends) {
            (false, false) => ReceivesApart,
            (true, true) if a.meets(b) => TransmitsMeet,
            (true, true) => TransmitsApart,
            _ => MixedApart,
        };
        self.note(Exchanges, true);
        self.note(class, true);
        self.note(OneSubaddress, a.cell.subaddress == b.cell.subaddress);
    }

    /// What two that were exchanged were answered.
    fn take_in_answers(&mut self, pair: [&Answer; 2]) {
        use Class::*;
        let faulty = pair.iter().any(|answer| answer.block_status & 0x1000 != 0);
        let illegal = pair.iter().any(|answer| answer.block_status & 0x0040 != 0);
        let busy = pair.iter().any(|answer| answer.status & 0x0008 != 0);
        let moves = |answer: &&Answer| answer.pointer_before != answer.pointer_after;
        let transfer = |answer: &&Answer| answer.block_status & 0x1800 == 0x0800;
        let transfer_fault = |answer: &&Answer| answer.block_status & 0x0206 != 0;
        self.note(if faulty { Faulty } else { Faultless }, true);
        self.note(Transfer, pair.iter().any(transfer));
        self.note(TransferFault, pair.iter().any(transfer_fault));
        self.note(Illegal, illegal);
        self.note(Busy, busy);
        self.note(PointersMove, pair.iter().all(moves));
    }

    /// Two that stand side by side in the end.
    fn take_in_neighbours(&mut self, a: &Use, b: &Use) {
        use Class::*;
        let one_cell = a.is_of_cell(b);
        let meet = !one_cell && a.meets(b);
        self.note(KeptCell, one_cell);
        self.note(KeptReceives, meet && !a.sends && !b.sends);
        self.note(KeptMixed, meet && a.sends != b.sends);
    }
}

/// Whether each message has an equal in its list, by its number.
fn has_equal(list: &List) -> Vec<bool> {
    let times = |record| {
        list.messages
            .iter()
            .filter(|&other| other == record)
            .count()
    };
    list.messages
        .iter()
        .map(|record| times(record) > 1)
        .collect()
}
