//! What a comparison has met: how often each class of case occurred.

mod transfers;

use super::case::{Answers, Message, Request, State};
use super::classes;
use crate::terminal::cells::{Cell, Kind, Scheme, Stack, LARGE_RAM_WORDS, RAM_WORDS};
use crate::terminal::message::cell_kind;
use crate::terminal::records::{
    read_record, Record, FLAG_BUS_B, FLAG_INVALID_WORD, FLAG_WRONG_SYNC, TOO_MANY,
};
use crate::terminal::settings::BROADCAST_ADDRESS;
use crate::terminal::words::Command;
use crate::terminal::{Answer, Settings};

classes! {
    FromBytes "messages from bytes",
    FromValue "messages from values",
    Accepted "accepted",
    Refused1 "refused with 1, RAM length",
    Refused1Between "refused with 1, a length between those of the two cards",
    Refused2 "refused with 2, reply length",
    Refused3 "refused with 3, settings",
    Refused3At31 "refused with 3, our own address 31 with broadcast on",
    Refused4 "refused with 4, record length",
    Refused5 "refused with 5, record layout (bytes)",
    Refused5Value "refused with 5, record layout (value)",
    ZeroBytes5 "refused with 5 for bytes 8-15 alone",
    Flags5 "refused with 5 for flag 128 alone",
    Count5 "refused with 5 for the count alone",
    WordsAfter5 "refused with 5 for words after the counted ones alone",
    TransferReceives5 "refused with 5 for flag 8 on a transmit command alone",
    FaultOfTransfer5 "refused with 5 for flags 16 to 64 without flag 8 alone",
    CommandOfTransfer5 "refused with 5 for bytes 2-3 without flag 8 alone",
    NoWordAfterFault5 "refused with 5 for a count with flags 16 to 64 alone",
    Refused6 "refused with 6, address",
    Refused6At31 "refused with 6, address 31 with broadcast off",
    Refused7 "refused with 7, subaddress",
    Refused8 "refused with 8, stack",
    Refused9 "refused with 9, cell",
    Refused9Beyond "refused with 9, a pointer over 0FFF on the small card",
    Transfer6 "transfer refused with 6",
    Transfer7 "transfer refused with 7",
    SingleReceive "single, receive",
    SingleTransmit "single, transmit",
    SingleBroadcast "single, broadcast",
    DoubleReceive "double, receive",
    DoubleBroadcast "double, broadcast",
    CircularReceive "circular, receive",
    CircularTransmit "circular, transmit",
    CircularBroadcast "circular, broadcast",
    Circle128 "circular of 128 words",
    Circle256 "circular of 256 words",
    Circle512 "circular of 512 words",
    Circle1024 "circular of 1024 words",
    Circle2048 "circular of 2048 words",
    Circle4096 "circular of 4096 words, on the 64K card",
    Circle8192 "circular of 8192 words, on the 64K card",
    CircleTooLarge "circular of 4096 or 8192 words, refused on the small card",
    CircleTooLow "circular of 4096 or 8192 words, refused on the 64K card",
    SmallCard "on the card of 4,096 words",
    LargeCard "on the 64K card",
    OverSmallEnd "window from below 1000 to beyond it",
    BeyondSmallEnd "window beyond 0FFF",
    AtLargeEnd "window up to the end of the 64K card",
    StackAtLargeEnd "stack pointer 4 below the end of the 64K card",
    PointerFlipped "double pointer flipped",
    PointerMoved "circular pointer moved",
    PointerKept "circular pointer kept back after a fault",
    PointerMovedInvalid "circular pointer moved despite a fault",
    Wrapped "words on both sides of a circle's end",
    EndReached "circle's end reached exactly",
    EndMissed "one word short of a circle's end",
    Rollover "rollover",
    RolloverInterrupt "rollover with its interrupt",
    EndInterrupt "end-of-message interrupt",
    StackWrapped "stack wrapped",
    OwnReceive "own receive",
    OwnTransmit "own transmit",
    BroadcastReceive "broadcast receive",
    BroadcastTransmit "broadcast transmit (contents fault)",
    YesBroadcast "broadcast on",
    NoBroadcast "broadcast off",
    OrdinaryReceive "receive at 31, our own with broadcast off",
    OrdinaryTransmit "transmit at 31, our own with broadcast off",
    OrdinarySeparate "separate-broadcast on with broadcast off",
    CountFault "count fault",
    SyncFault "sync fault",
    InvalidWord "invalid word",
    SyncAndInvalid "sync fault and invalid word",
    BusB "bus B",
    GoodTransfer "transfer without a fault",
    BroadcastTransfer "transfer, broadcast",
    TransferFromZero "transfer with transmit command 0",
    TransferCount "transfer with a count fault",
    TransferData "transfer with wrong sync or an invalid word",
    TransferNoStatus "transfer without a status",
    TransferGap "transfer with a wrong gap",
    TransferSecond "transfer with a bad second command",
    TransferTwoFaults "transfer with two of the last three",
    TransferThreeFaults "transfer with all three",
    TransferBesideData "transfer with one of the three beside wrong sync or an invalid word",
    CountZero "no words",
    CountOver "more than 32 words",
    CountFieldZero "count field 0",
    Illegal "illegal",
    Busy "busy",
    BusyAlways "busy under busy-always",
    WithheldIllegal "words withheld, illegal",
    WithheldBusy "words withheld, busy",
    FaultyWithheld "words of a faulty message withheld",
    WordsSent "data words sent",
    Sent32 "32 words sent",
    NoStatus "no status sent",
    AreaA "area A",
    AreaB "area B",
    Stack256 "stack of 256 words",
    Stack512 "stack of 512 words",
    Stack1024 "stack of 1024 words",
    Stack2048 "stack of 2048 words",
    YesOverwrite "overwrite-invalid on",
    NoOverwrite "overwrite-invalid off",
    YesSeparate "separate-broadcast on",
    NoSeparate "separate-broadcast off",
    YesIllegalDisable "illegal-receive-disable on",
    NoIllegalDisable "illegal-receive-disable off",
    YesBusyDisable "busy-receive-disable on",
    NoBusyDisable "busy-receive-disable off",
    NoBusyAlways "busy-always off",
    YesService "service request on",
    NoService "service request off",
    YesSubsystem "subsystem flag on",
    NoSubsystem "subsystem flag off",
    YesTerminal "terminal flag on",
    NoTerminal "terminal flag off",
    AtRamEnd "window up to the end of RAM",
    BesideStack "window beside the stack",
    BesideFixed "window beside a fixed area",
    AreaSound "whole-area check: sound",
    Area1 "whole-area check: 1",
    Area3 "whole-area check: 3",
    Area8 "whole-area check: 8",
    Area9Receive "whole-area check: 9, a receive cell",
    Area9Transmit "whole-area check: 9, a transmit cell",
    Area9Broadcast "whole-area check: 9, a broadcast cell",
}

/// The classes of the yes/no settings, on and off.
const SWITCHED: [(Class, Class); 8] = [
    (Class::YesOverwrite, Class::NoOverwrite),
    (Class::YesSeparate, Class::NoSeparate),
    (Class::YesIllegalDisable, Class::NoIllegalDisable),
    (Class::YesBusyDisable, Class::NoBusyDisable),
    (Class::BusyAlways, Class::NoBusyAlways),
    (Class::YesService, Class::NoService),
    (Class::YesSubsystem, Class::NoSubsystem),
    (Class::YesTerminal, Class::NoTerminal),
];

/// What the cell and the stack were before a message.
pub struct Before {
    cell: Option<(Cell, Stack)>,
}

impl Before {
    pub fn read(state: &State, request: &Request) -> Before {
        // What is refused with 3 has no stack to speak of.
        let cell = request.settings.check().ok().map(|()| {
            let settings = &request.settings;
            let command = Command(record_of(&request.message).map_or(0, |record| record.command));
            let kind = cell_kind(command, settings);
            (
                Cell::read(&state.ram, settings, kind, command.subaddress()),
                Stack::read(&state.ram, settings),
            )
        });
        Before { cell }
    }
}

impl Coverage {
    pub fn messages(&self) -> u64 {
        self.count(Class::FromBytes) + self.count(Class::FromValue)
    }

    /// Takes in one message: what was there, what was asked, what was answered.
    pub fn take_in(&mut self, before: &Before, request: &Request, answers: &Answers) {
        let from_bytes = matches!(request.message, Message::Bytes(_));
        self.note(Class::FromBytes, from_bytes);
        self.note(Class::FromValue, !from_bytes);
        self.take_in_area(answers);
        let answer = &answers.answer;
        if answer.number != 0 {
            self.take_in_refusal(before, request, from_bytes, answer.number);
            self.take_in_refused_record(&request.message, answer.number);
        } else if let (Some(record), Some((cell, stack))) =
            (record_of(&request.message), &before.cell)
        {
            self.take_in_settings(request.settings);
            self.take_in_place(cell, stack, request.ram_words);
            self.take_in_card(cell, stack, request.ram_words);
            self.take_in_accepted(&request.settings, &record, cell, answer);
        }
    }

    fn take_in_area(&mut self, answers: &Answers) {
        if let Some((number, cell)) = answers.area {
            self.note(Class::AreaSound, number == 0);
            self.note(Class::Area1, number == 1);
            self.note(Class::Area3, number == 3);
            self.note(Class::Area8, number == 8);
            self.note(Class::Area9Receive, number == 9 && cell < 32);
            self.note(Class::Area9Transmit, number == 9 && cell / 32 == 1);
            self.note(Class::Area9Broadcast, number == 9 && cell >= 64);
        }
    }

    fn take_in_refusal(
        &mut self,
        before: &Before,
        request: &Request,
        from_bytes: bool,
        number: u16,
    ) {
        let class = match number {
            1 => Class::Refused1,
            2 => Class::Refused2,
            3 => Class::Refused3,
            4 => Class::Refused4,
            5 if from_bytes => Class::Refused5,
            5 => Class::Refused5Value,
            6 => Class::Refused6,
            7 => Class::Refused7,
            8 => Class::Refused8,
            _ => Class::Refused9,
        };
        self.note(class, true);
        self.take_in_31(request, number);
        let between = RAM_WORDS + 1..LARGE_RAM_WORDS;
        let is_between = between.contains(&request.ram_words);
        self.note(Class::Refused1Between, number == 1 && is_between);
        if let (9, Some((cell, _))) = (number, &before.cell) {
            let is_large = matches!(cell.scheme, Scheme::Circular(4096 | 8192));
            let on_small = request.ram_words == RAM_WORDS;
            self.note(Class::CircleTooLarge, is_large && on_small);
            self.note(Class::CircleTooLow, is_large && !on_small);
            let is_beyond = usize::from(cell.pointer) >= RAM_WORDS;
            self.note(Class::Refused9Beyond, is_beyond && on_small);
        }
    }

    /// Refusals that turn on whether 31 is broadcast.
    fn take_in_31(&mut self, request: &Request, number: u16) {
        let Settings {
            address, broadcast, ..
        } = request.settings;
        let own = address == BROADCAST_ADDRESS;
        self.note(Class::Refused3At31, number == 3 && own && broadcast);
        let record = record_of(&request.message);
        let to_31 = record.map_or(false, |it| {
            Command(it.command).address() == BROADCAST_ADDRESS
        });
        self.note(Class::Refused6At31, number == 6 && to_31);
    }

    fn take_in_settings(&mut self, mut settings: Settings) {
        use Class::*;
        self.either(AreaB, AreaA, settings.area_b);
        self.note(Stack256, settings.stack_size == 256);
        self.note(Stack512, settings.stack_size == 512);
        self.note(Stack1024, settings.stack_size == 1024);
        self.note(Stack2048, settings.stack_size == 2048);
        for ((yes, no), (_, switch)) in SWITCHED.into_iter().zip(Settings::SWITCHES) {
            self.either(yes, no, *switch(&mut settings));
        }
        self.either(YesBroadcast, NoBroadcast, settings.broadcast);
        self.note(
            OrdinarySeparate,
            settings.separate_broadcast && !settings.broadcast,
        );
    }

    /// What the 64K card has and the other has not.
    fn take_in_card(&mut self, cell: &Cell, stack: &Stack, ram_words: usize) {
        use Class::*;
        let window = cell.window();
        self.either(LargeCard, SmallCard, ram_words == LARGE_RAM_WORDS);
        self.note(Circle4096, cell.scheme == Scheme::Circular(4096));
        self.note(Circle8192, cell.scheme == Scheme::Circular(8192));
        let is_over = window.start < RAM_WORDS && window.end > RAM_WORDS;
        self.note(OverSmallEnd, is_over);
        self.note(BeyondSmallEnd, window.start >= RAM_WORDS);
        self.note(AtLargeEnd, window.end == LARGE_RAM_WORDS);
        self.note(StackAtLargeEnd, stack.pointer == 0xFFFC);
    }

    fn take_in_place(&mut self, cell: &Cell, stack: &Stack, ram_words: usize) {
        use Class::*;
        let window = cell.window();
        let (single, double, circular) = match cell.kind {
            Kind::Receive => (SingleReceive, Some(DoubleReceive), CircularReceive),
            Kind::Transmit => (SingleTransmit, None, CircularTransmit),
            Kind::Broadcast => (SingleBroadcast, Some(DoubleBroadcast), CircularBroadcast),
        };
        match (cell.scheme, double) {
            (Scheme::Double, Some(double)) => self.note(double, true),
            (Scheme::Circular(_), _) => self.note(circular, true),
            _ => self.note(single, true),
        }
        self.note(Circle128, cell.scheme == Scheme::Circular(128));
        self.note(Circle256, cell.scheme == Scheme::Circular(256));
        self.note(Circle512, cell.scheme == Scheme::Circular(512));
        self.note(Circle1024, cell.scheme == Scheme::Circular(1024));
        self.note(Circle2048, cell.scheme == Scheme::Circular(2048));
        self.note(AtRamEnd, window.end == ram_words);
        let block = &stack.block;
        let beside_stack = window.end == block.start || window.start == block.end;
        self.note(BesideStack, beside_stack);
        let beside_fixed =
            matches!(window.end, 0x0100 | 0x0300) || matches!(window.start, 0x0248 | 0x0400);
        self.note(BesideFixed, beside_fixed);
    }

    fn take_in_accepted(
        &mut self,
        settings: &Settings,
        record: &Record,
        cell: &Cell,
        answer: &Answer,
    ) {
        self.note(Class::Accepted, true);
        self.take_in_record(settings, record);
        self.take_in_transfer(settings, record, answer);
        self.take_in_answer(settings, answer);
        let moved = if Command(record.command).is_transmit() {
            answer.sent
        } else {
            self.take_in_stored(settings, record, answer)
        };
        self.take_in_pointer(cell, moved, answer);
    }

    fn take_in_record(&mut self, settings: &Settings, record: &Record) {
        use Class::*;
        let command = Command(record.command);
        self.note(BusB, record.has_flag(FLAG_BUS_B));
        self.note(SyncFault, record.has_flag(FLAG_WRONG_SYNC));
        self.note(InvalidWord, record.has_flag(FLAG_INVALID_WORD));
        self.note(CountZero, record.count == 0);
        self.note(CountOver, record.count == TOO_MANY);
        self.note(CountFieldZero, command.count_field() == 0);
        let class = match (settings.is_broadcast(command), command.is_transmit()) {
            (false, false) => OwnReceive,
            (false, true) => OwnTransmit,
            (true, false) => BroadcastReceive,
            (true, true) => BroadcastTransmit,
        };
        self.note(class, true);
        let ordinary = match command.is_transmit() {
            true => OrdinaryTransmit,
            false => OrdinaryReceive,
        };
        self.note(ordinary, settings.address == BROADCAST_ADDRESS);
    }

    fn take_in_answer(&mut self, settings: &Settings, answer: &Answer) {
        use Class::*;
        self.note(CountFault, answer.block_status & 0x0020 != 0);
        self.note(SyncAndInvalid, answer.block_status & 0x0018 == 0x0018);
        self.note(Illegal, is_illegal(answer));
        self.note(Busy, is_busy(answer) && !settings.busy_always);
        self.note(Rollover, answer.block_status & 0x0080 != 0);
        self.note(RolloverInterrupt, answer.interrupt & 0x0400 != 0);
        self.note(EndInterrupt, answer.interrupt & 0x0004 != 0);
        self.note(StackWrapped, answer.interrupt & 0x0040 != 0);
        self.note(NoStatus, !answer.answered);
        self.note(WordsSent, answer.sent > 0);
        self.note(Sent32, answer.sent == 32);
    }

    /// Takes in what became of the words of a receive command; returns how
    /// many were stored.
    fn take_in_stored(&mut self, settings: &Settings, record: &Record, answer: &Answer) -> u16 {
        use Class::*;
        let held = record.count.min(Command(record.command).word_count());
        let by_illegal = is_illegal(answer) && settings.illegal_receive_disable;
        let by_busy = is_busy(answer) && settings.busy_receive_disable;
        let withheld = by_illegal || by_busy;
        self.note(WithheldIllegal, by_illegal && held > 0);
        self.note(WithheldBusy, by_busy && held > 0);
        self.note(FaultyWithheld, withheld && held > 0 && is_faulty(answer));
        if withheld {
            0
        } else {
            held
        }
    }

    /// Takes in where the pointer went after so many words.
    fn take_in_pointer(&mut self, cell: &Cell, moved: u16, answer: &Answer) {
        use Class::*;
        let faulty = is_faulty(answer);
        let pointer_moved = answer.pointer_after != answer.pointer_before;
        let double = cell.scheme == Scheme::Double;
        self.note(PointerFlipped, double && pointer_moved);
        if let Scheme::Circular(size) = cell.scheme {
            let end = cell.pointer % size + moved;
            self.note(PointerMoved, pointer_moved);
            self.note(PointerMovedInvalid, pointer_moved && faulty);
            self.note(PointerKept, !pointer_moved && faulty && moved > 0);
            self.note(Wrapped, end > size);
            self.note(EndReached, end == size && moved > 0);
            self.note(EndMissed, end + 1 == size && moved > 0);
        }
    }

    fn either(&mut self, yes: Class, no: Class, holds: bool) {
        self.note(if holds { yes } else { no }, true);
    }
}

fn is_faulty(answer: &Answer) -> bool {
    answer.block_status & 0x1000 != 0
}

fn is_illegal(answer: &Answer) -> bool {
    answer.block_status & 0x0040 != 0
}

fn is_busy(answer: &Answer) -> bool {
    answer.status & 0x0008 != 0
}

/// The record of a message, if it is one.
fn record_of(message: &Message) -> Option<Record> {
    match message {
        Message::Bytes(bytes) => read_record(bytes).ok(),
        Message::Value(record) => Some(*record),
    }
}
