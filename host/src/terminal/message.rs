//! What one message does to RAM, reply and remembered state.

use std::ops::Range;

use super::cells::{
    lookup_place, stack_pointer_place, Cell, Kind, Scheme, Stack, DESCRIPTOR_WORDS,
    LARGE_RAM_WORDS, RAM_WORDS,
};
use super::faults::Faults;
use super::long::read_old;
use super::planted::{
    with_planted, Planted, FAULTY_STORES_WHEN_DISABLED, LARGE_CIRCLE_REFUSED, LONGER_RAM_TAKEN,
    NONE, POINTER_AFTER_IN_DESCRIPTOR, ROLLOVER_WHEN_KEPT_BACK, SMALL_END_ALWAYS,
    STACK_BELOW_SMALL_END, TRANSFER_BITS_EXCHANGED, TRANSMIT_COMMAND_IN_DESCRIPTOR,
    WRAP_BY_WORD_COUNT, ZERO_COUNT_IS_NONE,
};
use super::records::{read_record_with, Record, FLAG_BUS_B, RECORD_WORDS};
use super::refusal;
use super::settings::Settings;
use super::tables::{is_illegal, is_marked_busy};
use super::words::{bit, Command};

/// A status word and the most data words that can follow it.
pub const REPLY_WORDS: usize = 1 + RECORD_WORDS;

/// What the terminal remembers of the last accepted message; zero at first.
#[derive(Clone, Copy, Debug, Default, PartialEq, Eq)]
pub struct Remembered {
    pub command: u16,
    pub status: u16,
}

/// The answer to one message; a refusal has its number and all else zero.
#[derive(Clone, Copy, Debug, Default, PartialEq, Eq)]
pub struct Answer {
    pub number: u16,
    pub block_status: u16,
    pub cell: u16,
    pub pointer_before: u16,
    pub pointer_after: u16,
    /// Worked out for every accepted message, sent or not.
    pub status: u16,
    pub answered: bool,
    pub sent: u16,
    pub interrupt: u16,
}

/// A message, as the bytes of a record, as its value, or as the bytes of a long
/// record.
#[derive(Clone, Copy, Debug)]
pub enum MessageRef<'a> {
    Bytes(&'a [u8]),
    Value(&'a Record),
    Long(&'a [u8]),
}

/// Carries out a message.
#[inline(always)]
pub fn carry_out(
    ram: &mut [u16],
    reply: &mut [u16],
    settings: &Settings,
    remembered: Remembered,
    message: MessageRef,
) -> (Answer, Remembered) {
    carry_out_with::<NONE>(ram, reply, settings, remembered, message)
}

/// [`carry_out`] of a terminal with an error planted in it.
pub fn carry_out_planted(
    planted: Planted,
    ram: &mut [u16],
    reply: &mut [u16],
    settings: &Settings,
    remembered: Remembered,
    message: MessageRef,
) -> (Answer, Remembered) {
    with_planted!(
        planted,
        carry_out_with(ram, reply, settings, remembered, message)
    )
}

/// [`carry_out_planted`] with the error as a constant. Inlined with what it
/// calls, so that a caller who knows how the message comes does not ask again,
/// and no step hands its results on through memory.
#[inline(always)]
pub(super) fn carry_out_with<const PLANTED: u8>(
    ram: &mut [u16],
    reply: &mut [u16],
    settings: &Settings,
    remembered: Remembered,
    message: MessageRef,
) -> (Answer, Remembered) {
    let outcome = accept::<PLANTED>(ram, reply, settings, message);
    outcome.unwrap_or_else(|number| {
        let refused = Answer {
            number,
            ..Answer::default()
        };
        (refused, remembered)
    })
}

/// Test 1, and then a way for each card: in it the RAM's length is known.
#[inline(always)]
fn accept<const PLANTED: u8>(
    ram: &mut [u16],
    reply: &mut [u16],
    settings: &Settings,
    message: MessageRef,
) -> Result<(Answer, Remembered), u16> {
    let words = match ram.len() {
        longer if PLANTED == LONGER_RAM_TAKEN && longer > RAM_WORDS => RAM_WORDS,
        words => words,
    };
    if let Ok(small) = <&mut [u16; RAM_WORDS]>::try_from(&mut ram[..words]) {
        return accept_on::<PLANTED, RAM_WORDS>(small, reply, settings, message);
    }
    match ram.try_into() {
        Ok(large) => accept_on::<PLANTED, LARGE_RAM_WORDS>(large, reply, settings, message),
        Err(_) => Err(refusal::RAM_LENGTH),
    }
}

/// Tests 2 to 5, about what the caller lends and the record, then the others.
#[inline(always)]
fn accept_on<const PLANTED: u8, const WORDS: usize>(
    ram: &mut [u16; WORDS],
    reply: &mut [u16],
    settings: &Settings,
    message: MessageRef,
) -> Result<(Answer, Remembered), u16> {
    let reply = reply.get_mut(..REPLY_WORDS).ok_or(refusal::REPLY_LENGTH)?;
    settings.check()?;
    let read;
    let record = match message {
        MessageRef::Bytes(bytes) => {
            read = read_record_with::<PLANTED>(bytes)?;
            &read
        }
        MessageRef::Value(record) => {
            record.check::<PLANTED>()?;
            record
        }
        MessageRef::Long(bytes) => {
            read = read_old(bytes)?;
            &read
        }
    };
    perform::<PLANTED, WORDS>(ram, reply, settings, record)
}

/// Tests 6 to 9, and then the message itself.
#[inline(always)]
fn perform<const PLANTED: u8, const WORDS: usize>(
    ram: &mut [u16; WORDS],
    reply: &mut [u16],
    settings: &Settings,
    record: &Record,
) -> Result<(Answer, Remembered), u16> {
    let command = Command(record.command);
    let (stack, cell) = locate::<PLANTED>(ram, settings, command)?;
    let judged = Judged::new::<PLANTED>(ram, settings, record);
    let status = status_word(&judged, settings);
    let answered = judged.valid && !judged.broadcast;
    if answered {
        reply[0] = status;
    }

    let moved = move_words::<PLANTED>(ram, reply, settings, record, &judged, &cell);
    let (pointer_after, rollover) =
        move_pointer::<PLANTED>(ram, settings, &cell, moved, judged.valid);
    let block_status = block_status::<PLANTED>(&judged, record, rollover);
    let descriptor = descriptor::<PLANTED>(block_status, record, cell.pointer, pointer_after);
    let stack_wrapped = push_descriptor(ram, settings, &stack, &descriptor);

    let answer = Answer {
        number: 0,
        block_status,
        cell: cell.number(),
        pointer_before: cell.pointer,
        pointer_after,
        status,
        answered,
        sent: if command.is_transmit() { moved } else { 0 },
        interrupt: interrupt_word(&judged, &cell, rollover, stack_wrapped),
    };
    let remembered = Remembered {
        command: record.command,
        status,
    };
    Ok((answer, remembered))
}

/// Tests 6 to 9: the stack and the cell that a message would use.
#[inline(always)]
pub(super) fn locate<const PLANTED: u8>(
    ram: &[u16],
    settings: &Settings,
    command: Command,
) -> Result<(Stack, Cell), u16> {
    check_command(command, settings)?;
    let stack = Stack::read(ram, settings);
    let stack_end = if PLANTED == STACK_BELOW_SMALL_END {
        RAM_WORDS
    } else {
        ram.len()
    };
    if !stack.is_sound(stack_end) {
        return Err(refusal::STACK);
    }
    let kind = cell_kind(command, settings);
    let cell = Cell::read(ram, settings, kind, command.subaddress());
    if !cell.is_sound(cell_end::<PLANTED>(ram.len(), &cell), &stack) {
        return Err(refusal::CELL);
    }
    Ok((stack, cell))
}

/// The end that a cell's window must keep to: RAM's.
fn cell_end<const PLANTED: u8>(ram_words: usize, cell: &Cell) -> usize {
    let is_large = matches!(cell.scheme, Scheme::Circular(4096 | 8192));
    match PLANTED {
        SMALL_END_ALWAYS => RAM_WORDS,
        LARGE_CIRCLE_REFUSED if is_large => 0,
        _ => ram_words,
    }
}

/// Tests 6 and 7: whether the command is one for this terminal's cells.
fn check_command(command: Command, settings: &Settings) -> Result<(), u16> {
    if !settings.is_ours(command) {
        return Err(refusal::ADDRESS);
    }
    match command.subaddress() {
        0 | 31 => Err(refusal::SUBADDRESS),
        _ => Ok(()),
    }
}

/// The kind of cell that a command uses.
pub fn cell_kind(command: Command, settings: &Settings) -> Kind {
    if command.is_transmit() {
        Kind::Transmit
    } else if settings.is_broadcast(command) && settings.separate_broadcast {
        Kind::Broadcast
    } else {
        Kind::Receive
    }
}

/// What is known of a message before any word moves (rules 1 and 2).
pub(super) struct Judged {
    command: Command,
    /// Data words that the command asks for.
    word_count: u16,
    broadcast: bool,
    faults: Faults,
    pub(super) valid: bool,
    illegal: bool,
    busy: bool,
}

impl Judged {
    #[inline(always)]
    pub(super) fn new<const PLANTED: u8>(
        ram: &[u16],
        settings: &Settings,
        record: &Record,
    ) -> Judged {
        let command = Command(record.command);
        let word_count = if PLANTED == ZERO_COUNT_IS_NONE {
            command.count_field()
        } else {
            command.word_count()
        };
        let broadcast = settings.is_broadcast(command);
        let faults = Faults::of::<PLANTED>(record, word_count, broadcast);
        Judged {
            command,
            word_count,
            broadcast,
            valid: !faults.any(),
            faults,
            illegal: is_illegal(ram, settings, command),
            busy: settings.busy_always || is_marked_busy(ram, settings, command),
        }
    }

    /// Rule 3.
    pub(super) fn words_to_store<const PLANTED: u8>(
        &self,
        settings: &Settings,
        record: &Record,
    ) -> u16 {
        let disabled = (self.illegal && settings.illegal_receive_disable)
            || (self.busy && settings.busy_receive_disable);
        let let_through = PLANTED == FAULTY_STORES_WHEN_DISABLED && !self.valid;
        if disabled && !let_through {
            0
        } else {
            record.count.min(self.word_count)
        }
    }

    /// Rule 4.
    pub(super) fn words_to_send(&self) -> u16 {
        if self.valid && !self.illegal && !self.busy {
            self.word_count
        } else {
            0
        }
    }
}

/// Stores or sends the message's data words; returns how many.
fn move_words<const PLANTED: u8>(
    ram: &mut [u16],
    reply: &mut [u16],
    settings: &Settings,
    record: &Record,
    judged: &Judged,
    cell: &Cell,
) -> u16 {
    if judged.command.is_transmit() {
        let count = judged.words_to_send();
        let words = &mut reply[1..=usize::from(count)];
        send(ram, words, runs::<PLANTED>(cell, ram.len(), count));
        count
    } else {
        let count = judged.words_to_store::<PLANTED>(settings, record);
        let words = &record.words[..usize::from(count)];
        let runs = runs::<PLANTED>(cell, ram.len(), count);
        store(ram, words, runs);
        count
    }
}

/// The places of `count` words from the cell's pointer on: the words up to the
/// window's end, then those that wrapped to its start.
///
/// A message has 32 words at most, so only a circular window is ever passed.
pub(super) fn runs<const PLANTED: u8>(
    cell: &Cell,
    ram_words: usize,
    count: u16,
) -> [Range<usize>; 2] {
    let window = if PLANTED == WRAP_BY_WORD_COUNT {
        0..ram_words
    } else {
        cell.window()
    };
    let pointer = usize::from(cell.pointer);
    let count = usize::from(count);
    let before_end = count.min(window.end - pointer);
    [
        pointer..pointer + before_end,
        window.start..window.start + (count - before_end),
    ]
}

#[inline(always)]
fn store(ram: &mut [u16], words: &[u16], [first, second]: [Range<usize>; 2]) {
    let (before_end, wrapped) = words.split_at(first.len());
    ram[first].copy_from_slice(before_end);
    if !wrapped.is_empty() {
        ram[second].copy_from_slice(wrapped);
    }
}

#[inline(always)]
fn send(ram: &[u16], words: &mut [u16], [first, second]: [Range<usize>; 2]) {
    let (before_end, wrapped) = words.split_at_mut(first.len());
    before_end.copy_from_slice(&ram[first]);
    if !wrapped.is_empty() {
        wrapped.copy_from_slice(&ram[second]);
    }
}

/// Rule 5; returns the new pointer, and whether it rolled over.
fn move_pointer<const PLANTED: u8>(
    ram: &mut [u16],
    settings: &Settings,
    cell: &Cell,
    moved: u16,
    valid: bool,
) -> (u16, bool) {
    let (pointer, rollover) = next_pointer::<PLANTED>(cell, moved, valid, settings);
    if pointer != cell.pointer {
        ram[lookup_place(settings, cell.kind, cell.subaddress)] = pointer;
    }
    (pointer, rollover)
}

/// The pointer after `moved` words, and whether it rolled over.
pub(super) fn next_pointer<const PLANTED: u8>(
    cell: &Cell,
    moved: u16,
    valid: bool,
    settings: &Settings,
) -> (u16, bool) {
    match cell.scheme {
        Scheme::Single => (cell.pointer, false),
        Scheme::Double if valid && moved > 0 => (cell.pointer ^ 32, false),
        Scheme::Double => (cell.pointer, false),
        Scheme::Circular(size) => {
            let place_in_buffer = size - 1;
            let offset = (cell.pointer & place_in_buffer) + moved;
            let end_reached = offset >= size;
            if valid || !settings.overwrite_invalid {
                let start = cell.pointer & !place_in_buffer;
                (start | (offset & place_in_buffer), end_reached)
            } else {
                let rollover = PLANTED == ROLLOVER_WHEN_KEPT_BACK && end_reached;
                (cell.pointer, rollover)
            }
        }
    }
}

/// The words that rule 6 puts on the stack.
fn descriptor<const PLANTED: u8>(
    block_status: u16,
    record: &Record,
    pointer_before: u16,
    pointer_after: u16,
) -> [u16; DESCRIPTOR_WORDS] {
    let pointer = if PLANTED == POINTER_AFTER_IN_DESCRIPTOR {
        pointer_after
    } else {
        pointer_before
    };
    let command = if PLANTED == TRANSMIT_COMMAND_IN_DESCRIPTOR && record.is_transfer() {
        record.transmit_command
    } else {
        record.command
    };
    [block_status, record.tag, pointer, command]
}

/// Rule 6; returns whether the stack wrapped.
fn push_descriptor(
    ram: &mut [u16],
    settings: &Settings,
    stack: &Stack,
    descriptor: &[u16; DESCRIPTOR_WORDS],
) -> bool {
    ram[stack.descriptor()].copy_from_slice(descriptor);
    let (pointer_after, wrapped) = stack.next();
    ram[stack_pointer_place(settings)] = pointer_after;
    wrapped
}

/// Rule 7, with the bits of a transfer.
pub(super) fn block_status<const PLANTED: u8>(
    judged: &Judged,
    record: &Record,
    rollover: bool,
) -> u16 {
    let faults = &judged.faults;
    let (no_status, gap) = if PLANTED == TRANSFER_BITS_EXCHANGED {
        (2, 9)
    } else {
        (9, 2)
    };
    bit(15, true)
        | bit(13, record.has_flag(FLAG_BUS_B))
        | bit(12, !judged.valid)
        | bit(11, record.is_transfer())
        | bit(10, !judged.valid)
        | bit(no_status, faults.no_status)
        | bit(7, rollover)
        | bit(6, judged.illegal)
        | bit(5, faults.count)
        | bit(4, faults.sync)
        | bit(3, faults.invalid_word)
        | bit(gap, faults.gap)
        | bit(1, faults.second)
        | bit(0, faults.contents)
}

/// Rule 8.
fn status_word(judged: &Judged, settings: &Settings) -> u16 {
    (settings.address << 11)
        | bit(10, !judged.valid || judged.illegal)
        | bit(8, settings.service_request)
        | bit(4, judged.broadcast)
        | bit(3, judged.busy)
        | bit(2, settings.subsystem_flag)
        | bit(0, settings.terminal_flag)
}

/// Rule 9.
fn interrupt_word(judged: &Judged, cell: &Cell, rollover: bool, stack_wrapped: bool) -> u16 {
    bit(14, judged.illegal)
        | bit(10, rollover && cell.circular_interrupt)
        | bit(6, stack_wrapped)
        | bit(4, !judged.valid)
        | bit(2, cell.message_interrupt)
        | bit(1, true)
        | bit(0, true)
}
