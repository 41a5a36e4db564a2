//! What one message writes into RAM, as a list in order: stored words, the
//! lookup pointer where it moves, four stack words, the stack pointer.

use super::cells::{lookup_place, stack_pointer_place, Cell, Kind, Stack, DESCRIPTOR_WORDS};
use super::message::{block_status, locate, next_pointer, runs, Judged};
use super::planted::NONE;
use super::records::{Record, RECORD_WORDS};
use super::settings::Settings;
use super::words::Command;

#[derive(Clone, Copy, Debug, PartialEq, Eq)]
pub struct Write {
    pub address: usize,
    pub word: u16,
    pub part: Part,
}

/// Which part of the message a write is.
#[derive(Clone, Copy, Debug, PartialEq, Eq)]
pub enum Part {
    /// A data word; its place in the message, counted from 1.
    Data(u16),
    /// The lookup pointer of the message's cell.
    Pointer,
    /// A word of the descriptor, counted from 1: block status, time tag,
    /// lookup pointer before the message, command.
    Stack(u16),
    StackPointer,
}

/// Data words, a lookup pointer, a descriptor and the stack pointer.
const MOST_WRITES: usize = RECORD_WORDS + 1 + DESCRIPTOR_WORDS + 1;

/// The writes of a message that keeps its layout, and the number of its cell;
/// 6 to 9 refuse, as they do when it is carried out.
pub fn writes(ram: &[u16], settings: &Settings, record: &Record) -> Result<(u16, Vec<Write>), u16> {
    let (stack, cell) = locate::<NONE>(ram, settings, Command(record.command))?;
    let judged = Judged::new::<NONE>(ram, settings, record);
    let stores = cell.kind != Kind::Transmit;
    let moved = if stores {
        judged.words_to_store::<NONE>(settings, record)
    } else {
        judged.words_to_send()
    };
    let (pointer, rollover) = next_pointer::<NONE>(&cell, moved, judged.valid, settings);

    let mut list = Vec::with_capacity(MOST_WRITES);
    if stores {
        list.extend(stored(&cell, ram.len(), moved, record));
    }
    // It moves by fewer words than any circle has, so a moved one differs.
    if pointer != cell.pointer {
        let address = lookup_place(settings, cell.kind, cell.subaddress);
        list.push(write(address, pointer, Part::Pointer));
    }
    let status = block_status::<NONE>(&judged, record, rollover);
    let descriptor = [status, record.tag, cell.pointer, record.command];
    list.extend(entry(settings, &stack, descriptor));
    Ok((cell.number(), list))
}

fn write(address: usize, word: u16, part: Part) -> Write {
    Write {
        address,
        word,
        part,
    }
}

fn stored<'a>(
    cell: &Cell,
    ram_words: usize,
    count: u16,
    record: &'a Record,
) -> impl Iterator<Item = Write> + 'a {
    let [first, second] = runs::<NONE>(cell, ram_words, count);
    let words = first.chain(second).zip(&record.words).zip(1..);
    words.map(|((address, &word), place)| write(address, word, Part::Data(place)))
}

/// The four stack words and the stack pointer.
fn entry(settings: &Settings, stack: &Stack, descriptor: [u16; 4]) -> impl Iterator<Item = Write> {
    let words = stack.descriptor().zip(descriptor).zip(1..);
    let words = words.map(|((address, word), place)| write(address, word, Part::Stack(place)));
    let place = stack_pointer_place(settings);
    words.chain([write(place, stack.next().0, Part::StackPointer)])
}
