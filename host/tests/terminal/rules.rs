//! The rules once more, word by word and as slowly as they are written, and
//! random messages held against them.

use plain_terminal::terminal::{Answer, Record, Remembered, Settings};

use crate::helpers::{Random, Terminal};

/// A message that was accepted: what it found, and what was answered.
struct Accepted<'a> {
    before: &'a Terminal,
    record: &'a Record,
    answer: &'a Answer,
}

impl Accepted<'_> {
    fn is_transmit(&self) -> bool {
        self.record.command >> 10 & 1 == 1
    }

    fn is_broadcast(&self) -> bool {
        self.before.settings.broadcast && self.record.command >> 11 == 31
    }

    fn subaddress(&self) -> usize {
        usize::from(self.record.command >> 5 & 31)
    }

    fn kind(&self) -> usize {
        let separate = self.before.settings.separate_broadcast;
        match (self.is_transmit(), self.is_broadcast() && separate) {
            (true, _) => 1,
            (false, true) => 2,
            (false, false) => 0,
        }
    }

    fn control(&self) -> u16 {
        self.before.ram[lookup_table(&self.before.settings) + 96 + self.subaddress()]
    }

    fn size_field(&self) -> u16 {
        self.control() >> [5, 10, 0][self.kind()] & 7
    }

    /// The place behind this one, in the cell's circle if it has one.
    fn behind(&self, place: usize) -> usize {
        let size = 64 << self.size_field();
        if self.size_field() > 0 && (place + 1) % size == 0 {
            place + 1 - size
        } else {
            place + 1
        }
    }

    /// The words that the command asks for.
    fn asked(&self) -> usize {
        (usize::from(self.record.command) + 31) % 32 + 1
    }

    fn is_valid(&self) -> bool {
        let expected = if self.is_transmit() { 0 } else { self.asked() };
        let flagged = self.record.flags & (2 + 4 + 16 + 32 + 64) != 0;
        let count_fault = usize::from(self.record.count) != expected && !flagged;
        let contents_fault = self.is_transmit() && self.is_broadcast();
        !flagged && !count_fault && !contents_fault
    }

    /// The words stored or sent.
    fn moved(&self) -> usize {
        let settings = &self.before.settings;
        let illegal = self.answer.block_status & 0x0040 != 0;
        let busy = self.answer.status & 0x0008 != 0;
        let disabled =
            illegal && settings.illegal_receive_disable || busy && settings.busy_receive_disable;
        match self.is_transmit() {
            true if self.is_valid() && !illegal && !busy => self.asked(),
            false if !disabled => self.asked().min(usize::from(self.record.count)),
            _ => 0,
        }
    }

    fn expected_ram(&self) -> Vec<u16> {
        let mut ram = self.before.ram.clone();
        self.store_words(&mut ram);
        self.move_pointer(&mut ram);
        self.push_descriptor(&mut ram);
        ram
    }

    fn store_words(&self, ram: &mut [u16]) {
        let mut place = usize::from(self.answer.pointer_before);
        if !self.is_transmit() {
            for index in 0..self.moved() {
                ram[place] = self.record.words[index];
                place = self.behind(place);
            }
        }
    }

    fn move_pointer(&self, ram: &mut [u16]) {
        let settings = &self.before.settings;
        let cell = 32 * self.kind() + self.subaddress();
        assert_eq!(usize::from(self.answer.cell), cell);
        let pointer = &mut ram[lookup_table(settings) + cell];
        assert_eq!(*pointer, self.answer.pointer_before);
        let double = self.control() >> 15 == 1 && !self.is_transmit();
        if self.size_field() > 0 {
            if self.is_valid() || !settings.overwrite_invalid {
                let start = usize::from(*pointer);
                let end = (0..self.moved()).fold(start, |place, _| self.behind(place));
                *pointer = end as u16;
            }
        } else if double && self.is_valid() && self.moved() > 0 {
            *pointer ^= 0x0020;
        }
        assert_eq!(*pointer, self.answer.pointer_after);
    }

    fn push_descriptor(&self, ram: &mut [u16]) {
        let settings = &self.before.settings;
        let mut top = usize::from(ram[stack_place(settings)]);
        let descriptor = [
            self.answer.block_status,
            self.record.tag,
            self.answer.pointer_before,
            self.record.command,
        ];
        for word in descriptor {
            ram[top] = word;
            top += 1;
        }
        if top % usize::from(settings.stack_size) == 0 {
            top -= usize::from(settings.stack_size);
        }
        ram[stack_place(settings)] = top as u16;
    }

    fn expected_reply(&self) -> Vec<u16> {
        let mut reply = self.before.reply.clone();
        if self.answer.answered {
            reply[0] = self.answer.status;
        }
        let sent = if self.is_transmit() { self.moved() } else { 0 };
        assert_eq!(usize::from(self.answer.sent), sent);
        let mut place = usize::from(self.answer.pointer_before);
        for word in &mut reply[1..1 + sent] {
            *word = self.before.ram[place];
            place = self.behind(place);
        }
        reply
    }
}

fn lookup_table(settings: &Settings) -> usize {
    if settings.area_b {
        0x01C0
    } else {
        0x0140
    }
}

fn stack_place(settings: &Settings) -> usize {
    if settings.area_b {
        0x0104
    } else {
        0x0100
    }
}

/// A terminal whose pointers and control words are mostly sound.
pub fn random_terminal(random: &mut Random) -> Terminal {
    let settings = random.settings();
    let mut terminal = Terminal::new(settings, &[]);
    terminal.ram.fill_with(|| random.word());
    let stacks: &[u16] = match settings.stack_size {
        256 => &[0x0000, 0x0400, 0x0F00],
        512 => &[0x0400, 0x0E00],
        1024 => &[0x0400, 0x0C00],
        _ => &[0x0800],
    };
    let depth = random.below(usize::from(settings.stack_size) / 4) as u16 * 4;
    terminal.ram[stack_place(&settings)] = random.pick(stacks) + depth;
    let table = lookup_table(&settings);
    for place in table..table + 96 {
        terminal.ram[place] = random.word() & random.pick(&[0x0FFF, 0x0FE0]) | 0x0400;
    }
    for place in table + 96..table + 128 {
        let field = |random: &mut Random| random.pick(&[0, 0, 1, 1, 2, 3, 4]);
        let sizes = field(random) << 10 | field(random) << 5 | field(random);
        terminal.ram[place] = random.word() & 0xE318 | sizes;
    }
    for place in (0x0240..0x0248).chain(0x0300..0x0400) {
        terminal.ram[place] &= random.word() & random.word();
    }
    terminal
}

#[test]
fn random_messages_change_what_the_rules_name_and_nothing_else() {
    let mut random = Random::new(4);
    let mut accepted = 0;
    for _ in 0..400 {
        let mut terminal = random_terminal(&mut random);
        for _ in 0..50 {
            let record = random.record(terminal.settings.address);
            let before = terminal.clone();
            let answer = terminal.run(&record);
            if answer.number != 0 {
                assert_eq!(terminal, before);
                continue;
            }
            accepted += 1;
            let message = Accepted {
                before: &before,
                record: &record,
                answer: &answer,
            };
            assert_eq!(terminal.ram, message.expected_ram());
            assert_eq!(terminal.reply, message.expected_reply());
            let Remembered { command, status } = terminal.remembered;
            assert_eq!((command, status), (record.command, answer.status));
        }
    }
    assert!(accepted > 5_000, "only {accepted} messages were accepted");
}
