//! Random cases: an episode is one terminal's history, all from one seed.
//!
//! Most messages are to be accepted, every refusal is to come often and also
//! beside others, pointers are to stand at the edges, and circles and stacks
//! are to wrap. So cells are placed where they are sound, as far as there is
//! room, and are then spoiled on purpose for single messages.

use super::case::{Message, Request, State, GUARD_WORDS, REPLY_ROOM};
use crate::random::Random;
use crate::terminal::cells::{
    control_place, lookup_place, stack_pointer_place, Cell, Kind, Scheme, Stack, LARGE_RAM_WORDS,
    RAM_WORDS,
};
use crate::terminal::message::{cell_kind, REPLY_WORDS};
use crate::terminal::records::{put_together, Record, RECORD_BYTES, RECORD_WORDS};
use crate::terminal::settings::BROADCAST_ADDRESS;
use crate::terminal::tables::{busy_place, illegal_place, BitPlace};
use crate::terminal::words::Command;
use crate::terminal::Settings;

/// Messages of an episode: a stack of 256 words wraps in it from any place.
pub const EPISODE_MESSAGES: usize = 64;

/// One of so many messages is spoiled in each of the ways there are.
const SPOILED_ONE_IN: usize = 40;

/// One of so many messages has any flags at all.
const ANY_FLAGS_ONE_IN: usize = 12;

/// Tries to find a sound place before another scheme is taken.
const TRIES: usize = 32;

const KINDS: [Kind; 3] = [Kind::Receive, Kind::Transmit, Kind::Broadcast];

/// A word that the host puts into RAM between two messages.
type Poke = (usize, u16);

/// The card of a seed: one of three is the 64K card.
pub fn card_of(seed: u64) -> usize {
    if seed % 3 == 0 {
        LARGE_RAM_WORDS
    } else {
        RAM_WORDS
    }
}

/// Random words; on the 64K card no two stretches of 4,096 are the same.
pub fn fill_ram(random: &mut Random, ram: &mut [u16]) {
    let (first, behind) = ram.split_at_mut(RAM_WORDS);
    first.fill_with(|| random.word());
    for (stretch, words) in (1..).zip(behind.chunks_mut(RAM_WORDS)) {
        for (word, first) in words.iter_mut().zip(&*first) {
            *word = first.wrapping_add(0x1357_u16.wrapping_mul(stretch));
        }
    }
}

pub struct Episode {
    random: Random,
    settings: Settings,
    /// How many words of RAM the card has.
    ram_words: usize,
    /// Puts right what was spoiled for the last message.
    mend: Vec<Poke>,
    /// What the host has put into RAM for the next message.
    pokes: Vec<Poke>,
}

impl Episode {
    /// The episode of a seed, and the state that it starts from.
    pub fn new(seed: u64) -> (Episode, State) {
        let mut random = Random::new(seed);
        let settings = random.settings();
        Episode::on_card(random, settings, card_of(seed))
    }

    /// On the card of 4,096 words.
    pub fn with_settings(random: Random, settings: Settings) -> (Episode, State) {
        Episode::on_card(random, settings, RAM_WORDS)
    }

    pub fn on_card(random: Random, settings: Settings, ram_words: usize) -> (Episode, State) {
        let mut episode = Episode {
            random,
            settings,
            ram_words,
            mend: Vec::new(),
            pokes: Vec::new(),
        };
        let state = episode.state();
        (episode, state)
    }

    fn state(&mut self) -> State {
        let mut state = State::of_card(self.ram_words);
        if !self.random.chance(4) {
            let random = &mut self.random;
            fill_ram(random, &mut state.ram[..self.ram_words]);
            state.reply.fill_with(|| random.word());
        }
        self.fill_tables(&mut state.ram);
        state.remembered.command = self.random.word();
        state.remembered.status = self.random.word();
        let pointer = self.sound_stack_pointer(&state.ram);
        state.ram[stack_pointer_place(&self.settings)] = pointer;
        let stack = Stack::read(&state.ram, &self.settings);
        for subaddress in 1..=30 {
            for (place, word) in self.placed_cells(&stack, subaddress) {
                state.ram[place] = word;
            }
        }
        state
    }

    /// The illegal and busy tables: empty, thin or half full.
    fn fill_tables(&mut self, ram: &mut [u16]) {
        for table in [0x0240..0x0248, 0x0300..0x0400] {
            let style = self.random.below(4);
            for word in &mut ram[table] {
                *word = match style {
                    0 | 1 => 0,
                    2 => self.random.word() & self.random.word() & self.random.word(),
                    _ => self.random.word(),
                };
            }
        }
    }

    /// What is asked next of a terminal in this state. The host puts words
    /// into the RAM before; [`Episode::pokes`] are the same for another state.
    pub fn step(&mut self, state: &mut State) -> Request {
        self.pokes.clear();
        for (place, word) in std::mem::take(&mut self.mend) {
            self.poke(state, place, word);
        }
        if self.random.chance(4) {
            self.turn_settings();
        }
        let command = self.command();
        self.aim(state, command);
        let mut request = Request {
            settings: self.settings,
            ram_words: self.ram_words,
            reply_words: self
                .random
                .pick(&[REPLY_WORDS, REPLY_WORDS, 34, REPLY_ROOM]),
            message: self.message(command),
            checks_area: self.random.chance(4),
        };
        self.spoil_request(&mut request);
        if self.random.chance(SPOILED_ONE_IN) {
            self.spoil_stack(state);
        }
        if self.random.chance(SPOILED_ONE_IN) {
            self.spoil_cell(state, command);
        }
        request
    }

    /// Now and then, too little or too much is lent, or no terminal is set so.
    fn spoil_request(&mut self, request: &mut Request) {
        if self.random.chance(SPOILED_ONE_IN) {
            request.ram_words = self.bad_length();
        }
        if self.random.chance(SPOILED_ONE_IN) {
            request.reply_words = self.random.pick(&[0, 1, 16, REPLY_WORDS - 1]);
        }
        if self.random.chance(SPOILED_ONE_IN) {
            self.spoil_settings(&mut request.settings);
        }
    }

    /// A length that no card has, or of the 64K card as much as the other has.
    fn bad_length(&mut self) -> usize {
        let words = self.ram_words;
        let lengths = [0, 1, 256, words - 1, words + 1, words + GUARD_WORDS];
        if words == LARGE_RAM_WORDS && self.random.chance(2) {
            let between = [RAM_WORDS - 1, RAM_WORDS, RAM_WORDS, RAM_WORDS + 1, 12_288];
            return self.random.pick(&between);
        }
        self.random.pick(&lengths)
    }

    pub fn pokes(&self) -> &[Poke] {
        &self.pokes
    }

    fn poke(&mut self, state: &mut State, place: usize, word: u16) {
        state.ram[place] = word;
        self.pokes.push((place, word));
    }

    /// Puts a word in for this message alone.
    fn spoil(&mut self, state: &mut State, place: usize, word: u16) {
        self.mend.push((place, state.ram[place]));
        self.poke(state, place, word);
    }

    /// New answers to the yes/no settings; the rest stays with the image.
    fn turn_settings(&mut self) {
        let turned = self.random.settings();
        self.settings = Settings {
            address: self.settings.address,
            area_b: self.settings.area_b,
            stack_size: self.settings.stack_size,
            // With broadcast on, address 31 is refused.
            broadcast: turned.broadcast && self.settings.address != BROADCAST_ADDRESS,
            ..turned
        };
    }

    fn spoil_settings(&mut self, settings: &mut Settings) {
        if self.random.chance(2) {
            settings.address = self.random.pick(&[31, 31, 32, 37, 63, 0x8005, 0xFFFF]);
        } else {
            let sizes = [0, 1, 4, 128, 255, 257, 768, 1023, 4096, 0x8000, 0xFFFF];
            settings.stack_size = self.random.pick(&sizes);
        }
    }

    fn command(&mut self) -> Command {
        let random = &mut self.random;
        let address = match random.below(24) {
            0 => random.below(32) as u16,
            1..=6 => BROADCAST_ADDRESS,
            _ => self.settings.address,
        };
        let subaddress = match random.below(31) as u16 {
            0 => random.pick(&[0, 31]),
            subaddress => subaddress,
        };
        let count_field = match random.below(8) {
            0 | 1 => 0,
            2 => 31,
            3 => 1,
            _ => random.below(32) as u16,
        };
        let transmit = random.below(2) as u16;
        Command(address << 11 | transmit << 10 | subaddress << 5 | count_field)
    }

    /// What the host changes so that the message finds something to meet.
    fn aim(&mut self, state: &mut State, command: Command) {
        let settings = self.settings;
        if self.random.chance(16) {
            self.flip(state, illegal_place(&settings, command));
        }
        if self.random.chance(16) {
            self.flip(state, busy_place(&settings, command));
        }
        if self.random.chance(16) {
            // Near the end of its block, where it wraps.
            let place = stack_pointer_place(&settings);
            let last = state.ram[place] | (settings.stack_size - 4);
            let back = 4 * self.random.below(3) as u16;
            self.poke(state, place, last - back);
        }
        let stack = Stack::read(&state.ram, &settings);
        let subaddress = command.subaddress();
        match self.random.below(6) {
            0 => {
                for (place, word) in self.placed_cells(&stack, subaddress) {
                    self.poke(state, place, word);
                }
            }
            1 | 2 => {
                let kind = cell_kind(command, &settings);
                let cell = Cell::read(&state.ram, &settings, kind, subaddress);
                if let Scheme::Circular(size) = cell.scheme {
                    let pointer = self.pointer_before_end(cell.pointer, size, command.word_count());
                    self.poke(state, lookup_place(&settings, kind, subaddress), pointer);
                }
            }
            _ => {}
        }
    }

    fn flip(&mut self, state: &mut State, place: BitPlace) {
        self.poke(state, place.word, state.ram[place.word] ^ 1 << place.bit);
    }

    /// A pointer into the same circle from which a message of `count` words
    /// reaches its end, or just not.
    fn pointer_before_end(&mut self, pointer: u16, size: u16, count: u16) -> u16 {
        let back = match self.random.below(4) {
            0 => count,
            1 => count + 1,
            2 => count - 1,
            _ => self.random.below(33) as u16,
        };
        let start = pointer & !(size - 1);
        start | (size.wrapping_sub(back) & (size - 1))
    }

    fn sound_stack_pointer(&mut self, ram: &[u16]) -> u16 {
        let mut ram = ram.to_vec();
        let place = stack_pointer_place(&self.settings);
        if self.ram_words == LARGE_RAM_WORDS && self.random.chance(8) {
            // The last entries of RAM.
            return 0xFFFC - 4 * self.random.below(3) as u16;
        }
        loop {
            ram[place] = 4 * self.random.below(self.ram_words / 4) as u16;
            if Stack::read(&ram, &self.settings).is_sound(self.ram_words) {
                return ram[place];
            }
        }
    }

    /// Control word and pointers that make the cells of a subaddress sound.
    fn placed_cells(&mut self, stack: &Stack, subaddress: u16) -> [Poke; 4] {
        let settings = self.settings;
        let double = self.random.chance(2);
        // Interrupt bits at random; the size fields are set below.
        let mut control = self.random.word() & 0x6318 | if double { 0x8000 } else { 0 };
        let pokes = KINDS.map(|kind| {
            let (size_field, pointer) = self.sound_place(stack, kind, double);
            control |= size_field << size_shift(kind);
            (lookup_place(&settings, kind, subaddress), pointer)
        });
        let [receive, transmit, broadcast] = pokes;
        let place = control_place(&settings, subaddress);
        [receive, transmit, broadcast, (place, control)]
    }

    /// A size field and a pointer with which a cell of this kind is sound.
    fn sound_place(&mut self, stack: &Stack, kind: Kind, double: bool) -> (u16, u16) {
        let wanted = match self.random.below(2) {
            0 => 0,
            _ if self.ram_words == LARGE_RAM_WORDS => 1 + self.random.below(7) as u16,
            _ => 1 + self.random.below(5) as u16,
        };
        // There is always room for a single or a double window.
        for size_field in [wanted, 0] {
            let scheme = scheme_of(kind, size_field, double);
            let tries = if size_field == 0 { usize::MAX } else { TRIES };
            for _ in 0..tries {
                let pointer = self.pointer(stack, scheme);
                if cell_with(kind, scheme, pointer).is_sound(self.ram_words, stack) {
                    return (size_field, pointer);
                }
            }
        }
        unreachable!("the last scheme is tried until a place is found")
    }

    /// A pointer that may be sound for the scheme, often at an edge.
    fn pointer(&mut self, stack: &Stack, scheme: Scheme) -> u16 {
        let ram_words = self.ram_words;
        let random = &mut self.random;
        match scheme {
            Scheme::Single if random.chance(3) => {
                let before_stack = (stack.block.start as u16).saturating_sub(32);
                let behind_stack = stack.block.end as u16;
                random.pick(&[
                    0x0000,
                    0x00E0,
                    0x0248,
                    0x02E0,
                    0x0400,
                    (ram_words - RECORD_WORDS) as u16,
                    before_stack,
                    behind_stack,
                ])
            }
            Scheme::Single => random.below(ram_words - RECORD_WORDS) as u16,
            Scheme::Double => 32 * random.below(ram_words / 32) as u16,
            Scheme::Circular(size) => {
                let size = usize::from(size);
                let start = size * random.below(ram_words / size);
                let offset = match random.below(4) {
                    0 => 0,
                    1 => size - 1,
                    2 => size - 1 - random.below(33),
                    _ => random.below(size),
                };
                (start + offset) as u16
            }
        }
    }

    fn spoil_stack(&mut self, state: &mut State) {
        let place = stack_pointer_place(&self.settings);
        let pointer = state.ram[place];
        let bad = match self.random.below(4) {
            0 => pointer ^ self.random.pick(&[1, 2, 3]),
            1 => self
                .random
                .pick(&[0x0FFD, 0x1000, 0x1FFC, 0x8000, 0xFFFC, 0xFFFF]),
            2 => self
                .random
                .pick(&[0x00FC, 0x0100, 0x01FC, 0x0200, 0x02FC, 0x0300, 0x03FC]),
            _ => self.random.word(),
        };
        self.spoil(state, place, bad);
    }

    /// A pointer or a control word with which the message's cell is unsound,
    /// or sound only just.
    fn spoil_cell(&mut self, state: &mut State, command: Command) {
        let settings = self.settings;
        let kind = cell_kind(command, &settings);
        let stack = Stack::read(&state.ram, &settings).block;
        let (start, end) = (stack.start as u16, stack.end as u16);
        if self.random.chance(4) {
            let place = control_place(&settings, command.subaddress());
            let size_field = self.random.pick(&[1, 2, 3, 4, 5, 6, 7]);
            let control = state.ram[place] | size_field << size_shift(kind);
            self.spoil(state, place, control);
        } else {
            let place = lookup_place(&settings, kind, command.subaddress());
            let bad = match self.random.below(4) {
                0 => self.random.word(),
                1 => self.random.pick(&[
                    start.wrapping_sub(31),
                    start.wrapping_sub(32),
                    start,
                    end.wrapping_sub(1),
                    end,
                ]),
                2 => state.ram[place] ^ self.random.pick(&[1, 16, 0x1000, 0x8000]),
                _ => self.random.pick(&[
                    0x00E0, 0x00E1, 0x00FF, 0x0100, 0x0247, 0x0248, 0x02E0, 0x02E1, 0x0300, 0x03FF,
                    0x0400, 0x0FE0, 0x0FE1, 0x0FFF, 0x1000, 0xFFE0, 0xFFFF,
                ]),
            };
            self.spoil(state, place, bad);
        }
    }

    fn message(&mut self, command: Command) -> Message {
        let record = self.heard(command);
        if self.random.chance(2) {
            return Message::Value(self.value(record));
        }
        let mut bytes = self.bytes(&record).to_vec();
        if self.random.chance(SPOILED_ONE_IN) {
            let length = self.random.pick(&[0, 1, 16, 79, 81, 96, 160]);
            bytes.resize(length, 0);
        }
        Message::Bytes(bytes)
    }

    /// The bytes of a whole record, of which some keep the layout no more.
    pub fn record(&mut self) -> [u8; RECORD_BYTES] {
        let command = self.command();
        let record = self.heard(command);
        self.bytes(&record)
    }

    /// What is heard with a command. It keeps the layout, but that now and then
    /// any flags, any word in bytes 2-3 and a count stand side by side.
    fn heard(&mut self, command: Command) -> Record {
        let mut record = self.random.record_for(command);
        if self.random.chance(ANY_FLAGS_ONE_IN) {
            record.flags = self.random.below(256) as u16;
            record.transmit_command = match self.random.below(3) {
                0 => 0,
                1 => 1 << self.random.below(16),
                _ => self.random.word(),
            };
            if self.random.chance(2) {
                record.count = 0;
                record.words.fill(0);
            }
        }
        record
    }

    /// The value of a record, now and then spoiled.
    fn value(&mut self, mut record: Record) -> Record {
        if self.random.chance(SPOILED_ONE_IN) {
            match self.random.below(3) {
                0 => record.flags = self.random.pick(&[128, 255, 256, 264, 0xFFFF]),
                1 => record.count = self.random.pick(&[34, 64, 255, 256, 288, 0xFFFF]),
                _ => {
                    record.count = self.random.below(RECORD_WORDS) as u16;
                    record.words[usize::from(record.count)..].fill(0);
                    let after = self.random.below(RECORD_WORDS - record.words_held());
                    record.words[record.words_held() + after] = 1 << self.random.below(16);
                }
            }
        }
        record
    }

    /// The bytes of a record, now and then spoiled.
    fn bytes(&mut self, record: &Record) -> [u8; RECORD_BYTES] {
        let mut bytes = put_together(record);
        if self.random.chance(SPOILED_ONE_IN) {
            match self.random.below(4) {
                0 => bytes[6] |= 128,
                1 => bytes[7] = self.random.pick(&[34, 35, 64, 255]),
                2 => {
                    let place = self.random.pick(&[2, 3, 8, 9, 10, 11, 12, 13, 14, 15]);
                    bytes[place] = 1 << self.random.below(8);
                }
                _ => {
                    // The first byte or the last one that must be zero, or one
                    // between; a full record has none and stays good.
                    let held = 16 + 2 * record.words_held();
                    if held < RECORD_BYTES {
                        let between = held + self.random.below(RECORD_BYTES - held);
                        let place = self.random.pick(&[held, RECORD_BYTES - 1, between]);
                        bytes[place] = 1 << self.random.below(8);
                    }
                }
            }
        }
        bytes
    }
}

/// Where the size field of a kind begins in a control word.
fn size_shift(kind: Kind) -> u32 {
    match kind {
        Kind::Receive => 5,
        Kind::Transmit => 10,
        Kind::Broadcast => 0,
    }
}

fn scheme_of(kind: Kind, size_field: u16, double: bool) -> Scheme {
    match size_field {
        0 if double && kind != Kind::Transmit => Scheme::Double,
        0 => Scheme::Single,
        field => Scheme::Circular(64 << field),
    }
}

/// A cell for asking whether its place is sound.
fn cell_with(kind: Kind, scheme: Scheme, pointer: u16) -> Cell {
    Cell {
        kind,
        subaddress: 1,
        pointer,
        scheme,
        message_interrupt: false,
        circular_interrupt: false,
    }
}
