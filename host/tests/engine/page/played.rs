//! What the proved terminal did with a trace: its answers, and who wrote each
//! word, from its library alone.

use plain_terminal::engine::{self, Walk};
use plain_terminal::terminal::described::CellDescription;
use plain_terminal::terminal::who::Origin;
use plain_terminal::terminal::writes::Part;
use plain_terminal::terminal::{Answer, MessageRef, Record, Remembered, Settings};

use super::traces::Trace;

/// A record with its answer. Of an accepted one, the words that it stored or
/// sent, in their order, and who had written them when it was done.
pub struct Done {
    pub record: u64,
    pub answer: Answer,
    pub value: Record,
    pub words: Vec<Word>,
}

#[derive(Clone, Copy)]
pub struct Word {
    pub address: usize,
    pub word: u16,
    pub origin: Option<Origin>,
}

pub struct Played<'a> {
    pub trace: &'a Trace,
    pub ram: Vec<u16>,
    pub walk: Walk,
    /// In the order of the records, refused ones too.
    pub done: Vec<Done>,
}

impl Done {
    pub fn accepted(&self) -> bool {
        self.answer.number == 0
    }

    pub fn stores(&self) -> bool {
        !(32..64).contains(&self.answer.cell)
    }

    pub fn moved_pointer(&self) -> bool {
        self.answer.pointer_before != self.answer.pointer_after
    }
}

impl Played<'_> {
    pub fn new(trace: &Trace) -> Played<'_> {
        let mut played = Played {
            trace,
            ram: trace.image.clone(),
            walk: Walk::new(&trace.image, &trace.settings).unwrap(),
            done: Vec::new(),
        };
        let mut remembered = Remembered::default();
        for bytes in &trace.records {
            remembered = played.record(bytes, remembered);
        }
        played
    }

    fn record(&mut self, bytes: &[u8], remembered: Remembered) -> Remembered {
        let message = MessageRef::Bytes(bytes);
        let mut reply = [0; 33];
        let settings = &self.trace.settings;
        let (answer, after) =
            engine::carry_out(&mut self.ram, &mut reply, settings, remembered, message);
        self.walk.record(bytes);
        let record = self.done.len() as u64 + 1;
        let words = match answer.number {
            0 if (32..64).contains(&answer.cell) => self.sent(&answer, &reply),
            0 => self.stored(&answer, record),
            _ => Vec::new(),
        };
        self.done.push(Done {
            record,
            answer,
            value: engine::read_record(bytes).1,
            words,
        });
        after
    }

    /// The words of the reply, each with the place that it was read from.
    fn sent(&self, answer: &Answer, reply: &[u16]) -> Vec<Word> {
        let window = self.cell(answer.cell).window;
        let mut address = usize::from(answer.pointer_before);
        let mut words = Vec::new();
        for &word in &reply[1..=usize::from(answer.sent)] {
            assert_eq!(word, self.ram[address], "a word of the reply");
            let origin = self.who(address);
            words.push(Word {
                address,
                word,
                origin,
            });
            address += 1;
            if address == window.end {
                address = window.start;
            }
        }
        words
    }

    /// The words of the window that are said to be the record's, by place.
    fn stored(&self, answer: &Answer, record: u64) -> Vec<Word> {
        let mut words = Vec::new();
        for address in self.cell(answer.cell).window {
            match self.who(address) {
                Some(origin) if origin.record == record => match origin.part {
                    Part::Data(place) => words.push((place, address, origin)),
                    _ => panic!("no data word in a window"),
                },
                _ => {}
            }
        }
        words.sort_by_key(|(place, _, _)| *place);
        let word = |(_, address, origin)| Word {
            address,
            word: self.ram[address],
            origin: Some(origin),
        };
        words.into_iter().map(word).collect()
    }

    pub fn settings(&self) -> &Settings {
        &self.trace.settings
    }

    pub fn who(&self, address: usize) -> Option<Origin> {
        self.walk.who(address as u16).unwrap()
    }

    pub fn cell(&self, number: u16) -> CellDescription {
        engine::describe_cell(&self.ram, self.settings(), number).unwrap()
    }

    /// The cells that the label speaks of, sound ones.
    pub fn sound_cells(&self) -> Vec<u16> {
        let is_sound = |&number: &u16| {
            let cell = self.cell(number);
            cell.is_read && cell.faults == 0
        };
        (0..96).filter(is_sound).collect()
    }

    pub fn of(&self, record: u64) -> &Done {
        &self.done[record as usize - 1]
    }

    /// The newest accepted message of a cell that will do.
    pub fn newest(&self, cell: u16, will_do: impl Fn(&Done) -> bool) -> Option<&Done> {
        let ours = |done: &&Done| done.accepted() && done.answer.cell == cell;
        self.done
            .iter()
            .rev()
            .filter(ours)
            .find(|done| will_do(done))
    }

    pub fn is_used(&self, cell: u16) -> bool {
        self.newest(cell, |_| true).is_some()
    }

    pub fn owner(&self, cell: u16) -> Option<&str> {
        self.trace.owners[usize::from(cell % 32)].as_deref()
    }

    pub fn is_named(&self, cell: u16) -> bool {
        self.owner(cell).is_some() || self.is_used(cell)
    }

    pub fn same_owner(&self, a: u16, b: u16) -> bool {
        a % 32 == b % 32 || self.owner(a).is_some() && self.owner(a) == self.owner(b)
    }

    /// Who has written at a place since a message was done.
    pub fn overwriter(&self, word: &Word) -> Option<Origin> {
        let now = self.who(word.address);
        if now == word.origin {
            None
        } else {
            now
        }
    }

    /// How often the pointer of a cell went away from a word since a record
    /// left it there: in a circle over it, and else anywhere.
    pub fn times_passed(&self, cell: u16, record: u64, address: usize) -> usize {
        let window = self.cell(cell).window;
        let circle = window.len() > 64;
        let since = self.done[record as usize - 1..].iter();
        let since = since.filter(|it| it.accepted() && it.answer.cell == cell);
        let passes = |done: &&Done| {
            let over = done.words.iter().any(|word| word.address == address);
            done.moved_pointer() && (over || !circle)
        };
        since.filter(passes).count()
    }
}

/// Good means that the words arrived as they were meant to.
pub fn is_good(done: &Done) -> bool {
    let Answer {
        block_status,
        status,
        ..
    } = done.answer;
    block_status & 0x1040 == 0 && status & 0x0008 == 0
}

/// What kept a message from being good, by the terminal's words.
pub fn verdict(done: &Done) -> String {
    let Answer {
        block_status,
        status,
        ..
    } = done.answer;
    let mut wrong = Vec::new();
    for (set, name) in [
        (block_status & 0x1000, "faulty"),
        (block_status & 0x0040, "illegal"),
        (status & 0x0008, "busy"),
    ] {
        if set != 0 {
            wrong.push(name);
        }
    }
    match wrong[..] {
        [] => "good".into(),
        _ => super::told::listed(&wrong),
    }
}

/// Why no word was stored or sent, where none was.
pub fn no_word(played: &Played, done: &Done) -> Option<String> {
    let settings = played.settings();
    let [faulty, illegal, busy] =
        ["faulty", "illegal", "busy"].map(|it| verdict(done).contains(it));
    if !done.words.is_empty() {
        return None;
    }
    Some(match done.stores() {
        false if faulty => "no word sent: the message is faulty".into(),
        false if illegal => "no word sent: the message is illegal".into(),
        false if busy => "no word sent: the terminal is busy".into(),
        false => panic!("a good transmit sends"),
        true if done.value.count == 0 => "no word stored: none was heard".into(),
        true => {
            let mut by = Vec::new();
            if illegal && settings.illegal_receive_disable {
                by.push("illegal-receive-disable");
            }
            if busy && settings.busy_receive_disable {
                by.push("busy-receive-disable");
            }
            assert!(
                !by.is_empty(),
                "words were heard, and nothing keeps them out"
            );
            format!("no word stored: withheld by {}", by.join(" and "))
        }
    })
}
