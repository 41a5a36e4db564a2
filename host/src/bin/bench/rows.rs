//! The rows of the table: what is measured.

use plain_terminal::terminal::boundary::{value_words, VALUE_WORDS};
use plain_terminal::terminal::cells::{LARGE_RAM_WORDS, RAM_WORDS};
use plain_terminal::terminal::long::longer;
use plain_terminal::terminal::records::RECORD_BYTES;
use plain_terminal::terminal::{write_record, Record, Settings};

/// An image, settings, and one piece of work again and again.
pub struct Row {
    pub name: &'static str,
    pub ram: Vec<u16>,
    pub settings: Settings,
    pub work: Work,
}

pub enum Work {
    Bytes(Vec<u8>),
    Value([u16; VALUE_WORDS]),
    Area,
    LabelCell(u16),
    LabelArea,
    Read(Vec<u8>),
    Write([u16; VALUE_WORDS]),
    /// A message from a long record; its reader; old to new; new to old.
    Long(Vec<u8>),
    ReadLong(Vec<u8>),
    Longer(Vec<u8>),
    Shorter(Vec<u8>),
    /// Records one after the other.
    Walk(Vec<u8>),
    /// Who put the word at an address where it is, after such records.
    Who(u16, Vec<u8>),
    /// The same for every address.
    WhoAll(Vec<u8>),
    /// The controller's list at 0400, for so many steps, over such records.
    Control(u64, Vec<u8>),
}

/// Words of RAM that are not zero.
type Image = [(usize, u16)];

// Subaddress 3, to receive and to transmit.
const SINGLE: &Image = &[(0x0143, 0x0400), (0x0163, 0x0500)];
const DOUBLE: &Image = &[(0x0143, 0x0400), (0x01A3, 0x8000)];
const CIRCLE: &Image = &[(0x0143, 0x0400), (0x0163, 0x0500), (0x01A3, 0x2520)];
const CIRCLE_AT_END: &Image = &[(0x0143, 0x0470), (0x01A3, 0x0120)];
const ILLEGAL: &Image = &[(0x0143, 0x0400), (0x0163, 0x0500), (0x0386, 1)];
const BUSY: &Image = &[(0x0143, 0x0400), (0x0163, 0x0500), (0x0246, 8)];

pub fn rows() -> Vec<Row> {
    let mut rows = Vec::from(receiving());
    rows.extend(transmitting());
    rows.extend(held_back());
    rows.extend(refused());
    rows.extend(others());
    rows.extend(long_records());
    rows.extend(labels());
    rows.extend(origins());
    rows.extend(controller());
    rows.extend(large_card());
    rows
}

// Subaddress 3 in 4,096 words, and in 8,192.
const LARGE_CIRCLE: &Image = &[(0x0143, 0x2000), (0x0163, 0x4000), (0x01A3, 0x3CC0)];

/// On the 64K card.
fn large_card() -> [Row; 6] {
    let apart: Vec<(usize, u16)> = (0x0140..0x0180).zip((0x1000..).step_by(32)).collect();
    let sound: Vec<(usize, u16)> = (0x0140..0x01A0).map(|place| (place, 0xFFE0)).collect();
    let rows = [
        row("receive 1 word, single, 64K card", SINGLE, bytes(0x2861, 1)),
        row(
            "receive 32 words, circular of 4096, 64K card",
            LARGE_CIRCLE,
            bytes(0x2860, 32),
        ),
        row(
            "transmit 32 words, circular of 8192, 64K card",
            LARGE_CIRCLE,
            bytes(0x2C60, 0),
        ),
        row("whole-area check, sound, 64K card", &sound, Work::Area),
        row(
            "label of a cell, alone, 64K card",
            &apart,
            Work::LabelCell(3),
        ),
        row(
            "label of the area, no pair, 64K card",
            &apart,
            Work::LabelArea,
        ),
    ];
    rows.map(|mut row| {
        row.ram.resize(LARGE_RAM_WORDS, 0);
        row
    })
}

// Flags, conditions, a call and a return, again and again.
const LOOP: &Image = &[
    (0x0400, 0xB14F), // FLG toggle 0
    (0x0401, 0x0101),
    (0x0402, 0x8D4F), // CAL 0408
    (0x0403, 0x0408),
    (0x0404, 0x0940), // JMP 0400 if GP0
    (0x0405, 0x0400),
    (0x0406, 0x094F), // JMP 0400
    (0x0407, 0x0400),
    (0x0408, 0x114F), // RTN
];
// A message, and back to it.
const MESSAGES: &Image = &[
    (0x0400, 0x054F), // XEQ 0600
    (0x0401, 0x0600),
    (0x0402, 0x094F), // JMP 0400
    (0x0403, 0x0400),
];

fn controller() -> [Row; 2] {
    let records = record_bytes(0x2864, 4).repeat(10_000);
    [
        row(
            "a list without messages, 1000000 steps",
            LOOP,
            Work::Control(1_000_000, Vec::new()),
        ),
        row(
            "a list that executes 10000 messages",
            MESSAGES,
            Work::Control(1_000_000, records),
        ),
    ]
}

fn receiving() -> [Row; 9] {
    [
        row("receive 1 word, single", SINGLE, bytes(0x2861, 1)),
        row("receive 1 word, double", DOUBLE, bytes(0x2861, 1)),
        row("receive 1 word, circular", CIRCLE, bytes(0x2861, 1)),
        row("receive 32 words, single", SINGLE, bytes(0x2860, 32)),
        row("receive 32 words, double", DOUBLE, bytes(0x2860, 32)),
        row("receive 32 words, circular", CIRCLE, bytes(0x2860, 32)),
        row(
            "receive 31 of 32 words, circular, over its end",
            CIRCLE_AT_END,
            bytes(0x2860, 31),
        ),
        row(
            "receive 32 words, single, from a value",
            SINGLE,
            Work::Value(value_words(&heard(0x2860, 32))),
        ),
        row("broadcast 32 words, single", SINGLE, bytes(0xF860, 32)),
    ]
}

fn transmitting() -> [Row; 4] {
    [
        row("transmit 1 word, single", SINGLE, bytes(0x2C61, 0)),
        row("transmit 1 word, circular", CIRCLE, bytes(0x2C61, 0)),
        row("transmit 32 words, single", SINGLE, bytes(0x2C60, 0)),
        row("transmit 32 words, circular", CIRCLE, bytes(0x2C60, 0)),
    ]
}

fn held_back() -> [Row; 2] {
    let withheld = Settings {
        illegal_receive_disable: true,
        ..Settings::TRACE
    };
    [
        Row {
            settings: withheld,
            ..row("receive 32 words, withheld", ILLEGAL, bytes(0x2860, 32))
        },
        row("transmit 32 words, busy", BUSY, bytes(0x2C60, 0)),
    ]
}

fn refused() -> [Row; 8] {
    let unset = Settings {
        address: 31,
        ..Settings::TRACE
    };
    let mut damaged = record_bytes(0x2861, 1);
    damaged[RECORD_BYTES - 1] = 1;
    [
        Row {
            ram: vec![0; RAM_WORDS - 1],
            ..row("refused with 1", SINGLE, bytes(0x2861, 1))
        },
        Row {
            settings: unset,
            ..row("refused with 3", SINGLE, bytes(0x2861, 1))
        },
        row("refused with 4", SINGLE, Work::Bytes(vec![0; 79])),
        row("refused with 5", SINGLE, Work::Bytes(damaged)),
        row("refused with 6", SINGLE, bytes(0x3061, 1)),
        row("refused with 7", SINGLE, bytes(0x2801, 1)),
        row("refused with 8", &[(0x0100, 0x0200)], bytes(0x2861, 1)),
        row("refused with 9", &[(0x0143, 0x0300)], bytes(0x2861, 1)),
    ]
}

fn others() -> [Row; 4] {
    let mut sound_area: Vec<(usize, u16)> = (0x0140..0x01A0).map(|place| (place, 0x0400)).collect();
    sound_area.extend([(0x0143, 0x047E), (0x01A3, 0x0120), (0x01A4, 0x8000)]);
    let read = Work::Read(record_bytes(0x2860, 32));
    let write = Work::Write(value_words(&heard(0x2860, 32)));
    [
        row("whole-area check, sound", &sound_area, Work::Area),
        row("whole-area check, cell 1 unsound", &[], Work::Area),
        row("read a record of 32 words", &[], read),
        row("write a record of 32 words", &[], write),
    ]
}

/// Long records of the same 32 words as above.
fn long_records() -> [Row; 6] {
    let old = record_bytes(0x2860, 32);
    let long = longer(&old).expect("the record keeps its layout").to_vec();
    let one = longer(&record_bytes(0x2861, 1)).expect("the record keeps its layout");
    [
        row(
            "receive 1 word, single, long record",
            SINGLE,
            Work::Long(one.to_vec()),
        ),
        row(
            "receive 32 words, single, long record",
            SINGLE,
            Work::Long(long.clone()),
        ),
        row(
            "transmit 32 words, single, long record",
            SINGLE,
            Work::Long(longer(&record_bytes(0x2C60, 0)).expect("as above").to_vec()),
        ),
        row("read a long record", &[], Work::ReadLong(long.clone())),
        row("old record to long", &[], Work::Longer(old)),
        row("long record to old", &[], Work::Shorter(long)),
    ]
}

/// Labels where no two cells share a word, where all do, and with a refusal.
fn labels() -> [Row; 6] {
    let apart: Vec<(usize, u16)> = (0x0140..0x0180).zip((0x0400..).step_by(32)).collect();
    let together: Vec<(usize, u16)> = (0x0140..0x01A0).map(|place| (place, 0x0400)).collect();
    let separate = Settings {
        separate_broadcast: true,
        ..Settings::TRACE
    };
    [
        row("label of a cell, alone", &apart, Work::LabelCell(3)),
        Row {
            settings: separate,
            ..row(
                "label of a cell, with 89 others",
                &together,
                Work::LabelCell(3),
            )
        },
        row("label of a cell, refused with 9", &[], Work::LabelCell(3)),
        row("label of the area, no pair", &apart, Work::LabelArea),
        Row {
            settings: separate,
            ..row("label of the area, 4005 pairs", &together, Work::LabelArea)
        },
        row("label of the area, all cells unsound", &[], Work::LabelArea),
    ]
}

/// The same fifty records without the question who put a word where it is, and
/// with it; and many more for tables of every address, which are made anew
/// each time.
fn origins() -> [Row; 3] {
    let some = [
        record_bytes(0x2864, 4),
        record_bytes(0x2C64, 0),
        record_bytes(0x2864, 3),
        record_bytes(0x3061, 1),
        record_bytes(0x2860, 32),
    ];
    let records = some.concat().repeat(10);
    [
        row("50 records", CIRCLE, Work::Walk(records.clone())),
        row(
            "50 records, who wrote one address",
            CIRCLE,
            Work::Who(0x0402, records.clone()),
        ),
        row(
            "1000 records, who wrote each address",
            CIRCLE,
            Work::WhoAll(records.repeat(20)),
        ),
    ]
}

fn row(name: &'static str, image: &Image, work: Work) -> Row {
    let mut ram = vec![0; RAM_WORDS];
    for &(address, word) in image {
        ram[address] = word;
    }
    Row {
        name,
        ram,
        settings: Settings::TRACE,
        work,
    }
}

/// A message of a record with so many words heard.
fn bytes(command: u16, count: u16) -> Work {
    Work::Bytes(record_bytes(command, count))
}

fn record_bytes(command: u16, count: u16) -> Vec<u8> {
    let bytes = write_record(&heard(command, count));
    bytes.expect("the record keeps its layout").to_vec()
}

fn heard(command: u16, count: u16) -> Record {
    let mut record = Record {
        command,
        tag: 0x0102,
        count,
        ..Record::default()
    };
    for (place, word) in record.words[..usize::from(count)].iter_mut().enumerate() {
        *word = 0xA000 + place as u16;
    }
    record
}
