//! Long records: both sides of each edge, from document 02, request 8.

use plain_terminal::terminal::long::{longer, read_long, shorter, write_long, LongRecord};
use plain_terminal::terminal::{write_record, Record};
use plain_terminal::text::{pack, read_text, unpack_long};

fn old() -> [u8; 80] {
    let mut record = Record {
        command: 0x2864,
        tag: 0xFFFF,
        count: 4,
        ..Record::default()
    };
    record.words[..4].copy_from_slice(&[1, 2, 3, 4]);
    write_record(&record).unwrap()
}

fn with(place: usize, byte: u8) -> [u8; 96] {
    let mut long = longer(&old()).unwrap();
    long[place] = byte;
    long
}

#[test]
fn old_to_new_adds_sixteen_zeros() {
    let long = longer(&old()).unwrap();
    assert_eq!(long[..80], old());
    assert_eq!(long[80..], [0; 16]);
    assert_eq!(shorter(&long), Ok(old()));
}

#[test]
fn going_back_is_refused_by_each_of_four_bytes() {
    for place in 80..84 {
        assert_eq!(shorter(&with(place, 1)), Err(10), "byte {place}");
        assert!(read_long(&with(place, 1)).is_ok(), "byte {place}");
    }
}

#[test]
fn the_last_twelve_bytes_are_zero() {
    for place in 84..96 {
        assert_eq!(read_long(&with(place, 1)), Err(5), "byte {place}");
        assert_eq!(shorter(&with(place, 1)), Err(5), "byte {place}");
    }
    // 5 comes before 10.
    let mut both = with(80, 1);
    both[95] = 1;
    assert_eq!(shorter(&both), Err(5));
}

#[test]
fn lengths_are_exact() {
    let long = with(80, 0);
    let longest: Vec<u8> = long.iter().copied().chain([0; 104]).collect();
    for length in 0..=200 {
        let bytes = &longest[..length];
        assert_eq!(longer(bytes).err(), (length != 80).then_some(4), "{length}");
        assert_eq!(
            shorter(bytes).err(),
            (length != 96).then_some(4),
            "{length}"
        );
        assert_eq!(
            read_long(bytes).err(),
            (length != 96).then_some(4),
            "{length}"
        );
    }
}

#[test]
fn the_old_part_keeps_its_layout() {
    assert_eq!(read_long(&with(8, 1)), Err(5));
    assert_eq!(shorter(&with(79, 1)), Err(5));
    let mut broken = old();
    broken[6] = 128;
    assert_eq!(longer(&broken), Err(5));
    let mut value = read_long(&with(80, 0)).unwrap();
    value.old.count = 34;
    assert_eq!(write_long(&value), Err(5));
}

#[test]
fn what_is_written_is_read() {
    let value = LongRecord {
        old: read_long(&with(80, 0)).unwrap().old,
        upper: 0x0102,
        member: 0xFFFE,
    };
    let bytes = write_long(&value).unwrap();
    assert_eq!(bytes[80..84], [1, 2, 0xFF, 0xFE]);
    assert_eq!(read_long(&bytes), Ok(value));
}

#[test]
fn texts_have_tags_of_eight_digits_and_members() {
    let text = "records 96\nmessage 2861 bus A tag 00010002 member 7 words 1111\n";
    let bytes = pack(text.as_bytes()).unwrap();
    assert_eq!(bytes.len(), 8192 + 96);
    assert_eq!(unpack_long(&bytes), text);
    assert!(read_text(text.as_bytes()).unwrap().long);
}

#[test]
fn wrong_texts_are_told() {
    let told = |text: &str| pack(text.as_bytes()).unwrap_err().to_string();
    assert_eq!(
        told("message 2861 member 7\n"),
        "line 1: found member in a record of 80 bytes, expected a line \"records 96\" before the \
         first record, for long records"
    );
    assert_eq!(
        told("message 2861 tag 00010000\n"),
        "line 1: found \"00010000\", expected a time tag of 1 to 4 hexadecimal digits"
    );
    assert_eq!(
        told("records 96\nmessage 2861 tag 100000000\n"),
        "line 2: found \"100000000\", expected a time tag of 1 to 8 hexadecimal digits"
    );
    assert_eq!(
        told("records 96\nmessage 2861 member 65536\n"),
        "line 2: found \"65536\", expected a member number, decimal, 0 to 65535"
    );
    assert_eq!(
        told("records 88\n"),
        "line 1: found \"88\", expected records 80 or records 96"
    );
    assert_eq!(
        told("message 2861\nrecords 96\n"),
        "line 2: found records after a record, expected every records line before the first record"
    );
    let raw = format!("records 96\nraw {}\nmessage 2861\n", "00".repeat(80));
    assert_eq!(
        told(&raw),
        "line 3: found message, expected nothing after a raw line of fewer than 96 bytes"
    );
    let raw = format!("records 96\nraw {}\n", "00".repeat(97));
    assert_eq!(told(&raw), "line 2: found 97 bytes, expected 1 to 96 bytes");
}

#[test]
fn any_bytes_come_back_as_long_records() {
    let mut random = plain_terminal::random::Random::new(8);
    for length in [
        0,
        8191,
        8192,
        8193,
        8192 + 95,
        8192 + 96,
        8192 + 97,
        8192 + 400,
    ] {
        let bytes = random.bytes(length);
        assert_eq!(pack(unpack_long(&bytes).as_bytes()), Ok(bytes), "{length}");
    }
}
