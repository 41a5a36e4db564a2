//! The trace program's output, whole and streamed.

use std::io::{self, Read, Write};

use plain_terminal::terminal::trace::TraceView;
use plain_terminal::terminal::{stream_trace, trace_output, write_record};

use crate::helpers::{good, heard, Random};

pub const EXAMPLE_OUTPUT: &str = "\
1 0 8080 047E 0402 2800 0 0403
2 6
3 0 8000 0500 0500 2800 2 0003
end 3
";

/// The image of the example in the scope.
pub fn example_image() -> Vec<u8> {
    image(&[(0x0143, 0x047E), (0x01A3, 0x0120), (0x0163, 0x0500)])
}

/// The whole input of the example in the scope.
pub fn example_input() -> Vec<u8> {
    let mut input = example_image();
    for command in [0x2864, 0x3064, 0x2C62] {
        input.extend(write_record(&good(command)).unwrap());
    }
    input
}

pub fn image(words: &[(usize, u16)]) -> Vec<u8> {
    let mut bytes = vec![0; 8192];
    for &(address, word) in words {
        bytes[2 * address..2 * address + 2].copy_from_slice(&word.to_be_bytes());
    }
    bytes
}

fn output_of(mut input: &[u8]) -> String {
    let whole = trace_output(input);
    let (streamed, told) = streamed(&mut input);
    assert_eq!((&whole, ""), (&streamed, told.as_str()));
    String::from_utf8(whole).unwrap()
}

/// What streaming prints, and what it tells on standard error.
fn streamed(input: &mut dyn Read) -> (Vec<u8>, String) {
    let (mut streamed, mut told) = (Vec::new(), Vec::new());
    let done = stream_trace(input, &mut streamed, &mut told);
    assert_eq!(done, told.is_empty());
    (streamed, String::from_utf8(told).unwrap())
}

#[test]
fn the_example() {
    assert_eq!(output_of(&example_input()), EXAMPLE_OUTPUT);
}

#[test]
fn a_short_image_says_so_and_nothing_else() {
    for length in [0, 1, 79, 80, 8191] {
        let input = vec![0; length];
        assert_eq!(output_of(&input), format!("image {length}\n"));
    }
    assert_eq!(output_of(&[0; 8192]), "end 0\n");
}

#[test]
fn a_tail_comes_before_the_end() {
    let whole = example_input();
    for length in [1, 40, 79] {
        let input = [&whole[..], &vec![0; length]].concat();
        let expected = EXAMPLE_OUTPUT.replace("end 3", &format!("tail {length}\nend 3"));
        assert_eq!(output_of(&input), expected);
    }
    let alone = [&vec![0; 8192][..], &[7]].concat();
    assert_eq!(output_of(&alone), "tail 1\nend 0\n");
}

#[test]
fn every_whole_record_counts_and_refusals_change_nothing() {
    let mut input = example_image();
    let mut damaged = write_record(&good(0x2864)).unwrap();
    damaged[8] = 1;
    input.extend(damaged);
    input.extend(write_record(&good(0x3064)).unwrap());
    input.extend(write_record(&good(0x2804)).unwrap());
    input.extend(write_record(&good(0x2824)).unwrap());
    input.extend(write_record(&good(0x2864)).unwrap());
    let expected = "1 5\n2 6\n3 7\n4 9\n5 0 8080 047E 0402 2800 0 0403\nend 5\n";
    assert_eq!(output_of(&input), expected);
}

#[test]
fn an_unsound_stack_refuses_every_message() {
    let mut input = image(&[(0x0100, 0x0200), (0x0143, 0x0400)]);
    input.extend(write_record(&good(0x2864)).unwrap());
    assert_eq!(output_of(&input), "1 8\nend 1\n");
}

#[test]
fn faults_and_broadcasts_print_none() {
    let mut input = example_image();
    input.extend(write_record(&heard(0x2864, 2, 0)).unwrap());
    input.extend(write_record(&good(0xF864)).unwrap());
    let expected = "\
1 0 9420 047E 047E none 0 0013
2 0 8080 047E 0402 none 0 0403
end 2
";
    assert_eq!(output_of(&input), expected);
}

#[test]
fn thirty_two_words_are_printed_in_decimal() {
    let mut input = image(&[(0x0163, 0x0500)]);
    input.extend(write_record(&good(0x2C60)).unwrap());
    assert_eq!(
        output_of(&input),
        "1 0 8000 0500 0500 2800 32 0003\nend 1\n"
    );
}

#[test]
fn words_of_the_image_have_their_high_byte_first() {
    let mut input = vec![0; 8192];
    input[646] = 0x04;
    input[647] = 0x7E;
    input[838] = 0x01;
    input[839] = 0x20;
    input.extend(write_record(&good(0x2864)).unwrap());
    assert_eq!(output_of(&input), "1 0 8080 047E 0402 2800 0 0403\nend 1\n");
}

/// Gives its bytes in small uneven pieces, now and then interrupted.
struct Trickle<'a> {
    bytes: &'a [u8],
    random: Random,
}

impl Read for Trickle<'_> {
    fn read(&mut self, buffer: &mut [u8]) -> io::Result<usize> {
        if self.random.chance(5) {
            return Err(io::ErrorKind::Interrupted.into());
        }
        let wanted = 1 + self.random.below(700);
        let length = wanted.min(buffer.len()).min(self.bytes.len());
        let (piece, rest) = self.bytes.split_at(length);
        buffer[..length].copy_from_slice(piece);
        self.bytes = rest;
        Ok(length)
    }
}

/// Gives its bytes and then fails.
struct Broken<'a>(&'a [u8]);

impl Read for Broken<'_> {
    fn read(&mut self, buffer: &mut [u8]) -> io::Result<usize> {
        match self.0.read(buffer)? {
            0 => Err(io::ErrorKind::Other.into()),
            read => Ok(read),
        }
    }
}

/// Takes nothing.
struct Full;

impl Write for Full {
    fn write(&mut self, _: &[u8]) -> io::Result<usize> {
        Err(io::ErrorKind::Other.into())
    }

    fn flush(&mut self) -> io::Result<()> {
        Ok(())
    }
}

#[test]
fn no_end_line_follows_a_failed_read() {
    let input = example_input();
    let lines: Vec<&str> = EXAMPLE_OUTPUT.split_inclusive('\n').collect();
    for (length, records) in [
        (0, 0),
        (8191, 0),
        (8192, 0),
        (8271, 0),
        (8272, 1),
        (8432, 3),
    ] {
        let (printed, told) = streamed(&mut Broken(&input[..length]));
        assert_eq!(
            String::from_utf8(printed).unwrap(),
            lines[..records].concat()
        );
        assert_eq!(told, "reading failed\n");
    }
}

#[test]
fn a_failed_write_is_told_once() {
    let input = example_input();
    let told = |input: &mut dyn Read| {
        let mut told = Vec::new();
        assert!(!stream_trace(input, &mut Full, &mut told));
        String::from_utf8(told).unwrap()
    };
    assert_eq!(told(&mut &input[..]), "writing failed\n");
    assert_eq!(told(&mut &input[..100]), "writing failed\n");
    assert_eq!(
        told(&mut Broken(&input)),
        "reading failed\nwriting failed\n"
    );
    assert_eq!(told(&mut Broken(&input[..100])), "reading failed\n");
    // With nobody to tell it still ends.
    assert!(!stream_trace(&mut &input[..], &mut Full, &mut Full));
}

/// Around the number of records that streaming reads at a time.
#[test]
fn streaming_does_not_show_where_its_buffer_ends() {
    let mut random = Random::new(6);
    let mut records = Vec::new();
    while records.len() < 2050 * 80 {
        records.extend(write_record(&random.record(5)).unwrap());
    }
    for (count, tail) in [
        (1023, 0),
        (1023, 79),
        (1024, 0),
        (1024, 1),
        (1025, 0),
        (2048, 0),
        (2048, 5),
        (2049, 40),
    ] {
        let input = [&example_image()[..], &records[..count * 80 + tail]].concat();
        let expected = output_of(&input);
        assert!(expected.ends_with(&format!("end {count}\n")));
        let mut trickle = Trickle {
            bytes: &input,
            random: Random::new(count as u64),
        };
        let (streamed, told) = streamed(&mut trickle);
        assert_eq!(String::from_utf8(streamed).unwrap(), expected);
        assert_eq!(told, "");
    }
}

#[test]
fn random_bytes_never_stop_the_program() {
    let mut random = Random::new(7);
    for _ in 0..200 {
        let length = 8192 + random.below(1000);
        let input = random.bytes(length);
        let output = output_of(&input);
        let records = (length - 8192) / 80;
        assert!(output.ends_with(&format!("end {records}\n")));
    }
}

#[test]
fn the_view_hands_on_whole_records_only() {
    let bytes: Vec<u8> = (0..=239).collect();
    let mut view = TraceView {
        bytes: &bytes[..239],
        place: 0,
    };
    assert_eq!(view.next_record(), Some(&bytes[..80]));
    assert_eq!(view.next_record(), Some(&bytes[80..160]));
    assert_eq!(view.place, 160);
    assert_eq!(view.next_record(), None);
    assert_eq!(view.place, 160);

    view.bytes = &bytes;
    assert_eq!(view.next_record(), Some(&bytes[160..]));
    assert_eq!(view.place, 240);
    assert_eq!(view.next_record(), None);
    assert_eq!(view.place, 240);
}

#[test]
fn the_view_may_stand_anywhere() {
    let bytes: Vec<u8> = (0..=99).collect();
    for (place, expected) in [
        (0, Some(&bytes[..80])),
        (20, Some(&bytes[20..])),
        (21, None),
        (100, None),
        (101, None),
        (usize::MAX, None),
    ] {
        let mut view = TraceView {
            bytes: &bytes,
            place,
        };
        assert_eq!(view.next_record(), expected);
        assert_eq!(view.place, place + expected.map_or(0, <[u8]>::len));
    }
}
