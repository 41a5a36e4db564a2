//! The trace program: a RAM image and records in, lines of text out.

use std::io::{self, Read, Write};

use super::cells::RAM_WORDS;
use super::message::{carry_out_with, Answer, MessageRef, Remembered, REPLY_WORDS};
use super::planted::{with_planted, Planted, NONE};
use super::records::RECORD_BYTES;
use super::settings::Settings;

/// The image at the front of a trace.
pub const IMAGE_BYTES: usize = 2 * RAM_WORDS;

/// Records read at a time when streaming.
const BATCH_RECORDS: usize = 1024;

/// What the program tells on standard error.
pub const READING_FAILED: &str = "reading failed";
pub const WRITING_FAILED: &str = "writing failed";

/// A caller's trace and a place in it.
#[derive(Clone, Copy, Debug)]
pub struct TraceView<'a> {
    pub bytes: &'a [u8],
    pub place: usize,
}

impl<'a> TraceView<'a> {
    /// Hands on the next 80 bytes; with fewer left, none, and the place stays.
    pub fn next_record(&mut self) -> Option<&'a [u8]> {
        let record = self.rest().get(..RECORD_BYTES)?;
        self.place += RECORD_BYTES;
        Some(record)
    }

    /// The bytes from the place on; none if the place is past the end.
    pub fn rest(&self) -> &'a [u8] {
        self.bytes.get(self.place..).unwrap_or_default()
    }
}

/// The whole output of the trace program.
pub fn trace_output(input: &[u8]) -> Vec<u8> {
    planted_trace_output(Planted::None, input)
}

/// [`trace_output`] of a terminal with an error planted in it.
pub fn planted_trace_output(planted: Planted, input: &[u8]) -> Vec<u8> {
    with_planted!(planted, whole_output(input))
}

fn whole_output<const PLANTED: u8>(input: &[u8]) -> Vec<u8> {
    let mut output = Vec::new();
    let image = match input.get(..IMAGE_BYTES) {
        Some(image) => image,
        None => {
            push_line(&mut output, b"image ", input.len() as u64);
            return output;
        }
    };
    let mut run = Run::<PLANTED>::new(image);
    let mut records = TraceView {
        bytes: input,
        place: IMAGE_BYTES,
    };
    while let Some(record) = records.next_record() {
        run.message(record, &mut output);
    }
    run.end(records.rest().len(), &mut output);
    output
}

/// The RAM that an image stands for.
pub fn image_words(image: &[u8]) -> Vec<u16> {
    let words = image.chunks_exact(2);
    words.map(|b| u16::from_be_bytes([b[0], b[1]])).collect()
}

/// The image that stands for a RAM.
pub fn image_bytes(ram: &[u16]) -> Vec<u8> {
    ram.iter().flat_map(|word| word.to_be_bytes()).collect()
}

/// The trace program for input of any length, in bounded memory. What fails is
/// told on `errors`; no end line follows then. Answers whether nothing failed.
///
/// Reads and writes in large pieces: neither side needs a buffer of its own.
pub fn stream_trace(input: &mut dyn Read, output: &mut dyn Write, errors: &mut dyn Write) -> bool {
    let mut text = Vec::new();
    let mut image = vec![0; IMAGE_BYTES];
    let read = fill_or_tell(input, &mut image, errors);
    if read.failed {
        return false;
    }
    if read.bytes < IMAGE_BYTES {
        push_line(&mut text, b"image ", read.bytes as u64);
        return print(output, &text, errors);
    }
    let mut run = Run::<NONE>::new(&image);
    let mut batch = vec![0; BATCH_RECORDS * RECORD_BYTES];
    loop {
        let read = fill_or_tell(input, &mut batch, errors);
        let mut records = TraceView {
            bytes: &batch[..read.bytes],
            place: 0,
        };
        while let Some(record) = records.next_record() {
            run.message(record, &mut text);
        }
        // Only the end of the input, or a failed read, leaves a batch short.
        let at_end = read.bytes < batch.len();
        if at_end && !read.failed {
            run.end(records.rest().len(), &mut text);
        }
        let printed = print(output, &text, errors);
        if at_end || !printed {
            return printed && !read.failed;
        }
        text.clear();
    }
}

/// Reads until the buffer is full, the input ends or a read fails: how many
/// bytes were read, and how the last read went.
pub(crate) fn fill(input: &mut dyn Read, buffer: &mut [u8]) -> (usize, io::Result<()>) {
    let mut bytes = 0;
    while bytes < buffer.len() {
        match input.read(&mut buffer[bytes..]) {
            Ok(0) => break,
            Ok(read) => bytes += read,
            Err(error) if error.kind() == io::ErrorKind::Interrupted => {}
            Err(error) => return (bytes, Err(error)),
        }
    }
    (bytes, Ok(()))
}

/// How many bytes were read, and whether reading failed after them.
struct Filled {
    bytes: usize,
    failed: bool,
}

/// [`fill`] that tells a failed read.
fn fill_or_tell(input: &mut dyn Read, buffer: &mut [u8], errors: &mut dyn Write) -> Filled {
    let (bytes, read) = fill(input, buffer);
    if read.is_err() {
        tell(errors, READING_FAILED);
    }
    Filled {
        bytes,
        failed: read.is_err(),
    }
}

/// Writes the whole text, or tells that it could not.
fn print(output: &mut dyn Write, text: &[u8], errors: &mut dyn Write) -> bool {
    let printed = output.write_all(text).and_then(|()| output.flush());
    if printed.is_err() {
        tell(errors, WRITING_FAILED);
    }
    printed.is_ok()
}

/// Where even this cannot be written there is nobody to tell.
pub fn tell(errors: &mut dyn Write, what: &str) {
    let _ = writeln!(errors, "{what}");
}

/// The terminal in the middle of a trace.
struct Run<const PLANTED: u8> {
    ram: Vec<u16>,
    reply: [u16; REPLY_WORDS],
    remembered: Remembered,
    /// Whole records met so far, refused ones too.
    records: u64,
}

impl<const PLANTED: u8> Run<PLANTED> {
    fn new(image: &[u8]) -> Run<PLANTED> {
        Run {
            ram: image_words(image),
            reply: [0; REPLY_WORDS],
            remembered: Remembered::default(),
            records: 0,
        }
    }

    fn message(&mut self, record: &[u8], output: &mut Vec<u8>) {
        let (answer, remembered) = carry_out_with::<PLANTED>(
            &mut self.ram,
            &mut self.reply,
            &Settings::TRACE,
            self.remembered,
            MessageRef::Bytes(record),
        );
        self.remembered = remembered;
        self.records += 1;
        push_answer(output, self.records, &answer);
    }

    fn end(&self, tail: usize, output: &mut Vec<u8>) {
        if tail > 0 {
            push_line(output, b"tail ", tail as u64);
        }
        push_line(output, b"end ", self.records);
    }
}

pub(crate) fn push_answer(output: &mut Vec<u8>, record: u64, answer: &Answer) {
    push_decimal(output, record);
    output.push(b' ');
    push_decimal(output, answer.number.into());
    if answer.number == 0 {
        push_columns(output, answer);
    }
    output.push(b'\n');
}

/// The columns that only an accepted message has.
fn push_columns(output: &mut Vec<u8>, answer: &Answer) {
    push_hex(output, answer.block_status);
    push_hex(output, answer.pointer_before);
    push_hex(output, answer.pointer_after);
    if answer.answered {
        push_hex(output, answer.status);
    } else {
        output.extend_from_slice(b" none");
    }
    output.push(b' ');
    push_decimal(output, answer.sent.into());
    push_hex(output, answer.interrupt);
}

pub(crate) fn push_line(output: &mut Vec<u8>, name: &[u8], number: u64) {
    output.extend_from_slice(name);
    push_decimal(output, number);
    output.push(b'\n');
}

/// A space and four upper-case hexadecimal digits.
fn push_hex(output: &mut Vec<u8>, word: u16) {
    const DIGITS: &[u8; 16] = b"0123456789ABCDEF";
    let digit = |shift: u32| DIGITS[usize::from(word >> shift & 15)];
    output.extend_from_slice(&[b' ', digit(12), digit(8), digit(4), digit(0)]);
}

fn push_decimal(output: &mut Vec<u8>, mut number: u64) {
    let mut digits = [0; 20];
    let mut start = digits.len();
    loop {
        start -= 1;
        digits[start] = b'0' + (number % 10) as u8;
        number /= 10;
        if number == 0 {
            break;
        }
    }
    output.extend_from_slice(&digits[start..]);
}
