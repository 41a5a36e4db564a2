//! Random traces for the trace program, and the smallest one that shows a
//! difference.

use super::episode::Episode;
use super::shrink::Shrinking;
use crate::random::Random;
use crate::terminal::cells::RAM_WORDS;
use crate::terminal::records::RECORD_BYTES;
use crate::terminal::trace::{image_bytes, IMAGE_BYTES};
use crate::terminal::Settings;

/// Records of the traces that are longer than any buffer.
const LONG: usize = 20_000;

/// Records that are few enough to be made simpler byte by byte.
const FEW: usize = 4;

/// The trace of a seed: an image, records of which some are damaged, a tail.
pub fn random_trace(seed: u64) -> Vec<u8> {
    let mut random = Random::new(seed);
    let records = match random.below(16) {
        0 => 0,
        1 | 2 => random.below(4),
        3 => 1000 + random.below(1000),
        4 if seed % 8 == 0 => LONG,
        _ => random.below(200),
    };
    let tail = if random.chance(3) {
        1 + random.below(RECORD_BYTES - 1)
    } else {
        0
    };
    let short_image = random.chance(24).then(|| random.below(IMAGE_BYTES));
    let spoiled_words = random.pick(&[0, 0, 1, 4]);
    let (mut episode, mut state) = Episode::with_settings(random.clone(), Settings::TRACE);
    for _ in 0..spoiled_words {
        // The stack pointer, or a word of the lookup tables.
        let looked_up = 0x0140 + random.below(128);
        let place = random.pick(&[0x0100, looked_up]);
        state.ram[place] = random.word();
    }
    let mut trace = image_bytes(&state.ram[..RAM_WORDS]);
    for _ in 0..records {
        trace.extend(episode.record());
    }
    trace.extend(random.bytes(tail));
    if let Some(length) = short_image {
        trace.truncate(length);
    }
    trace
}

/// A trace of so many records, most of them accepted, for measurements.
pub fn long_trace(records: usize) -> Vec<u8> {
    let (mut episode, state) = Episode::with_settings(Random::new(1), Settings::TRACE);
    let mut trace = image_bytes(&state.ram[..RAM_WORDS]);
    for _ in 0..records {
        trace.extend(episode.record());
    }
    trace
}

/// The smallest trace found on which the difference stays.
pub fn shrink_trace(trace: &[u8], differs: impl Fn(&[u8]) -> bool) -> Vec<u8> {
    let mut shrinking = Shrinking::new(&trace.to_vec(), |trace: &Vec<u8>| differs(trace));
    shrinking.drop_records();
    shrinking.zero_image();
    shrinking.zero_records();
    shrinking.smallest
}

impl<F: Fn(&Vec<u8>) -> bool> Shrinking<Vec<u8>, F> {
    /// Takes records away, fewer and fewer at a time, and the tail.
    fn drop_records(&mut self) {
        let mut size = match self.smallest.len().checked_sub(IMAGE_BYTES) {
            Some(bytes) => bytes.next_power_of_two(),
            None => return,
        };
        while size >= RECORD_BYTES {
            // Whole records, so that those behind stay records.
            let bytes = size / RECORD_BYTES * RECORD_BYTES;
            let mut start = IMAGE_BYTES;
            while start < self.smallest.len() {
                let end = self.smallest.len().min(start + bytes);
                if !self.take(|trace| drop(trace.drain(start..end))) {
                    start = end;
                }
            }
            size /= 2;
        }
    }

    /// Zeroes the image, in blocks that become smaller.
    fn zero_image(&mut self) {
        let length = IMAGE_BYTES.min(self.smallest.len());
        let mut size = IMAGE_BYTES;
        while size >= 2 {
            for start in (0..length).step_by(size) {
                let end = self.smallest.len().min(start + size);
                self.take(|trace| trace[start..end].fill(0));
            }
            size /= 2;
        }
    }

    /// Zeroes data words and the like, if there are few records left.
    fn zero_records(&mut self) {
        let length = self.smallest.len();
        if length <= IMAGE_BYTES + FEW * RECORD_BYTES {
            for place in IMAGE_BYTES..length {
                self.take(|trace| trace[place] = 0);
            }
        }
    }
}
