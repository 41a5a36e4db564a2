//! How far long work has come, shown on a terminal and nowhere else.

use std::io::{self, Write};
use std::time::{Duration, Instant};

/// Work that takes less is not worth a line.
const QUIET: Duration = Duration::from_secs(1);
const PAUSE: Duration = Duration::from_millis(200);
const STANDARD_ERROR: i32 = 2;

extern "C" {
    /// Of the C library: 1 for a terminal.
    fn isatty(descriptor: i32) -> i32;
}

pub struct Progress {
    /// None where nobody watches.
    next: Option<Instant>,
    shown: bool,
}

impl Progress {
    pub fn new() -> Progress {
        // SAFETY: any number may be asked about.
        let watched = unsafe { isatty(STANDARD_ERROR) } == 1;
        Progress {
            next: watched.then(|| Instant::now() + QUIET),
            shown: false,
        }
    }

    /// So many records are done, of so many where that is known.
    pub fn at(&mut self, done: u64, all: Option<u64>) {
        match self.next {
            Some(next) if Instant::now() >= next => self.next = Some(Instant::now() + PAUSE),
            _ => return,
        }
        self.shown = true;
        show(&format!("\rsolkverva: {} ", so_far(done, all)));
    }
}

impl Drop for Progress {
    /// The line goes again.
    fn drop(&mut self) {
        if self.shown {
            show("\r\x1b[K");
        }
    }
}

/// Where it cannot be shown, nobody watches.
fn show(text: &str) {
    let _ = io::stderr().write_all(text.as_bytes());
}

/// A file that grows while it is read has more records than it had: then all
/// that is known is how many are done.
pub fn so_far(done: u64, all: Option<u64>) -> String {
    match all.filter(|&all| done <= all) {
        Some(all) => format!("{done} of {all} records"),
        None => format!("{done} records"),
    }
}
