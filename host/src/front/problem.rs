//! What can go wrong, and the exit status that says so.

use std::io::{self, Write};
use std::process::ExitCode;

use crate::text::{visible, TextError};

#[derive(Debug)]
pub enum Problem {
    /// The program was used wrongly: status 2.
    Use(String),
    /// Something is wrong with what it was given: status 1.
    Input(String),
    /// Nobody reads what is written any more: nothing to say, and no fault.
    Closed,
}

impl Problem {
    /// Says what is wrong; returns the exit status.
    pub fn tell(self) -> ExitCode {
        match self {
            Problem::Use(text) => {
                tell(&text);
                ExitCode::from(2)
            }
            Problem::Input(text) => {
                tell(&text);
                ExitCode::FAILURE
            }
            Problem::Closed => ExitCode::SUCCESS,
        }
    }
}

/// Says something on standard error, with what a terminal would obey spelled
/// out. Where that cannot be written, there is nobody to tell.
pub fn tell(text: &str) {
    let _ = writeln!(io::stderr(), "solkverva: {}", visible(text));
}

/// A problem of writing to standard output.
pub fn output(error: io::Error) -> Problem {
    match error.kind() {
        io::ErrorKind::BrokenPipe => Problem::Closed,
        _ => Problem::Input(format!("standard output: {}", plain(&error))),
    }
}

/// A problem with a file, or with standard input.
pub fn file(name: &str, error: &io::Error) -> Problem {
    Problem::Input(format!("{name}: {}", plain(error)))
}

/// A wrong line of a text.
pub fn text(name: &str, error: &TextError) -> Problem {
    Problem::Input(format!("{name}: {error}"))
}

/// What the system says, without its number.
fn plain(error: &io::Error) -> String {
    let text = error.to_string();
    match text.find(" (os error") {
        Some(end) => text[..end].to_string(),
        None => text,
    }
}
