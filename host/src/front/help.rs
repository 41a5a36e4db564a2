//! What `help` shows.

use std::ffi::OsString;
use std::io::Write;
use std::process::ExitCode;

use super::problem::{self, Problem};

const ALL: &str = include_str!("help/help.txt");

/// `help`, or `help COMMAND`.
pub fn run(arguments: &[OsString], output: &mut dyn Write) -> Result<ExitCode, Problem> {
    match arguments.first() {
        None => show(ALL, output),
        Some(name) => show(super::named(&name.to_string_lossy())?.help, output),
    }
}

pub fn show(text: &str, output: &mut dyn Write) -> Result<ExitCode, Problem> {
    let written = output.write_all(text.as_bytes());
    written.map_err(problem::output)?;
    Ok(ExitCode::SUCCESS)
}
