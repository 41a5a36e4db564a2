//! `pack` and `unpack`: text to bytes and back.

use std::ffi::OsStr;
use std::io::Write;
use std::process::ExitCode;

use super::options::Given;
use super::problem::{self, Problem};
use super::source::read_whole;
use crate::text;

pub fn pack(given: &Given, output: &mut dyn Write) -> Result<ExitCode, Problem> {
    let (name, input) = read_whole(file(given))?;
    let read = text::read_text(&input).map_err(|error| problem::text(&name, &error))?;
    let bytes = read.bytes().map_err(|error| problem::text(&name, &error))?;
    output.write_all(&bytes).map_err(problem::output)?;
    // Owners change no answer; settings do.
    if read.settings.is_some() {
        let advice = "keep them in a text of their own, for --names";
        problem::tell(&format!(
            "{name}: bytes have no place for settings; {advice}"
        ));
    }
    Ok(ExitCode::SUCCESS)
}

pub fn unpack(given: &Given, output: &mut dyn Write) -> Result<ExitCode, Problem> {
    let (_, input) = read_whole(file(given))?;
    let text = if given.has("--long") {
        text::unpack_long(&input)
    } else {
        text::unpack(&input)
    };
    output.write_all(text.as_bytes()).map_err(problem::output)?;
    Ok(ExitCode::SUCCESS)
}

fn file(given: &Given) -> &OsStr {
    given.files.first().map_or(OsStr::new("-"), |file| file)
}
