//! `convert`: a trace of old records to one of long records, and back.

use std::io::Write;
use std::process::ExitCode;

use super::explain::layout_broken;
use super::heard;
use super::options::Given;
use super::problem::{self, Problem};
use super::source::Source;
use crate::engine;
use crate::terminal::refusal;

pub fn run(given: &Given, output: &mut dyn Write) -> Result<ExitCode, Problem> {
    let to_long = given.has("--long");
    if !to_long && !given.has("--old") {
        return Err(Problem::Use(
            "convert: to what? --long for records of 96 bytes, --old for records of 80".into(),
        ));
    }
    // What is read are the others.
    let mut source = Source::open_records(given, Some(!to_long))?;
    let mut bytes = source.image_bytes()?;
    let mut number = 0;
    while let Some(record) = source.next_record()? {
        number += 1;
        let converted = if to_long {
            engine::long::longer(record).map(|long| long.to_vec())
        } else {
            engine::long::shorter(record).map(|old| old.to_vec())
        };
        let converted = converted.map_err(|refused| why_not(record, refused));
        match converted {
            Ok(converted) => bytes.extend(converted),
            Err(why) => {
                let text =
                    format!("record {number} cannot be converted: {why}; nothing is written");
                return Err(Problem::Input(format!("{}: {text}", source.name)));
            }
        }
    }
    if source.tail() > 0 {
        let (tail, whole) = (source.tail(), source.record_bytes());
        let text = format!("behind record {number} stand {tail} bytes, and a record has {whole}");
        return Err(Problem::Input(format!(
            "{}: {text}; nothing is written",
            source.name
        )));
    }
    output.write_all(&bytes).map_err(problem::output)?;
    Ok(ExitCode::SUCCESS)
}

/// Why a record was refused, as exactly as can be said.
fn why_not(record: &[u8], number: u16) -> String {
    if number != refusal::LOSES_NUMBER {
        return format!("refused with {number}: {}", layout_broken(record));
    }
    let heard = heard::read(record).1;
    let mut lost = Vec::new();
    if heard.tag.outlasts() {
        lost.push(format!("its tag {:X} needs eight digits", heard.tag));
    }
    if let Some(member) = heard.member.filter(|&member| member != 0) {
        lost.push(format!("it has member {member}"));
    }
    let lost = lost.join(" and ");
    format!("refused with {number}: {lost}, and a record of 80 bytes has no place for that")
}
