//! `run`: a line for each message of a trace, as the trace program has it.

use std::io::Write;
use std::process::ExitCode;

use super::changes::write_changes;
use super::explain::explain;
use super::history::History;
use super::options::Given;
use super::problem::{self, Problem};
use super::replay::Replay;
use super::source::Source;
use crate::terminal::trace::{push_answer, push_line};

pub fn run(given: &Given, output: &mut dyn Write) -> Result<ExitCode, Problem> {
    let mut source = Source::open(given)?;
    let mut text = Vec::new();
    let image = match &source.image {
        Ok(image) => image.clone(),
        Err(length) => {
            push_line(&mut text, b"image ", *length as u64);
            output.write_all(&text).map_err(problem::output)?;
            return Ok(ExitCode::SUCCESS);
        }
    };
    let mut run = Run::new(given, &source, image);
    while let Some(bytes) = source.next_record()? {
        run.record(bytes, &mut text);
        output.write_all(&text).map_err(problem::output)?;
        text.clear();
    }
    if source.tail() > 0 {
        push_line(&mut text, b"tail ", source.tail() as u64);
    }
    push_line(&mut text, b"end ", run.history.replay.records);
    output.write_all(&text).map_err(problem::output)?;
    Ok(ExitCode::SUCCESS)
}

struct Run {
    history: History,
    owners: crate::text::Owners,
    explains: bool,
    /// The RAM before the message, where changes are shown.
    before: Option<Vec<u16>>,
}

impl Run {
    fn new(given: &Given, source: &Source, image: Vec<u16>) -> Run {
        let explains = given.has("--explain");
        let before = given.has("--changes").then(|| image.clone());
        let replay = if explains {
            Replay::with_walk(image, source.settings)
        } else {
            Replay::new(image, source.settings)
        };
        Run {
            history: History::new(replay),
            owners: source.owners.clone(),
            explains,
            before,
        }
    }

    fn record(&mut self, bytes: &[u8], text: &mut Vec<u8>) {
        let (answer, accepted) = match self.explains {
            true => self.history.message(bytes),
            false => (self.history.replay.message(bytes), None),
        };
        let replay = &self.history.replay;
        push_answer(text, replay.records, &answer);
        if self.explains {
            for line in explain(replay, &self.owners, bytes, &answer, accepted.as_ref()) {
                text.extend_from_slice(format!("    {line}\n").as_bytes());
            }
        }
        if let Some(before) = &mut self.before {
            let mut changes = String::new();
            let Replay { ram, reply, .. } = replay;
            write_changes(&mut changes, before, ram, reply, &answer)
                .expect("writing to a string never fails");
            text.extend_from_slice(changes.as_bytes());
            before.copy_from_slice(ram);
        }
    }
}
