//! The program `solkverva`: what the club types, and what it is shown. Answers
//! come from [`crate::engine`]; here files are read, text is written and pages
//! are laid out.

pub mod changes;
pub mod check;
pub mod control;
pub mod convert;
pub mod explain;
pub mod file;
pub mod heard;
pub mod help;
pub mod history;
pub mod label;
pub mod lengths;
pub mod names;
pub mod options;
pub mod outcome;
pub mod page;
pub mod problem;
pub mod progress;
pub mod replay;
pub mod run;
pub mod say;
pub mod sharing;
pub mod soundness;
pub mod source;
pub mod used;
pub mod who;

use std::ffi::OsString;
use std::io::{self, BufWriter, Write};
use std::process::ExitCode;

use options::{Given, Grammar};
use problem::Problem;

/// A command of the program.
pub struct Command {
    pub name: &'static str,
    pub help: &'static str,
    grammar: Grammar,
    run: fn(&Given, &mut dyn Write) -> Result<ExitCode, Problem>,
}

/// Options that every command with a trace has; `--long` where its records may
/// be long.
const FORMS: [&str; 2] = ["--text", "--bytes"];
const LONG: &str = "--long";

pub const COMMANDS: [Command; 9] = [
    Command {
        name: "run",
        help: include_str!("front/help/run.txt"),
        grammar: Grammar::files(1, 1)
            .flags(&["--explain", "--changes", LONG])
            .values(&["--names"])
            .forms(&FORMS),
        run: run::run,
    },
    Command {
        name: "check",
        help: include_str!("front/help/check.txt"),
        grammar: Grammar::files(1, 1).values(&["--names"]).forms(&FORMS),
        run: check::run,
    },
    Command {
        name: "label",
        help: include_str!("front/help/label.txt"),
        grammar: Grammar::files(1, 2)
            .flags(&["--pairs", LONG])
            .values(&["--names"])
            .forms(&FORMS),
        run: label::run,
    },
    Command {
        name: "who",
        help: include_str!("front/help/who.txt"),
        grammar: Grammar::files(1, usize::MAX)
            .flags(&["--all", LONG])
            .values(&["--names"])
            .forms(&FORMS),
        run: who::run,
    },
    Command {
        name: "control",
        help: include_str!("front/help/control.txt"),
        grammar: Grammar::files(1, 1)
            .flags(&["--explain", "--list"])
            .values(&["--start", "--flags", "--budget"])
            .forms(&FORMS),
        run: control::run,
    },
    Command {
        name: "page",
        help: include_str!("front/help/page.txt"),
        grammar: Grammar::files(1, 1)
            .flags(&[LONG])
            .values(&["-o", "--names", "--title"])
            .forms(&FORMS),
        run: page::run,
    },
    Command {
        name: "convert",
        help: include_str!("front/help/convert.txt"),
        grammar: Grammar::files(1, 1).flags(&[LONG, "--old"]).forms(&FORMS),
        run: lengths::run,
    },
    Command {
        name: "pack",
        help: include_str!("front/help/pack.txt"),
        grammar: Grammar::files(0, 1),
        run: convert::pack,
    },
    Command {
        name: "unpack",
        help: include_str!("front/help/unpack.txt"),
        grammar: Grammar::files(0, 1).flags(&[LONG]),
        run: convert::unpack,
    },
];

/// Runs the program with these arguments; the exit status tells how it went.
pub fn main(arguments: Vec<OsString>) -> ExitCode {
    let mut output = BufWriter::new(io::stdout().lock());
    let done = dispatch(&arguments, &mut output);
    // What was said before a problem is true, so it stays.
    let written = output.flush().map_err(problem::output);
    let status = match (done, written) {
        // The answer is the same where nobody reads it.
        (Ok(status), Ok(()) | Err(Problem::Closed)) => status,
        (Ok(_), Err(problem)) | (Err(problem), _) => problem.tell(),
    };
    // Where nobody reads any more, the rest has nowhere to go.
    let _ = output.into_parts();
    status
}

fn dispatch(arguments: &[OsString], output: &mut dyn Write) -> Result<ExitCode, Problem> {
    let name = arguments.first().map(|name| name.to_string_lossy());
    let rest = arguments.get(1..).unwrap_or_default();
    match name.as_deref() {
        None => Err(Problem::Use(
            "which command? ./solkverva help lists them".into(),
        )),
        Some("help" | "--help" | "-h") => help::run(rest, output),
        Some(name) => {
            let command = named(name)?;
            if rest.iter().any(|argument| argument == "--help") {
                return help::show(command.help, output);
            }
            let given = options::parse(command.name, rest, &command.grammar)?;
            (command.run)(&given, output)
        }
    }
}

fn named(name: &str) -> Result<&'static Command, Problem> {
    let command = COMMANDS.iter().find(|command| command.name == name);
    command.ok_or_else(|| {
        let names = COMMANDS.map(|command| command.name).join(", ");
        Problem::Use(format!(
            "no command {name:?}; the commands are {names} and help"
        ))
    })
}
