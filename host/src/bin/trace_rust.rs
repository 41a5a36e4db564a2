//! The trace program: reads a trace from standard input, writes its answers to
//! standard output, and tells what fails on standard error.

use std::io;
use std::process::ExitCode;

use plain_terminal::terminal::stream_trace;

fn main() -> ExitCode {
    let (mut input, mut output) = (io::stdin().lock(), io::stdout().lock());
    if stream_trace(&mut input, &mut output, &mut io::stderr()) {
        ExitCode::SUCCESS
    } else {
        ExitCode::FAILURE
    }
}
