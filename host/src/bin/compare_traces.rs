//! Compares a trace program with this package's own, on random traces: every
//! byte that they print.

use std::env;
use std::error::Error;
use std::io::Write;
use std::process::{Command, ExitCode, Stdio};
use std::thread;

use plain_terminal::compare::traces::{random_trace, shrink_trace};
use plain_terminal::compare::verdict;
use plain_terminal::random::Random;
use plain_terminal::terminal::records::RECORD_BYTES;
use plain_terminal::terminal::trace::{planted_trace_output, IMAGE_BYTES};
use plain_terminal::terminal::Planted;
use plain_terminal::text::unpack;

const USAGE: &str = "usage: compare_traces [--traces N] [--seed N] [--planted ERROR] \
    [--report short|whole] PROGRAM [ARGUMENT...]";

struct Options {
    traces: u64,
    seed: u64,
    planted: Planted,
    /// Whether a trace that differs is made small and printed.
    whole_report: bool,
    program: Vec<String>,
}

fn main() -> ExitCode {
    verdict(
        "compare_traces",
        options().and_then(|options| run(&options)),
    )
}

fn options() -> Result<Options, Box<dyn Error>> {
    let mut options = Options {
        traces: 200,
        seed: 1,
        planted: Planted::None,
        whole_report: true,
        program: Vec::new(),
    };
    let mut arguments = env::args().skip(1).peekable();
    while let Some(name) = arguments.next_if(|argument| argument.starts_with("--")) {
        let value = arguments.next().ok_or(USAGE)?;
        match name.as_str() {
            "--traces" => options.traces = value.parse().map_err(|_| USAGE)?,
            "--seed" => options.seed = value.parse().map_err(|_| USAGE)?,
            "--planted" => options.planted = Planted::named(&value)?,
            "--report" if value == "short" => options.whole_report = false,
            "--report" if value == "whole" => options.whole_report = true,
            _ => return Err(USAGE.into()),
        }
    }
    options.program = arguments.collect();
    if options.program.is_empty() {
        return Err(USAGE.into());
    }
    Ok(options)
}

/// Whether the comparison went as it should.
fn run(options: &Options) -> Result<bool, Box<dyn Error>> {
    let mut records = 0;
    for seed in options.seed..options.seed + options.traces {
        let trace = random_trace(seed);
        records += trace.len().saturating_sub(IMAGE_BYTES) / RECORD_BYTES;
        let expected = planted_trace_output(options.planted, &trace);
        if output_of(&options.program, &trace, seed)? != expected {
            println!(
                "difference: seed {seed}, after {} traces that were the same",
                seed - options.seed
            );
            if options.whole_report {
                report(options, &trace, seed)?;
            }
            // A planted error is there to be found.
            return Ok(options.planted != Planted::None);
        }
    }
    println!(
        "{} traces from seed {} on with {records} records: no difference",
        options.traces, options.seed
    );
    Ok(options.planted == Planted::None)
}

/// Makes the trace small and prints it with the first line that differs.
fn report(options: &Options, trace: &[u8], seed: u64) -> Result<(), Box<dyn Error>> {
    let differs = |trace: &[u8]| {
        let expected = planted_trace_output(options.planted, trace);
        output_of(&options.program, trace, seed).map_or(false, |output| output != expected)
    };
    let smallest = shrink_trace(trace, differs);
    let expected = planted_trace_output(options.planted, &smallest);
    let found = output_of(&options.program, &smallest, seed)?;
    println!("plain Rust prints:");
    print!("{}", String::from_utf8_lossy(&expected));
    println!("the program prints:");
    print!("{}", String::from_utf8_lossy(&found));
    println!("the smallest trace found, to be run with ./solkverva run FILE:");
    print!("{}", unpack(&smallest));
    Ok(())
}

/// What the program prints for a trace that comes in uneven pieces.
fn output_of(program: &[String], trace: &[u8], seed: u64) -> Result<Vec<u8>, Box<dyn Error>> {
    let mut child = Command::new(&program[0])
        .args(&program[1..])
        .stdin(Stdio::piped())
        .stdout(Stdio::piped())
        .spawn()
        .map_err(|error| format!("{}: {error}", program[0]))?;
    let mut pipe = child
        .stdin
        .take()
        .ok_or("the program has no standard input")?;
    let trace = trace.to_vec();
    let feeder = thread::spawn(move || {
        let mut random = Random::new(seed);
        let mut rest = &trace[..];
        while !rest.is_empty() {
            let (piece, behind) = rest.split_at(rest.len().min(1 + random.below(9000)));
            // A program that stops before the end shows by what it printed.
            if pipe.write_all(piece).is_err() {
                return;
            }
            rest = behind;
        }
    });
    let output = child.wait_with_output()?;
    feeder
        .join()
        .map_err(|_| "the trace could not be handed on")?;
    if !output.status.success() {
        return Err(format!("the program ended with {} (seed {seed})", output.status).into());
    }
    Ok(output.stdout)
}
