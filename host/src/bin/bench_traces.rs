//! Measures two trace programs on the same traces: the plain one's command,
//! then `--`, then the proved one's command.
//!
//! Prints one line for each length of trace: the records, seconds of processor
//! time of either program, the ratio of the two (over 1 means that the proved
//! one is faster) as median, smallest and largest of the repeats, the most
//! memory that either held, in kilobytes, and the seconds that `cat` takes of
//! the same bytes, as the least that reading and writing can cost.

use std::env;
use std::error::Error;
use std::fs::{self, File, OpenOptions};
use std::io::{self, Write};
use std::path::Path;
use std::process::{Command, ExitCode, Stdio};
use std::thread;
use std::time::Duration;

use plain_terminal::compare::traces::long_trace;
use plain_terminal::spread::Spread;

const USAGE: &str = "usage: bench_traces PLAIN... -- PROVED...";
const RECORDS: [usize; 4] = [0, 10_000, 100_000, 1_000_000];
const REPEATS: usize = 5;
const LOOK_EVERY: Duration = Duration::from_millis(1);

fn main() -> ExitCode {
    match run() {
        Ok(()) => ExitCode::SUCCESS,
        Err(error) => {
            eprintln!("bench_traces: {error}");
            ExitCode::from(2)
        }
    }
}

fn run() -> Result<(), Box<dyn Error>> {
    let arguments: Vec<String> = env::args().skip(1).collect();
    let middle = arguments.iter().position(|word| word == "--");
    let (plain, proved) = arguments.split_at(middle.ok_or(USAGE)?);
    let proved = &proved[1..];
    if plain.is_empty() || proved.is_empty() {
        return Err(USAGE.into());
    }
    let file = env::temp_dir().join(format!("bench_traces_{}", std::process::id()));
    let measured = RECORDS.iter().try_for_each(|&records| {
        write_new(&file, &long_trace(records))?;
        measure(records, plain, proved, &file)
    });
    // What went wrong first is told first.
    let removed = fs::remove_file(&file);
    measured?;
    Ok(removed?)
}

/// Writes a file that was not there; a link that somebody put there is not
/// followed.
fn write_new(file: &Path, bytes: &[u8]) -> io::Result<()> {
    let _ = fs::remove_file(file);
    let mut new = OpenOptions::new().write(true).create_new(true).open(file)?;
    new.write_all(bytes)
}

fn measure(
    records: usize,
    plain: &[String],
    proved: &[String],
    file: &Path,
) -> Result<(), Box<dyn Error>> {
    let cat = ["cat".to_owned()];
    let mut times = [Vec::new(), Vec::new(), Vec::new()];
    let mut ratios = Vec::new();
    let mut memory = [0; 3];
    for _ in 0..REPEATS {
        let runs = [
            spent(plain, file)?,
            spent(proved, file)?,
            spent(&cat, file)?,
        ];
        for (side, spent) in runs.iter().enumerate() {
            times[side].push(spent.seconds);
            memory[side] = spent.kilobytes.max(memory[side]);
        }
        ratios.push(runs[0].seconds / runs[1].seconds);
    }
    let [plain, proved, cat] = times.map(|times| Spread::of(times).median);
    let ratios = Spread::of(ratios);
    let [plain_memory, proved_memory, _] = memory;
    println!("{records}|{plain:.4}|{proved:.4}|{ratios}|{plain_memory}|{proved_memory}|{cat:.4}");
    Ok(())
}

/// What a run of a program cost.
struct Spent {
    seconds: f64,
    kilobytes: u64,
}

fn spent(program: &[String], file: &Path) -> Result<Spent, Box<dyn Error>> {
    let mut child = Command::new(&program[0])
        .args(&program[1..])
        .stdin(File::open(file)?)
        .stdout(Stdio::null())
        .spawn()
        .map_err(|error| format!("{}: {error}", program[0]))?;
    let about = format!("/proc/{}", child.id());
    let mut kilobytes = 0;
    // A program that has ended keeps its counts until it is waited for.
    loop {
        let status = fs::read_to_string(format!("{about}/status"))?;
        match field(&status, "VmHWM:") {
            Some(now) => kilobytes = now.parse()?,
            None if field(&status, "State:") == Some("Z") => break,
            None => {}
        }
        thread::sleep(LOOK_EVERY);
    }
    let counts = fs::read_to_string(format!("{about}/schedstat"))?;
    let nanoseconds: f64 = counts.split(' ').next().unwrap_or_default().parse()?;
    let status = child.wait()?;
    if !status.success() {
        return Err(format!("{} ended with {status}", program[0]).into());
    }
    Ok(Spent {
        seconds: nanoseconds / 1e9,
        kilobytes,
    })
}

fn field<'a>(status: &'a str, name: &str) -> Option<&'a str> {
    let line = status.lines().find(|line| line.starts_with(name))?;
    line.split_whitespace().nth(1)
}
