//! Compares the proved terminal with this package's own, on random messages.

use std::env;
use std::error::Error;
use std::fs;
use std::process::ExitCode;

use plain_terminal::compare::coverage::Coverage;
use plain_terminal::compare::replay::{read_case, write_case};
use plain_terminal::compare::shrink::shrink;
use plain_terminal::compare::sides::Proved;
use plain_terminal::compare::{compare, verdict, Case, Plain};
use plain_terminal::terminal::Planted;

const USAGE: &str = "usage: compare [--messages N] [--seed N] [--planted ERROR] [--replay FILE]";
const MESSAGES: u64 = 1_000_000;

struct Options {
    messages: u64,
    seed: u64,
    planted: Planted,
    replay: Option<String>,
}

fn main() -> ExitCode {
    verdict("compare", options().and_then(run))
}

fn options() -> Result<Options, Box<dyn Error>> {
    let mut options = Options {
        messages: MESSAGES,
        seed: 1,
        planted: Planted::None,
        replay: None,
    };
    let mut arguments = env::args().skip(1);
    while let Some(name) = arguments.next() {
        let value = arguments.next().ok_or(USAGE)?;
        match name.as_str() {
            "--messages" => options.messages = value.parse().map_err(|_| USAGE)?,
            "--seed" => options.seed = value.parse().map_err(|_| USAGE)?,
            "--planted" => options.planted = Planted::named(&value)?,
            "--replay" => options.replay = Some(value),
            _ => return Err(USAGE.into()),
        }
    }
    Ok(options)
}

/// Whether the comparison went as it should.
fn run(options: Options) -> Result<bool, Box<dyn Error>> {
    match &options.replay {
        Some(file) => replay(file, options.planted),
        None => Ok(compare_all(&options)),
    }
}

fn compare_all(options: &Options) -> bool {
    let plain = Plain(options.planted);
    let mut coverage = Coverage::default();
    let finding = compare(
        &plain,
        &Proved,
        options.seed,
        options.messages,
        &mut coverage,
    );
    let finding = match finding {
        Some(finding) => finding,
        None => return report(options, &coverage),
    };
    println!(
        "difference after {} messages that were the same: seed {}, message {}",
        coverage.messages(),
        finding.seed,
        finding.message
    );
    let smallest = shrink(&finding.case, |case| case.differs(&plain, &Proved));
    print_case(&smallest, &plain);
    // A planted error is there to be found.
    options.planted != Planted::None
}

fn report(options: &Options, coverage: &Coverage) -> bool {
    print!("{coverage}");
    println!(
        "{} messages from seed {} on, no difference",
        coverage.messages(),
        options.seed
    );
    if options.planted != Planted::None {
        println!(
            "FAILED: the planted error {} was not found",
            options.planted.name()
        );
        return false;
    }
    let missing = coverage.missing();
    for name in &missing {
        println!("FAILED: no case of: {name}");
    }
    missing.is_empty()
}

fn print_case(case: &Case, plain: &Plain) {
    println!("what differs (plain Rust, then the proved terminal):");
    print!("{}", case.differences(plain, &Proved));
    println!("the smallest case found, to be run again with scripts/compare --replay FILE:");
    print!("{}", write_case(case));
}

fn replay(file: &str, planted: Planted) -> Result<bool, Box<dyn Error>> {
    let text = fs::read_to_string(file).map_err(|error| format!("{file}: {error}"))?;
    let case = read_case(&text).map_err(|error| format!("{file}: {error}"))?;
    let plain = Plain(planted);
    let (answers, state) = case.run(&Proved);
    println!("the proved terminal:");
    print!("{}", answers.lines());
    println!("what it changed (before, then after):");
    print!("{}", case.state.differences(&state));
    let differs = case.differs(&plain, &Proved);
    if differs {
        println!("what differs (plain Rust, then the proved terminal):");
        print!("{}", case.differences(&plain, &Proved));
    } else {
        println!("no difference between plain Rust and the proved terminal");
    }
    Ok(!differs)
}
