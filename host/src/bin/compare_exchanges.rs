//! Exchanges neighbours in random lists of messages, and holds what the proved
//! terminal then does to what demand 3 says.

use std::env;
use std::error::Error;
use std::fs;
use std::process::ExitCode;

use plain_terminal::compare::sides::Proved;
use plain_terminal::compare::verdict;
use plain_terminal::exchange::replay::{read_list, write_list};
use plain_terminal::exchange::run::{compare_lists, differs, Finding, Met};
use plain_terminal::exchange::said::Both;
use plain_terminal::exchange::shrink::shrink_list;
use plain_terminal::exchange::{Forgotten, List};

const USAGE: &str = "usage: compare_exchanges [--lists N] [--seed N] [--forget CONDITION] \
    [--report short|whole] [--replay FILE]";
const LISTS: u64 = 5_000;

struct Options {
    lists: u64,
    seed: u64,
    forgotten: Forgotten,
    /// Whether a list that differs is made small and printed.
    whole_report: bool,
    replay: Option<String>,
}

fn main() -> ExitCode {
    verdict("compare_exchanges", options().and_then(run))
}

fn options() -> Result<Options, Box<dyn Error>> {
    let mut options = Options {
        lists: LISTS,
        seed: 1,
        forgotten: Forgotten::Nothing,
        whole_report: true,
        replay: None,
    };
    let mut arguments = env::args().skip(1);
    while let Some(name) = arguments.next() {
        let value = arguments.next().ok_or(USAGE)?;
        match name.as_str() {
            "--lists" => options.lists = value.parse().map_err(|_| USAGE)?,
            "--seed" => options.seed = value.parse().map_err(|_| USAGE)?,
            "--forget" => {
                options.forgotten = Forgotten::named(&value).ok_or_else(condition_names)?
            }
            "--report" if value == "short" => options.whole_report = false,
            "--report" if value == "whole" => options.whole_report = true,
            "--replay" => options.replay = Some(value),
            _ => return Err(USAGE.into()),
        }
    }
    Ok(options)
}

fn condition_names() -> String {
    let names = Forgotten::CONDITIONS.map(Forgotten::name);
    format!("the conditions are {}", names.join(", "))
}

/// Whether the comparison went as it should.
fn run(options: Options) -> Result<bool, Box<dyn Error>> {
    if let Some(file) = &options.replay {
        return replay(file, options.forgotten);
    }
    let mut met = Met::default();
    let seeds = options.seed..options.seed + options.lists;
    match compare_lists(&Proved, options.forgotten, seeds, &mut met) {
        Some(finding) => report_finding(&options, &finding, &met),
        None => return Ok(report(&options, &met)),
    }
    // A condition is forgotten for a difference to be found.
    Ok(options.forgotten != Forgotten::Nothing)
}

fn report_finding(options: &Options, finding: &Finding, met: &Met) {
    println!(
        "difference: seed {}, after {} lists that were as said",
        finding.seed,
        met.lists.lists()
    );
    if options.whole_report {
        let forgotten = options.forgotten;
        let smallest = shrink_list(&finding.list, |list| differs(&Proved, forgotten, list));
        print_list(&smallest, forgotten);
    }
}

/// Prints what differs in a list, and the list.
fn print_list(list: &List, forgotten: Forgotten) {
    print_differences(list, forgotten);
    println!("the smallest list found, to be run again with compare_exchanges --replay FILE:");
    print!("{}", write_list(list));
}

/// Prints why demand 3 does not speak of a list, if so, and what differs;
/// whether nothing does.
fn print_differences(list: &List, forgotten: Forgotten) -> bool {
    if let Some(objection) = list.objection(&Proved, forgotten) {
        println!("demand 3 does not speak of this list: {objection}");
    }
    if list.area(&Proved) != 0 {
        return false;
    }
    let both = Both::play(&Proved, list, |_, _, _| ());
    if both.is_as_said(list) {
        println!("as demand 3 says");
        return true;
    }
    println!("what differs (as demand 3 says, then as it is):");
    print!("{}", both.differences(list));
    false
}

/// Plays the list of a file; whether it is as said.
fn replay(file: &str, forgotten: Forgotten) -> Result<bool, Box<dyn Error>> {
    let text = fs::read_to_string(file).map_err(|error| format!("{file}: {error}"))?;
    let list = read_list(&text).map_err(|error| format!("{file}: {error}"))?;
    if list.area(&Proved) == 0 {
        print!("{}", Both::play(&Proved, &list, |_, _, _| ()).lines());
    }
    Ok(print_differences(&list, forgotten))
}

fn report(options: &Options, met: &Met) -> bool {
    print!("{}", met.lists);
    println!(
        "{} lists from seed {} on with {} messages and {} exchanges: as said",
        options.lists,
        options.seed,
        met.messages.messages(),
        met.lists.exchanges()
    );
    if options.forgotten != Forgotten::Nothing {
        println!(
            "FAILED: nothing shows that {} were forgotten",
            options.forgotten.name()
        );
        return false;
    }
    let missing = met.missing();
    for name in &missing {
        println!("FAILED: no case of: {name}");
    }
    missing.is_empty()
}
