//! Compares who wrote a word, as the proved terminal tells it, with what this
//! package tells, on random traces.

use std::process::ExitCode;

use plain_terminal::compare::asked::{asked, Asked};
use plain_terminal::compare::origins::coverage::Coverage;
use plain_terminal::compare::origins::sides::{OriginSide, ERRORS, PLAIN, PROVED};
use plain_terminal::compare::origins::{compare, report};
use plain_terminal::compare::verdict;

const UNASKED: Asked<OriginSide> = Asked {
    cases: 600,
    seed: 1,
    plain: PLAIN,
    planted: false,
};

fn main() -> ExitCode {
    let asked = asked("compare_origins", "traces", UNASKED, &ERRORS);
    verdict("compare_origins", asked.map(run))
}

/// Whether the comparison went as it should.
fn run(asked: Asked<OriginSide>) -> bool {
    let mut coverage = Coverage::default();
    let Asked { plain, seed, .. } = asked;
    if let Some(seed) = compare(&plain, &PROVED, seed, asked.cases, &mut coverage) {
        let traces = coverage.traces();
        println!("difference after {traces} traces that were the same: seed {seed}");
        println!("what differs (plain Rust, then the proved terminal):");
        print!("{}", report(&plain, &PROVED, seed));
        // A planted error is there to be found.
        return asked.planted;
    }
    print!("{coverage}");
    let traces = coverage.traces();
    println!("{traces} traces from seed {seed} on, no difference in any word");
    asked.none_found(&coverage.missing())
}
