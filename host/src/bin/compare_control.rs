//! Compares the proved controller with this package's, on random instruction
//! lists and traces, and on every op code word there is.

use std::process::ExitCode;

use plain_terminal::compare::asked::{asked, Asked};
use plain_terminal::compare::control::coverage::Coverage;
use plain_terminal::compare::control::sides::{plain, proved, Side, ERRORS};
use plain_terminal::compare::control::{compare, legal_words, one_outcome, report};
use plain_terminal::compare::verdict;
use plain_terminal::{controller, engine};

const UNASKED: Asked<Side> = Asked {
    cases: 60_000,
    seed: 1,
    plain,
    planted: false,
};

/// Of all words: six op codes, each with 32 conditions.
const LEGAL_WORDS: usize = 192;

fn main() -> ExitCode {
    let asked = asked("compare_control", "runs", UNASKED, &ERRORS);
    verdict("compare_control", asked.map(run))
}

/// Whether the comparison went as it should.
fn run(asked: Asked<Side>) -> bool {
    let mut coverage = Coverage::default();
    let Asked { plain, seed, .. } = asked;
    if let Some(seed) = compare(plain, proved, seed, asked.cases, &mut coverage) {
        let runs = coverage.runs();
        println!("difference after {runs} runs that were the same: seed {seed}");
        println!("what differs (plain Rust, then the proved controller):");
        print!("{}", report(plain, proved, seed));
        // A planted error is there to be found.
        return asked.planted;
    }
    print!("{coverage}");
    let runs = coverage.runs();
    println!("{runs} runs from seed {seed} on, no difference in any");
    words_agree() && asked.none_found(&coverage.missing())
}

/// Whether both sides take the same words for instructions.
fn words_agree() -> bool {
    let trace = one_outcome();
    let proved = legal_words(engine::control::go_on, &trace);
    let same = proved == legal_words(controller::go_on, &trace);
    let count = proved.len();
    println!("65536 op code words, {count} of them instructions");
    if !same || count != LEGAL_WORDS {
        println!("FAILED: expected {LEGAL_WORDS}, the same on both sides");
    }
    same && count == LEGAL_WORDS
}
