//! Compares the proved terminal's labels with this package's own, on random
//! images.

use std::process::ExitCode;

use plain_terminal::compare::asked::{asked, Asked};
use plain_terminal::compare::labels::coverage::Coverage;
use plain_terminal::compare::labels::draw;
use plain_terminal::compare::labels::sides::{LabelSide, ERRORS, PLAIN, PROVED};
use plain_terminal::compare::labels::{compare, report, shrink};
use plain_terminal::compare::verdict;

const UNASKED: Asked<LabelSide> = Asked {
    cases: 3_000,
    seed: 1,
    plain: PLAIN,
    planted: false,
};

fn main() -> ExitCode {
    let asked = asked("compare_labels", "images", UNASKED, &ERRORS);
    verdict("compare_labels", asked.map(run))
}

/// Whether the comparison went as it should.
fn run(asked: Asked<LabelSide>) -> bool {
    let mut coverage = Coverage::default();
    let Asked { plain, seed, .. } = asked;
    if let Some(seed) = compare(&plain, &PROVED, seed, asked.cases, &mut coverage) {
        difference(&plain, &coverage, seed);
        // A planted error is there to be found.
        return asked.planted;
    }
    print!("{coverage}");
    let images = coverage.images();
    println!("{images} images from seed {seed} on, no difference in any label");
    asked.none_found(&coverage.missing())
}

fn difference(plain: &LabelSide, coverage: &Coverage, seed: u64) {
    let images = coverage.images();
    println!("difference after {images} images that were the same: seed {seed}");
    let smallest = shrink(plain, &PROVED, &draw::Asked::draw(seed));
    println!("what differs (plain Rust, then the proved terminal), and the smallest image found:");
    print!("{}", report(plain, &PROVED, &smallest));
}
