//! Compares long records on the proved terminal and on this package's:
//! reader, writer, both conversions and messages.

use std::process::ExitCode;

use plain_terminal::compare::asked::{asked, Asked};
use plain_terminal::compare::long::coverage::Coverage;
use plain_terminal::compare::long::sides::{Side, ERRORS, PLAIN, PROVED};
use plain_terminal::compare::long::{compare, report};
use plain_terminal::compare::verdict;

const UNASKED: Asked<Side> = Asked {
    cases: 400,
    seed: 1,
    plain: PLAIN,
    planted: false,
};

fn main() -> ExitCode {
    let asked = asked("compare_long", "records", UNASKED, &ERRORS);
    verdict("compare_long", asked.map(run))
}

/// Whether the comparison went as it should.
fn run(asked: Asked<Side>) -> bool {
    let mut coverage = Coverage::default();
    let Asked { plain, seed, .. } = asked;
    let found = compare(plain, PROVED, seed, asked.cases, &mut coverage);
    if let Some((seed, finding)) = found {
        let records = coverage.cases();
        println!("difference after {records} records that were the same: seed {seed}");
        println!("what differs (plain Rust, then the proved terminal):");
        print!("{}", report(&finding));
        // A planted error is there to be found.
        return asked.planted;
    }
    print!("{coverage}");
    let records = coverage.cases();
    println!("{records} records from seed {seed} on, no difference in any byte or lent word");
    asked.none_found(&coverage.missing())
}
