//! The sides of a comparison of the controller, and errors to be planted.

use super::{Asked, Told};
use crate::controller::{go_on_planted, start_planted, Machine, Planted, Ran};

pub type Side = fn(&Asked) -> Told;

/// A run that goes on from a machine.
pub type GoOn = fn(&[u16], &[u8], Machine, u64) -> Result<Ran, u16>;

/// A side: how it starts a run, and how it goes on.
fn runs(
    asked: &Asked,
    start: impl Fn(u64) -> Result<Ran, u16>,
    go_on: impl Fn(Machine, u64) -> Result<Ran, u16>,
) -> Told {
    let mut told = Vec::new();
    let mut machine = asked.lent;
    let last = asked.budgets.len().saturating_sub(1);
    for (run, &budget) in asked.budgets.iter().enumerate() {
        let ran = match run {
            0 => start(budget),
            _ if run == last => go_on(asked.lent, budget),
            _ => go_on(machine, budget),
        };
        machine = ran.map_or(machine, |ran| ran.machine);
        told.push(ran);
    }
    told
}

fn planted(error: Planted, asked: &Asked) -> Told {
    let Asked { ram, trace, .. } = asked;
    runs(
        asked,
        |budget| start_planted(error, ram, trace, asked.start, asked.flags, budget),
        |machine, budget| go_on_planted(error, ram, trace, machine, budget),
    )
}

/// This package's controller.
pub fn plain(asked: &Asked) -> Told {
    planted(Planted::None, asked)
}

/// The proved controller.
#[cfg(feature = "engine")]
pub fn proved(asked: &Asked) -> Told {
    use crate::engine::control::{go_on, start};
    let Asked { ram, trace, .. } = asked;
    runs(
        asked,
        |budget| start(ram, trace, asked.start, asked.flags, budget),
        |machine, budget| go_on(ram, trace, machine, budget),
    )
}

/// Errors by name: this package's controller, each wrong in one way.
pub const ERRORS: [(&str, Side); 9] = [
    ("even-parity", |asked| planted(Planted::EvenParity, asked)),
    ("depth-five", |asked| planted(Planted::DepthFive, asked)),
    ("false-flag-skipped", |asked| {
        planted(Planted::FalseFlagSkipped, asked)
    }),
    ("false-not-counted", |asked| {
        planted(Planted::FalseNotCounted, asked)
    }),
    ("budget-after-fetch", |asked| {
        planted(Planted::BudgetAfterFetch, asked)
    }),
    ("unexecuted-uses-outcome", |asked| {
        planted(Planted::UnexecutedUsesOutcome, asked)
    }),
    ("wraps-at-end", |asked| planted(Planted::WrapsAtEnd, asked)),
    ("return-below-halts", |asked| {
        planted(Planted::ReturnBelowHalts, asked)
    }),
    ("damaged-passed-over", |asked| {
        planted(Planted::DamagedPassedOver, asked)
    }),
];
