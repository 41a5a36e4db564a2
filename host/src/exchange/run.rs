//! The comparison itself: list after list, each in both orders.

use std::ops::Range;

use super::condition::Forgotten;
use super::coverage::Coverage;
use super::draw::random_list;
use super::list::List;
use super::said::Both;
use crate::compare::coverage::Coverage as MessageCoverage;
use crate::compare::Side;

/// A list whose orders are not as demand 3 says.
pub struct Finding {
    pub seed: u64,
    pub list: List,
}

/// What the lists have met.
#[derive(Default)]
pub struct Met {
    pub lists: Coverage,
    pub messages: MessageCoverage,
}

impl Met {
    /// The names of the classes that never occurred. No message of a list is
    /// refused, and the whole-area check is not asked for single messages.
    pub fn missing(&self) -> Vec<&'static str> {
        let mut missing = self.messages.missing();
        missing.retain(|name| !name.contains("refused") && !name.starts_with("whole-area check"));
        missing.extend(self.lists.missing());
        missing
    }
}

/// Plays the lists of these seeds until one is not as said.
pub fn compare_lists(
    side: &impl Side,
    forgotten: Forgotten,
    seeds: Range<u64>,
    met: &mut Met,
) -> Option<Finding> {
    for seed in seeds {
        let list = random_list(seed, forgotten);
        // No list is drawn that demand 3 does not speak of.
        if list.objection(side, forgotten).is_some() {
            return Some(Finding { seed, list });
        }
        let both = Both::play(side, &list, |before, request, answers| {
            met.messages.take_in(before, request, answers)
        });
        if !both.is_as_said(&list) {
            return Some(Finding { seed, list });
        }
        met.lists.take_in(&list, &both);
    }
    None
}

/// Whether a list that demand 3 speaks of, but for a condition forgotten, is
/// not as it says.
pub fn differs(side: &impl Side, forgotten: Forgotten, list: &List) -> bool {
    list.objection(side, forgotten).is_none()
        && !Both::play(side, list, |_, _, _| ()).is_as_said(list)
}
