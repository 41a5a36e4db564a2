//! The comparison itself: episode after episode, both sides on each message.

use super::case::{ask, Case, State};
use super::coverage::{Before, Coverage};
use super::episode::{Episode, EPISODE_MESSAGES};
use super::sides::Side;

use crate::terminal::cells::RAM_WORDS;

/// On the 64K card all of RAM is compared after so many messages, and its first
/// 4,096 words after each.
const WHOLE_ONE_IN: usize = 8;

/// A message on which two terminals differ.
pub struct Finding {
    /// The seed of its episode.
    pub seed: u64,
    /// Its place in the episode, from 1 on.
    pub message: usize,
    pub case: Case,
}

/// Runs the episodes of the seeds from `first_seed` on, until both sides have
/// had at least so many messages or differ on one.
pub fn compare(
    left: &impl Side,
    right: &impl Side,
    first_seed: u64,
    messages: u64,
    coverage: &mut Coverage,
) -> Option<Finding> {
    let mut seed = first_seed;
    while coverage.messages() < messages {
        if let Some(finding) = run_episode(left, right, seed, coverage) {
            return Some(finding);
        }
        seed += 1;
    }
    None
}

fn run_episode(
    left: &impl Side,
    right: &impl Side,
    seed: u64,
    coverage: &mut Coverage,
) -> Option<Finding> {
    let (mut episode, mut left_state) = Episode::new(seed);
    let mut right_state = left_state.clone();
    for message in 1..=EPISODE_MESSAGES {
        let request = episode.step(&mut left_state);
        for &(place, word) in episode.pokes() {
            right_state.ram[place] = word;
        }
        let before = Before::read(&left_state, &request);
        let left_answers = ask(left, &mut left_state, &request);
        let right_answers = ask(right, &mut right_state, &request);
        let is_whole = message % WHOLE_ONE_IN == 0;
        if left_answers != right_answers || !is_same(&left_state, &right_state, is_whole) {
            let message = first_difference(left, right, seed).unwrap_or(message);
            return Some(Finding {
                seed,
                message,
                case: case_of(left, seed, message),
            });
        }
        coverage.take_in(&before, &request, &left_answers);
    }
    None
}

fn is_same(left: &State, right: &State, is_whole: bool) -> bool {
    if is_whole || left.card_words() == RAM_WORDS {
        left == right
    } else {
        left.begins_as(right, RAM_WORDS)
    }
}

/// Runs an episode again on both sides, with all of RAM compared after each
/// message, up to the first on which they differ.
fn first_difference(left: &impl Side, right: &impl Side, seed: u64) -> Option<usize> {
    let (mut episode, mut left_state) = Episode::new(seed);
    let mut right_state = left_state.clone();
    (1..=EPISODE_MESSAGES).find(|_| {
        let request = episode.step(&mut left_state);
        for &(place, word) in episode.pokes() {
            right_state.ram[place] = word;
        }
        let left_answers = ask(left, &mut left_state, &request);
        let right_answers = ask(right, &mut right_state, &request);
        left_answers != right_answers || left_state != right_state
    })
}

/// Runs an episode again on one side, up to one of its messages.
fn case_of(side: &impl Side, seed: u64, message: usize) -> Case {
    let (mut episode, mut state) = Episode::new(seed);
    for _ in 1..message {
        let request = episode.step(&mut state);
        ask(side, &mut state, &request);
    }
    let request = episode.step(&mut state);
    Case { state, request }
}
