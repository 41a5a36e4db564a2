//! Random lists, each from a seed.
//!
//! Neighbours are to use one cell often, and windows that meet, so that each
//! condition is asked; stacks are to wrap, and to be given more descriptors
//! than they hold.

use super::condition::{may_exchange, Forgotten};
use super::list::List;
use crate::compare::case::REPLY_ROOM;
use crate::compare::episode::{card_of, Episode};
use crate::random::Random;
use crate::terminal::cells::DESCRIPTOR_WORDS;
use crate::terminal::message::REPLY_WORDS;
use crate::terminal::settings::BROADCAST_ADDRESS;
use crate::terminal::words::Command;
use crate::terminal::{Record, Settings};

/// Messages of a list, unless it is to fill its stack.
const MOST_MESSAGES: usize = 120;

/// Turns of exchanging for each message, at most.
const MOST_TURNS: usize = 24;

/// The list of a seed; its exchanges are allowed but for a condition forgotten.
pub fn random_list(seed: u64, forgotten: Forgotten) -> List {
    let mut random = Random::new(seed);
    let settings = random.settings();
    let drawn = Random::new(random.draw());
    let (_, start) = Episode::on_card(drawn, settings, card_of(seed));
    let mut list = List {
        settings,
        start,
        reply_words: random.pick(&[REPLY_WORDS, REPLY_WORDS, REPLY_WORDS + 1, REPLY_ROOM]),
        messages: random_messages(&mut random, &settings),
        exchanges: Vec::new(),
    };
    list.exchanges = random_exchanges(&mut random, &list, forgotten);
    list
}

fn random_messages(random: &mut Random, settings: &Settings) -> Vec<Record> {
    let entries = usize::from(settings.stack_size) / DESCRIPTOR_WORDS;
    let length = match random.below(48) {
        0 => entries + 1 + random.below(8),
        1..=3 => 1 + random.below(3),
        _ => 1 + random.below(MOST_MESSAGES),
    };
    let mut messages: Vec<Record> = Vec::with_capacity(length);
    let subaddresses = random_subaddresses(random);
    for _ in 0..length {
        let message = if !messages.is_empty() && random.chance(8) {
            random.pick(&messages)
        } else {
            let command = random_command(random, settings, &subaddresses);
            random.record_for(command)
        };
        messages.push(message);
    }
    messages
}

/// The subaddresses of a list: few, or many.
fn random_subaddresses(random: &mut Random) -> Vec<u16> {
    let many = random.pick(&[1, 2, 3, 5, 8, 12, 30, 60]);
    (0..many).map(|_| 1 + random.below(30) as u16).collect()
}

fn random_command(random: &mut Random, settings: &Settings, subaddresses: &[u16]) -> Command {
    let address = if settings.broadcast && random.chance(5) {
        BROADCAST_ADDRESS
    } else {
        settings.address
    };
    let transmit = random.below(2) as u16;
    let subaddress = random.pick(subaddresses);
    let count_field = random.below(32) as u16;
    Command(address << 11 | transmit << 10 | subaddress << 5 | count_field)
}

/// Turn after turn some message is taken on, over one neighbour or over many.
fn random_exchanges(random: &mut Random, list: &List, forgotten: Forgotten) -> Vec<usize> {
    let uses = list.uses();
    let mut order = list.old_order();
    let mut exchanges = Vec::new();
    let turns = random.below(MOST_TURNS) * order.len();
    let farthest = random.pick(&[1, 1, 4, order.len()]);
    for _ in 0..turns {
        let first = random.below(order.len());
        let last = first + 1 + random.below(farthest);
        for place in first..last.min(order.len() - 1) {
            if !may_exchange(&uses[order[place]], &uses[order[place + 1]], forgotten) {
                break;
            }
            order.swap(place, place + 1);
            exchanges.push(place);
        }
    }
    exchanges
}
