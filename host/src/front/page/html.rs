//! Text as HTML.

use std::ops::Range;

use crate::front::names::{addresses, bare_cell_name, count, ranges, subaddress_of};
use crate::front::outcome::Outcome;
use crate::front::say;
use crate::front::sharing::words::Pen;
use crate::text::{visible, Owners};

/// Text that a browser shows as it stands, in an element or an attribute; what
/// it would obey, such as a mark that turns the direction, is spelled out.
pub fn escape(text: &str) -> String {
    let mut escaped = String::with_capacity(text.len());
    for character in visible(text).chars() {
        match character {
            '&' => escaped.push_str("&amp;"),
            '<' => escaped.push_str("&lt;"),
            '>' => escaped.push_str("&gt;"),
            '"' => escaped.push_str("&quot;"),
            '\'' => escaped.push_str("&#39;"),
            other => escaped.push(other),
        }
    }
    escaped
}

/// An owner's name; its letters cannot turn round those beside it.
pub fn name(owner: &str) -> String {
    format!("<bdi>{}</bdi>", escape(owner))
}

/// A cell with its owner, as in `receive 19 (Anna)`.
pub fn cell(owners: &Owners, number: u16) -> String {
    let cell = bare_cell_name(number);
    match owners.of(subaddress_of(number)) {
        Some(owner) => format!("{cell} ({})", name(owner)),
        None if owners.is_empty() => cell,
        None => format!("{cell} (nobody\u{2019}s)"),
    }
}

/// Words in typewriter letters.
pub fn code(text: &str) -> String {
    format!("<code>{}</code>", escape(text))
}

/// Runs of addresses; of more than `most`, how many words follow.
pub fn places(places: &[usize], most: usize) -> String {
    let ranges = ranges(places);
    let shown = ranges.iter().take(most).map(|run| code(&addresses(run)));
    let shown: Vec<String> = shown.collect();
    let rest: usize = ranges.iter().skip(most).map(|run| run.len()).sum();
    match rest {
        0 => shown.join(", "),
        _ => {
            let rest = count(rest as u64, "word");
            format!("{} and {rest} more", shown.join(", "))
        }
    }
}

/// Whether a message was good, or what kept it from being so.
pub fn verdict(outcome: &Outcome) -> String {
    let class = if outcome.is_good() { "good" } else { "bad" };
    format!("<b class=\"{class}\">{}</b>", outcome.verdict())
}

/// The same, with what was wrong or special.
pub fn went(outcome: &Outcome) -> String {
    let verdict = verdict(outcome);
    match say::block_status_details(outcome.block_status) {
        details if details.is_empty() => verdict,
        details => format!("{verdict} ({details})"),
    }
}

/// Shared words as the page tells them.
pub struct HtmlPen<'a>(pub &'a Owners);

impl Pen for HtmlPen<'_> {
    fn cell(&self, number: u16) -> String {
        cell(self.0, number)
    }

    fn places(&self, words: &Range<usize>) -> String {
        code(&addresses(words))
    }
}
