//! Cells and addresses by name.

use std::fmt::Write;
use std::ops::Range;

use crate::terminal::cells::Kind;
use crate::text::Owners;

pub const KINDS: [Kind; 3] = [Kind::Receive, Kind::Transmit, Kind::Broadcast];

/// Cells are numbered in rows of so many, a row for each kind.
const ROW: u16 = 32;

/// A cell's number taken apart.
pub fn kind_of(cell: u16) -> Kind {
    KINDS[usize::from(cell / ROW).min(2)]
}

pub fn subaddress_of(cell: u16) -> u16 {
    cell % ROW
}

pub fn cell_number(kind: Kind, subaddress: u16) -> u16 {
    ROW * kind as u16 + subaddress
}

pub fn kind_name(kind: Kind) -> &'static str {
    match kind {
        Kind::Receive => "receive",
        Kind::Transmit => "transmit",
        Kind::Broadcast => "broadcast",
    }
}

/// What a cell can do in its window, whatever its tables say.
pub fn ability(writes: bool) -> &'static str {
    if writes {
        "writes"
    } else {
        "only sends"
    }
}

/// Kind and subaddress, without the owner.
pub fn bare_cell_name(cell: u16) -> String {
    format!("{} {}", kind_name(kind_of(cell)), subaddress_of(cell))
}

/// `receive 19 (Anna)`, or without brackets where nobody owns it.
pub fn cell_name(owners: &Owners, cell: u16) -> String {
    let name = bare_cell_name(cell);
    match owners.of(subaddress_of(cell)) {
        Some(owner) => format!("{name} ({owner})"),
        None => name,
    }
}

/// `subaddress 19 (Anna)`.
pub fn subaddress_name(owners: &Owners, subaddress: u16) -> String {
    match owners.of(subaddress) {
        Some(owner) => format!("subaddress {subaddress} ({owner})"),
        None => format!("subaddress {subaddress}"),
    }
}

/// `0480-049F`, or one address alone.
pub fn addresses(range: &Range<usize>) -> String {
    let last = range.end.max(range.start + 1) - 1;
    if range.start == last {
        format!("{last:04X}")
    } else {
        format!("{:04X}-{last:04X}", range.start)
    }
}

/// Addresses in runs, each from one on and rising by 1.
pub fn ranges(places: &[usize]) -> Vec<Range<usize>> {
    let mut runs: Vec<Range<usize>> = Vec::new();
    for &place in places {
        match runs.last_mut() {
            Some(run) if run.end == place => run.end += 1,
            _ => runs.push(place..place + 1),
        }
    }
    runs
}

/// The same by name: `047E-047F, 0400-0401`.
pub fn runs(places: &[usize]) -> String {
    let texts: Vec<String> = ranges(places).iter().map(addresses).collect();
    texts.join(", ")
}

/// Cells by kind, in runs: `receive 1-18, 20; transmit 4`.
pub fn cell_runs(cells: &[u16]) -> String {
    let mut text = String::new();
    let mut place = 0;
    while place < cells.len() {
        let first = cells[place];
        let followers = cells[place..].iter().zip(first..);
        let length = followers.take_while(|(&cell, next)| cell == *next).count();
        let last = cells[place + length - 1];
        let same_kind = place > 0 && kind_of(cells[place - 1]) == kind_of(first);
        match (same_kind, text.is_empty()) {
            (true, _) => text.push_str(", "),
            (false, true) => text += &format!("{} ", kind_name(kind_of(first))),
            (false, false) => text += &format!("; {} ", kind_name(kind_of(first))),
        }
        let _ = write!(text, "{}", subaddress_of(first));
        if last > first {
            let _ = write!(text, "-{}", subaddress_of(last));
        }
        place += length;
    }
    text
}

/// A number of things: `1 word`, `2 words`.
pub fn count(number: u64, thing: &str) -> String {
    let s = if number == 1 { "" } else { "s" };
    format!("{number} {thing}{s}")
}

/// `a`, `a and b`, `a, b and c`.
pub fn listed<T: AsRef<str>>(things: &[T]) -> String {
    let things: Vec<&str> = things.iter().map(AsRef::as_ref).collect();
    match things[..] {
        [] => String::new(),
        [thing] => thing.to_string(),
        [ref others @ .., last] => format!("{} and {last}", others.join(", ")),
    }
}
