//! What became of the words that a message stored or sent, and whose they
//! were.

use super::board::{Board, Message};
use super::html;
use crate::front::names::{count, listed};
use crate::front::replay::Moved;
use crate::terminal::who::Origin;

/// Who wrote over a word since the message was done; nobody where it stands.
pub fn overwriter(board: &Board, word: &Moved) -> Option<Origin> {
    let now = board.history.replay.origin(word.address);
    now.filter(|_| now != word.origin)
}

/// Whether a word of a message is there still: nobody has written there since.
pub fn stands(board: &Board, word: &Moved) -> bool {
    overwriter(board, word).is_none()
}

/// Whether a cell's owner must know that a record wrote over his words: it was
/// another's, or not good.
fn is_loss(board: &Board, cell: u16, by: &(Moved, Origin)) -> bool {
    let (word, origin) = by;
    let good = board.history.facts(word.address).outcome.is_good();
    !good || !board.same_owner(cell, origin.cell)
}

/// The records that wrote over words, by their cells: `record 4 for receive 19
/// (Anna)`.
fn by_whom(board: &Board, origins: &[(Moved, Origin)]) -> String {
    let mut cells: Vec<(u16, Vec<u64>)> = Vec::new();
    for (_, origin) in origins {
        match cells.iter_mut().find(|(cell, _)| *cell == origin.cell) {
            Some((_, records)) => records.push(origin.record),
            None => cells.push((origin.cell, vec![origin.record])),
        }
    }
    let told = cells.into_iter().map(|(cell, mut records)| {
        records.sort_unstable();
        records.dedup();
        let cell = html::cell(&board.owners, cell);
        let s = if records.len() == 1 { "" } else { "s" };
        let records: Vec<String> = records.iter().map(u64::to_string).collect();
        format!("record{s} {} for {cell}", listed(&records))
    });
    listed(&told.collect::<Vec<_>>())
}

/// How many words of a message are overwritten since, and by whom; nothing
/// where all stand.
pub fn lost(board: &Board, cell: u16, message: &Message) -> String {
    let words = message.words.iter();
    let lost: Vec<(Moved, Origin)> = words
        .filter_map(|word| overwriter(board, word).map(|origin| (*word, origin)))
        .collect();
    if lost.is_empty() {
        return String::new();
    }
    let many = lost.len();
    let which = match (board.stores(cell), many == message.words.len()) {
        (true, true) => "all".to_string(),
        (true, false) => format!("{many} of them"),
        (false, true) => "all that it sent".to_string(),
        (false, false) => format!("{many} of the words sent"),
    };
    let told = format!("{which} overwritten since by {}", by_whom(board, &lost));
    if lost.iter().any(|by| is_loss(board, cell, by)) {
        format!(", <b class=\"lost\">{told}</b>")
    } else {
        format!(", {told}")
    }
}

/// The cells of others whose words a message sent, in the order of the words.
pub fn others_sent(board: &Board, cell: u16, message: &Message) -> Vec<u16> {
    let mut others = Vec::new();
    for origin in message.words.iter().filter_map(|word| word.origin) {
        if !board.same_owner(cell, origin.cell) && !others.contains(&origin.cell) {
            others.push(origin.cell);
        }
    }
    others
}

/// What was wrong with the messages whose words a message sent, each once.
pub fn not_good_sent(message: &Message) -> Vec<String> {
    let mut all: Vec<String> = Vec::new();
    for verdict in message.words.iter().filter_map(Moved::not_good) {
        if !all.contains(&verdict) {
            all.push(verdict);
        }
    }
    all
}

/// Words that were sent one behind the other, of one message and with one
/// fate.
struct Sent {
    words: Vec<Moved>,
    overwriter: Option<Origin>,
}

fn sent_together(board: &Board, message: &Message) -> Vec<Sent> {
    let record = |origin: Option<Origin>| origin.map(|it| it.record);
    let mut groups: Vec<Sent> = Vec::new();
    for word in &message.words {
        let overwriter = overwriter(board, word);
        let fits = |group: &&mut Sent| {
            let last = group.words[group.words.len() - 1];
            last.address + 1 == word.address
                && record(last.origin) == record(word.origin)
                && record(group.overwriter) == record(overwriter)
        };
        match groups.last_mut().filter(fits) {
            Some(group) => group.words.push(*word),
            None => groups.push(Sent {
                words: vec![*word],
                overwriter,
            }),
        }
    }
    groups
}

/// A line for each: what was sent, whose it was, and who wrote over it since.
pub fn sent_lines(board: &Board, cell: u16, message: &Message) -> Vec<String> {
    let lines = sent_together(board, message).into_iter();
    lines.map(|sent| sent_line(board, cell, &sent)).collect()
}

fn sent_line(board: &Board, cell: u16, sent: &Sent) -> String {
    let words: Vec<String> = sent
        .words
        .iter()
        .map(|it| format!("{:04X}", it.word))
        .collect();
    let addresses: Vec<usize> = sent.words.iter().map(|it| it.address).collect();
    let whose = match sent.words[0].origin {
        None => "as in the image".to_string(),
        Some(origin) => {
            let name = html::cell(&board.owners, origin.cell);
            let bad = sent.words[0].not_good();
            let which = bad
                .as_ref()
                .map_or(String::new(), |bad| format!(", {bad},"));
            let came = format!("came with record {}{which} for {name}", origin.record);
            match bad.is_none() && board.same_owner(cell, origin.cell) {
                true => came,
                false => format!("<b class=\"lost\">{came}</b>"),
            }
        }
    };
    let since = sent.overwriter.map_or(String::new(), |origin| {
        let name = html::cell(&board.owners, origin.cell);
        let told = format!("overwritten since by record {} for {name}", origin.record);
        match is_loss(board, cell, &(sent.words[0], origin)) {
            true => format!(", <b class=\"lost\">{told}</b>"),
            false => format!(", {told}"),
        }
    });
    format!(
        "{} from {}: <code class=\"sent\">{}</code>, {whose}{since}",
        count(words.len() as u64, "word"),
        html::places(&addresses, usize::MAX),
        words.join(" ")
    )
}
