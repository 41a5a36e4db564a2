//! How a message went, wherever it is told: the card, the list of messages,
//! and `run --explain`.

use plain_terminal::front::explain::explain;
use plain_terminal::front::history::History;
use plain_terminal::front::replay::Replay;
use plain_terminal::terminal::Record;
use plain_terminal::text::read_names;

use super::parts::{between, fact, tells, Held, Seen};
use super::played::{is_good, no_word, verdict, Done, Played};
use super::told::{
    and_no_word, html_runs, left_lines, lost, places, plain_cell, plain_runs, sent, verdict_html,
    words,
};

const DETAILS: [(u16, &str); 9] = [
    (0x2000, "bus B"),
    (0x0200, "no status from the transmitter"),
    (0x0080, "rolled over"),
    (0x0020, "wrong number of words"),
    (0x0010, "wrong sync"),
    (0x0008, "invalid word"),
    (
        0x0004,
        "wrong gap, sync or address in the transmitter's status",
    ),
    (0x0002, "bad second command"),
    (0x0001, "wrong contents"),
];

/// How a message went, with the bits of its block status that tell more.
fn went(done: &Done) -> String {
    let set = DETAILS
        .iter()
        .filter(|(bit, _)| done.answer.block_status & bit != 0);
    let details: Vec<&str> = set.map(|(_, name)| *name).collect();
    match details[..] {
        [] => verdict_html(done),
        _ => format!("{} ({})", verdict_html(done), details.join(", ")),
    }
}

/// Who sent a message, where it was a transfer.
fn transfer(value: &Record) -> String {
    match value.flags & 8 {
        0 => String::new(),
        _ => format!(
            ", a transfer from terminal {}",
            value.transmit_command >> 11
        ),
    }
}

fn whereabouts(played: &Played, done: &Done) -> String {
    if let Some(none) = no_word(played, done) {
        return none;
    }
    let (number, at) = (
        words(done.words.len()),
        html_runs(&places(done), usize::MAX),
    );
    match (done.stores(), is_good(done)) {
        (false, _) => format!("it sent {number} from {at}"),
        (true, true) => format!("its {number} at {at}{}", lost(played, done)),
        (true, false) => {
            format!(
                "its {number} at {at}, stored all the same{}",
                lost(played, done)
            )
        }
    }
}

fn message(played: &Played, done: Option<&Done>) -> String {
    match done {
        None => "none in this trace".into(),
        Some(done) => format!(
            "record {}, tag <code>{:04X}</code>{}, {}; {}",
            done.record,
            done.value.tag,
            transfer(&done.value),
            went(done),
            whereabouts(played, done)
        ),
    }
}

/// The facts of a cell's card.
pub fn check_card(played: &Played, number: u16, article: &str) -> Held {
    let what = format!("cell {number}");
    let newest = played.newest(number, |_| true);
    let good = played.newest(number, is_good);
    let told = fact(article, "Newest message").unwrap_or_default();
    tells(&what, told, &message(played, newest))?;
    let must = match newest {
        Some(newest) if !is_good(newest) => message(played, good),
        _ => String::new(),
    };
    let told = fact(article, "Newest good one").unwrap_or_default();
    tells(&what, told, &must)?;
    if let Some(done) = good.filter(|done| !done.stores()) {
        let told = fact(article, &format!("What record {} sent", done.record));
        tells(&what, told.unwrap_or_default(), &sent(played, done))?;
    }
    let mut rest = article;
    let mut left = Vec::new();
    while let Some((told, after)) = between(rest, "<dt>Left behind</dt><dd>", "</dd>") {
        left.push(told);
        rest = after;
    }
    let must = left_lines(played, number, usize::MAX);
    tells(&what, &left.join("\n"), &must.join("\n"))
}

/// The last messages on the stack.
pub fn check_list(played: &Played, page: &str, seen: &mut Seen) -> Held {
    let (stack, _) = between(page, "<section class=\"stack\">", "</section>").unwrap();
    for row in stack.lines().filter(|line| line.starts_with("<tr><td>")) {
        let columns: Vec<&str> = row["<tr><td>".len()..].split("</td><td>").collect();
        let done = played.of(columns[0].parse().unwrap());
        let how = went(done) + &and_no_word(played, done);
        tells(row, columns[3], &how)?;
        let transfer = transfer(&done.value);
        tells(row, &(columns[2].ends_with(&transfer)).to_string(), "true")?;
        let is_transfer = columns[2].contains("a transfer from");
        tells(
            row,
            &is_transfer.to_string(),
            &(done.value.flags & 8 != 0).to_string(),
        )?;
        meet(played, done, seen);
    }
    Ok(())
}

/// What the messages of the lists have met.
fn meet(played: &Played, done: &Done, seen: &mut Seen) {
    let verdict = verdict(done);
    let none = no_word(played, done).unwrap_or_default();
    let [stores, moved] = [done.stores(), !done.words.is_empty()];
    seen.met("good", verdict == "good");
    seen.met(
        "busy, and stored all the same",
        verdict == "busy" && stores && moved,
    );
    seen.met(
        "illegal, and stored all the same",
        verdict == "illegal" && stores && moved,
    );
    seen.met("faulty and busy", verdict == "faulty and busy");
    seen.met(
        "faulty, illegal and busy",
        verdict == "faulty, illegal and busy",
    );
    seen.met(
        "busy, and withheld",
        none.ends_with("by busy-receive-disable"),
    );
    seen.met(
        "illegal, and withheld",
        none.ends_with("by illegal-receive-disable"),
    );
    seen.met("both, and withheld", none.contains("disable and busy"));
    seen.met("busy, and nothing sent", none.ends_with("terminal is busy"));
    seen.met(
        "illegal, and nothing sent",
        none.ends_with("sent: the message is illegal"),
    );
    seen.met(
        "faulty, and nothing sent",
        none.ends_with("sent: the message is faulty"),
    );
    seen.met("nothing heard", none.ends_with("none was heard"));
    seen.met("a transfer", done.value.flags & 8 != 0);
}

/// What `run --explain` tells, a list of lines for each record.
pub fn explained(played: &Played) -> Vec<Vec<String>> {
    let trace = played.trace;
    let owners = read_names(trace.names().as_bytes()).unwrap().owners;
    let replay = Replay::with_walk(trace.image.clone(), trace.settings);
    let mut history = History::new(replay);
    let lines = trace.records.iter().map(|bytes| {
        let (answer, accepted) = history.message(bytes);
        explain(&history.replay, &owners, bytes, &answer, accepted.as_ref())
    });
    lines.collect()
}

pub fn check_explained(played: &Played, explained: &[Vec<String>]) -> Held {
    for (done, lines) in played.done.iter().zip(explained) {
        if done.accepted() {
            check_lines(played, done, lines)?;
        }
    }
    Ok(())
}

fn check_lines(played: &Played, done: &Done, lines: &[String]) -> Held {
    let what = format!("record {}", done.record);
    let place = if done.value.flags & 8 != 0 { 2 } else { 1 };
    let (verdict, line) = (verdict(done), &lines[place]);
    let moved = no_word(played, done).unwrap_or_else(|| {
        let (number, at) = (words(done.words.len()), plain_runs(&places(done)));
        match (done.stores(), is_good(done)) {
            (false, _) => format!("{number} sent from {at}"),
            (true, true) => format!("{number} stored at {at}"),
            (true, false) => format!("{number} stored at {at} all the same"),
        }
    });
    let (went, told) = line.split_once("; ").unwrap_or_default();
    tells(&what, told, &moved)?;
    tells(&what, went.split(" (").next().unwrap_or_default(), &verdict)?;
    for (word, reason) in [
        ("busy", ["busy-always is on", "the busy table marks"]),
        (
            "illegal",
            ["the illegal table forbids", "the illegal table forbids"],
        ),
    ] {
        let told = reason.iter().any(|reason| went.contains(reason));
        tells(
            &what,
            &told.to_string(),
            &verdict.contains(word).to_string(),
        )?;
    }
    check_whose(played, done, &lines[place + 1..])
}

/// Whose words were sent.
fn check_whose(played: &Played, done: &Done, lines: &[String]) -> Held {
    let what = format!("record {}", done.record);
    let told = lines
        .iter()
        .take_while(|line| !line.starts_with("the pointer of"));
    let told: Vec<&String> = told.collect();
    if done.stores() {
        return Ok(());
    }
    let mut must: Vec<(Option<u64>, Vec<usize>, String)> = Vec::new();
    for word in &done.words {
        let record = word.origin.map(|it| it.record);
        match must.last_mut() {
            Some(it) if it.0 == record => it.1.push(word.address),
            _ => {
                let whose = word.origin.map_or("is as in the image".into(), |it| {
                    let name = plain_cell(played, it.cell);
                    let bad = match verdict(played.of(it.record)).as_str() {
                        "good" => String::new(),
                        bad => format!(" {bad},"),
                    };
                    format!("came with record {},{bad} for {name}", it.record)
                });
                must.push((record, vec![word.address], whose));
            }
        }
    }
    let must = must
        .iter()
        .map(|(_, at, whose)| format!("{} {whose}", plain_runs(at)));
    let must: Vec<String> = must.collect();
    tells(&what, &format!("{told:?}"), &format!("{must:?}"))
}
