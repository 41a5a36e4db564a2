//! The index: what a member learns who reads only his line.

use super::parts::{index_line, tells, Held, Seen};
use super::played::{is_good, verdict, Done, Played};
use super::told::{
    and_no_word, bare, cell, html_runs, left, left_lines, listed, lost, verdict_html,
};

/// The most runs of addresses in a line.
const RUNS: usize = 4;

/// The cells of others whose words a message sent.
fn others_sent(played: &Played, done: &Done) -> Vec<u16> {
    let mut others: Vec<u16> = Vec::new();
    for origin in done.words.iter().filter_map(|word| word.origin) {
        let of_another = !played.same_owner(done.answer.cell, origin.cell);
        if of_another && !done.stores() && !others.contains(&origin.cell) {
            others.push(origin.cell);
        }
    }
    others
}

/// How the messages went whose words a message sent, where they were not good.
fn bad_sent(played: &Played, done: &Done) -> Vec<String> {
    let mut all: Vec<String> = Vec::new();
    for origin in done.words.iter().filter_map(|word| word.origin) {
        let came = played.of(origin.record);
        let known = all.contains(&verdict(came));
        if !done.stores() && !is_good(came) && !known {
            all.push(verdict(came));
        }
    }
    all
}

fn message(played: &Played, done: &Done) -> String {
    let none = and_no_word(played, done);
    let others = others_sent(played, done).into_iter();
    let others: Vec<String> = others.map(|it| cell(played, it)).collect();
    let mut sent = String::new();
    if !others.is_empty() {
        sent += &format!(", <b class=\"lost\">sent words for {}</b>", listed(&others));
    }
    for verdict in bad_sent(played, done) {
        sent += &format!(", <b class=\"lost\">sent {verdict} words</b>");
    }
    let verdict = verdict_html(done);
    let lost = lost(played, done);
    format!("record {}, {verdict}{none}{sent}{lost}", done.record)
}

/// Words of others in a cell's window.
fn others_words(played: &Played, number: u16) -> Vec<String> {
    let mut others: Vec<(u16, Vec<usize>)> = Vec::new();
    for address in played.cell(number).window {
        let other = match played.who(address) {
            Some(origin) if !played.same_owner(number, origin.cell) => origin.cell,
            _ => continue,
        };
        match others.iter_mut().find(|it| it.0 == other) {
            Some(it) => it.1.push(address),
            None => others.push((other, vec![address])),
        }
    }
    let line = |(other, at): &(u16, Vec<usize>)| {
        let (name, at) = (cell(played, *other), html_runs(at, RUNS));
        format!("<b class=\"lost\">words for {name}</b> at {at}")
    };
    others.iter().map(line).collect()
}

/// All that the line of a sound cell tells of its messages.
fn must(played: &Played, number: u16) -> String {
    let mut lines = Vec::new();
    match played.newest(number, |_| true) {
        None => lines.push("none".to_string()),
        Some(newest) => {
            lines.push(message(played, newest));
            if !is_good(newest) {
                lines.push(match played.newest(number, is_good) {
                    None => "no good one before it".into(),
                    Some(good) => format!("before it {}", message(played, good)),
                });
            }
        }
    }
    lines.extend(left_lines(played, number, RUNS));
    lines.extend(others_words(played, number));
    lines.join("<br>")
}

/// The line of a cell that has a section.
pub fn check(played: &Played, number: u16, page: &str, seen: &mut Seen) -> Held {
    let what = format!("index, cell {number}");
    let line = index_line(page, &format!("#cell{number}")).ok_or(format!("{what}: no line"))?;
    tells(&what, line[0], &format!("{}</a>", bare(number)))?;
    tells(&what, line[1], &must(played, number))?;
    meet(played, number, seen);
    Ok(())
}

/// An unsound cell has a line exactly where messages for it were refused.
pub fn check_unsound(played: &Played, number: u16, page: &str, seen: &mut Seen) -> Held {
    let what = format!("index, unsound cell {number}");
    let asked = |done: &&Done| {
        let command = done.value.command;
        let [transmit, all] = [command & 0x0400 != 0, command >> 11 == 31];
        let settings = played.settings();
        let broadcast = all && settings.has_broadcast_cells();
        let kind = if transmit {
            1
        } else {
            2 * u16::from(broadcast)
        };
        done.answer.number == 9 && 32 * kind + (command >> 5 & 31) == number
    };
    let refused = played.done.iter().filter(asked).count();
    seen.met("refused, since the cell is unsound", refused > 0);
    let name = format!(">{}</a></td>", bare(number));
    let told = page.split_once(&name).map_or("", |(_, rest)| rest);
    let told = told.split("</td>").next().unwrap_or_default();
    let s = if refused == 1 { "" } else { "s" };
    let must = match refused {
        0 => String::new(),
        _ => format!("<td><b class=\"bad\">unsound</b>: {refused} message{s} refused"),
    };
    tells(&what, told, &must)
}

fn meet(played: &Played, number: u16, seen: &mut Seen) {
    if let Some(newest) = played.newest(number, |_| true) {
        let others = others_sent(played, newest);
        seen.met("the newest sent another's words", !others.is_empty());
        let bad = bad_sent(played, newest);
        seen.met(
            "the newest sent faulty words",
            bad.contains(&"faulty".into()),
        );
        let lost = lost(played, newest);
        seen.met("the newest is overwritten", lost.contains("all over"));
        seen.met("the newest is partly overwritten", lost.contains("of them"));
        seen.met(
            "what the newest sent is overwritten",
            lost.contains("that it sent"),
        );
        let good = played.newest(number, is_good);
        seen.met(
            "the newest is not good, an older is",
            !is_good(newest) && good.is_some(),
        );
    }
    for (verdict, passed, _) in left(played, number) {
        let double = played.cell(number).window.len() == 64;
        let kept = passed == "has not passed them";
        seen.met("faulty words, not passed", verdict == "faulty" && kept);
        seen.met(
            "faulty words, passed",
            verdict == "faulty" && passed == "has passed them",
        );
        seen.met("two blocks, passed", double && passed == "has passed them");
        seen.met("two blocks, and back", passed.ends_with("block"));
        seen.met("illegal words left", verdict == "illegal");
        seen.met("busy words left", verdict == "busy");
    }
    let others = others_words(played, number);
    seen.met("words of others stand in the window", !others.is_empty());
}
