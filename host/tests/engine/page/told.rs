//! What must be told, worked out from what was played.

use plain_terminal::terminal::who::Origin;

use super::played::{is_good, no_word, verdict, Done, Played, Word};

/// `a`, `a and b`, `a, b and c`.
pub fn listed<T: AsRef<str>>(things: &[T]) -> String {
    let mut text = String::new();
    for (place, thing) in things.iter().enumerate() {
        text += match place {
            0 => "",
            _ if place + 1 == things.len() => " and ",
            _ => ", ",
        };
        text += thing.as_ref();
    }
    text
}

pub fn bare(cell: u16) -> String {
    let kind = ["receive", "transmit", "broadcast"][usize::from(cell / 32)];
    format!("{kind} {}", cell % 32)
}

/// A cell as the page names it.
pub fn cell(played: &Played, number: u16) -> String {
    let owned = played.trace.owners.iter().any(Option::is_some);
    match played.owner(number) {
        Some(owner) => format!("{} (<bdi>{owner}</bdi>)", bare(number)),
        None if owned => format!("{} (nobody\u{2019}s)", bare(number)),
        None => bare(number),
    }
}

/// A cell as it is named in plain text.
pub fn plain_cell(played: &Played, number: u16) -> String {
    match played.owner(number) {
        Some(owner) => format!("{} ({owner})", bare(number)),
        None => bare(number),
    }
}

pub fn addresses(first: usize, last: usize) -> String {
    if first == last {
        format!("{first:04X}")
    } else {
        format!("{first:04X}-{last:04X}")
    }
}

/// First and last of each run of addresses.
pub fn runs(places: &[usize]) -> Vec<(usize, usize)> {
    let mut runs: Vec<(usize, usize)> = Vec::new();
    for &place in places {
        match runs.last_mut() {
            Some((_, last)) if *last + 1 == place => *last = place,
            _ => runs.push((place, place)),
        }
    }
    runs
}

pub fn plain_runs(places: &[usize]) -> String {
    let runs = runs(places);
    let texts: Vec<String> = runs.iter().map(|&(a, b)| addresses(a, b)).collect();
    texts.join(", ")
}

/// Runs as the page writes them; of more than `most`, how many words follow.
pub fn html_runs(places: &[usize], most: usize) -> String {
    let runs = runs(places);
    let codes = runs
        .iter()
        .map(|&(a, b)| format!("<code>{}</code>", addresses(a, b)));
    let codes: Vec<String> = codes.take(most).collect();
    let told: usize = runs.iter().take(most).map(|(a, b)| b - a + 1).sum();
    match places.len() - told {
        0 => codes.join(", "),
        1 => format!("{} and 1 word more", codes.join(", ")),
        rest => format!("{} and {rest} words more", codes.join(", ")),
    }
}

pub fn words(number: usize) -> String {
    match number {
        1 => "1 word".into(),
        _ => format!("{number} words"),
    }
}

pub fn places(done: &Done) -> Vec<usize> {
    done.words.iter().map(|word| word.address).collect()
}

pub fn verdict_html(done: &Done) -> String {
    let class = if is_good(done) { "good" } else { "bad" };
    format!("<b class=\"{class}\">{}</b>", verdict(done))
}

/// Another's record wrote there, or one that was not good.
fn is_loss(played: &Played, cell: u16, by: &Origin) -> bool {
    !is_good(played.of(by.record)) || !played.same_owner(cell, by.cell)
}

fn bold(told: String, is_bold: bool) -> String {
    match is_bold {
        true => format!("<b class=\"lost\">{told}</b>"),
        false => told,
    }
}

/// How many words of a message are overwritten since, and by whom.
pub fn lost(played: &Played, done: &Done) -> String {
    let lost = done.words.iter().filter_map(|word| played.overwriter(word));
    let lost: Vec<Origin> = lost.collect();
    let (many, all) = (lost.len(), lost.len() == done.words.len());
    let which = match (done.stores(), many) {
        (_, 0) => return String::new(),
        (true, _) if all => "all".to_string(),
        (true, many) => format!("{many} of them"),
        (false, _) if all => "all that it sent".to_string(),
        (false, many) => format!("{many} of the words sent"),
    };
    let mut cells: Vec<u16> = Vec::new();
    for origin in &lost {
        if !cells.contains(&origin.cell) {
            cells.push(origin.cell);
        }
    }
    let by = cells.iter().map(|&it| {
        let mut records: Vec<u64> = lost
            .iter()
            .filter(|origin| origin.cell == it)
            .map(|origin| origin.record)
            .collect();
        records.sort_unstable();
        records.dedup();
        let texts: Vec<String> = records.iter().map(u64::to_string).collect();
        let s = if texts.len() == 1 { "" } else { "s" };
        format!("record{s} {} for {}", listed(&texts), cell(played, it))
    });
    let by = listed(&by.collect::<Vec<_>>());
    let loss = lost.iter().any(|it| is_loss(played, done.answer.cell, it));
    format!(
        ", {}",
        bold(format!("{which} overwritten since by {by}"), loss)
    )
}

/// Each run of words that were sent: what, whose, and what became of them.
pub fn sent(played: &Played, done: &Done) -> String {
    let fate = |word: &Word| {
        let origin = word.origin.map(|it| it.record);
        (origin, played.overwriter(word).map(|it| it.record))
    };
    let mut groups: Vec<Vec<Word>> = Vec::new();
    for word in &done.words {
        match groups.last_mut() {
            Some(group)
                if group[group.len() - 1].address + 1 == word.address
                    && fate(&group[0]) == fate(word) =>
            {
                group.push(*word)
            }
            _ => groups.push(vec![*word]),
        }
    }
    let lines: Vec<String> = groups
        .iter()
        .map(|it| sent_line(played, done, it))
        .collect();
    lines.join("<br>")
}

fn sent_line(played: &Played, done: &Done, group: &[Word]) -> String {
    let ours = done.answer.cell;
    let texts: Vec<String> = group.iter().map(|it| format!("{:04X}", it.word)).collect();
    let places: Vec<usize> = group.iter().map(|it| it.address).collect();
    let whose = match group[0].origin {
        None => "as in the image".to_string(),
        Some(it) => {
            let bad = !is_good(played.of(it.record));
            let which = match bad {
                true => format!(", {},", verdict(played.of(it.record))),
                false => String::new(),
            };
            let name = cell(played, it.cell);
            let came = format!("came with record {}{which} for {name}", it.record);
            bold(came, bad || !played.same_owner(ours, it.cell))
        }
    };
    let since = played.overwriter(&group[0]).map_or(String::new(), |it| {
        let by = cell(played, it.cell);
        let told = format!("overwritten since by record {} for {by}", it.record);
        format!(", {}", bold(told, is_loss(played, ours, &it)))
    });
    format!(
        "{} from {}: <code class=\"sent\">{}</code>, {whose}{since}",
        words(group.len()),
        html_runs(&places, usize::MAX),
        texts.join(" ")
    )
}

/// Words that messages of a cell left which were not good: how these went,
/// what the pointer did since, and where the words are.
pub fn left(played: &Played, number: u16) -> Vec<(String, &'static str, Vec<usize>)> {
    let double = played.cell(number).window.len() == 64;
    let mut left: Vec<(String, &'static str, Vec<usize>)> = Vec::new();
    for address in played.cell(number).window {
        let origin = match played.who(address) {
            Some(origin) if origin.cell == number => origin,
            _ => continue,
        };
        let verdict = verdict(played.of(origin.record));
        if verdict == "good" {
            continue;
        }
        let passed = match played.times_passed(number, origin.record, address) {
            0 => "has not passed them",
            times if double && times % 2 == 0 => "has passed them, and is back at their block",
            _ => "has passed them",
        };
        match left.iter_mut().find(|it| it.0 == verdict && it.1 == passed) {
            Some(it) => it.2.push(address),
            None => left.push((verdict, passed, vec![address])),
        }
    }
    left
}

pub fn left_lines(played: &Played, number: u16, most: usize) -> Vec<String> {
    let line = |(verdict, passed, at): (String, &str, Vec<usize>)| {
        let at = html_runs(&at, most);
        format!("<b class=\"lost\">{verdict} words left behind</b> at {at}: the pointer {passed}")
    };
    left(played, number).into_iter().map(line).collect()
}

/// How a message went, with why no word moved.
pub fn and_no_word(played: &Played, done: &Done) -> String {
    no_word(played, done).map_or(String::new(), |none| format!("; {none}"))
}
