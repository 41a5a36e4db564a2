//! The label for people: on a card, in the index, and as `label` prints it.
//! All that the proved label lists is told, and yellow is for what matters.

use std::ops::Range;

use plain_terminal::engine;
use plain_terminal::front::label::text;

use super::parts::{between, index_line, tells, Held, Seen};
use super::played::Played;
use super::told::{addresses, bare, cell, listed, plain_cell};

fn writes(cell: u16) -> bool {
    cell / 32 != 1
}

/// Another owner's cell, or one in use, that can write.
fn warns(played: &Played, number: u16, other: u16) -> bool {
    let of_another = played.owner(other).is_some() && !played.same_owner(number, other);
    number != other && writes(other) && (of_another || played.is_used(other))
}

fn common(played: &Played, a: u16, b: u16) -> Range<usize> {
    let (a, b) = (played.cell(a).window, played.cell(b).window);
    a.start.max(b.start)..a.end.min(b.end)
}

fn range(words: &Range<usize>) -> String {
    addresses(words.start, words.end - 1)
}

/// `receive 1-2, 4; transmit 3`.
fn cell_runs(cells: &[u16]) -> String {
    let kinds = [0, 1, 2].map(|kind| {
        let ours = cells.iter().filter(|&&it| it / 32 == kind);
        let subaddresses: Vec<usize> = ours.map(|it| usize::from(it % 32)).collect();
        let runs = super::told::runs(&subaddresses);
        let run = |&(a, b): &(usize, usize)| match a == b {
            true => a.to_string(),
            false => format!("{a}-{b}"),
        };
        let runs: Vec<String> = runs.iter().map(run).collect();
        let name = ["receive", "transmit", "broadcast"][usize::from(kind)];
        (runs.len(), format!("{name} {}", runs.join(", ")))
    });
    let kinds = kinds.into_iter().filter(|(runs, _)| *runs > 0);
    kinds.map(|(_, text)| text).collect::<Vec<_>>().join("; ")
}

/// What cells can do: those that write, and those that only send.
fn able(cells: &[u16], names: impl Fn(&[u16]) -> String) -> String {
    let [mut writers, mut senders] = [Vec::new(), Vec::new()];
    for &cell in cells {
        match writes(cell) {
            true => writers.push(cell),
            false => senders.push(cell),
        }
    }
    let mut parts = Vec::new();
    if !writers.is_empty() {
        parts.push(format!("{} can write", names(&writers)));
    }
    if !senders.is_empty() {
        let only = if senders.len() == 1 { "sends" } else { "send" };
        parts.push(format!("{} only {only}", names(&senders)));
    }
    parts.join("; ")
}

fn unused(number: usize) -> String {
    let s = if number == 1 { "" } else { "s" };
    format!("{number} cell{s}, never used and unowned,")
}

/// Those in a cell's window that are named, what matters first, and how many
/// others there are for each run of words.
fn sharers(played: &Played, number: u16) -> (Vec<u16>, Vec<(Range<usize>, Vec<u16>)>) {
    let listing = engine::label_cell(&played.ram, played.settings(), number).unwrap();
    let (mut named, mut quiet): (Vec<u16>, Vec<(Range<usize>, Vec<u16>)>) = Default::default();
    for other in listing.iter().map(|sharer| sharer.cell) {
        let words = common(played, number, other);
        if played.is_named(other) {
            named.push(other);
        } else if let Some(group) = quiet.iter_mut().find(|it| it.0 == words) {
            group.1.push(other);
        } else {
            quiet.push((words, vec![other]));
        }
    }
    named.sort_by_key(|&other| !warns(played, number, other));
    let told = named.len() + quiet.iter().map(|it| it.1.len()).sum::<usize>();
    assert_eq!(told, listing.len(), "nothing is hidden");
    (named, quiet)
}

/// The cells in a cell's window that its owner is to be warned of.
pub fn warning(played: &Played, number: u16) -> Vec<u16> {
    let mut named = sharers(played, number).0;
    named.retain(|&other| warns(played, number, other));
    named
}

/// What stands over the cells of a label.
fn heading_of(played: &Played, number: u16, is_shared: bool) -> &'static str {
    let warning = warning(played, number);
    let of_others = warning
        .iter()
        .any(|&other| !played.same_owner(number, other));
    match (is_shared, warning.is_empty(), of_others) {
        (false, ..) => "",
        (_, true, _) => "Shared, but no other owner\u{2019}s cell and no other cell in use can write in this window:",
        (_, _, true) => "<b>Shared words.</b> Cells of others can write in this window:",
        _ => "<b>Shared words.</b> A used cell of the same subaddress or owner can write in this window:",
    }
}

/// The label on a cell's card.
pub fn check_card(played: &Played, number: u16, article: &str, seen: &mut Seen) -> Held {
    let what = format!("label of cell {number}");
    let (named, quiet) = sharers(played, number);
    let yellow = !warning(played, number).is_empty();
    for (class, must) in [
        ("label", yellow),
        ("quiet", !yellow && named.len() + quiet.len() > 0),
    ] {
        let told = article.contains(&format!("<aside class=\"{class}\">"));
        tells(
            &what,
            &format!("{class} {told}"),
            &format!("{class} {must}"),
        )?;
    }
    let aside = between(article, "<aside", "</aside>").map_or("", |(aside, _)| aside);
    let heading = between(aside, "<p>", "</p>").map_or("", |(heading, _)| heading);
    tells(
        &what,
        heading,
        heading_of(played, number, !aside.is_empty()),
    )?;
    let mut must = Vec::new();
    for &other in &named {
        let words = range(&common(played, number, other));
        let name = cell(played, other);
        must.push(match (warns(played, number, other), writes(other)) {
            (true, _) => format!("{name} <b>can write</b> at <code>{words}</code>"),
            (_, true) => format!("{name} can write at <code>{words}</code>, and was never used"),
            (_, false) => format!("{name} only sends <code>{words}</code>"),
        });
    }
    for (words, cells) in &quiet {
        let (count, can) = (unused(cells.len()), able(cells, cell_runs));
        must.push(format!("{count} at <code>{}</code>: {can}", range(words)));
    }
    let lines = aside.lines().filter_map(|line| line.strip_prefix("<li>"));
    let lines: Vec<&str> = lines
        .filter_map(|line| line.strip_suffix("</li>"))
        .collect();
    tells(&what, &lines.join("\n"), &must.join("\n"))?;
    meet(played, number, &named, &quiet, seen);
    Ok(())
}

fn meet(
    played: &Played,
    number: u16,
    named: &[u16],
    quiet: &[(Range<usize>, Vec<u16>)],
    seen: &mut Seen,
) {
    let warning = warning(played, number);
    let used = warning.iter().any(|&it| played.is_used(it));
    let own = warning.iter().any(|&it| played.same_owner(number, it));
    seen.met("yellow, for a cell in use", used);
    seen.met(
        "yellow, for another owner's cell alone",
        !warning.is_empty() && !used,
    );
    seen.met(
        "yellow, for a cell of the same owner",
        own && warning.len() == 1,
    );
    seen.met("a quiet note", warning.is_empty() && !quiet.is_empty());
    seen.met("no label", named.is_empty() && quiet.is_empty());
    seen.met("a crowd", quiet.iter().any(|it| it.1.len() > 40));
}

/// With whom the index says that a cell shares words.
pub fn check_index(played: &Played, number: u16, page: &str, seen: &mut Seen) -> Held {
    let line = index_line(page, &format!("#cell{number}")).unwrap();
    let (named, quiet) = sharers(played, number);
    let others = named.iter().filter(|&&it| !played.same_owner(number, it));
    let mut must: Vec<String> = others.map(|&it| cell(played, it)).collect();
    let unowned = played.trace.owners.iter().all(Option::is_none);
    if must.len() < named.len() {
        let same = if unowned { "subaddress" } else { "owner" };
        must.push(format!("the same {same}"));
    }
    let number_quiet: usize = quiet.iter().map(|it| it.1.len()).sum();
    let s = if number_quiet == 1 { "" } else { "s" };
    if number_quiet > 0 {
        must.push(format!("{number_quiet} cell{s} never used and unowned"));
    }
    if must.is_empty() {
        must.push("nobody".into());
    }
    seen.met(
        "shared with the same owner",
        !unowned && must.len() == 1 && must[0].ends_with("owner"),
    );
    seen.met(
        "shared with others and the same owner",
        !unowned && must[1..].contains(&"the same owner".into()),
    );
    seen.met(
        "shared with the same subaddress of nobody",
        must.contains(&"the same subaddress".into()),
    );
    let must = must.join(", ");
    tells(&format!("index, cell {number}"), line[2], &must)
}

/// How much shared words matter: another's cell, one in use, one that only
/// shares, nobody's.
fn weight(played: &Played, cells: &[u16]) -> usize {
    let named: Vec<u16> = cells
        .iter()
        .copied()
        .filter(|&it| played.is_named(it))
        .collect();
    let pairs = || {
        named
            .iter()
            .flat_map(|&a| named.iter().map(move |&b| (a, b)))
    };
    let warning =
        |same: bool| pairs().any(|(a, b)| warns(played, a, b) && played.same_owner(a, b) == same);
    match named.is_empty() {
        true => 3,
        _ if warning(false) => 0,
        _ if warning(true) => 1,
        _ => 2,
    }
}

/// What `label` prints for the whole area: every word that two sound cells or
/// more have in their windows is in one line, with all of them.
pub fn check_area(played: &Played, printed: &str, seen: &mut Seen) -> Held {
    let label = engine::label_area(&played.ram, played.settings()).unwrap();
    let sound = played.sound_cells().into_iter();
    let windows: Vec<_> = sound.map(|it| (it, played.cell(it).window)).collect();
    let at = |address: usize| -> Vec<u16> {
        let ours = windows
            .iter()
            .filter(|(_, window)| window.contains(&address));
        ours.map(|(cell, _)| *cell).collect()
    };
    // Runs of words with the same cells, from word to word.
    let mut regions: Vec<(Range<usize>, Vec<u16>)> = Vec::new();
    for address in 0..played.ram.len() {
        let cells = at(address);
        match regions.last_mut() {
            Some((run, known)) if *known == cells => run.end = address + 1,
            _ => regions.push((address..address + 1, cells)),
        }
    }
    regions.retain(|(_, cells)| cells.len() > 1);
    let mut pairs: Vec<(u16, u16)> = Vec::new();
    for (_, cells) in &regions {
        for (place, &a) in cells.iter().enumerate() {
            pairs.extend(cells[place + 1..].iter().map(|&b| (a, b)));
        }
    }
    pairs.sort_unstable();
    pairs.dedup();
    assert_eq!(
        pairs, label.pairs,
        "the regions have the pairs of the label, and no other"
    );
    let must: Vec<String> = regions
        .iter()
        .map(|(run, cells)| region(played, run, cells))
        .collect();
    check_lines(printed, &must)?;
    // What matters stands first.
    let place = |text: &String| printed.find(text.as_str()).unwrap();
    let mut weights: Vec<(usize, usize)> = Vec::new();
    for (text, (_, cells)) in must.iter().zip(&regions) {
        weights.push((place(text), weight(played, cells)));
    }
    weights.sort_unstable();
    let order: Vec<usize> = weights.iter().map(|it| it.1).collect();
    let mut rising = order.clone();
    rising.sort_unstable();
    for (weight, class) in [
        "words where another's cell can write",
        "words where a used cell of the same owner can",
        "shared words that are harmless",
        "shared words of nobody",
    ]
    .into_iter()
    .enumerate()
    {
        seen.met(class, order.contains(&weight));
    }
    seen.met(
        "what matters, and what does not",
        order.contains(&0) && order.contains(&3),
    );
    tells(
        "what stands first",
        &format!("{order:?}"),
        &format!("{rising:?}"),
    )?;
    let last = printed.lines().last().unwrap_or_default();
    let must = match label.pairs.len() {
        0 => "no two cells share a word".into(),
        1 => "1 pair in all; --pairs lists each".into(),
        pairs => format!("{pairs} pairs in all; --pairs lists each"),
    };
    tells("how many pairs", last, &must)
}

/// The lines of a run of shared words.
fn region(played: &Played, run: &Range<usize>, cells: &[u16]) -> String {
    let named: Vec<u16> = cells
        .iter()
        .copied()
        .filter(|&it| played.is_named(it))
        .collect();
    let others: Vec<u16> = cells
        .iter()
        .copied()
        .filter(|it| !named.contains(it))
        .collect();
    let mut lines = Vec::new();
    if !named.is_empty() {
        let names = |cells: &[u16]| {
            let names: Vec<String> = cells.iter().map(|&it| plain_cell(played, it)).collect();
            listed(&names)
        };
        lines.push(format!("{}: {}\n", range(run), able(&named, names)));
    }
    if !others.is_empty() {
        let together = others.iter().all(|&it| played.cell(it).window == *run);
        let lie = match (others.len(), together) {
            (1, _) => "lies at",
            (_, true) => "lie together at",
            _ => "lie at",
        };
        let (count, can) = (unused(others.len()), able(&others, cell_runs));
        lines.push(format!("{count} {lie} {}: {can}\n", range(run)));
    }
    lines.join("    ")
}

/// Each must stand there, and nothing else but what is unsound and the count.
fn check_lines(printed: &str, must: &[String]) -> Held {
    for text in must {
        let found = printed.starts_with(text) || printed.contains(&format!("\n{text}"));
        if !found {
            return Err(format!("not told: {text}"));
        }
    }
    let told: usize = must.iter().map(|text| text.lines().count()).sum();
    let lines = printed
        .lines()
        .filter(|line| !line.starts_with("unsound: "));
    tells("lines", &(lines.count() - 1).to_string(), &told.to_string())
}

/// `label --pairs` lists what the proved label lists.
pub fn check_pairs(played: &Played, printed: &str) -> Held {
    let label = engine::label_area(&played.ram, played.settings()).unwrap();
    let mut must = String::new();
    for &(a, b) in &label.pairs {
        let can = match (writes(a), writes(b)) {
            (true, true) => "both write".to_string(),
            (false, false) => "both only send".to_string(),
            (true, false) => format!("{} writes, {} only sends", bare(a), bare(b)),
            (false, true) => format!("{} only sends, {} writes", bare(a), bare(b)),
        };
        let words = range(&common(played, a, b));
        let [a, b] = [a, b].map(|it| plain_cell(played, it));
        must += &format!("{a} and {b} share {words}: {can}\n");
    }
    if !label.unsound.is_empty() {
        must += &format!("unsound: {}\n", cell_runs(&label.unsound));
    }
    must += &match label.pairs.len() {
        0 => "no two cells share a word\n".to_string(),
        1 => "1 pair in all\n".to_string(),
        pairs => format!("{pairs} pairs in all\n"),
    };
    tells("--pairs", printed, &must)
}

/// What `label` prints, for people or pair by pair.
pub fn printed(played: &Played, pairs: bool) -> String {
    match text(&mut played.trace.source(), None, pairs) {
        Ok(text) => text,
        Err(_) => panic!("the area has a label"),
    }
}
