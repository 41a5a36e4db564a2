//! Falsehoods planted in what the program tells. The tests must find each.

use super::labels::warning;
use super::parts::article;
use super::played::{is_good, verdict, Played};
use super::Telling;

pub struct Falsehood {
    pub name: &'static str,
    /// The telling with the falsehood in it, where there is a place for it.
    pub plant: fn(&Played, &Telling) -> Option<Telling>,
}

pub const FALSEHOODS: [Falsehood; 17] = [
    Falsehood {
        name: "an overwritten word bears the mark of a sent one",
        plant: overwritten_as_sent,
    },
    Falsehood {
        name: "a sent word that stands bears no mark",
        plant: sent_without_mark,
    },
    Falsehood {
        name: "what was sent is told as what stands there now",
        plant: sent_as_now,
    },
    Falsehood {
        name: "busy called good on a card",
        plant: busy_good_on_card,
    },
    Falsehood {
        name: "busy called good in the list",
        plant: busy_good_in_list,
    },
    Falsehood {
        name: "busy called good in the index",
        plant: busy_good_in_index,
    },
    Falsehood {
        name: "busy called good by explain",
        plant: busy_good_in_words,
    },
    Falsehood {
        name: "words that were not good, sent and not told so by explain",
        plant: good_words_sent,
    },
    Falsehood {
        name: "withheld not told",
        plant: not_withheld,
    },
    Falsehood {
        name: "another's words called one's own",
        plant: own_words,
    },
    Falsehood {
        name: "faulty words left out of the index",
        plant: nothing_left,
    },
    Falsehood {
        name: "the pointer said to have passed",
        plant: passed,
    },
    Falsehood {
        name: "a warning that is not yellow",
        plant: not_yellow,
    },
    Falsehood {
        name: "another owner's cell that was never used in a quiet note",
        plant: quiet_for_unused,
    },
    Falsehood {
        name: "yellow for cells that nobody owns or uses",
        plant: yellow_for_nobody,
    },
    Falsehood {
        name: "others who can write, where there are none",
        plant: others_for_own,
    },
    Falsehood {
        name: "a group with one cell less",
        plant: smaller_group,
    },
];

/// The page with the first of these words exchanged.
fn page(telling: &Telling, from: &str, to: &str) -> Option<Telling> {
    telling.page.contains(from).then(|| Telling {
        page: telling.page.replacen(from, to, 1),
        ..telling.clone()
    })
}

/// The section of a cell with the first of these words exchanged.
fn card(telling: &Telling, number: u16, from: &str, to: &str) -> Option<Telling> {
    let section = article(&telling.page, number)?;
    let changed = section
        .contains(from)
        .then(|| section.replacen(from, to, 1))?;
    page(telling, section, &changed)
}

/// The first section that has these words.
fn any_card(played: &Played, telling: &Telling, from: &str, to: &str) -> Option<Telling> {
    let mut cells = played.sound_cells().into_iter();
    cells.find_map(|it| card(telling, it, from, to))
}

/// A cell that sends, with a word that it sent: overwritten, or standing.
fn sent_word(played: &Played, overwritten: bool) -> Option<(u16, usize, u16)> {
    for number in 32..64 {
        let done = played.newest(number, is_good);
        let words = done.map_or(&[][..], |done| &done.words);
        let fits = words.iter().find(|word| {
            let over = played.overwriter(word).is_some();
            let again = played.ram[word.address] == word.word;
            over == overwritten && (!over || !again)
        });
        if let Some(word) = fits {
            return Some((number, word.address, word.word));
        }
    }
    None
}

/// The drawing of a word with its address, up to its mark's end.
fn drawn(telling: &Telling, number: u16, address: usize) -> Option<String> {
    let section = article(&telling.page, number)?;
    let (_, rest) = section.split_once(&format!("aria-label=\"{address:04X}: "))?;
    let (word, _) = rest.split_once("</i></td>")?;
    Some(format!("aria-label=\"{address:04X}: {word}"))
}

fn overwritten_as_sent(played: &Played, telling: &Telling) -> Option<Telling> {
    let (number, address, _) = sent_word(played, true)?;
    let word = drawn(telling, number, address)?;
    let marked = match word.strip_suffix('\u{2192}') {
        Some(word) => format!("{word}\u{2191}\u{2192}"),
        None => format!("{word}\u{2191}"),
    };
    card(telling, number, &word, &marked)
}

fn sent_without_mark(played: &Played, telling: &Telling) -> Option<Telling> {
    let (number, address, _) = sent_word(played, false)?;
    let word = drawn(telling, number, address)?;
    card(telling, number, &word, &word.replacen('\u{2191}', "", 1))
}

fn sent_as_now(played: &Played, telling: &Telling) -> Option<Telling> {
    let (number, address, word) = sent_word(played, true)?;
    let now = played.ram[address];
    let section = article(&telling.page, number)?;
    let (_, rest) = section.split_once("<code class=\"sent\">")?;
    let (words, _) = rest.split_once("</code>")?;
    let changed = words.replacen(&format!("{word:04X}"), &format!("{now:04X}"), 1);
    let from = format!("<code class=\"sent\">{words}");
    card(
        telling,
        number,
        &from,
        &format!("<code class=\"sent\">{changed}"),
    )
    .filter(|changed| changed.page != telling.page)
}

const BUSY: &str = "<b class=\"bad\">busy</b>";
const GOOD: &str = "<b class=\"good\">good</b>";

fn busy_good_on_card(played: &Played, telling: &Telling) -> Option<Telling> {
    any_card(played, telling, BUSY, GOOD)
}

/// From a mark on, the first of these words exchanged.
fn behind(telling: &Telling, mark: &str, from: &str, to: &str) -> Option<Telling> {
    let place = telling.page.find(mark)?;
    let (before, rest) = telling.page.split_at(place);
    rest.contains(from).then(|| Telling {
        page: format!("{before}{}", rest.replacen(from, to, 1)),
        ..telling.clone()
    })
}

fn busy_good_in_list(_: &Played, telling: &Telling) -> Option<Telling> {
    behind(telling, "<section class=\"stack\">", BUSY, GOOD)
}

fn busy_good_in_index(_: &Played, telling: &Telling) -> Option<Telling> {
    let (index, _) = telling.page.split_once("</nav>")?;
    index.contains(BUSY).then_some(())?;
    behind(telling, "<nav>", BUSY, GOOD)
}

fn busy_good_in_words(played: &Played, telling: &Telling) -> Option<Telling> {
    let busy = |done: &&super::played::Done| done.accepted() && verdict(done) == "busy";
    let record = played.done.iter().find(busy)?.record as usize;
    let mut telling = telling.clone();
    for line in &mut telling.explained[record - 1] {
        *line = line.replacen("busy (", "good (", 1);
    }
    Some(telling)
}

/// The first line of any record that these words are in, without them.
fn good_words_sent(played: &Played, telling: &Telling) -> Option<Telling> {
    let mut telling = telling.clone();
    for (done, lines) in played.done.iter().zip(&mut telling.explained) {
        let bad = done.words.iter().find_map(|word| {
            let came = played.of(word.origin?.record);
            (!done.stores() && !is_good(came)).then(|| verdict(came))
        });
        if let Some(bad) = bad {
            let told = format!(", {bad}, for ");
            let line = lines.iter_mut().find(|line| line.contains(&told))?;
            *line = line.replacen(&told, ", for ", 1);
            return Some(telling);
        }
    }
    None
}

fn not_withheld(played: &Played, telling: &Telling) -> Option<Telling> {
    any_card(played, telling, "withheld by ", "none was heard, not by ")
}

fn own_words(_: &Played, telling: &Telling) -> Option<Telling> {
    let (_, rest) = telling
        .page
        .split_once(", <b class=\"lost\">sent words for ")?;
    let (whose, _) = rest.split_once("</b>")?;
    let from = format!(", <b class=\"lost\">sent words for {whose}</b>");
    page(telling, &from, "")
}

/// The first line of the index that tells of words left behind.
fn left_line(telling: &Telling) -> Option<String> {
    let (index, _) = telling.page.split_once("</nav>")?;
    let (before, rest) = index.split_once(" words left behind</b>")?;
    let start = before.rfind("<br>")?;
    let end = rest
        .find("<br>")
        .into_iter()
        .chain(rest.find("</td>"))
        .min()?;
    Some(index[start..before.len() + " words left behind</b>".len() + end].to_string())
}

fn nothing_left(_: &Played, telling: &Telling) -> Option<Telling> {
    page(telling, &left_line(telling)?, "")
}

fn passed(_: &Played, telling: &Telling) -> Option<Telling> {
    let line = left_line(telling)?;
    page(
        telling,
        &line,
        &line.replacen("has not passed", "has passed", 1),
    )
    .filter(|changed| changed.page != telling.page)
}

fn not_yellow(_: &Played, telling: &Telling) -> Option<Telling> {
    page(
        telling,
        "<aside class=\"label\">",
        "<aside class=\"quiet\">",
    )
}

/// Where the label warns of such cells alone.
fn quiet_for_unused(played: &Played, telling: &Telling) -> Option<Telling> {
    let unused = |&number: &u16| {
        let warning = warning(played, number);
        !warning.is_empty() && warning.iter().all(|&other| !played.is_used(other))
    };
    let mut cells = played.sound_cells().into_iter().filter(unused);
    let [yellow, quiet] = ["label", "quiet"].map(|it| format!("<aside class=\"{it}\">"));
    cells.find_map(|number| card(telling, number, &yellow, &quiet))
}

fn yellow_for_nobody(_: &Played, telling: &Telling) -> Option<Telling> {
    page(
        telling,
        "<aside class=\"quiet\">",
        "<aside class=\"label\">",
    )
}

fn others_for_own(_: &Played, telling: &Telling) -> Option<Telling> {
    let own = "A used cell of the same subaddress or owner can write";
    page(telling, own, "Cells of others can write")
}

fn smaller_group(_: &Played, telling: &Telling) -> Option<Telling> {
    let (before, _) = telling.label.split_once(" cells, never used")?;
    let number = before.rsplit(|it: char| !it.is_ascii_digit()).next()?;
    let fewer = number.parse::<usize>().ok()? - 1;
    let from = format!("{number} cells, never used");
    Some(Telling {
        label: telling
            .label
            .replacen(&from, &format!("{fewer} cells, never used"), 1),
        ..telling.clone()
    })
}
