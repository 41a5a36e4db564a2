//! The page, `run --explain` and `label` against the proved terminal's
//! answers, word for word, on random traces; and falsehoods planted in them,
//! which must be found.

mod falsehoods;
mod index;
mod labels;
mod marks;
mod parts;
mod played;
mod told;
mod traces;
mod verdicts;

use plain_terminal::front::page::{write_page, Board};

use falsehoods::FALSEHOODS;
use parts::{article, Held, Seen};
use played::Played;
use traces::Trace;

/// All that is told of a trace.
#[derive(Clone)]
pub struct Telling {
    pub page: String,
    /// For each record, the lines of `run --explain`.
    pub explained: Vec<Vec<String>>,
    pub label: String,
    pub pairs: String,
}

impl Telling {
    fn new(played: &Played) -> Telling {
        let board = match Board::read(&mut played.trace.source()) {
            Ok(board) => board,
            Err(_) => panic!("the image is whole"),
        };
        let mut page = Vec::new();
        write_page(&mut page, "Random", &board).unwrap();
        Telling {
            page: String::from_utf8(page).unwrap(),
            explained: verdicts::explained(played),
            label: labels::printed(played, false),
            pairs: labels::printed(played, true),
        }
    }
}

/// The cells that a page shows: those of owners, or where nobody owns any,
/// those of subaddresses that had a message.
fn shown(played: &Played) -> Vec<u16> {
    let kinds = if played.settings().has_broadcast_cells() {
        3
    } else {
        2
    };
    let owned = played.trace.owners.iter().any(Option::is_some);
    let is_shown = |&number: &u16| match number % 32 {
        0 | 31 => false,
        _ if owned => played.owner(number).is_some(),
        subaddress => (0..kinds).any(|kind| played.is_used(32 * kind + subaddress)),
    };
    (0..32 * kinds).filter(is_shown).collect()
}

/// Holds all that is told against what was played.
fn check(played: &Played, telling: &Telling, seen: &mut Seen) -> Held {
    let sound = played.sound_cells();
    for number in shown(played) {
        let section = article(&telling.page, number);
        let line = format!("<p class=\"unsound\" data-cell=\"{number}\">");
        let told = (section.is_some(), telling.page.contains(&line));
        let is_sound = sound.contains(&number);
        assert_eq!(told, (is_sound, !is_sound), "cell {number}");
        match section {
            None => index::check_unsound(played, number, &telling.page, seen)?,
            Some(section) => {
                marks::check(played, number, section, seen)?;
                verdicts::check_card(played, number, section)?;
                labels::check_card(played, number, section, seen)?;
                index::check(played, number, &telling.page, seen)?;
                labels::check_index(played, number, &telling.page, seen)?;
            }
        }
    }
    verdicts::check_list(played, &telling.page, seen)?;
    verdicts::check_explained(played, &telling.explained)?;
    labels::check_area(played, &telling.label, seen)?;
    labels::check_pairs(played, &telling.pairs)
}

const CLASSES: [&str; 45] = [
    "a word was sent and stands",
    "a word was sent and overwritten",
    "a word was sent and overwritten with its like",
    "good",
    "busy, and stored all the same",
    "illegal, and stored all the same",
    "faulty and busy",
    "faulty, illegal and busy",
    "busy, and withheld",
    "illegal, and withheld",
    "both, and withheld",
    "busy, and nothing sent",
    "illegal, and nothing sent",
    "faulty, and nothing sent",
    "nothing heard",
    "a transfer",
    "refused, since the cell is unsound",
    "the newest sent another's words",
    "the newest sent faulty words",
    "the newest is overwritten",
    "the newest is partly overwritten",
    "what the newest sent is overwritten",
    "the newest is not good, an older is",
    "faulty words, not passed",
    "faulty words, passed",
    "two blocks, passed",
    "two blocks, and back",
    "illegal words left",
    "busy words left",
    "words of others stand in the window",
    "yellow, for a cell in use",
    "yellow, for another owner's cell alone",
    "yellow, for a cell of the same owner",
    "a quiet note",
    "no label",
    "a crowd",
    "shared with the same owner",
    "shared with others and the same owner",
    "shared with the same subaddress of nobody",
    "words where another's cell can write",
    "words where a used cell of the same owner can",
    "shared words that are harmless",
    "shared words of nobody",
    "what matters, and what does not",
    "an unowned page",
];

/// Plants every falsehood that is still to be found, where there is a place
/// for it.
fn plant(played: &Played, telling: &Telling, left: &mut Vec<&'static str>) {
    for falsehood in FALSEHOODS
        .iter()
        .filter(|it| left.contains(&it.name))
        .collect::<Vec<_>>()
    {
        if let Some(false_telling) = (falsehood.plant)(played, telling) {
            let found = check(played, &false_telling, &mut Seen::default());
            assert!(found.is_err(), "not found: {}", falsehood.name);
            left.retain(|name| *name != falsehood.name);
        }
    }
}

#[test]
fn what_is_told_of_random_traces_is_true() {
    let mut seen = Seen::default();
    let mut left: Vec<&str> = FALSEHOODS.iter().map(|it| it.name).collect();
    for seed in 1..=36 {
        let trace = match Trace::draw(seed) {
            Some(trace) => trace,
            None => continue,
        };
        let played = Played::new(&trace);
        let telling = Telling::new(&played);
        if let Err(falsehood) = check(&played, &telling, &mut seen) {
            panic!("seed {seed}: {falsehood}");
        }
        plant(&played, &telling, &mut left);
        seen.met("an unowned page", trace.owners.iter().all(Option::is_none));
    }
    assert!(left.is_empty(), "there was no place for {left:?}");
    seen.all(&CLASSES);
}
