//! The marks of a window's words, and what pointing at one tells.

use plain_terminal::terminal::writes::Part;

use super::parts::{grid, tells, Held, Seen, Told};
use super::played::{is_good, verdict, Played, Word};
use super::told::plain_cell;

/// Where the newest good message of a cell that only sends has sent a word
/// that stands there still, and its record.
fn sent(played: &Played, number: u16, address: usize, seen: &mut Seen) -> Option<u64> {
    let done = played.newest(number, is_good).filter(|it| !it.stores())?;
    let word: &Word = done.words.iter().find(|it| it.address == address)?;
    let overwriter = played.overwriter(word);
    seen.met("a word was sent and stands", overwriter.is_none());
    let again = overwriter.map_or(false, |_| played.ram[address] == word.word);
    seen.met(
        "a word was sent and overwritten",
        overwriter.is_some() && !again,
    );
    seen.met("a word was sent and overwritten with its like", again);
    match overwriter {
        None => Some(done.record),
        Some(_) => None,
    }
}

/// The letter of the place among others: a to z, a2 and on.
fn small_letter(place: usize) -> String {
    let letter = char::from(b'a' + (place % 26) as u8);
    match place / 26 {
        0 => letter.to_string(),
        round => format!("{letter}{}", round + 1),
    }
}

/// The mark of a word without signs, and what is told of it.
fn mark(played: &Played, number: u16, address: usize, others: &mut Vec<u16>) -> (String, String) {
    let origin = match played.who(address) {
        None => return ("I".into(), "as in the image".into()),
        Some(origin) => origin,
    };
    let done = played.of(origin.record);
    let newest = played.newest(number, is_good).map(|it| it.record);
    let (letter, whose) = if origin.cell != number {
        if !others.contains(&origin.cell) {
            others.push(origin.cell);
        }
        let place = others.iter().position(|&it| it == origin.cell).unwrap();
        let went = match is_good(done) {
            true => String::new(),
            false => format!("{}, ", verdict(done)),
        };
        let name = plain_cell(played, origin.cell);
        (small_letter(place), format!("{went}for {name}"))
    } else if !is_good(done) {
        ("F".into(), format!("{} message", verdict(done)))
    } else if newest == Some(origin.record) {
        ("N".into(), "the newest good message".into())
    } else {
        ("O".into(), "an older good message".into())
    };
    let place = match origin.part {
        Part::Data(place) => place,
        _ => panic!("no data word in a window"),
    };
    let (record, tag) = (origin.record, done.value.tag);
    let told = format!("record {record}, tag {tag:04X}, word {place}: {whose}");
    (letter, told)
}

pub fn check(played: &Played, number: u16, article: &str, seen: &mut Seen) -> Held {
    let words = grid(article);
    let window: Vec<usize> = played.cell(number).window.collect();
    let addresses: Vec<usize> = words.iter().map(|it| it.address).collect();
    tells(
        "addresses",
        &format!("{addresses:?}"),
        &format!("{window:?}"),
    )?;
    let mut others = Vec::new();
    for Told {
        address,
        word,
        mark: signs,
        told,
    } in &words
    {
        let what = format!("cell {number}, {address:04X}");
        let now = played.ram[*address];
        tells(&what, &format!("{word:04X}"), &format!("{now:04X}"))?;
        let (mut mark, mut must) = mark(played, number, *address, &mut others);
        if let Some(record) = sent(played, number, *address, seen) {
            mark += "\u{2191}";
            must += &format!("; sent by record {record}");
        }
        if *address == usize::from(played.cell(number).pointer) {
            mark += "\u{2192}";
            must += "; the pointer stands here";
        }
        tells(&what, signs, &mark)?;
        if !told.is_empty() {
            tells(&what, told, &format!("{address:04X}: {word:04X}, {must}"))?;
        }
    }
    Ok(())
}
