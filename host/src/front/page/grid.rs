//! The words of a window with their marks.

use std::io::{self, Write};
use std::ops::Range;

use super::board::Board;
use super::html::{code, escape};
use super::word::{tell, window_words, Mark, Word};
use crate::front::names::{addresses, bare_cell_name};
use crate::front::who::follows;

const WORDS_IN_ROW: usize = 8;

/// The other cells whose words stand in a window, in the order of the words.
fn others(words: &[Word]) -> Vec<u16> {
    let mut others = Vec::new();
    for word in words {
        match word.mark {
            Mark::Other(cell) if !others.contains(&cell) => others.push(cell),
            _ => {}
        }
    }
    others
}

/// The letter of a mark, and its class.
fn letter(mark: Mark, others: &[u16]) -> (String, &'static str) {
    match mark {
        Mark::Newest => ("N".into(), "n"),
        Mark::Older => ("O".into(), "o"),
        Mark::Faulty => ("F".into(), "f"),
        Mark::Image => ("I".into(), "i"),
        Mark::Other(cell) => {
            let place = others.iter().position(|&other| other == cell);
            (small_letter(place.unwrap_or(0)), "x")
        }
    }
}

/// a to z, and then a2, b2 and on.
fn small_letter(place: usize) -> String {
    let letter = char::from(b'a' + (place % 26) as u8);
    match place / 26 {
        0 => letter.to_string(),
        round => format!("{letter}{}", round + 1),
    }
}

/// The words of a cell's window, as a grid and as a list.
pub fn write_window(out: &mut dyn Write, board: &Board, cell: u16) -> io::Result<()> {
    let words = window_words(board, cell);
    let others = others(&words);
    let name = bare_cell_name(cell);
    writeln!(out, "<div class=\"window\">")?;
    writeln!(
        out,
        "<table class=\"words\" aria-label=\"words of {name}\">"
    )?;
    for row in rows(&words) {
        write_row(out, board, &words[row], &others)?;
    }
    writeln!(out, "</table>")?;
    write_runs(out, board, &words, &others)?;
    writeln!(out, "</div>")
}

fn write_row(out: &mut dyn Write, board: &Board, row: &[Word], others: &[u16]) -> io::Result<()> {
    let Word { address, word, .. } = row[0];
    if row.len() > WORDS_IN_ROW {
        let last = address + row.len() - 1;
        return writeln!(
            out,
            "<tr class=\"gap\"><th scope=\"row\">{address:04X}</th><td colspan=\"{WORDS_IN_ROW}\">\
             to {last:04X}: each {word:04X}, as in the image <i>I</i></td></tr>"
        );
    }
    write!(out, "<tr><th scope=\"row\">{address:04X}</th>")?;
    for word in row {
        write_word(out, board, word, others)?;
    }
    writeln!(out, "</tr>")
}

/// The rows of a grid. Rows of nothing but one and the same word of the image
/// are drawn together.
fn rows(words: &[Word]) -> Vec<Range<usize>> {
    let mut rows: Vec<Range<usize>> = Vec::new();
    let mut start = 0;
    while start < words.len() {
        let end = words.len().min(start + WORDS_IN_ROW);
        match rows.last_mut() {
            Some(row) if is_empty(&words[row.start..end]) => row.end = end,
            _ => rows.push(start..end),
        }
        start = end;
    }
    rows
}

fn is_empty(words: &[Word]) -> bool {
    words.iter().all(|word| {
        let plain = word.mark == Mark::Image && !word.is_next && word.sent_by.is_none();
        plain && word.word == words[0].word
    })
}

fn write_word(out: &mut dyn Write, board: &Board, word: &Word, others: &[u16]) -> io::Result<()> {
    let (letter, class) = letter(word.mark, others);
    let mut classes = class.to_string();
    let mut signs = letter;
    let mut told = format!(
        "{:04X}: {:04X}, {}",
        word.address,
        word.word,
        tell(board, word, word)
    );
    if let Some(record) = word.sent_by {
        classes += " sent";
        signs += "\u{2191}";
        told += &format!("; sent by record {record}");
    }
    if word.is_next {
        classes += " next";
        signs += "\u{2192}";
        told += "; the pointer stands here";
    }
    write!(
        out,
        "<td class=\"{classes}\" tabindex=\"-1\" aria-label=\"{}\">{:04X}<i>{signs}</i></td>",
        escape(&told),
        word.word
    )
}

/// What pointing at a word tells, as a list.
fn write_runs(
    out: &mut dyn Write,
    board: &Board,
    words: &[Word],
    others: &[u16],
) -> io::Result<()> {
    writeln!(out, "<ul class=\"runs\">")?;
    let mut start = 0;
    while start < words.len() {
        let end = (start + 1..words.len())
            .find(|&next| !follows(words[next - 1].origin, words[next].origin))
            .unwrap_or(words.len());
        let (first, last) = (&words[start], &words[end - 1]);
        let (letter, class) = letter(first.mark, others);
        let places = addresses(&(first.address..last.address + 1));
        writeln!(
            out,
            "<li><i class=\"{class}\">{letter}</i> {} {}</li>",
            code(&places),
            told_run(board, first, last)
        )?;
        start = end;
    }
    writeln!(out, "</ul>")
}

/// Another's words stand out.
fn told_run(board: &Board, first: &Word, last: &Word) -> String {
    let told = escape(&tell(board, first, last));
    match first.mark {
        Mark::Other(_) => format!("<b>{told}</b>"),
        _ => told,
    }
}
