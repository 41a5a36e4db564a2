//! The foot of the page: what the whole area shares, and what is unsound in it.

use std::io::{self, Write};

use super::board::Board;
use super::html::{escape, HtmlPen};
use crate::front::names::{addresses, cell_runs};
use crate::front::say;
use crate::front::sharing::words::region_lines;

/// What the whole area shares, and what is unsound in it.
pub fn write_area(out: &mut dyn Write, board: &Board) -> io::Result<()> {
    writeln!(out, "<section class=\"area\">\n<h2>The whole area</h2>")?;
    match board.check.0 {
        0 => {
            let stack = addresses(&board.history.replay.stack().block);
            writeln!(out, "<p>The stack {stack} and every cell are sound.</p>")?;
        }
        9 => {
            let cells = cell_runs(board.unsound());
            writeln!(out, "<p class=\"unsound\">Unsound: {cells}.</p>")?;
        }
        number => {
            let why = escape(say::refusal(number, board.settings()));
            writeln!(
                out,
                "<p class=\"unsound\">Refused with {number}: {why}.</p>"
            )?;
        }
    }
    if board.refused_area().is_none() {
        write_shared(out, board)?;
    }
    writeln!(out, "</section>")
}

/// Each run of shared words with those who share it, what an owner must know
/// first.
fn write_shared(out: &mut dyn Write, board: &Board) -> io::Result<()> {
    match board.pairs() {
        0 => return writeln!(out, "<p>No two cells share a word.</p>"),
        1 => writeln!(out, "<p>1 pair of cells shares words:</p>")?,
        pairs => writeln!(out, "<p>{pairs} pairs of cells share words:</p>")?,
    }
    writeln!(out, "<ul class=\"shared\">")?;
    for region in board.shared() {
        let lines = region_lines(&region, &HtmlPen(&board.owners));
        writeln!(out, "<li>{}</li>", lines.join("<br>"))?;
    }
    writeln!(out, "</ul>")
}
