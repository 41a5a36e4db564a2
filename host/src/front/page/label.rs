//! The label of a cell: who shares its words. It is yellow where another
//! owner's cell or one in use can write there, and else a quiet note.

use std::io::{self, Write};

use super::board::Board;
use super::html::{self, code, HtmlPen};
use crate::front::names::addresses;
use crate::front::sharing::words::quiet_line;
use crate::front::sharing::{CellSharing, Named};

/// Which other cells share words of this window; nothing where none does.
pub fn write_label(out: &mut dyn Write, board: &Board, cell: u16) -> io::Result<()> {
    let sharing = board.sharers(cell);
    if sharing.is_empty() {
        return Ok(());
    }
    let (class, heading) = heading(board, cell, &sharing);
    writeln!(out, "<aside class=\"{class}\">\n<p>{heading}:</p>\n<ul>")?;
    for named in &sharing.named {
        writeln!(out, "<li>{}</li>", named_line(board, named))?;
    }
    for quiet in &sharing.quiet {
        let line = quiet_line(quiet, &HtmlPen(&board.owners));
        writeln!(out, "<li>{line}</li>")?;
    }
    writeln!(out, "</ul>\n</aside>")
}

fn heading(board: &Board, cell: u16, sharing: &CellSharing) -> (&'static str, &'static str) {
    let mut warning = sharing.named.iter().filter(|named| named.warns);
    let of_others = warning.any(|named| !board.same_owner(cell, named.cell));
    match (sharing.warns(), of_others) {
        (true, true) => (
            "label",
            "<b>Shared words.</b> Cells of others can write in this window",
        ),
        (true, false) => (
            "label",
            "<b>Shared words.</b> A used cell of the same subaddress or owner can write in this window",
        ),
        (false, _) => (
            "quiet",
            "Shared, but no other owner\u{2019}s cell and no other cell in use can write in this window",
        ),
    }
}

fn named_line(board: &Board, named: &Named) -> String {
    let name = html::cell(&board.owners, named.cell);
    let words = code(&addresses(&named.words));
    match (named.warns, named.writes) {
        (true, _) => format!("{name} <b>can write</b> at {words}"),
        (false, true) => format!("{name} can write at {words}, and was never used"),
        (false, false) => format!("{name} only sends {words}"),
    }
}
