//! The section of a subaddress: each of its cells with its window's words.

use std::io::{self, Write};

use super::board::Board;
use super::facts::write_facts;
use super::grid::write_window;
use super::html::escape;
use super::label::write_label;
use crate::front::explain::scheme;
use crate::front::names::bare_cell_name;
use crate::front::soundness::cell_faults;

pub fn write_subaddress(out: &mut dyn Write, board: &Board, subaddress: u16) -> io::Result<()> {
    writeln!(out, "<section class=\"subaddress\" id=\"sa{subaddress}\">")?;
    writeln!(out, "<h3>Subaddress {subaddress}</h3>")?;
    for cell in board.cells_of(subaddress) {
        if board.unsound().contains(&cell) {
            write_unsound(out, board, cell)?;
        } else {
            write_cell(out, board, cell)?;
        }
    }
    writeln!(out, "</section>")
}

fn write_unsound(out: &mut dyn Write, board: &Board, cell: u16) -> io::Result<()> {
    let faults = cell_faults(board.ram(), board.settings(), cell).join(" and ");
    let name = bare_cell_name(cell);
    writeln!(
        out,
        "<p class=\"unsound\" data-cell=\"{cell}\"><b>{name} is unsound</b>: {}. \
         Messages for it are refused.</p>",
        escape(&faults)
    )
}

fn write_cell(out: &mut dyn Write, board: &Board, cell: u16) -> io::Result<()> {
    let name = bare_cell_name(cell);
    let view = board.history.replay.cell(cell);
    let scheme = escape(&scheme(&view));
    writeln!(
        out,
        "<article class=\"cell\" id=\"cell{cell}\" data-cell=\"{cell}\">"
    )?;
    writeln!(out, "<h4>{name} <small>{scheme}</small></h4>")?;
    write_label(out, board, cell)?;
    write_facts(out, board, cell, view.pointer)?;
    write_window(out, board, cell)?;
    writeln!(out, "</article>")
}
