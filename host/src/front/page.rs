//! `page`: the club's page, one HTML file.

mod area;
mod board;
mod cell;
mod facts;
mod fate;
mod grid;
mod html;
mod index;
mod label;
mod left;
mod messages;
mod top;
mod word;

use std::io::{self, BufWriter, Write};
use std::process::ExitCode;

pub use board::Board;

use super::file;
use super::options::Given;
use super::problem::{self, Problem};
use super::source::{self, Source};
use html::{escape, name};

const STYLE: &str = include_str!("page/style.css");

/// What nobody can change from outside: the page fetches nothing and runs
/// nothing.
const POLICY: &str = "default-src 'none'; style-src 'unsafe-inline'";

pub fn run(given: &Given, output: &mut dyn Write) -> Result<ExitCode, Problem> {
    let target = given
        .value("-o")
        .ok_or_else(|| Problem::Use("page: where to? -o PAGE names the file".into()))?;
    source::refuse_as_target(given, target)?;
    let title = given.value("--title").map(|title| title.to_string_lossy());
    let mut source = Source::open(given)?;
    let board = Board::read(&mut source)?;
    let title = title.as_deref().unwrap_or("What arrived");
    if target == "-" {
        let mut page = BufWriter::new(output);
        let written = write_page(&mut page, title, &board).and_then(|()| page.flush());
        written.map_err(problem::output)?;
    } else {
        file::write_whole(target, |page| write_page(page, title, &board))?;
    }
    Ok(ExitCode::SUCCESS)
}

/// The whole page.
pub fn write_page(out: &mut dyn Write, title: &str, board: &Board) -> io::Result<()> {
    let title = escape(title);
    let heading = format!("{title}: terminal {}", board.settings().address);
    write!(
        out,
        "<!DOCTYPE html>\n<html lang=\"en\">\n<head>\n<meta charset=\"utf-8\">\n\
         <meta name=\"viewport\" content=\"width=device-width, initial-scale=1\">\n\
         <meta http-equiv=\"Content-Security-Policy\" content=\"{POLICY}\">\n\
         <title>{heading}</title>\n<style>\n{STYLE}</style>\n</head>\n<body>\n"
    )?;
    top::write_header(out, &title, board)?;
    if board.refused_area().is_none() {
        index::write_index(out, board)?;
        top::write_key(out)?;
        write_owners(out, board)?;
    }
    messages::write_stack(out, board)?;
    messages::write_refused(out, board)?;
    area::write_area(out, board)?;
    writeln!(out, "</body>\n</html>")
}

/// A section for each owner, with his subaddresses.
fn write_owners(out: &mut dyn Write, board: &Board) -> io::Result<()> {
    writeln!(out, "<main>")?;
    for (owner, subaddresses) in board.by_owner() {
        writeln!(out, "<section class=\"owner\">")?;
        match owner {
            Some(owner) => writeln!(out, "<h2>{}</h2>", name(owner))?,
            None => writeln!(out, "<h2>Subaddresses that had a message</h2>")?,
        }
        for subaddress in subaddresses {
            cell::write_subaddress(out, board, subaddress)?;
        }
        writeln!(out, "</section>")?;
    }
    writeln!(out, "</main>")
}
