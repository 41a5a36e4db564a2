//! The top of the page: what it is about, and what the marks mean.

use std::io::{self, Write};

use super::board::Board;
use super::html::escape;
use crate::front::names::count;
use crate::front::say;
use crate::front::soundness::stack_faults;

pub fn write_header(out: &mut dyn Write, title: &str, board: &Board) -> io::Result<()> {
    let settings = board.settings();
    let records = board.records();
    let accepted = records - board.refused_in_all;
    let area = if settings.area_b { 'B' } else { 'A' };
    let off = if settings.broadcast {
        ""
    } else {
        ", broadcast off"
    };
    let terminal = format!("Terminal {}, area {area}{off}", settings.address);
    writeln!(out, "<header>\n<h1>{title}</h1>")?;
    write!(out, "<p>{terminal}, after {} ", count(records, "message"))?;
    write!(
        out,
        "({accepted} accepted, {} refused)",
        board.refused_in_all
    )?;
    writeln!(
        out,
        " of <span class=\"file\">{}</span></p>",
        escape(&board.file)
    )?;
    if board.tail > 0 {
        let tail = count(board.tail as u64, "byte");
        writeln!(
            out,
            "<p>Behind them is a tail of {tail}, which is no record.</p>"
        )?;
    }
    if let Some(number) = board.refused_area() {
        let mut why = say::refusal(number, settings).to_string();
        if number == 8 {
            why += &format!(": {}", stack_faults(board.ram(), settings).join(" and "));
        }
        writeln!(
            out,
            "<p class=\"unsound\"><b>No message can be accepted</b>, since {} ({number}).</p>",
            escape(&why)
        )?;
    }
    writeln!(out, "</header>")
}

/// What the marks mean.
pub fn write_key(out: &mut dyn Write) -> io::Result<()> {
    out.write_all(KEY.as_bytes())
}

const KEY: &str = "<section class=\"key\">
<h2>What the letters mean</h2>
<p>A subaddress is a moving pointer and not a place: look where the words came from. It has a cell for each way, to
receive, to transmit and, where that is separate, for broadcasts, each with a pointer of its own.</p>
<ul>
<li><i class=\"n\">N</i> the newest good message for this cell</li>
<li><i class=\"o\">O</i> an older good message for this cell</li>
<li><i class=\"f\">F</i> a faulty, illegal or busy message for this cell, which left its words behind</li>
<li><i class=\"x\">a</i> <i class=\"x\">b</i> another cell: its owner is named beside the words</li>
<li><i class=\"i\">I</i> as in the image: it was there before this trace</li>
<li><i class=\"next\">\u{2192}</i> the pointer stands here now: the next words begin here</li>
<li><i class=\"sent\">\u{2191}</i> sent by the newest good message of a cell that sends, and not written since</li>
</ul>
</section>
";
