//! What a message changed in RAM, and what it sent.

use std::fmt::{self, Write};

use crate::terminal::Answer;
use crate::text::write_words;

const WORDS_IN_LINE: usize = 8;

/// The RAM words that an accepted message changed, and its reply.
pub fn write_changes(
    text: &mut String,
    before: &[u16],
    after: &[u16],
    reply: &[u16],
    answer: &Answer,
) -> fmt::Result {
    let changed = |place: usize| before[place] != after[place];
    let mut place = 0;
    while place < after.len() {
        let length = (place..after.len())
            .take(WORDS_IN_LINE)
            .take_while(|&place| changed(place))
            .count();
        if length > 0 {
            write!(text, "    ram {place:04X}")?;
            write_words(text, &after[place..place + length])?;
            writeln!(text)?;
        }
        place += length.max(1);
    }
    if answer.answered {
        let sent = 1 + usize::from(answer.sent);
        write!(text, "    reply")?;
        write_words(text, &reply[..sent])?;
        writeln!(text)?;
    }
    Ok(())
}
