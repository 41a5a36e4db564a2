//! RAM as instructions: a line for each pair of words whose first is an op code
//! word, and one for each run of words between them.

use std::fmt::Write;

use crate::front::names::addresses;
use crate::text::list::instruction;

pub fn listing(ram: &[u16], labels: &[(String, u16)]) -> String {
    let mut text = String::new();
    let mut others = 0;
    let mut at = 0;
    while at < ram.len() {
        let line = pair(ram, at);
        match line {
            Some(line) => {
                pass_over(&mut text, others..at);
                let (word, parameter) = (ram[at], ram[at + 1]);
                let label = label_at(labels, at);
                let line = format!("{at:04X}  {word:04X} {parameter:04X}  {label}{line}");
                writeln!(text, "{line}").expect("a string takes all");
                at += 2;
                others = at;
            }
            None => at += 1,
        }
    }
    pass_over(&mut text, others..at);
    text
}

fn pair(ram: &[u16], at: usize) -> Option<String> {
    instruction(ram[at], *ram.get(at + 1)?)
}

fn pass_over(text: &mut String, range: std::ops::Range<usize>) {
    if !range.is_empty() {
        let places = addresses(&range);
        writeln!(text, "{places}  no instruction").expect("a string takes all");
    }
}

fn label_at(labels: &[(String, u16)], at: usize) -> String {
    let mut names = labels.iter().filter(|(_, place)| usize::from(*place) == at);
    names
        .next()
        .map_or(String::new(), |(name, _)| format!("{name}: "))
}
