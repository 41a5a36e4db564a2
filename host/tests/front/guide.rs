//! The guides show what is printed.

use std::fs;

use crate::shell::{read, root, run};

fn guide() -> String {
    read("docs/CLASS.md")
}

/// The blocks of a document between lines of three backquotes.
fn blocks(document: &str) -> Vec<String> {
    let mut blocks = Vec::new();
    let mut block: Option<String> = None;
    for line in document.lines() {
        match (&mut block, line.starts_with("```")) {
            (None, true) => block = Some(String::new()),
            (Some(_), true) => blocks.extend(block.take()),
            (Some(text), false) => *text += &format!("{line}\n"),
            (None, false) => {}
        }
    }
    blocks
}

/// What the last lines of a test program's script print: from their first line
/// on, a heading, what is stored.
fn stored(program: &str, lines: usize) -> String {
    let read = |file| fs::read_to_string(root().join(format!("crates/{program}/{file}"))).unwrap();
    let script = read("stdin");
    let heading = script.lines().rev().nth(lines - 1).unwrap();
    let output = read("stdout");
    let from = output.rfind(&format!("{heading}\n")).unwrap();
    output[from..].into()
}

/// What a command of the guide prints: that of the program, or of a test
/// program on the end of its script.
fn printed(command: &str) -> Option<String> {
    let words: Vec<&str> = command.split(' ').collect();
    match words[..] {
        ["$", "./solkverva", ..] => {
            let said = run(&command[2..]);
            assert_eq!(said.errors, "", "{command}");
            Some(said.output)
        }
        ["$", "tail", "-n", lines, script, "|", "scripts/run-program", name] => {
            assert_eq!(script, format!("crates/{name}/stdin"));
            Some(stored(name, lines.parse().unwrap()))
        }
        _ => None,
    }
}

#[test]
fn the_commands_print_what_is_shown() {
    let mut commands = 0;
    for block in blocks(&guide()) {
        let (first, shown) = block.split_once('\n').unwrap_or_default();
        if let Some(printed) = printed(first) {
            match shown.strip_suffix("...\n") {
                Some(beginning) => assert!(printed.starts_with(beginning), "{first}"),
                None => assert_eq!(shown, printed, "{first}"),
            }
            commands += 1;
        }
    }
    assert_eq!(commands, 29);
}

#[test]
fn the_samples_are_those_under_examples() {
    for sample in [
        "pointer",
        "owners",
        "bad",
        "saturday",
        "transfers",
        "trainer",
        "long/outlasts",
        "large/circle",
    ] {
        let text = read(&format!("examples/{sample}.txt"));
        assert!(blocks(&guide()).contains(&text), "{sample}");
    }
}

/// The error is planted in the plain side, as the guide says.
#[test]
fn a_comparison_prints_what_is_shown() {
    let bin = "host/target/release";
    let line = format!("{bin}/compare_traces --planted zero-count-is-none {bin}/trace_rust");
    let printed = run(&line).output;
    assert!(blocks(&guide()).contains(&printed), "{printed}");
}
