//! The samples under examples/ print what is stored beside them.

use std::fs;
use std::path::{Path, PathBuf};

use plain_terminal::terminal::trace::{image_words, IMAGE_BYTES};
use plain_terminal::terminal::{read_record, trace_output, Settings};
use plain_terminal::text::read_text;

use crate::helpers::Terminal;

/// Every text of a folder of samples.
fn samples(folder: &str) -> Vec<PathBuf> {
    let examples = Path::new(env!("CARGO_MANIFEST_DIR"))
        .join("..")
        .join(folder);
    let entries = fs::read_dir(examples).unwrap();
    let paths = entries.map(|entry| entry.unwrap().path());
    paths
        .filter(|path| path.extension().map_or(false, |kind| kind == "txt"))
        .collect()
}

/// What the trace program would print with other settings, of good records.
fn lines(settings: Settings, input: &[u8]) -> Vec<u8> {
    let (image, records) = input.split_at(IMAGE_BYTES);
    let mut terminal = Terminal::new(settings, &[]);
    terminal.ram = image_words(image);
    let mut text = String::new();
    let mut number = 0;
    for bytes in records.chunks(80) {
        number += 1;
        let columns = terminal.columns(&read_record(bytes).unwrap());
        let accepted = if columns.contains(' ') { "0 " } else { "" };
        text += &format!("{number} {accepted}{columns}\n");
    }
    (text + &format!("end {number}\n")).into()
}

#[test]
fn samples_print_what_is_stored() {
    for folder in ["examples", "examples/edges"] {
        let samples = samples(folder);
        assert!(!samples.is_empty());
        for text in samples {
            let read = read_text(&fs::read(&text).unwrap()).unwrap();
            let bytes = read.bytes().unwrap();
            let printed = match read.settings {
                None => trace_output(&bytes),
                Some(settings) => lines(settings, &bytes),
            };
            let stored = fs::read(text.with_extension("out")).unwrap();
            assert_eq!(printed, stored, "{}", text.display());
        }
    }
}
