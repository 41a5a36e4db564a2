//! The page in a real browser: at the width of a phone and of a desk, in
//! light and dark colours, and printed. What a member sees there is stored under browser/; with
//! STORE_SESSIONS set, what is seen now is stored.

use std::env;
use std::fs;

use crate::shell::{read, root, run};

const FOLDER: &str = "host/tests/front/browser";

/// A name that would do harm if it were not escaped, one that is long, and one
/// that is written from right to left.
const STRANGE: &str = "owner 3 <script>fetch('//x')</script> & \"Co\" 'n <b>sons\\n\
    owner 4 Wolfeschlegelsteinhausenbergerdorffwelchevoralternwarengewissenhaft\\n\
    owner 5 \u{633}\u{644}\u{645}\u{649}\\n\
    settings address 5 area A stack 256 separate-broadcast\\n\
    ram 0143 0480\\nram 0144 0490\\nram 0145 0800\\nram 01A5 0084\\nram 0185 0C00\\n\
    message 2863 words 1 2 3\\nmessage 2884 words 4 5 6\\nmessage 28A1 words 7 tag 9\\n\
    message F8A2 words 8 9\\nmessage 3061 words 1\\nraw 01\\n";

/// The lists of a card, which paper has too, and its facts.
const LISTS: [&str; 3] = ["run ", "label ", "note "];
const FACTS: [&str; 4] = [
    "Newest message",
    "Newest good one",
    "What record",
    "Left behind",
];

/// What paper must show of a line.
fn on_paper(line: &str) -> Option<&str> {
    let listed = LISTS.iter().find_map(|list| line.strip_prefix(list));
    listed.or_else(|| {
        let (name, fact) = line.split_once(": ")?;
        let is_fact = FACTS.iter().any(|fact| name.starts_with(fact));
        is_fact.then_some(fact)
    })
}

fn shell(line: &str) -> String {
    let said = run(line);
    assert_eq!(said.status, 0, "{line}: {}", said.errors);
    said.output
}

/// A headless browser with a folder of its own; scripts/browser has its flags.
fn browser(words: &str) -> String {
    shell(&format!(
        "scripts/browser --user-data-dir=$tmp/browser {words}"
    ))
}

/// What is seen of a page: on a phone, on a desk, and by night.
fn seen(name: &str) -> String {
    let views = [
        ("phone", 360, "light"),
        ("desk", 1280, "light"),
        ("night", 1280, "dark"),
    ];
    let frames = views.map(|(title, width, colours)| {
        let style = format!("width:{width}px;height:900px;border:0;color-scheme:{colours}");
        format!("<iframe title='{title}' style='{style}' src='{name}.html'></iframe>")
    });
    let frames = frames.concat();
    let look = read(&format!("{FOLDER}/look.js"));
    let html =
        format!("<!DOCTYPE html><meta charset='utf-8'><pre></pre>{frames}<script>{look}</script>");
    let tmp = env!("CARGO_TARGET_TMPDIR");
    fs::write(format!("{tmp}/look_{name}.html"), html).unwrap();
    let dump = browser(&format!("--dump-dom file://$tmp/look_{name}.html"));
    let from = dump.find("<pre>").expect("a list of what is seen") + "<pre>".len();
    let to = dump.find("</pre>").expect("its end");
    unescape(&dump[from..to])
}

fn unescape(html: &str) -> String {
    let text = html.replace("&lt;", "<").replace("&gt;", ">");
    text.replace("&nbsp;", "\u{a0}").replace("&amp;", "&")
}

/// The page as it is printed, letters only.
fn printed(name: &str) -> String {
    browser(&format!(
        "--print-to-pdf=$tmp/{name}.pdf --no-pdf-header-footer file://$tmp/{name}.html"
    ));
    letters(&shell(&format!("pdftotext $tmp/{name}.pdf -")))
}

/// Without blanks and line ends, which a printed line has where it likes.
fn letters(text: &str) -> String {
    text.split_whitespace().collect()
}

/// Each view shows the same, it is what is stored, and print has it too.
fn holds(name: &str, text: &str) {
    shell(&format!("./solkverva page {text} -o $tmp/{name}.html"));
    let seen = seen(name);
    let mut views = seen.split("== ").skip(1);
    let mut view = |title: &str| {
        let view = views.next().and_then(|view| view.strip_prefix(title));
        view.expect(title).trim_end()
    };
    let [phone, desk, night] = ["phone\n", "desk\n", "night\n"].map(&mut view);
    assert_eq!(phone, desk, "{name}: at a phone's and a desk's width");
    assert_eq!(night, desk, "{name}: by night");

    let path = format!("{FOLDER}/{name}.txt");
    let now = format!("{desk}\n");
    if env::var_os("STORE_SESSIONS").is_some() {
        fs::write(root().join(&path), &now).unwrap();
    }
    for (place, (was, is)) in read(&path).lines().zip(now.lines()).enumerate() {
        assert_eq!(was, is, "{path}, line {}", place + 1);
    }
    assert_eq!(read(&path), now, "{path}");

    let printed = printed(name);
    let mut looked_for = 0;
    for line in desk.lines().map(str::trim) {
        if let Some(told) = on_paper(line) {
            assert!(printed.contains(&letters(told)), "{name}, printed: {told}");
            looked_for += 1;
        }
    }
    assert!(looked_for > 0, "{name}: no line to look for in print");
}

/// One browser at a time: two on a small machine take longer than one after
/// the other.
#[test]
fn pages_show_what_is_stored() {
    for sample in ["pointer", "owners", "bad", "saturday", "transfers"] {
        holds(sample, &format!("examples/{sample}.txt"));
    }
    shell(&format!(
        "printf '%b' \"{}\" >$tmp/strange.txt",
        quoted(STRANGE)
    ));
    holds("strange", "- <$tmp/strange.txt");
}

/// For a shell's double quotes.
fn quoted(text: &str) -> String {
    text.replace('\\', "\\\\")
        .replace('"', "\\\"")
        .replace('$', "\\$")
}
