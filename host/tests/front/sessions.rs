//! Sessions: commands with all that they print, stored under sessions/. A line
//! after `$ ` is a command; what it prints follows, errors after `! `, and its
//! exit status after `= ` where it is not 0. Lines after `## ` say what is tried.
//! Each session has an empty folder of its own, `$tmp`. With STORE_SESSIONS set, what is printed now is stored.

use std::env;
use std::fs;

use crate::shell::{folder, read, root, run, run_in, Said};

const FOLDER: &str = "host/tests/front/sessions";

/// A session's lines, with what its commands print now.
fn replay(name: &str, session: &str) -> String {
    let folder = folder(&format!("session_{name}"));
    let mut text = String::new();
    for line in session.lines() {
        if line.starts_with("## ") {
            text += &format!("{line}\n");
        } else if let Some(command) = line.strip_prefix("$ ") {
            text += &format!("{line}\n{}", shown(&run_in(&folder, command)));
        }
    }
    text
}

fn shown(said: &Said) -> String {
    let mut text = said.output.clone();
    if !text.is_empty() && !text.ends_with('\n') {
        text += "\n";
    }
    for line in said.errors.lines() {
        text += &format!("! {line}\n");
    }
    if said.status != 0 {
        text += &format!("= {}\n", said.status);
    }
    text
}

fn holds(name: &str) {
    let path = format!("{FOLDER}/{name}.txt");
    let stored = read(&path);
    let now = replay(name, &stored);
    if env::var_os("STORE_SESSIONS").is_some() {
        fs::write(root().join(&path), now).unwrap();
        return;
    }
    for (place, (was, is)) in stored.lines().zip(now.lines()).enumerate() {
        assert_eq!(was, is, "{path}, line {}", place + 1);
    }
    assert_eq!(stored, now, "{path}");
}

#[test]
fn run_prints_what_is_stored() {
    holds("run");
}

#[test]
fn broadcast_prints_what_is_stored() {
    holds("broadcast");
}

#[test]
fn check_prints_what_is_stored() {
    holds("check");
}

#[test]
fn label_prints_what_is_stored() {
    holds("label");
}

#[test]
fn who_prints_what_is_stored() {
    holds("who");
}

#[test]
fn control_prints_what_is_stored() {
    holds("control");
}

#[test]
fn page_prints_what_is_stored() {
    holds("page");
}

#[test]
fn odd_conditions_print_what_is_stored() {
    holds("odd");
}

/// A page is on the disk before it has its name. On x86-64 alone: elsewhere the
/// program has its C library in itself, and nothing can be loaded before it.
#[cfg(target_arch = "x86_64")]
#[test]
fn a_page_is_synced_before_it_is_named() {
    let line =
        "cc -Wall -Wextra -Werror -shared -fPIC -o $tmp/steps.so host/tests/front/steps.c -ldl && \
        LD_PRELOAD=$tmp/steps.so host/target/x86_64-unknown-linux-gnu/release/solkverva \
        page examples/owners.txt -o $tmp/page.html";
    let said = run_in(&folder("steps"), line);
    assert_eq!(said.errors, "file synced\nnamed\nfolder synced\n");
    assert_eq!(said.status, 0);
}

#[test]
fn conversion_prints_what_is_stored() {
    holds("convert");
}

#[test]
fn transfers_print_what_is_stored() {
    holds("transfers");
}

#[test]
fn long_records_print_what_is_stored() {
    holds("long");
}

#[test]
fn the_64k_card_prints_what_is_stored() {
    holds("large");
}

#[test]
fn help_prints_what_is_stored() {
    holds("help");
}

/// What is printed is what is stored, and without a settings line what the
/// trace program prints of the packed bytes.
#[test]
fn samples_print_what_the_trace_program_prints() {
    let mut samples = 0;
    for folder in ["examples", "examples/edges"] {
        for entry in fs::read_dir(root().join(folder)).unwrap() {
            let name = entry.unwrap().file_name().into_string().unwrap();
            if let Some(sample) = name.strip_suffix(".out") {
                let stored = read(&format!("{folder}/{name}"));
                let text = format!("{folder}/{sample}.txt");
                let mut runs = vec![run(&format!("./solkverva run {text}"))];
                if !read(&text).lines().any(|line| line.starts_with("settings")) {
                    let bytes = format!("./solkverva pack {text} | ./solkverva run --bytes -");
                    runs.push(run(&bytes));
                }
                for said in runs {
                    assert_eq!(said.output, stored, "{text}");
                    assert_eq!((said.errors.as_str(), said.status), ("", 0), "{text}");
                }
                samples += 1;
            }
        }
    }
    assert!(samples >= 15, "{samples}");
}
