//! The programs, run as a student would run them.

use std::io::Write;
use std::process::{Command, Output, Stdio};
use std::thread;

use crate::trace::{example_input, EXAMPLE_OUTPUT};

pub const TRACE: &str = env!("CARGO_BIN_EXE_trace_rust");
pub const COMPARE_TRACES: &str = env!("CARGO_BIN_EXE_compare_traces");

pub fn run(program: &str, arguments: &[&str], input: &[u8]) -> Output {
    let mut child = Command::new(program)
        .args(arguments)
        .stdin(Stdio::piped())
        .stdout(Stdio::piped())
        .stderr(Stdio::piped())
        .spawn()
        .unwrap();
    let mut pipe = child.stdin.take().unwrap();
    let input = input.to_vec();
    // Fed from the side, so that full pipes cannot block each other. A program
    // that stops before reading everything breaks the pipe, which is no error.
    let feeder = thread::spawn(move || drop(pipe.write_all(&input)));
    let output = child.wait_with_output().unwrap();
    feeder.join().unwrap();
    output
}

#[test]
fn the_trace_program_prints_the_example() {
    let output = run(TRACE, &[], &example_input());
    assert!(output.status.success());
    assert_eq!(String::from_utf8(output.stdout).unwrap(), EXAMPLE_OUTPUT);
    assert!(output.stderr.is_empty());
}

#[test]
fn traces_are_compared() {
    let compare = |arguments: &[&str]| {
        let arguments = [arguments, &[TRACE]].concat();
        let output = run(COMPARE_TRACES, &arguments, &[]);
        let printed = [output.stdout, output.stderr].concat();
        (output.status.code(), String::from_utf8(printed).unwrap())
    };
    let (status, printed) = compare(&["--traces", "20"]);
    assert_eq!(status, Some(0));
    assert!(printed.starts_with("20 traces from seed 1 on"), "{printed}");

    let (status, printed) = compare(&["--planted", "zero-count-is-none"]);
    assert_eq!(status, Some(0));
    assert!(printed.contains("\nmessage "), "{printed}");

    // This one does not show in what is printed, so it is not found.
    let (status, _) = compare(&["--traces", "5", "--planted", "pointer-after-in-descriptor"]);
    assert_eq!(status, Some(1));

    for (arguments, message) in [
        (["--traces", "many"], "usage: "),
        (["--report", "long"], "usage: "),
        (["--planted", "none"], "the errors are pointer-after-"),
    ] {
        let (status, printed) = compare(&arguments);
        assert_eq!(status, Some(2));
        let expected = format!("compare_traces: {message}");
        assert!(printed.starts_with(&expected), "{printed}");
    }
}
