//! The comparison can fail: it tells every planted error from a good terminal,
//! and makes the case small and readable.

use plain_terminal::compare::coverage::Coverage;
use plain_terminal::compare::replay::{read_case, write_case};
use plain_terminal::compare::shrink::shrink;
use plain_terminal::compare::traces::{long_trace, random_trace, shrink_trace};
use plain_terminal::compare::{compare, Case, Plain};
use plain_terminal::terminal::trace::planted_trace_output;
use plain_terminal::terminal::{trace_output, Planted};

const GOOD: Plain = Plain(Planted::None);

/// The smallest case on which a planted error shows.
fn caught(planted: Planted) -> Case {
    let planted = Plain(planted);
    let mut coverage = Coverage::default();
    let finding = compare(&planted, &GOOD, 1, 100_000, &mut coverage);
    let case = finding.expect("the comparison finds the error").case;
    assert!(case.differs(&planted, &GOOD));
    shrink(&case, |case| case.differs(&planted, &GOOD))
}

#[test]
fn every_class_occurs_and_nothing_differs() {
    let mut coverage = Coverage::default();
    let finding = compare(&GOOD, &GOOD, 1, 60_000, &mut coverage);
    assert!(finding.is_none());
    assert_eq!(coverage.missing(), Vec::<&str>::new(), "{coverage}");
}

#[test]
fn every_planted_error_is_caught() {
    for planted in Planted::ERRORS {
        let case = caught(planted);
        let words = case.state.ram.iter().filter(|&&word| word != 0).count();
        assert!(words <= 4, "{}:\n{}", planted.name(), write_case(&case));
        let lines = case.differences(&Plain(planted), &GOOD);
        assert!(!lines.is_empty());
    }
}

#[test]
fn a_case_can_be_written_and_read_again() {
    for planted in Planted::ERRORS {
        let case = caught(planted);
        let text = write_case(&case);
        let again = read_case(&text).unwrap();
        assert!(again.differs(&Plain(planted), &GOOD), "{text}");
        assert_eq!(write_case(&again), text);
    }
}

#[test]
fn errors_have_names() {
    for planted in Planted::ERRORS {
        assert_eq!(Planted::named(planted.name()), Ok(planted));
    }
    assert!(Planted::named("none").is_err());
}

/// Each text is wrong, and the message says where and how.
fn assert_errors(cases: &[(&str, &str)]) {
    for (text, expected) in cases {
        let error = read_case(text).unwrap_err().to_string();
        assert!(error.starts_with(expected), "{error}");
    }
}

#[test]
fn errors_in_a_case_name_the_line() {
    const LOUD: &str = "settings address 5 area A stack 256 loud";
    const LENT: &str = "line 1: found \"99999\", expected words of RAM, decimal, 0 to 65600";
    const TAG: &str = "line 1: found the end of the line, expected a time tag of";
    const WORDS: &str = "line 3: found words without a word, expected";
    assert_errors(&[
        (
            "ram 0 1\nvalu 1\n",
            "line 2: found \"valu\", expected settings, owner, lent,",
        ),
        (
            "ram 0 1\n",
            "line 1: found no message, expected a message, raw,",
        ),
        (
            "settings address 5 area C",
            "line 1: found \"C\", expected A or B",
        ),
        (LOUD, "line 1: found \"loud\", expected one of"),
        ("lent ram 99999 reply 33", LENT),
        (
            "lent ram 4161 reply 33\nmessage 2861 words 1",
            "line 2: found 4161 words of RAM lent, expected up to 4160",
        ),
        ("value 2861 from 0 tag", TAG),
        ("value +1F", "line 1: found \"+1F\", expected a command of"),
        ("bytes 28 x", "line 1: found \"x\", expected pairs of"),
        (
            "remembered 1 2 3",
            "line 1: found \"3\", expected the end of the line",
        ),
        ("\n\nmessage 2861 words", WORDS),
    ]);
}

#[test]
fn a_case_has_each_line_once_and_one_message() {
    const VALUE: &str = "value 2861 from 0 tag 0 flags 0 count 0 words\nraw 28";
    assert_errors(&[
        (
            "lent ram 1 reply 1\n\nlent ram 1 reply 1",
            "line 3: found a second lent line",
        ),
        (
            "message 2861\nmessage 2861",
            "line 2: found a second message, expected one",
        ),
        (
            "message 2861\nbytes 28",
            "line 2: found a second message, expected one",
        ),
        (VALUE, "line 2: found a second message, expected one"),
    ]);
}

/// What a trace prints shows these errors.
#[test]
fn planted_errors_are_caught_in_traces() {
    for planted in [
        Planted::RolloverWhenKeptBack,
        Planted::WrapByWordCount,
        Planted::ZeroCountIsNone,
        Planted::CountBesideTransferFault,
        Planted::TransferBitsExchanged,
        Planted::UnmarkedTransmitCommand,
        Planted::TransferOnTransmit,
        Planted::CountWithTransferFault,
    ] {
        let differs = |trace: &[u8]| planted_trace_output(planted, trace) != trace_output(trace);
        let trace = (1..200).map(random_trace).find(|trace| differs(trace));
        let trace = trace.expect("some trace shows the error");
        let smallest = shrink_trace(&trace, differs);
        assert!(differs(&smallest));
        let records = (smallest.len() - 8192) / 80;
        assert!(records <= 3, "{}: {records} records", planted.name());
    }
}

#[test]
fn random_traces_have_every_kind_of_line() {
    let mut output = String::new();
    for seed in 1..300 {
        output += &String::from_utf8(trace_output(&random_trace(seed))).unwrap();
    }
    let lines: Vec<&str> = output.lines().collect();
    for number in [0, 5, 6, 7, 8, 9] {
        let column = number.to_string();
        let numbers = lines.iter().map(|line| line.split(' ').nth(1));
        assert!(numbers.flatten().any(|number| number == column), "{number}");
    }
    for start in ["image ", "tail ", "end 0", "end 20000"] {
        assert!(lines.iter().any(|line| line.starts_with(start)), "{start}");
    }
    assert!(output.contains(" none "));
    // Transfers: good, without a status, with a wrong gap, a bad second command.
    for block_status in [" 8800 ", " 9E00 ", " 9C04 ", " 9C02 "] {
        assert!(output.contains(block_status), "{block_status}");
    }
}

#[test]
fn a_long_trace_is_as_long_as_it_says() {
    assert_eq!(long_trace(7).len(), 8192 + 7 * 80);
    assert!(trace_output(&long_trace(7)).ends_with(b"end 7\n"));
}
