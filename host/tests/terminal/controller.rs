//! The controller of this package: the makers' words and runs, the samples, the
//! assembler, and that its planted errors show.

use std::fs;

use plain_terminal::compare::control::coverage::Coverage;
use plain_terminal::compare::control::sides::{plain, ERRORS};
use plain_terminal::compare::control::{compare, legal_words, one_outcome};
use plain_terminal::controller::opcode::{OpCode, Operation};
use plain_terminal::controller::{go_on, start, End, Machine, Ran};
use plain_terminal::terminal::trace::image_words;
use plain_terminal::text::list::instruction;
use plain_terminal::text::read_text;

/// A sample's run, with another budget where one is given.
fn sample(name: &str, budget: Option<u64>) -> Ran {
    let path = format!(
        "{}/../examples/control/{name}.txt",
        env!("CARGO_MANIFEST_DIR")
    );
    run(&fs::read_to_string(path).unwrap(), budget).unwrap()
}

fn run(text: &str, budget: Option<u64>) -> Result<Ran, u16> {
    let read = read_text(text.as_bytes()).unwrap();
    let list = read.list;
    start(
        &image_words(&read.image),
        &read.records,
        list.start.unwrap(),
        list.flags.unwrap_or(0),
        budget.or(list.budget).unwrap_or(1000),
    )
}

fn ended(ran: &Ran) -> (End, u64, usize) {
    (ran.end, ran.steps, ran.machine.place / 80)
}

#[test]
fn the_makers_words_are_made_and_read() {
    let words = [
        (Operation::Xeq, 0x054F, 0x855F),
        (Operation::Jmp, 0x094F, 0x895F),
        (Operation::Cal, 0x8D4F, 0x0D5F),
        (Operation::Rtn, 0x114F, 0x915F),
        (Operation::Hlt, 0x1D4F, 0x9D5F),
        (Operation::Flg, 0xB14F, 0x315F),
    ];
    for (operation, always, never) in words {
        for (word, condition) in [(always, 0x0F), (never, 0x1F)] {
            let op = OpCode {
                operation,
                condition,
            };
            assert_eq!(op.word(), word);
            assert_eq!(OpCode::read(word), Ok(op));
        }
    }
}

#[test]
fn of_all_words_192_are_instructions() {
    let words = legal_words(go_on, &one_outcome());
    assert_eq!(words.len(), 192);
    assert!(words.iter().all(|word| instruction(*word, 0).is_some()));
}

#[test]
fn the_frame_of_table_106_runs_with_and_without_the_inserted_messages() {
    let frame = sample("frame", None);
    assert_eq!(ended(&frame), (End::Halt, 4, 2));
    assert_eq!(frame.machine.pointer, 0x0408);
    let inserted = sample("inserted", None);
    assert_eq!(ended(&inserted), (End::Halt, 8, 4));
    assert_eq!((inserted.machine.flags, inserted.machine.depth()), (0, 0));
    assert_eq!(ended(&sample("short", None)), (End::NoOutcome, 6, 3));
    assert_eq!(ended(&sample("budget", None)), (End::Budget, 5, 3));
}

#[test]
fn four_calls_nest_and_a_fifth_is_bad() {
    let nested = sample("nested", None);
    assert_eq!(ended(&nested), (End::BadInstruction, 4, 0));
    assert_eq!(
        (nested.machine.pointer, nested.machine.depth()),
        (0x0440, 4)
    );
}

#[test]
fn a_bad_message_is_repeated() {
    let retry = sample("retry", None);
    assert_eq!(ended(&retry), (End::Halt, 15, 4));
    assert_eq!(retry.machine.flags, 1);
}

#[test]
fn behind_rams_end_there_is_nothing() {
    let end = sample("end", None);
    assert_eq!(ended(&end), (End::BadInstruction, 2, 0));
    assert_eq!(end.machine.pointer, 0x1000);
}

#[test]
fn a_bigger_budget_changes_nothing_once_the_run_has_ended() {
    for name in ["frame", "inserted", "short", "nested", "retry", "end"] {
        let whole = sample(name, None);
        for more in [0, 1, 2, 100] {
            assert_eq!(sample(name, Some(whole.steps + 1 + more)), whole, "{name}");
        }
        for budget in 0..whole.steps {
            let ran = sample(name, Some(budget));
            assert_eq!((ran.end, ran.steps), (End::Budget, budget), "{name}");
        }
    }
}

#[test]
fn start_and_length_of_ram_are_refused() {
    let ram = vec![0; 4096];
    assert_eq!(start(&ram, &[], 4095, 0, 9), Err(15));
    assert_eq!(start(&ram, &[], 0xFFFF, 0, 0), Err(15));
    assert!(start(&ram, &[], 4094, 0, 9).is_ok());
    assert_eq!(start(&ram[1..], &[], 4095, 0, 9), Err(1));
    assert_eq!(go_on(&ram[1..], &[], Machine::new(4095, 0), 9), Err(1));
    let beyond = go_on(&ram, &[], Machine::new(4095, 0), 9).unwrap();
    assert_eq!((beyond.end, beyond.steps), (End::BadInstruction, 0));
}

#[test]
fn what_is_printed_as_an_instruction_assembles_to_the_same_words() {
    for word in legal_words(go_on, &one_outcome()) {
        let op = OpCode::read(word).unwrap();
        let text = instruction(word, 0x0102).unwrap();
        let read = read_text(format!("list 0400\n{text}\n").as_bytes()).unwrap();
        let ram = image_words(&read.image);
        // FLG is printed without its condition, which nobody looks at.
        let always = OpCode {
            condition: 0x0F,
            ..op
        };
        let expected = if op.is_conditional() {
            word
        } else {
            always.word()
        };
        assert_eq!(ram[0x0400], expected, "{text}");
    }
}

#[test]
fn every_planted_error_shows() {
    for (name, planted) in ERRORS {
        let found = compare(planted, plain, 1, 20_000, &mut Coverage::default());
        assert!(found.is_some(), "{name}");
    }
}
