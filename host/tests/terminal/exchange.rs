//! Lists of messages in two orders: this package's terminal is as demand 3
//! says, and the comparison can fail.

use std::fs;
use std::path::Path;

use plain_terminal::compare::Plain;
use plain_terminal::exchange::draw::random_list;
use plain_terminal::exchange::replay::{read_list, write_list};
use plain_terminal::exchange::run::{differs, Met};
use plain_terminal::exchange::said::Both;
use plain_terminal::exchange::shrink::shrink_list;
use plain_terminal::exchange::{compare_lists, Forgotten, List};
use plain_terminal::terminal::{Planted, Record};

const GOOD: Plain = Plain(Planted::None);

/// The smallest list found that is not as said.
fn found(side: &Plain, forgotten: Forgotten) -> Option<List> {
    let finding = compare_lists(side, forgotten, 1..400, &mut Met::default())?;
    let is_found = |list: &List| differs(side, forgotten, list);
    assert!(is_found(&finding.list));
    Some(shrink_list(&finding.list, is_found))
}

#[test]
fn every_class_occurs_and_all_is_as_said() {
    let mut met = Met::default();
    let finding = compare_lists(&GOOD, Forgotten::Nothing, 1..2001, &mut met);
    assert!(finding.is_none());
    assert_eq!(met.missing(), Vec::<&str>::new(), "{}", met.lists);
}

#[test]
fn every_condition_matters() {
    for forgotten in Forgotten::CONDITIONS {
        let list = found(&GOOD, forgotten).expect(forgotten.name());
        // One or two may be there to move a pointer to where the others show it.
        let messages = list.messages.len();
        assert!((2..=4).contains(&messages), "{}", write_list(&list));
        assert_eq!(list.exchanges, [messages - 2]);
        let objection = list.objection(&GOOD, Forgotten::Nothing).unwrap();
        let (a, b) = (messages - 1, messages);
        let expected = format!("messages {a} and {b} may not change places");
        assert_eq!(objection, expected);
        let words = list.start.ram.iter().filter(|&&word| word != 0).count();
        assert!(words <= 8, "{}", write_list(&list));
    }
}

/// A terminal whose words run on into the next window.
#[test]
fn a_message_that_leaves_its_window_is_found() {
    let planted = Plain(Planted::WrapByWordCount);
    let list = found(&planted, Forgotten::Nothing).unwrap();
    assert!(list.messages.len() <= 3, "{}", write_list(&list));
    assert!(!differs(&GOOD, Forgotten::Nothing, &list));
}

#[test]
fn a_list_can_be_written_and_read_again() {
    for seed in 1..40 {
        let list = random_list(seed, Forgotten::Nothing);
        let again = read_list(&write_list(&list)).unwrap();
        assert!(again == list, "seed {seed}");
    }
}

#[test]
fn conditions_have_names() {
    for forgotten in Forgotten::CONDITIONS {
        assert_eq!(Forgotten::named(forgotten.name()), Some(forgotten));
    }
    assert_eq!(Forgotten::named("nothing"), None);
}

#[test]
fn errors_in_a_list_name_the_line() {
    for (text, expected) in [
        (
            "ram 0 1\n",
            "line 1: found no message, expected a message, raw,",
        ),
        (
            "message 2861 words 1\nexchange 1\n",
            "line 2: found \"1\", expected a place from 1 to 0",
        ),
        (
            "message 2861 words 1\nmessage 2C61\nexchange 1 2\n",
            "line 3: found \"2\", expected a place from 1 to 1",
        ),
        (
            "message 2861 words 1\nmassage 2C61\n",
            "line 2: found \"massage\", expected settings,",
        ),
        (
            "message 2861 words 1\nmessage 2C61 words x\n",
            "line 2: found \"x\", expected",
        ),
        (
            "message 2861 words 1\nbytes 28\n",
            "line 2: found no record, expected 80 bytes in the layout",
        ),
    ] {
        let error = read_list(text).unwrap_err().to_string();
        assert!(error.starts_with(expected), "{error}");
    }
}

#[test]
fn an_objection_says_why() {
    let start = "settings address 5 area A stack 256\nram 0100 0F00\n";
    for (messages, expected) in [
        ("message 2861 words 1\n", None),
        (
            "lent ram 4096 reply 32\nmessage 2861 words 1\n",
            Some("32 reply words are too few"),
        ),
        (
            "ram 0143 0FFF\nmessage 2861 words 1\n",
            Some("the whole-area check answers 9"),
        ),
        (
            "message 2861 words 1\nmessage 3061 words 1\n",
            Some("message 2 is no well-formed data message"),
        ),
        (
            "message 2861 words 1\nmessage 2801 words 1\n",
            Some("message 2 is no well-formed data message"),
        ),
        (
            "message 2861 words 1\nmessage 2861 words 2\nexchange 1\n",
            Some("messages 1 and 2 may not change places"),
        ),
    ] {
        let list = read_list(&(start.to_string() + messages)).unwrap();
        let objection = list.objection(&GOOD, Forgotten::Nothing);
        assert_eq!(objection.as_deref(), expected);
    }
}

/// What the script of `crates/cases` plays for the class: its image, and its pairs of neighbours.
const IMAGE: &str =
    "ram 0100 0F00\nram 0143 0480 0500 0480\nram 0163 0580 0580 0480\nram 0580 5555\n";
const PAIRS: [(&str, &str, &str); 6] = [
    (
        "two receives into different blocks",
        "2861 words 1111",
        "2881 words 2222",
    ),
    ("two transmits of one window", "2C61", "2C81"),
    (
        "a receive and a transmit, windows apart",
        "2861 words 1111",
        "2C81",
    ),
    (
        "two receives into one cell",
        "2861 words 1111",
        "2861 words 2222",
    ),
    (
        "two receives into one window",
        "2861 words 1111",
        "28A1 words 2222",
    ),
    (
        "a receive and a transmit of its window",
        "2861 words 1111",
        "2CA1",
    ),
];

/// What this terminal does with a pair, as `crates/cases` prints it.
fn printed(title: &str, list: &List) -> String {
    let both = Both::play(&GOOD, list, |_, _, _| ());
    let objection = list.objection(&GOOD, Forgotten::Nothing);
    let may = if objection.is_none() {
        "may"
    } else {
        "may not"
    };
    let mut text = format!("# {title}\n");
    for played in [&both.old, &both.new] {
        let records = || {
            played
                .order
                .iter()
                .map(|&number| (number, list.messages[number]))
        };
        let asked = records().map(|(_, Record { command, words, .. })| match words[0] {
            0 => format!("{command:04X} 0"),
            word => format!("{command:04X} {word:04X}"),
        });
        let messages = records().map(|(number, Record { command, words, .. })| {
            match played.shown[number].reply[..] {
                [_, sent] => format!("{command:04X} sends {sent:04X}"),
                _ => format!("{command:04X} brings {:04X}", words[0]),
            }
        });
        let asked = asked.collect::<Vec<_>>().join(" ");
        let messages = messages.collect::<Vec<_>>().join(", ");
        let word = played.end.ram[0x0480];
        text += &format!(
            "order {asked} 0480: {messages}: 0480 ends as {word:04X}; they {may} change places\n"
        );
    }
    text
}

#[test]
fn the_pairs_for_the_class_do_what_is_stored() {
    let pairs = PAIRS.map(|(title, first, second)| {
        let text = format!("{IMAGE}message {first}\nmessage {second}\nexchange 1\n");
        printed(title, &read_list(&text).unwrap())
    });
    let file = Path::new(env!("CARGO_MANIFEST_DIR")).join("../crates/cases/stdout");
    let stored = fs::read_to_string(file).unwrap();
    assert!(stored.contains(&pairs.concat()), "{}", pairs.concat());
}
