//! Traces as text: the lines, their errors, and that nothing is lost.

use plain_terminal::terminal::records::{
    FLAG_BUS_B, FLAG_INVALID_WORD, FLAG_WRONG_SYNC, RECORD_BYTES,
};
use plain_terminal::terminal::trace::image_words;
use plain_terminal::terminal::trace::IMAGE_BYTES;
use plain_terminal::terminal::{trace_output, write_record, Record, Settings};
use plain_terminal::text::{pack, read_names, read_text, unpack, unpack_ram, visible};

use crate::helpers::{heard, record, Random};
use crate::trace::{image, EXAMPLE_OUTPUT};

const EXAMPLE: &str = "\
# The example of the scope.
ram 0143 047E
ram 01A3 0120   # circular, 128 words, with interrupt
ram 0163 0500

message 2864 bus A tag 0001 words 1111 2222 3333 4444
message 3064 bus A tag 0002 words 1111 2222 3333 4444
message 2C62 bus A tag 0003
";

/// Both flags that are faults.
const BOTH: u16 = FLAG_WRONG_SYNC | FLAG_INVALID_WORD;

fn packed(text: &str) -> Vec<u8> {
    pack(text.as_bytes()).unwrap_or_else(|error| panic!("{error}"))
}

/// The one record that a line packs to.
fn packed_record(line: &str) -> Vec<u8> {
    packed(line)[8192..].to_vec()
}

fn error(text: &str) -> String {
    pack(text.as_bytes()).unwrap_err().to_string()
}

fn assert_survives(binary: &[u8]) {
    let text = unpack(binary);
    assert_eq!(pack(text.as_bytes()).as_deref(), Ok(binary), "{text}");
}

#[test]
fn the_example() {
    let output = trace_output(&packed(EXAMPLE));
    assert_eq!(String::from_utf8(output).unwrap(), EXAMPLE_OUTPUT);
}

#[test]
fn unpacking_shows_the_same_lines() {
    let expected = "\
ram 0143 047E
ram 0163 0500
ram 01A3 0120
message 2864 bus A tag 0001 words 1111 2222 3333 4444
message 3064 bus A tag 0002 words 1111 2222 3333 4444
message 2C62 bus A tag 0003
";
    assert_eq!(unpack(&packed(EXAMPLE)), expected);
    assert_eq!(packed(expected), packed(EXAMPLE));
}

#[test]
fn an_empty_text_is_an_image_of_zeros() {
    assert_eq!(packed(""), vec![0; 8192]);
    assert_eq!(packed("\n  # nothing\n\r\n"), vec![0; 8192]);
    assert_eq!(unpack(&[0; 8192]), "");
}

#[test]
fn ram_lines() {
    let words = [(0x0000, 1), (0x0FFE, 0xABCD), (0x0FFF, 0xEF)];
    assert_eq!(packed("ram 0 1\nram 0FFE abcd ef"), image(&words));
    let text = "ram 0400 1111 2222\nram 0401 3333";
    assert_eq!(packed(text), image(&[(0x0400, 0x1111), (0x0401, 0x3333)]));
}

#[test]
fn eight_words_of_ram_to_a_line() {
    let words: Vec<(usize, u16)> = (0x0406..0x0412).map(|a| (a, 0x1000)).collect();
    let expected = "\
ram 0406 1000 1000
ram 0408 1000 1000 1000 1000 1000 1000 1000 1000
ram 0410 1000 1000
";
    assert_eq!(unpack(&image(&words)), expected);
    let gap = image(&[(0x0401, 1), (0x0403, 2)]);
    assert_eq!(unpack(&gap), "ram 0401 0001 0000 0002\n");
}

#[test]
fn message_lines() {
    let words = [0x1111, 0x0022];
    // The tag, flags, count and words that the parts of a line stand for.
    for (parts, tag, flags, count, words) in [
        ("", 0, 0, 0, &[][..]),
        ("tag 12", 0x0012, 0, 0, &[]),
        ("words 1111 22", 0, 0, 2, &words),
        (
            "bus B flags sync words 1111 22",
            0,
            FLAG_BUS_B | FLAG_WRONG_SYNC,
            2,
            &words,
        ),
        ("words 1111 22 flags invalid sync", 0, BOTH, 2, &words),
        ("count 5 words 1111 22", 0, 0, 5, &words),
        ("words 1111 22 0 0 count 2", 0, 0, 2, &words),
        ("count 33", 0, 0, 33, &[]),
    ] {
        let expected = Record {
            tag,
            flags,
            count,
            ..record(0x2864, words)
        };
        let bytes = write_record(&expected).unwrap();
        assert_eq!(
            packed_record(&format!("message 2864 {parts}")),
            bytes,
            "{parts}"
        );
    }
}

#[test]
fn transfer_lines() {
    for (line, transmit_command, flags, count) in [
        ("message 2862 from 1442 words A000 A001", 0x1442, 8, 2),
        ("message 2862 words A000 A001 from 0", 0, 8, 2),
        (
            "message 2862 flags invalid words A000 from 1442",
            0x1442,
            8 + 4,
            1,
        ),
        (
            "message 2862 bus B from 1442 flags nostatus",
            0x1442,
            1 + 8 + 16,
            0,
        ),
        (
            "message 2862 from 1442 flags gap count 0",
            0x1442,
            8 + 32,
            0,
        ),
        ("message 2862 from 1442 flags second", 0x1442, 8 + 64, 0),
        (
            "message 2862 flags second gap nostatus invalid sync from 1442 bus B",
            0x1442,
            127,
            0,
        ),
    ] {
        let expected = Record {
            transmit_command,
            tag: 0,
            ..heard(0x2862, count, flags)
        };
        let bytes = write_record(&expected).unwrap();
        assert_eq!(packed_record(line), bytes, "{line}");
    }
}

#[test]
fn unpacked_transfers() {
    for line in [
        "message 2864 from 1443 bus A tag 7A60 words A000\n",
        "message 2864 from 0000 bus B tag 0001 flags sync invalid nostatus gap second\n",
        "message F864 from FFFF bus A tag 0000 flags second\n",
    ] {
        assert_eq!(unpack(&packed(line)), line);
    }
    // Without flag 8, bytes 2-3 are no transfer: the record is damaged.
    let bytes = packed_record("message 2864 from 1443");
    let damaged = [&bytes[..6], &[0], &bytes[7..]].concat();
    assert!(unpack(&[&[0; 8192], &damaged[..]].concat()).starts_with("raw 2864 1443 "));
}

#[test]
fn unpacked_messages() {
    let unpacked = |record: &Record| {
        let bytes = write_record(record).unwrap();
        unpack(&[&[0; 8192], &bytes[..]].concat())
    };
    assert_eq!(
        unpacked(&heard(0x2864, 1, BOTH | FLAG_BUS_B)),
        "message 2864 bus B tag 7A60 flags sync invalid words A000\n"
    );
    assert_eq!(
        unpacked(&record(0x2864, &[5, 0])),
        "message 2864 bus A tag 7A60 words 0005 0000\n"
    );
    let too_many = unpacked(&heard(0x2860, 33, 0));
    assert!(too_many.starts_with("message 2860 bus A tag 7A60 count 33 words A000"));
    assert!(too_many.ends_with(" A01F\n"));
}

#[test]
fn raw_lines() {
    assert_eq!(packed_record("raw 01 0203 aB"), [1, 2, 3, 0xAB]);
    let damaged = format!("raw {}", "FF".repeat(80));
    let text = format!("{damaged}\nmessage 2864\nraw 00");
    let bytes = packed_record(&text);
    assert_eq!(bytes[..80], [0xFF; 80]);
    assert_eq!(bytes[80..82], [0x28, 0x64]);
    assert_eq!(bytes.len(), 161);
    assert_eq!(
        unpack(&[&[0; 8192], &[0x28, 0x64, 0x01][..]].concat()),
        "raw 2864 01\n"
    );
}

#[test]
fn short_images() {
    assert_eq!(packed("image 0"), []);
    assert_eq!(
        packed("image 5\nram 0 1111 2222 3300"),
        [0x11, 0x11, 0x22, 0x22, 0x33]
    );
    assert_eq!(packed("image 8191").len(), 8191);
    assert_eq!(unpack(&[]), "image 0\n");
    assert_eq!(
        unpack(&[0, 0, 0x22, 0x22, 0x33]),
        "image 5\nram 0001 2222 3300\n"
    );
}

#[test]
fn settings_and_owners() {
    let text = "settings address 7 area B stack 512 busy-always terminal-flag\n\
        owner 19 Anna   Karlsson # the elder\nimage 2\nowner 3 Bert\nram 0 1234\n";
    let read = read_text(text.as_bytes()).unwrap();
    assert_eq!(read.bytes().unwrap(), [0x12, 0x34]);
    let expected = Settings {
        address: 7,
        area_b: true,
        stack_size: 512,
        overwrite_invalid: false,
        busy_always: true,
        terminal_flag: true,
        ..Settings::TRACE
    };
    assert_eq!(read.settings, Some(expected));
    let owners: Vec<_> = read.owners.iter().collect();
    assert_eq!(owners, [(3, "Bert"), (19, "Anna Karlsson")]);
    assert_eq!(read.owners.of(4), None);

    let off =
        read_text(b"settings address 31 area A stack 256 broadcast off busy-always\n").unwrap();
    let expected = Settings {
        address: 31,
        overwrite_invalid: false,
        busy_always: true,
        broadcast: false,
        ..Settings::TRACE
    };
    assert_eq!(off.settings, Some(expected));

    let without = read_text(b"ram 0 1234\n").unwrap();
    assert_eq!(without.settings, None);
    assert!(without.owners.is_empty());
}

#[test]
fn errors_in_settings_and_owners() {
    const SECOND: &str = "found a second settings line, expected one";
    const SETTINGS: &str = "settings address 5 area A stack 256";
    let twice = format!("{SETTINGS}\n{SETTINGS}");
    assert_errors(
        2,
        &[
            (&twice, SECOND),
            (
                "message 2864\nowner 3 Bert",
                "found owner after a record, expected every owner line before",
            ),
            (
                "message 2864\nsettings address 5 area A stack 256",
                "found settings after a record",
            ),
            (
                "owner 3 Bert\nowner 3 Anna",
                "found a second owner of subaddress 3",
            ),
        ],
    );
    assert_errors(
        1,
        &[
            ("settings 5", "found \"5\", expected address"),
            (
                "settings address 5 area A stack 256 loud",
                "found \"loud\", expected one of overwrite-invalid, ",
            ),
            (
                "settings address 31 area A stack 256 broadcast",
                "found the end of the line, expected off",
            ),
            (
                "settings address 31 area A stack 256 broadcast on",
                "found \"on\", expected off",
            ),
            ("owner", "found the end of the line, expected a subaddress"),
            ("owner 31 Bert", "found \"31\", expected a subaddress"),
            ("owner 0 Bert", "found subaddress 0, expected"),
            (
                "owner 3 # nobody",
                "found the end of the line, expected the owner's name",
            ),
            ("owner 3 Be\u{1b}rt", "found \\u{1b} in a name, expected"),
            (
                "owner 3 \u{202e}treB",
                "found \\u{202e} in a name, expected",
            ),
            ("owner 3 An\u{ad}na", "found \\u{ad} in a name, expected"),
            ("owner 3 \u{3164}", "found \\u{3164} in a name, expected"),
            ("owner 3 \u{e0041}", "found \\u{e0041} in a name, expected"),
            ("owner 3 \u{e0fff}", "found \\u{e0fff} in a name, expected"),
            ("owner 3 \u{2800}", "found \\u{2800} in a name, expected"),
            ("owner 3 \u{fe0f}", "found \\u{fe0f} in a name, expected"),
        ],
    );
}

/// CR, LF or both end a line; each end is one, so that errors name the line
/// that an editor shows.
#[test]
fn every_line_end() {
    let text = "# RT 5\nram 0143 0480\n\nmessage 2861 words 1\n# the end\n";
    let bytes = pack(text.as_bytes()).unwrap();
    assert_eq!(bytes.len(), IMAGE_BYTES + RECORD_BYTES);
    for end in ["\r", "\r\n"] {
        let ended = text.replace('\n', end);
        assert_eq!(pack(ended.as_bytes()).as_ref(), Ok(&bytes), "{end:?}");
        let wrong = ended.replace("message", "massage");
        assert!(error(&wrong).starts_with("line 4: "), "{}", error(&wrong));
    }
    let mixed = "ram 0143 0480\r\r\nmessage 2861 words 1\n\rmassage";
    assert!(error(mixed).starts_with("line 5: "), "{}", error(mixed));
}

/// What would be obeyed is spelled out; signs with a chosen look stay.
#[test]
fn nothing_is_obeyed() {
    assert_eq!(
        visible("\u{1b}[2J\u{7}\n\u{9b}"),
        "\\u{1b}[2J\\u{7}\\n\\u{9b}"
    );
    assert_eq!(visible("a\u{202e}b\u{2066}c"), "a\\u{202e}b\\u{2066}c");
    assert_eq!(
        visible("\u{ad}\u{feff}\u{e0001}"),
        "\\u{ad}\\u{feff}\\u{e0001}"
    );
    assert_eq!(visible("a\u{fe0f}"), "a\\u{fe0f}");
    for seen in [
        "Anna & <b>",
        "\u{633}\u{644}\u{645}\u{649}",
        "\u{2708}\u{fe0f} Anna",
        "a\u{301} \\ \u{a0}",
    ] {
        assert_eq!(visible(seen), seen);
    }
}

#[test]
fn errors_name_the_line() {
    assert_eq!(
        error("ram 0143 047E\n# fine\nramm 0163 0500"),
        "line 3: found \"ramm\", expected settings, owner, records, card, image, ram, message, raw or a line of a list"
    );
    let long = format!("\u{1b}{}", "x".repeat(60));
    let shown = format!("line 1: found \"\\u{{1b}}{}\"..., expected", "x".repeat(39));
    assert!(error(&long).starts_with(&shown), "{}", error(&long));
    let not_text = pack(b"ram 0143 047E\nram \xFF").unwrap_err();
    assert_eq!(not_text.line, 2);
    assert_eq!(not_text.found, "bytes that are not text");
}

/// Each text is wrong in this line, and the message says how.
fn assert_errors(line: usize, cases: &[(&str, &str)]) {
    for (text, message) in cases {
        let found = error(text);
        let expected = format!("line {line}: {message}");
        assert!(found.starts_with(&expected), "{text}: {found}");
    }
}

#[test]
fn errors_in_ram_lines() {
    assert_errors(
        1,
        &[
            (
                "ram",
                "found the end of the line, expected an address of 1 to 4",
            ),
            ("ram 0143", "found the end of the line, expected a RAM word"),
            (
                "ram 143 047E0",
                "found \"047E0\", expected a RAM word of 1 to 4",
            ),
            ("ram 0143 +12", "found \"+12\", expected a RAM word"),
            ("ram 0x143 1", "found \"0x143\", expected an address"),
            (
                "ram 1000 1",
                "found address 1000, expected an address up to 0FFF",
            ),
            ("ram 0FFF 1 2", "found address 1000"),
        ],
    );
}

/// The 64K card: addresses to its end, once, before the first line of RAM; and
/// no bytes.
#[test]
fn the_64k_card() {
    let read = read_text(b"card 64K\nram FFFF ABCD\nmessage 2861 words 1\n").unwrap();
    assert_eq!((read.ram_words, read.image.len()), (65_536, 131_072));
    assert_eq!(read.image[131_070..], [0xAB, 0xCD]);
    assert_eq!(read.records.len(), 80);
    let refused = "found card 64K, expected a text of the card of 4,096 words: bytes have no \
        place for the card, and an image is always 8192";
    let written = unpack_ram(&image_words(&read.image));
    assert_eq!(written, "card 64K\nram FFFF ABCD\n");
    assert_eq!(unpack_ram(&[0; 4096]), "");
    assert_errors(1, &[("card 64K", refused)]);
    assert_errors(
        1,
        &[
            ("card", "found the end of the line, expected 64K"),
            ("card 64k", "found \"64k\", expected 64K"),
            ("card 12K", "found \"12K\", expected 64K"),
            ("card 64K 1", "found \"1\", expected the end of the line"),
        ],
    );
    const AFTER: &str =
        "found card after image, ram, a list or a record, expected card before the first line of RAM";
    assert_errors(
        2,
        &[
            (
                "card 64K\ncard 64K",
                "found a second card line, expected one",
            ),
            ("ram 0 1\ncard 64K", AFTER),
            ("list 0400\ncard 64K", AFTER),
            ("message 2861 words 1\ncard 64K", AFTER),
            ("image 7\ncard 64K", AFTER),
            ("card 64K\nimage 7", "found image after another line"),
            (
                "card 64K\nram 10000 1",
                "found \"10000\", expected an address of",
            ),
            (
                "card 64K\nram FFFF 1 2",
                "found address 10000, expected an address up to FFFF",
            ),
        ],
    );
    let names = read_names(b"owner 3 Anna\ncard 64K\n").err().unwrap();
    assert_eq!(
        names.to_string(),
        "line 2: found card beside bytes, expected settings or owner: bytes are always of the \
         card of 4,096 words"
    );
}

#[test]
fn errors_in_message_lines() {
    const PARTS: &str = "found \"1111\", expected from, bus, tag, member, flags, count or words";
    const TWICE: &str = "found tag a second time, expected each part once";
    const NO_FLAG: &str =
        "found flags without a name, expected sync, invalid, nostatus, gap or second";
    const COUNT: &str = "found \"34\", expected a count, decimal, 0 to 33";
    assert_errors(
        1,
        &[
            (
                "message",
                "found the end of the line, expected a command word",
            ),
            ("message 28G4", "found \"28G4\", expected a command word"),
            ("message 2864 1111", PARTS),
            ("message 2864 bus C", "found \"C\", expected bus A or B"),
            (
                "message 2864 bus",
                "found the end of the line, expected bus A or B",
            ),
            (
                "message 2864 tag",
                "found the end of the line, expected a time tag",
            ),
            ("message 2864 tag 1 tag 2", TWICE),
            ("message 2864 flags", NO_FLAG),
            (
                "message 2864 flags snyc",
                "found \"snyc\", expected sync, invalid, nostatus, gap or second",
            ),
            ("message 2864 count 34", COUNT),
            ("message 2864 count -1", "found \"-1\", expected a count"),
            (
                "message 2864 count",
                "found the end of the line, expected a count",
            ),
        ],
    );
}

/// A transfer that no good record tells, and what to write instead.
#[test]
fn errors_in_transfers() {
    const TRANSMIT: &str = "found from with the transmit command 2C62, expected a receive command \
        before from, since this terminal receives in a transfer";
    const WITHOUT: &str = "found flags nostatus second without from, expected from and the other \
        terminal's command, since only transfers have these flags";
    const COUNT: &str = "found count 2 with flags gap, expected no words, since none is heard \
        after these; or a raw line for a damaged record";
    assert_errors(
        1,
        &[
            (
                "message 2864 from",
                "found the end of the line, expected the other terminal's command word of 1",
            ),
            (
                "message 2864 from words 1",
                "found \"words\", expected the other",
            ),
            (
                "message 2864 from 1443 from 1443",
                "found from a second time, expected each part once",
            ),
            ("message 2C62 from 1443", TRANSMIT),
            ("message 2864 flags second nostatus", WITHOUT),
            ("message 2864 from 1443 flags gap words 1 2", COUNT),
            (
                "message 2864 from 1443 count 1 flags second sync",
                "found count 1 with flags second, expected no words",
            ),
        ],
    );
}

#[test]
fn errors_in_data_words() {
    let words_33 = format!("message 2860 words{}", " 1".repeat(33));
    const NO_WORD: &str = "found words without a word, expected 1 to 32 data words";
    const TOO_FEW: &str = "found other words than 0000 after the first 1, expected a larger count";
    assert_errors(
        1,
        &[
            ("message 2864 words", NO_WORD),
            (
                "message 2864 words xyz",
                "found \"xyz\", expected a data word",
            ),
            (&words_33, "found more than 32 words, expected at most 32"),
            ("message 2864 count 1 words 1 2", TOO_FEW),
        ],
    );
}

#[test]
fn errors_in_raw_and_image_lines() {
    let raw_81 = format!("raw {}", "00".repeat(81));
    const LENGTH: &str = "found the end of the line, expected the image's length in bytes";
    const LARGEST: &str =
        "found \"8192\", expected the image's length in bytes, decimal, 0 to 8191";
    assert_errors(
        1,
        &[
            ("raw", "found 0 bytes, expected 1 to 80 bytes"),
            (&raw_81, "found 81 bytes, expected 1 to 80 bytes"),
            ("raw 1", "found \"1\", expected pairs of hexadecimal digits"),
            (
                "raw 0g",
                "found \"0g\", expected pairs of hexadecimal digits",
            ),
            ("image", LENGTH),
            ("image 8192", LARGEST),
            ("image 1F", "found \"1F\", expected the image's length"),
            ("image 10 10", "found \"10\", expected the end of the line"),
        ],
    );
}

#[test]
fn errors_of_order() {
    assert_errors(
        2,
        &[
            ("ram 0 1\nimage 10", "found image after another line"),
            ("image 10\nimage 10", "found image after another line"),
            ("message 2864\nram 0 1", "found ram after a record"),
            ("raw 00\nram 0 1", "found ram after a record"),
            (
                "raw 00\nmessage 2864",
                "found message, expected nothing after a raw line",
            ),
            (
                "raw 00\nraw 00",
                "found raw, expected nothing after a raw line",
            ),
            (
                "image 10\nmessage 2864",
                "found message, expected no records",
            ),
            ("image 10\nraw 00", "found raw, expected no records"),
            (
                "image 10\nram 5 0",
                "found word 0000 at address 0005, expected no word beyond",
            ),
            (
                "image 10\nram 6 0",
                "found word 0000 at address 0006, expected no word beyond",
            ),
            (
                "image 9\nram 4 1",
                "found word 0001 at address 0004, expected no word beyond",
            ),
        ],
    );
}

#[test]
fn random_bytes_survive() {
    let mut random = Random::new(9);
    for _ in 0..300 {
        let length = random.below(9_000);
        assert_survives(&random.bytes(length));
    }
    for length in [
        0, 1, 2, 3, 15, 16, 17, 8190, 8191, 8192, 8193, 8271, 8272, 8273,
    ] {
        assert_survives(&random.bytes(length));
        assert_survives(&vec![0; length]);
        assert_survives(&vec![0xFF; length]);
    }
}

#[test]
fn random_traces_survive() {
    let mut random = Random::new(10);
    for _ in 0..200 {
        let mut binary = vec![0; 8192];
        for _ in 0..random.below(50) {
            binary[random.below(8192)] = random.draw() as u8;
        }
        for _ in 0..random.below(20) {
            let mut bytes = write_record(&random.record(5)).unwrap();
            if random.chance(4) {
                bytes[random.below(80)] = random.draw() as u8;
            }
            binary.extend(bytes);
        }
        let tail = random.below(80);
        binary.extend(random.bytes(tail));
        assert_survives(&binary);
    }
}
