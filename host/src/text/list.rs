//! An instruction list in a text: `list ADDRESS`, then a line for each
//! instruction by its mnemonic, with labels; and `start`, `flags`, `budget` for
//! a run of it. Each instruction becomes two words of RAM, the op code word with
//! the parity that it needs.

use super::tokens::{mismatch, shown, Mismatch, TextError, Tokens};
use crate::controller::opcode::{OpCode, Operation, ALWAYS, INVERSE};

/// The names of the sixteen conditions, by their code.
pub const CONDITIONS: [&str; 16] = [
    "GP0", "GP1", "GP2", "GP3", "GP4", "GP5", "GP6", "GP7", "NORESP", "FMTERR", "GDBLK", "STATUS",
    "BAD", "RETRY1", "RETRY2", "ALWAYS",
];

/// Names that the guide has for an inverse.
const INVERSES: [(&str, u16); 2] = [("GOOD", 0x0C), ("NEVER", 0x0F)];

/// What a text says of a run.
#[derive(Clone, Debug, Default, PartialEq, Eq)]
pub struct ListText {
    /// Where the run starts: `start`, or else the first list.
    pub start: Option<u16>,
    pub flags: Option<u8>,
    pub budget: Option<u64>,
    /// Each label with its address, in the text's order.
    pub labels: Vec<(String, u16)>,
}

/// An address in a line: a number, or a label that may come later.
enum Place {
    At(u16),
    Named(String),
}

/// A parameter, or the start, that waits for its label.
struct Waiting {
    line: usize,
    label: String,
    /// Where its address goes; the start where there is none.
    to: Option<usize>,
}

/// Takes the lines of lists in.
#[derive(Default)]
pub struct Lists {
    pub said: ListText,
    /// Where the next instruction goes; none before the first `list`.
    next: Option<usize>,
    waiting: Vec<Waiting>,
    start_said: bool,
}

/// Words to be put into RAM, from an address on.
pub type Words = (usize, [u16; 2]);

impl Lists {
    /// Whether a line that begins so is one of a list.
    pub fn takes(name: &str) -> bool {
        matches!(name, "list" | "start" | "flags" | "budget")
            || name.ends_with(':')
            || operation(name).is_some()
    }

    /// One line, whose first piece is `name`; the words that it puts into RAM.
    pub fn line(
        &mut self,
        line: usize,
        name: &str,
        tokens: &mut Tokens,
    ) -> Result<Option<Words>, Mismatch> {
        match name {
            "list" => self.list_line(tokens)?,
            "start" => self.start_line(line, tokens)?,
            "flags" => {
                once(self.said.flags.is_some(), "flags")?;
                let flags = tokens.hex_word("the flags")?;
                if flags > 0xFF {
                    return mismatch(format!("flags {flags:04X}"), "eight flags, 00 to FF");
                }
                self.said.flags = Some(flags as u8);
            }
            "budget" => {
                once(self.said.budget.is_some(), "budget")?;
                let budget = tokens.decimal("a budget", usize::MAX)?;
                self.said.budget = Some(budget as u64);
            }
            _ => return self.instruction_line(line, name, tokens),
        }
        Ok(None)
    }

    /// `list ADDRESS`
    fn list_line(&mut self, tokens: &mut Tokens) -> Result<(), Mismatch> {
        let address = tokens.hex_word("the list's address")?;
        self.next = Some(address.into());
        if !self.start_said && self.said.start.is_none() {
            self.said.start = Some(address);
        }
        Ok(())
    }

    /// `start ADDRESS` or `start LABEL`
    fn start_line(&mut self, line: usize, tokens: &mut Tokens) -> Result<(), Mismatch> {
        once(self.start_said, "start")?;
        self.start_said = true;
        match place(tokens)? {
            Place::At(address) => self.said.start = Some(address),
            Place::Named(label) => self.wait(line, label, None),
        }
        Ok(())
    }

    /// `[LABEL:] [MNEMONIC ..]`
    fn instruction_line(
        &mut self,
        line: usize,
        name: &str,
        tokens: &mut Tokens,
    ) -> Result<Option<Words>, Mismatch> {
        let at = match self.next {
            Some(at) => at,
            None => return mismatch(shown(Some(name)), "a list ADDRESS line before it"),
        };
        let mnemonic = match name.strip_suffix(':') {
            None => name,
            Some(label) => {
                self.label(label, at)?;
                match tokens.next() {
                    None => return Ok(None),
                    Some(mnemonic) => mnemonic,
                }
            }
        };
        let operation = match operation(mnemonic) {
            Some(operation) => operation,
            None => return mismatch(shown(Some(mnemonic)), mnemonics()),
        };
        let parameter = match operation {
            Operation::Xeq | Operation::Jmp | Operation::Cal => match place(tokens)? {
                Place::At(address) => address,
                Place::Named(label) => {
                    self.wait(line, label, Some(at + 1));
                    0
                }
            },
            Operation::Flg => flag_word(tokens)?,
            Operation::Rtn | Operation::Hlt => 0,
        };
        let condition = condition(tokens)?;
        if operation == Operation::Flg && condition != ALWAYS {
            return mismatch("a condition", "none: FLG is always carried out");
        }
        let word = OpCode {
            operation,
            condition,
        };
        self.next = Some(at + 2);
        Ok(Some((at, [word.word(), parameter])))
    }

    fn label(&mut self, label: &str, at: usize) -> Result<(), Mismatch> {
        if !is_label(label) || address(label).is_some() {
            let expected =
                "a label of letters, digits and _, beginning with a letter, that is no address";
            return mismatch(shown(Some(label)), expected);
        }
        if self.place_of(label).is_some() {
            return mismatch(
                format!("the label {label} a second time"),
                "one place for it",
            );
        }
        if at > 0xFFFF {
            return mismatch(
                format!("the label {label} at {at:X}"),
                "an address up to FFFF",
            );
        }
        self.said.labels.push((label.into(), at as u16));
        Ok(())
    }

    fn place_of(&self, label: &str) -> Option<u16> {
        let named = self.said.labels.iter().find(|(name, _)| name == label);
        named.map(|(_, address)| *address)
    }

    fn wait(&mut self, line: usize, label: String, to: Option<usize>) {
        self.waiting.push(Waiting { line, label, to });
    }

    /// Puts the addresses of labels where they were named.
    pub fn finish(&mut self, mut put: impl FnMut(usize, u16)) -> Result<(), TextError> {
        for Waiting { line, label, to } in std::mem::take(&mut self.waiting) {
            let address = match self.place_of(&label) {
                Some(address) => address,
                None => {
                    return Err(TextError {
                        line,
                        found: format!("the label {:?}", label),
                        expected:
                            "an address of 1 to 4 hexadecimal digits, or a label of this text"
                                .into(),
                    })
                }
            };
            match to {
                Some(to) => put(to, address),
                None => self.said.start = Some(address),
            }
        }
        Ok(())
    }
}

fn once(said: bool, name: &str) -> Result<(), Mismatch> {
    if said {
        return mismatch(format!("a second {name} line"), "one");
    }
    Ok(())
}

fn operation(mnemonic: &str) -> Option<Operation> {
    let mut all = Operation::ALL.into_iter();
    all.find(|operation| operation.mnemonic() == mnemonic)
}

fn mnemonics() -> String {
    let names = Operation::ALL.map(Operation::mnemonic);
    format!("one of {}", names.join(", "))
}

fn is_label(word: &str) -> bool {
    let named = |c: char| c.is_ascii_alphanumeric() || c == '_';
    word.starts_with(|c: char| c.is_ascii_alphabetic()) && word.chars().all(named)
}

fn place(tokens: &mut Tokens) -> Result<Place, Mismatch> {
    let expected = "an address of 1 to 4 hexadecimal digits, or a label";
    let token = tokens.next();
    let word = match token {
        Some(word) => word,
        None => return mismatch(shown(None), expected),
    };
    match address(word) {
        Some(address) => Ok(Place::At(address)),
        None if is_label(word) => Ok(Place::Named(word.into())),
        None => mismatch(shown(token), expected),
    }
}

/// One to four hexadecimal digits.
fn address(word: &str) -> Option<u16> {
    let digits = word.len() <= 4 && word.bytes().all(|byte| byte.is_ascii_hexdigit());
    u16::from_str_radix(word, 16).ok().filter(|_| digits)
}

/// `if [not] CONDITION`, or nothing.
fn condition(tokens: &mut Tokens) -> Result<u16, Mismatch> {
    if tokens.at_end() {
        return Ok(ALWAYS);
    }
    tokens.name("if")?;
    let mut token = tokens.next();
    let inverse = match token {
        Some("not") => {
            token = tokens.next();
            INVERSE
        }
        _ => 0,
    };
    let direct = (0..).zip(CONDITIONS).find(|(_, name)| Some(*name) == token);
    let inverted = INVERSES.iter().find(|(name, _)| Some(*name) == token);
    match (direct, inverted) {
        (Some((code, _)), _) => Ok(code | inverse),
        (_, Some((_, code))) => Ok(code | INVERSE ^ inverse),
        _ => {
            let names = CONDITIONS.join(", ");
            mismatch(shown(token), format!("one of {names}, GOOD, NEVER"))
        }
    }
}

/// `set N.. clear N.. toggle N..`, or the word itself.
fn flag_word(tokens: &mut Tokens) -> Result<u16, Mismatch> {
    let names = ["set", "clear", "toggle"];
    if !tokens.at_end_or(&names) {
        return tokens.hex_word("set, clear, toggle, or a flag word");
    }
    let mut word = 0;
    while let Some(name) = tokens.next() {
        let bits = match name {
            "set" => 0x0001,
            "clear" => 0x0100,
            "toggle" => 0x0101,
            other => return mismatch(shown(Some(other)), "set, clear or toggle"),
        };
        loop {
            word |= bits << tokens.decimal("a flag", 7)?;
            if tokens.at_end_or(&names) {
                break;
            }
        }
    }
    Ok(word)
}

/// An instruction as a line of a text; none where the word is no op code word.
pub fn instruction(word: u16, parameter: u16) -> Option<String> {
    let op = OpCode::read(word).ok()?;
    let mnemonic = op.operation.mnemonic();
    let parameter = match op.operation {
        Operation::Xeq | Operation::Jmp | Operation::Cal => format!(" {parameter:04X}"),
        Operation::Flg => format!(" {parameter:04X}"),
        Operation::Rtn | Operation::Hlt => String::new(),
    };
    let condition = match (op.is_conditional(), op.condition) {
        (true, code) if code != ALWAYS => format!(" if {}", condition_name(code)),
        _ => String::new(),
    };
    Some(format!("{mnemonic}{parameter}{condition}"))
}

/// A condition as a text has it.
pub fn condition_name(code: u16) -> String {
    if let Some((name, _)) = INVERSES
        .iter()
        .find(|(_, inverse)| inverse | INVERSE == code)
    {
        return (*name).into();
    }
    let name = CONDITIONS[usize::from(code & 0x0F)];
    let not = if code & INVERSE != 0 { "not " } else { "" };
    format!("{not}{name}")
}
