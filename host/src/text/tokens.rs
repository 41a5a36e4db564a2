//! Reading a line of text: its pieces, and what is said of a wrong one.

use std::fmt;

use super::unseen::visible;

/// What is wrong with a text, and where.
#[derive(Clone, Debug, PartialEq, Eq)]
pub struct TextError {
    /// Counted from 1.
    pub line: usize,
    pub found: String,
    pub expected: String,
}

impl fmt::Display for TextError {
    fn fmt(&self, f: &mut fmt::Formatter) -> fmt::Result {
        let TextError {
            line,
            found,
            expected,
        } = self;
        write!(f, "line {line}: found {found}, expected {expected}")
    }
}

impl std::error::Error for TextError {}

/// A [`TextError`] whose line is not yet known.
pub struct Mismatch {
    found: String,
    expected: String,
}

impl Mismatch {
    pub fn in_line(self, line: usize) -> TextError {
        TextError {
            line,
            found: self.found,
            expected: self.expected,
        }
    }
}

pub fn mismatch<T>(found: impl Into<String>, expected: impl Into<String>) -> Result<T, Mismatch> {
    Err(Mismatch {
        found: found.into(),
        expected: expected.into(),
    })
}

/// The most characters that are shown of a piece.
const SHOWN: usize = 40;

/// How a piece of a line is shown, or that there is none.
pub fn shown(token: Option<&str>) -> String {
    match token {
        None => "the end of the line".to_string(),
        Some(token) => {
            let start: String = token.chars().take(SHOWN).collect();
            let rest = if start.len() < token.len() { "..." } else { "" };
            // What a terminal would obey instead of showing it is spelled out.
            format!("\"{}\"{rest}", visible(&start.escape_debug().to_string()))
        }
    }
}

/// The blank-separated pieces of a line, up to a comment.
pub struct Tokens<'a> {
    /// Behind the next piece.
    rest: &'a str,
    next: Option<&'a str>,
}

impl<'a> Tokens<'a> {
    pub fn new(line: &'a str) -> Tokens<'a> {
        let content = line.split('#').next().unwrap_or_default();
        let (next, rest) = first_piece(content);
        Tokens { rest, next }
    }

    pub fn at_end(&self) -> bool {
        self.next.is_none()
    }

    /// Whether the line ends here or one of these names comes next.
    pub fn at_end_or(&self, names: &[&str]) -> bool {
        self.next.map_or(true, |token| names.contains(&token))
    }

    /// Whether this comes next.
    pub fn is_next(&self, name: &str) -> bool {
        self.next == Some(name)
    }

    /// A word of one to four hexadecimal digits, where one comes next.
    pub fn hex_word_if_next(&mut self) -> Option<u16> {
        let word = self.next.and_then(|token| hex_digits(token, 4))?;
        self.next();
        Some(word as u16)
    }

    pub fn end(&mut self) -> Result<(), Mismatch> {
        match self.next() {
            None => Ok(()),
            token => mismatch(shown(token), "the end of the line"),
        }
    }

    pub fn name(&mut self, name: &str) -> Result<(), Mismatch> {
        match self.next() {
            Some(token) if token == name => Ok(()),
            token => mismatch(shown(token), name),
        }
    }

    pub fn hex_word(&mut self, what: &str) -> Result<u16, Mismatch> {
        Ok(self.hex_digits(what, 4)? as u16)
    }

    /// A number of one to so many hexadecimal digits.
    pub fn hex_digits(&mut self, what: &str, most: usize) -> Result<u32, Mismatch> {
        let token = self.next();
        match token.and_then(|token| hex_digits(token, most)) {
            Some(number) => Ok(number),
            None => {
                let expected = format!("{what} of 1 to {most} hexadecimal digits");
                mismatch(shown(token), expected)
            }
        }
    }

    pub fn decimal(&mut self, what: &str, largest: usize) -> Result<usize, Mismatch> {
        let token = self.next();
        match token.and_then(decimal) {
            Some(number) if number <= largest => Ok(number),
            _ => mismatch(shown(token), format!("{what}, decimal, 0 to {largest}")),
        }
    }

    /// The rest of the line as bytes.
    pub fn bytes(&mut self) -> Result<Vec<u8>, Mismatch> {
        let mut bytes = Vec::new();
        for token in self {
            for pair in token.as_bytes().chunks(2) {
                match hex_byte(pair) {
                    Some(byte) => bytes.push(byte),
                    None => return mismatch(shown(Some(token)), "pairs of hexadecimal digits"),
                }
            }
        }
        Ok(bytes)
    }
}

impl<'a> Iterator for Tokens<'a> {
    type Item = &'a str;

    fn next(&mut self) -> Option<&'a str> {
        let (next, rest) = first_piece(self.rest);
        self.rest = rest;
        std::mem::replace(&mut self.next, next)
    }
}

/// The first piece of a text, if there is one, and what is behind it. Nearly
/// always it stands behind one blank and ends before another, and its characters
/// are a byte each, so that none has to be put together.
fn first_piece(text: &str) -> (Option<&str>, &str) {
    let plain = |byte: u8| byte.is_ascii_graphic();
    let behind_blank = text.strip_prefix(' ').unwrap_or(text);
    let text = match behind_blank.bytes().next() {
        Some(byte) if plain(byte) => behind_blank,
        _ => behind_blank.trim_start(),
    };
    let end = match text.bytes().position(|byte| !plain(byte)) {
        Some(end) if text.as_bytes()[end] == b' ' => end,
        Some(_) => text.find(char::is_whitespace).unwrap_or(text.len()),
        None => text.len(),
    };
    let (piece, rest) = text.split_at(end);
    ((end > 0).then_some(piece), rest)
}

/// One to so many digits, eight at most, and no sign.
fn hex_digits(token: &str, most: usize) -> Option<u32> {
    let mut number = 0;
    for byte in token.bytes() {
        number = number << 4 | char::from(byte).to_digit(16)?;
    }
    (1..=most).contains(&token.len()).then_some(number)
}

/// A number in digits alone; signs, which number parsing lets through, are none.
pub fn decimal(token: &str) -> Option<usize> {
    let is_decimal = token.bytes().all(|byte| byte.is_ascii_digit());
    token.parse().ok().filter(|_| is_decimal)
}

fn hex_byte(pair: &[u8]) -> Option<u8> {
    let digit = |character: u8| char::from(character).to_digit(16);
    match *pair {
        [high, low] => Some((16 * digit(high)? + digit(low)?) as u8),
        _ => None,
    }
}
