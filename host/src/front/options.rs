//! The words of a command line: files and options.

use std::ffi::{OsStr, OsString};

use super::problem::Problem;

/// What a command takes.
pub struct Grammar {
    least: usize,
    most: usize,
    flags: &'static [&'static str],
    values: &'static [&'static str],
    forms: &'static [&'static str],
}

impl Grammar {
    /// Takes so many words that are no options.
    pub const fn files(least: usize, most: usize) -> Grammar {
        Grammar {
            least,
            most,
            flags: &[],
            values: &[],
            forms: &[],
        }
    }

    /// Options that stand alone.
    pub const fn flags(mut self, flags: &'static [&'static str]) -> Grammar {
        self.flags = flags;
        self
    }

    /// Options with a word behind them.
    pub const fn values(mut self, values: &'static [&'static str]) -> Grammar {
        self.values = values;
        self
    }

    /// Options of which one at most may be given.
    pub const fn forms(mut self, forms: &'static [&'static str]) -> Grammar {
        self.forms = forms;
        self
    }

    fn find(&self, name: &str) -> Option<(&'static str, bool)> {
        let alone = self
            .flags
            .iter()
            .chain(self.forms)
            .map(|&flag| (flag, false));
        let valued = self.values.iter().map(|&value| (value, true));
        alone.chain(valued).find(|(option, _)| *option == name)
    }
}

/// What was given.
#[derive(Debug, Default)]
pub struct Given {
    /// Words that are no options, in order.
    pub files: Vec<OsString>,
    options: Vec<(&'static str, Option<OsString>)>,
}

impl Given {
    pub fn has(&self, flag: &str) -> bool {
        self.options.iter().any(|(name, _)| *name == flag)
    }

    pub fn value(&self, name: &str) -> Option<&OsStr> {
        let option = self.options.iter().find(|(option, _)| *option == name);
        option.and_then(|(_, value)| value.as_deref())
    }

    /// How often standard input is to be read.
    fn standard_inputs(&self) -> usize {
        let files = self.files.iter().map(OsString::as_os_str);
        let inputs = files.chain(self.value("--names"));
        inputs.filter(|input| *input == "-").count()
    }
}

pub fn parse(command: &str, arguments: &[OsString], grammar: &Grammar) -> Result<Given, Problem> {
    let wrong = |what: String| {
        let advice = format!("./solkverva {command} --help tells more");
        Problem::Use(format!("{command}: {what}; {advice}"))
    };
    let mut given = Given::default();
    let mut words = arguments.iter();
    while let Some(word) = words.next() {
        let text = word.to_string_lossy();
        if text == "--" {
            given.files.extend(words.by_ref().cloned());
        } else if !text.starts_with('-') || text == "-" {
            given.files.push(word.clone());
        } else {
            let (option, valued) = grammar
                .find(&text)
                .ok_or_else(|| wrong(format!("no option {text}")))?;
            if given.has(option) {
                return Err(wrong(format!("{option} a second time")));
            }
            let value = if valued { words.next() } else { None };
            if valued && value.is_none() {
                return Err(wrong(format!("{option} needs a word behind it")));
            }
            given.options.push((option, value.cloned()));
        }
    }
    let forms = grammar.forms.iter().filter(|form| given.has(form)).count();
    match given.files.len() {
        _ if given.standard_inputs() > 1 => Err(wrong("standard input, -, is read once".into())),
        _ if forms > 1 => Err(wrong(format!("only one of {}", grammar.forms.join(", ")))),
        files if files < grammar.least => Err(wrong("which file?".into())),
        files if files > grammar.most => {
            let word = given.files[grammar.most].to_string_lossy();
            Err(wrong(format!("one word too many, {word:?}")))
        }
        _ => Ok(given),
    }
}
