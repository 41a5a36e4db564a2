//! What a comparison of two sides is asked for: how many cases, from which seed
//! on, and which error is planted in the plain side.

use std::env;
use std::error::Error;

/// Errors by name: the plain side, each wrong in one way.
pub type Errors<S> = [(&'static str, S)];

pub struct Asked<S> {
    pub cases: u64,
    pub seed: u64,
    /// The plain side, with an error planted in it or with none.
    pub plain: S,
    pub planted: bool,
}

/// The options of a comparison that is called `program` and counts its cases as
/// `counted`, such as `images`.
pub fn asked<S: Copy>(
    program: &str,
    counted: &str,
    mut asked: Asked<S>,
    errors: &Errors<S>,
) -> Result<Asked<S>, Box<dyn Error>> {
    let usage = format!("usage: {program} [--{counted} N] [--seed N] [--planted ERROR]");
    let number = |value: &str| value.parse().map_err(|_| usage.clone());
    let mut arguments = env::args().skip(1);
    while let Some(name) = arguments.next() {
        let value = arguments.next().ok_or(usage.as_str())?;
        match name.strip_prefix("--") {
            Some("seed") => asked.seed = number(&value)?,
            Some("planted") => {
                asked.plain = planted(errors, &value)?;
                asked.planted = true;
            }
            Some(name) if name == counted => asked.cases = number(&value)?,
            _ => return Err(usage.into()),
        }
    }
    Ok(asked)
}

/// The side with the error of this name, or what the names are.
pub fn planted<S: Copy>(errors: &Errors<S>, name: &str) -> Result<S, String> {
    let error = errors.iter().find(|(error, _)| *error == name);
    error.map(|(_, side)| *side).ok_or_else(|| {
        let names: Vec<&str> = errors.iter().map(|(name, _)| *name).collect();
        format!("the errors are {}", names.join(", "))
    })
}

impl<S> Asked<S> {
    /// Whether it is as it should be that no difference was found, and no case
    /// of these classes.
    pub fn none_found(&self, missing: &[&str]) -> bool {
        if self.planted {
            println!("FAILED: the planted error was not found");
        }
        for name in missing {
            println!("FAILED: no case of: {name}");
        }
        missing.is_empty() && !self.planted
    }
}
