//! The settings line: `settings address N area A|B stack N`, and then what is not
//! as in most terminals: the names of the yes/no settings that are on, and
//! `broadcast off`.

use std::fmt::{self, Write};

use super::tokens::{mismatch, shown, Mismatch, Tokens};
use crate::terminal::Settings;

pub fn write_settings(text: &mut String, mut settings: Settings) -> fmt::Result {
    let area = if settings.area_b { 'B' } else { 'A' };
    write!(text, "settings address {} ", settings.address)?;
    write!(text, "area {area} stack {}", settings.stack_size)?;
    for (name, switch) in Settings::SWITCHES {
        if *switch(&mut settings) {
            write!(text, " {name}")?;
        }
    }
    if !settings.broadcast {
        write!(text, " broadcast off")?;
    }
    writeln!(text)
}

/// What follows `settings`.
pub fn read_settings(tokens: &mut Tokens) -> Result<Settings, Mismatch> {
    tokens.name("address")?;
    let address = tokens.decimal("an address", 0xFFFF)? as u16;
    tokens.name("area")?;
    let area_b = match tokens.next() {
        Some("A") => false,
        Some("B") => true,
        other => return mismatch(shown(other), "A or B"),
    };
    tokens.name("stack")?;
    let mut settings = Settings {
        address,
        area_b,
        stack_size: tokens.decimal("a stack size", 0xFFFF)? as u16,
        overwrite_invalid: false,
        ..Settings::TRACE
    };
    while let Some(token) = tokens.next() {
        let mut switches = Settings::SWITCHES.iter();
        match switches.find(|(name, _)| *name == token) {
            Some((_, switch)) => *switch(&mut settings) = true,
            None if token == "broadcast" => {
                tokens.name("off")?;
                settings.broadcast = false;
            }
            None => {
                let names = Settings::SWITCHES.map(|(name, _)| name).join(", ");
                return mismatch(shown(Some(token)), format!("one of {names}, broadcast off"));
            }
        }
    }
    Ok(settings)
}
