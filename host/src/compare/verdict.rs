//! How a comparison ends as a program.

use std::error::Error;
use std::io::{self, Write};
use std::process::ExitCode;

use crate::text::visible;

/// 0 where all went as it should, 1 where it did not, and 2, with the reason,
/// where nothing could be compared.
pub fn verdict(program: &str, outcome: Result<bool, Box<dyn Error>>) -> ExitCode {
    match outcome {
        Ok(true) => ExitCode::SUCCESS,
        Ok(false) => ExitCode::FAILURE,
        Err(error) => {
            // Where it cannot be told, the status tells.
            let error = visible(&error.to_string());
            let _ = writeln!(io::stderr(), "{program}: {error}");
            ExitCode::from(2)
        }
    }
}
