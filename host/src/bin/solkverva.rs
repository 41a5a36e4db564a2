//! The club's program: see `solkverva help`.

use std::env;
use std::process::ExitCode;

fn main() -> ExitCode {
    plain_terminal::front::main(env::args_os().skip(1).collect())
}
