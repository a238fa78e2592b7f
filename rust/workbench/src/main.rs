//! The command `timing`: cards as text, checked and run by the proved library.

#![forbid(unsafe_code)]

use std::env;
use std::process::ExitCode;

fn main() -> ExitCode {
    ExitCode::from(workbench::command::command(env::args_os().skip(1)))
}
