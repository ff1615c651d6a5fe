//! Writes an ordinary day as a batch, the case and its plan so many times:
//! `ordinary TIMES FILE [--devices N] [--intervals N] [--edition E]`.

use std::process::ExitCode;

use reference::arguments::{exit_code, write_day};
use reference::ordinary::ordinary_batch;

fn main() -> ExitCode {
    exit_code(write_day("ordinary", ordinary_batch))
}
