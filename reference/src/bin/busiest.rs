//! Writes the busiest day as a batch, the case and its plan so many times:
//! `busiest TIMES FILE [--devices N] [--intervals N] [--edition E]`.

use std::process::ExitCode;

use reference::arguments::{exit_code, write_day};
use reference::busiest::busiest_batch;

fn main() -> ExitCode {
    exit_code(write_day("busiest", busiest_batch))
}
