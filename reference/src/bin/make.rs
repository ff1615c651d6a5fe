//! Writes the paper's example batch to a file: the case, plan (a), plan (b), and a plan of its
//! first byte only. `make FILE [--packed]`; packed, the batch stands behind a 32-bit length.

use std::fs;
use std::process::ExitCode;

use reference::arguments::{exit_code, Arguments};
use reference::packed::pack;
use reference::worked_day::example_batch;

const USAGE: &str = "usage: make FILE [--packed]";

fn main() -> ExitCode {
    exit_code(perform())
}

fn perform() -> Result<(), String> {
    let mut arguments = Arguments::of_program();
    let file = arguments.word();
    let is_packed = arguments.flag("--packed");
    arguments
        .finish()
        .map_err(|complaint| format!("{complaint}\n{USAGE}"))?;
    let file = file.ok_or(USAGE)?;
    let batch = example_batch();
    let bytes = if is_packed { pack(&[batch]) } else { batch };
    fs::write(&file, bytes).map_err(|error| format!("{file}: {error}"))
}
