//! Prints rows of tiny cases and plans with what the judgement gives.
//!
//! `tables [--seed S] [--accepted N] [--about] [--breaches]`; with `--about`, each row is preceded
//! by what it is about; with `--breaches`, the list of every breach stands behind the first.

use std::io::{self, Write};
use std::process::ExitCode;

use reference::arguments::{exit_code, Arguments};
use reference::tables::{rows, Row};

const DEFAULT_SEED: u64 = 1;
const DEFAULT_ACCEPTED: u64 = 8;
const USAGE: &str = "usage: tables [--seed S] [--accepted N] [--about] [--breaches]";

fn main() -> ExitCode {
    exit_code(perform())
}

fn perform() -> Result<(), String> {
    let mut arguments = Arguments::of_program();
    let seed = arguments.number("--seed").unwrap_or(DEFAULT_SEED);
    let accepted = arguments.number("--accepted").unwrap_or(DEFAULT_ACCEPTED);
    let tells_about = arguments.flag("--about");
    let lists_breaches = arguments.flag("--breaches");
    arguments
        .finish()
        .map_err(|complaint| format!("{complaint}\n{USAGE}"))?;
    let rows = rows(seed, accepted as usize);
    print_rows(&rows, tells_about, lists_breaches).map_err(|error| error.to_string())
}

fn print_rows(rows: &[Row], tells_about: bool, lists_breaches: bool) -> io::Result<()> {
    let mut out = io::stdout().lock();
    for (number, row) in (1..).zip(rows) {
        if tells_about {
            writeln!(out, "# row {number}: {}", row.about)?;
        }
        let printed = if lists_breaches {
            row.printed_with_list()
        } else {
            row.printed()
        };
        writeln!(out, "{printed}")?;
    }
    out.flush()
}
