//! Writes the corpus, or holds the reference to it.
//!
//! `corpus write DIR [--host] [--seed S]` and `corpus check DIR [--host] [--seed S]`; with `--host`,
//! the set of days that the host form alone takes.

use std::io::{self, Write};
use std::path::Path;
use std::process::ExitCode;

use reference::arguments::{exit_code, Arguments};
use reference::corpus::{check, write, DEFAULT_SEED};
use reference::form::Form;

const USAGE: &str =
    "usage: corpus write DIR [--host] [--seed S]\n       corpus check DIR [--host] [--seed S]";

fn main() -> ExitCode {
    exit_code(perform())
}

fn perform() -> Result<(), String> {
    let mut arguments = Arguments::of_program();
    let form = Form::host_if(arguments.flag("--host"));
    let action = arguments.word();
    let directory = arguments.word();
    let seed = arguments.number("--seed").unwrap_or(DEFAULT_SEED);
    arguments
        .finish()
        .map_err(|complaint| format!("{complaint}\n{USAGE}"))?;
    match (action.as_deref(), directory) {
        (Some("write"), Some(directory)) => write(Path::new(&directory), form, seed),
        (Some("check"), Some(directory)) => {
            let census = check(Path::new(&directory), form, seed)?;
            writeln!(io::stdout(), "{census}").map_err(|error| error.to_string())
        }
        _ => Err(USAGE.to_string()),
    }
}
