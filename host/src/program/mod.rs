//! The desk program: judges message files and texts by the plan unit, and tells, tabulates and draws
//! what it finds.
//!
//! Verdicts, lists and completions are the plan unit's. The figures in words are read from the same
//! messages beside it; where they do not bear out what the plan unit says, nothing is told.

mod arguments;
mod dispatching;
mod help;
mod input;
mod judging;
mod machine;
mod mending;
mod output;
mod picturing;
mod progress;
mod reading;
mod refusal;
mod trouble;
mod verbs;
mod writing;

use std::env;
use std::ffi::OsString;
use std::io::{self, Write};
use std::path::Path;
use std::process::ExitCode;

use arguments::Arguments;
use trouble::{file_trouble, shown, Done, Trouble};
use verbs::{all_options, verb, Verb};

/// The program's version: the header's, and a number for changes of the program alone.
pub const VERSION: &str = env!("CARGO_PKG_VERSION");

/// What goes to standard output, and the exit status.
pub struct Answer {
    out: Vec<u8>,
    status: u8,
}

impl Answer {
    fn new(text: impl Into<String>, status: u8) -> Answer {
        Answer {
            out: text.into().into_bytes(),
            status,
        }
    }
}

/// Runs the program of a name by the words that it was given.
pub fn main(program: &'static str) -> ExitCode {
    let words: Vec<OsString> = env::args_os().skip(1).collect();
    let asked = words.first().and_then(|word| verb(&word.to_string_lossy()));
    let usage = asked.map_or(String::new(), Verb::usage);
    match perform(program, &words).and_then(print) {
        Ok(status) => ExitCode::from(status),
        Err(trouble) => {
            // Where standard error cannot be written, the exit status still tells.
            let _ = writeln!(io::stderr(), "{}", trouble.line(program, &usage));
            ExitCode::from(trouble.status())
        }
    }
}

fn perform(program: &str, words: &[OsString]) -> Done<Answer> {
    let Some((first, rest)) = words.split_first() else {
        return Trouble::usage("no verb");
    };
    match (first.to_str(), rest) {
        (Some("--help" | "-h"), _) => return Ok(Answer::new(help::help(program), 0)),
        (Some("--version"), []) => return Ok(Answer::new(format!("{program} {VERSION}\n"), 0)),
        (Some("--man"), []) => return Ok(Answer::new(help::manual(VERSION), 0)),
        _ => {}
    }
    let name = first.to_string_lossy();
    let Some(verb) = verb(&name) else {
        return Trouble::usage(format!("unknown verb {}", shown(&name)));
    };
    let is_help = |word: &&OsString| *word == "--help" || *word == "-h";
    let options = rest.iter().take_while(|word| *word != "--");
    if options.into_iter().any(|word| is_help(&word)) {
        return Ok(Answer::new(help::verb_help(program, verb), 0));
    }
    (verb.run)(&Arguments::parse(rest, verb.options, &all_options())?)
}

/// A closed pipe ends quietly.
fn print(answer: Answer) -> Done<u8> {
    let mut out = io::stdout().lock();
    match out.write_all(&answer.out).and_then(|()| out.flush()) {
        Err(error) if error.kind() == io::ErrorKind::BrokenPipe => Ok(answer.status),
        Err(error) => Err(file_trouble("write", Path::new("standard output"))(error)),
        Ok(()) => Ok(answer.status),
    }
}
