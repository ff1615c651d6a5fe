//! Which conditional jumps of machine code go both ways.
//!
//! `mask [--code OBJECT] [--list] [--min N] PROGRAM [--input FILE].. [--packed STREAM].. [--dump
//! FILE].. [--save FILE] [-- PROGRAM ..]`
//!
//! PROGRAM is run under callgrind with each FILE as its standard input, with each batch of a packed
//! STREAM likewise, and what callgrind dumped in earlier runs of it is taken over; all is added up
//! and, with `--save`, written as one dump.
//! Of OBJECT, an object file or a static library, the functions are told that the programs hold;
//! without it those of PROGRAM, which is the only one then. Printed are a table by function, with
//! `--min` those with fewer jumps than N in one row, with `--list` each jump that does not go both
//! ways and the instructions before it, and a last line on all of them. Needs `objdump`, `nm` and
//! `valgrind`, for packed streams `cc`, since all batches run in one process.

use std::fs;
use std::path::{Path, PathBuf};
use std::process::ExitCode;

use reference::arguments::{exit_code, Arguments};
use reference::mask::dump::{add_all, written, Counts};
use reference::mask::report::{list, sum, table};
use reference::mask::run::{counted, counted_each, dumped, listed, named};
use reference::mask::ways::Tally;

const USAGE: &str = "usage: mask [--code OBJECT] [--list] [--min N] PROGRAM [--input FILE].. \
[--packed STREAM].. [--dump FILE].. [--save FILE] [-- PROGRAM ..]";

fn main() -> ExitCode {
    exit_code(perform())
}

/// A program and what it is run on.
struct Runs {
    program: PathBuf,
    inputs: Vec<PathBuf>,
    streams: Vec<PathBuf>,
    dumps: Vec<PathBuf>,
    save: Option<PathBuf>,
}

impl Runs {
    fn take(mut arguments: Arguments) -> Result<Runs, String> {
        let inputs = files(&mut arguments, "--input");
        let streams = files(&mut arguments, "--packed");
        let dumps = files(&mut arguments, "--dump");
        let save = arguments.value("--save").map(PathBuf::from);
        let program = arguments.word().ok_or(USAGE)?.into();
        let complaint = |complaint| format!("{complaint}\n{USAGE}");
        arguments.finish().map_err(complaint)?;
        Ok(Runs {
            program,
            inputs,
            streams,
            dumps,
            save,
        })
    }

    /// The counts of all runs together.
    fn counts(&self) -> Result<Counts, String> {
        let mut counts = Counts::new();
        for dump in &self.dumps {
            add_all(&mut counts, &dumped(dump, &self.program)?);
        }
        for input in &self.inputs {
            add_all(&mut counts, &counted(&self.program, input)?);
        }
        for stream in &self.streams {
            add_all(&mut counts, &counted_each(&self.program, stream)?);
        }
        if let Some(save) = &self.save {
            let text = written(&counts, &self.program);
            fs::write(save, text).map_err(|error| format!("{}: {error}", save.display()))?;
        }
        Ok(counts)
    }
}

fn files(arguments: &mut Arguments, name: &str) -> Vec<PathBuf> {
    let values = arguments.values(name).into_iter();
    values.map(PathBuf::from).collect()
}

fn perform() -> Result<(), String> {
    let words: Vec<String> = std::env::args().skip(1).collect();
    let mut parts = words.split(|word| word == "--").map(<[String]>::to_vec);
    let mut first = Arguments::new(parts.next().unwrap_or_default());
    let code = first.value("--code").map(PathBuf::from);
    let is_list = first.flag("--list");
    let least = first.number("--min").unwrap_or(0) as usize;
    let mut runs = vec![Runs::take(first)?];
    for part in parts {
        runs.push(Runs::take(Arguments::new(part))?);
    }
    let tally = match code {
        Some(code) => tally_of_code(&code, &runs)?,
        None => tally_of_program(&runs)?,
    };
    print!("{}", table(&tally, least));
    if is_list {
        print!("{}", list(&tally));
    }
    println!("{}", sum(&tally));
    Ok(())
}

fn tally_of_program(runs: &[Runs]) -> Result<Tally, String> {
    let [runs] = runs else {
        return Err(USAGE.to_string());
    };
    let mut tally = Tally::new(listed(&runs.program)?);
    tally.add_own(&runs.counts()?);
    Ok(tally)
}

fn tally_of_code(code: &Path, runs: &[Runs]) -> Result<Tally, String> {
    let mut tally = Tally::new(listed(code)?);
    for runs in runs {
        let symbols = named(&runs.program)?;
        tally.add(&symbols, &runs.counts()?)?;
    }
    Ok(tally)
}
