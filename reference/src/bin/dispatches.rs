//! The long run of dispatches for people: random questions, a program's output against the
//! reference's.
//!
//! `dispatches --program PATH [--seed S] [--first F] [--questions N] [--store FILE]`: PATH reads a
//! stream of questions on standard input and prints its output, both as `dispatch::stream` has them.
//! The run stops at the first difference and stores the questions in FILE.
//! `dispatches --answer` does what is asked of PATH.
//! `dispatches --write FILE [--seed S] [--first F] [--questions N]` writes the stream.
//! `dispatches --widest FILE [--target THOUSANDTHS] [--offers set|merit|against|shuffled]` writes the
//! most that can be asked: 256 offers of 64 sets, and a target so many thousandths of the way from the
//! least to the most.

use std::fs;
use std::io::{self, Read, Write};
use std::process::ExitCode;

use reference::arguments::Arguments;
use reference::compare::output_of_program;
use reference::dispatch::run::{compare, stream, Settings};
use reference::dispatch::stream::{answers, output};
use reference::generate::dispatches::{widest_batch, Arrangement};
use reference::packed::{pack, unpack};
use reference::rng::Rng;

const USAGE: &str = "usage: dispatches --program PATH [--seed S] [--first F] [--questions N] \
[--store FILE] | --answer | --write FILE [--seed S] [--first F] [--questions N] | --widest FILE [--target THOUSANDTHS] \
[--offers set|merit|against|shuffled]";

fn main() -> ExitCode {
    match perform() {
        Ok(true) => ExitCode::SUCCESS,
        Ok(false) => ExitCode::FAILURE,
        Err(message) => {
            eprintln!("{message}");
            ExitCode::from(2)
        }
    }
}

/// Whether no difference was found.
fn perform() -> Result<bool, String> {
    let mut arguments = Arguments::of_program();
    let is_to_answer = arguments.flag("--answer");
    let stream = arguments.value("--write");
    let widest = arguments.value("--widest");
    let target = arguments.number("--target").unwrap_or(500);
    let offers = arguments.value("--offers").unwrap_or("against".to_string());
    let program = arguments.value("--program");
    let settings = Settings {
        seed: arguments.number("--seed").unwrap_or(1),
        first_case: arguments.number("--first").unwrap_or(0),
        questions: arguments.number("--questions").unwrap_or(10_000),
    };
    let store = arguments.value("--store");
    arguments
        .finish()
        .map_err(|complaint| format!("{complaint}\n{USAGE}"))?;
    match (program, stream, widest, is_to_answer) {
        (Some(program), None, None, false) => run(&settings, &program, store),
        (None, Some(file), None, false) => write_stream(&file, &settings),
        (None, None, Some(file), false) => write_widest(&file, target, &offers),
        (None, None, None, true) => answer(),
        _ => Err(USAGE.to_string()),
    }
}

fn run(settings: &Settings, program: &str, store: Option<String>) -> Result<bool, String> {
    let mut product = |packed: &[u8]| output_of_program(program, packed);
    let report = |tally: &_| eprintln!("{tally}");
    let (tally, difference) =
        compare(settings, &mut product, report).map_err(|error| format!("{program}: {error}"))?;
    println!("seed {}, from case {}", settings.seed, settings.first_case);
    println!("{tally}");
    let Some(difference) = difference else {
        println!("no difference");
        return Ok(true);
    };
    let shown = |line: &Option<String>| line.clone().unwrap_or("no line".to_string());
    let store = store.unwrap_or("difference.dispatches".to_string());
    println!(
        "case {} differs at line {}",
        difference.batch, difference.line
    );
    println!("expected: {}", shown(&difference.expected));
    println!("given:    {}", shown(&difference.given));
    println!(
        "{} in {store}",
        if difference.shows_alone {
            "the case with its questions is"
        } else {
            "it differs only behind others, which are"
        }
    );
    fs::write(&store, &difference.packed).map_err(|error| format!("{store}: {error}"))?;
    Ok(false)
}

fn write_stream(file: &str, settings: &Settings) -> Result<bool, String> {
    fs::write(file, stream(settings)).map_err(|error| format!("{file}: {error}"))?;
    Ok(true)
}

fn write_widest(file: &str, thousandths: u64, offers: &str) -> Result<bool, String> {
    let mut all = Arrangement::ALL.into_iter();
    let arrangement = all.find(|arrangement| arrangement.name() == offers);
    let arrangement = arrangement.ok_or(USAGE)?;
    let batch = widest_batch(&mut Rng::new(1), i128::from(thousandths), arrangement);
    fs::write(file, pack(&[batch])).map_err(|error| format!("{file}: {error}"))?;
    Ok(true)
}

fn answer() -> Result<bool, String> {
    let told = |error: io::Error| error.to_string();
    let mut packed = Vec::new();
    io::stdin().read_to_end(&mut packed).map_err(told)?;
    let mut out = io::stdout().lock();
    for (number, batch) in unpack(&packed)?.into_iter().enumerate() {
        out.write_all(output(number, &answers(batch)?).as_bytes())
            .map_err(told)?;
    }
    out.flush().map_err(told)?;
    Ok(true)
}
