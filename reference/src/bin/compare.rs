//! The long run for people: random batches, a program's output against the reference's.
//!
//! `compare --program PATH [--host [--small]] [--mends] [--seed S] [--first F] [--batches N | --plans
//! M] [--plans-per-batch P] [--store FILE]`
//!
//! PATH reads packed batches on standard input and prints their output, both as the corpus has
//! them; with `--host`, as the host library judges, on days of its sizes or, with `--small`, of the
//! batch program's; with `--mends`, on batches for mending. The run stops at the first difference and
//! stores the batch, packed, in FILE.

use std::fs;
use std::process::ExitCode;

use reference::arguments::Arguments;
use reference::compare::{compare, output_of_program, Difference, Settings, Until};
use reference::form::Form;

const USAGE: &str =
    "usage: compare --program PATH [--host [--small]] [--mends] [--seed S] [--first F] \
[--batches N | --plans M] [--plans-per-batch P] [--store FILE]";

fn main() -> ExitCode {
    match perform() {
        Ok(true) => ExitCode::SUCCESS,
        Ok(false) => ExitCode::FAILURE,
        Err(message) => {
            eprintln!("{message}");
            ExitCode::from(2)
        }
    }
}

/// Whether no difference was found.
fn perform() -> Result<bool, String> {
    let mut arguments = Arguments::of_program();
    let program = arguments.value("--program");
    let form = Form::host_if(arguments.flag("--host"));
    let mends = arguments.flag("--mends");
    let is_small = arguments.flag("--small");
    let seed = arguments.number("--seed").unwrap_or(1);
    let first_batch = arguments.number("--first").unwrap_or(0);
    let batches = arguments.number("--batches");
    let plans = arguments.number("--plans");
    let plans_per_batch = arguments.number("--plans-per-batch").unwrap_or(100) as usize;
    let store = arguments
        .value("--store")
        .unwrap_or("difference.packed".to_string());
    arguments
        .finish()
        .map_err(|complaint| format!("{complaint}\n{USAGE}"))?;
    let program = program.ok_or(USAGE)?;
    let until = until(batches, plans)?;
    let settings = Settings {
        form,
        drawn: if is_small { Form::BATCH } else { form },
        seed,
        first_batch,
        until,
        plans_per_batch,
        mends,
    };
    let mut product = |packed: &[u8]| output_of_program(&program, packed);
    let (census, difference) = compare(&settings, &mut product, |census| {
        eprintln!("batches {}, plans {}", census.batches, census.plans());
    })
    .map_err(|error| format!("{program}: {error}"))?;
    println!("seed {seed}, from batch {first_batch}\n{census}");
    match difference {
        None => {
            println!("no difference");
            Ok(true)
        }
        Some(difference) => {
            tell(&difference, &store);
            fs::write(&store, &difference.packed).map_err(|error| format!("{store}: {error}"))?;
            Ok(false)
        }
    }
}

/// Where the run ends: by batches or by plans, not by both.
fn until(batches: Option<u64>, plans: Option<u64>) -> Result<Until, String> {
    match (batches, plans) {
        (Some(_), Some(_)) => Err(USAGE.to_string()),
        (None, Some(plans)) => Ok(Until::Plans(plans)),
        (batches, None) => Ok(Until::Batches(batches.unwrap_or(1_000))),
    }
}

fn tell(difference: &Difference, store: &str) {
    let shown = |line: &Option<String>| line.clone().unwrap_or("no line".to_string());
    println!(
        "batch {} of the seed differs at line {}",
        difference.batch, difference.line
    );
    println!("expected: {}", shown(&difference.expected));
    println!("given:    {}", shown(&difference.given));
    if difference.shows_alone {
        println!("the batch alone, packed, is in {store}");
    } else {
        println!("it differs only behind others: the chunk, packed, is in {store}");
    }
}
