//! Writes a batch of one case and one of its plans, repeated, out of a packed stream: what an
//! instruction count for each further plan is taken on.
//!
//! `pick STREAM BATCH PLAN TIMES FILE`; batches count from 0, plans from 1.

use std::fs;
use std::process::ExitCode;

use reference::arguments::{exit_code, Arguments};
use reference::batch::{join, messages};
use reference::packed::unpack;

const USAGE: &str = "usage: pick STREAM BATCH PLAN TIMES FILE";

fn main() -> ExitCode {
    exit_code(perform())
}

fn perform() -> Result<(), String> {
    let mut arguments = Arguments::of_program();
    let words: Vec<String> = std::iter::from_fn(|| arguments.word()).collect();
    arguments
        .finish()
        .map_err(|complaint| format!("{complaint}\n{USAGE}"))?;
    let [stream, batch, plan, times, file] = words.as_slice() else {
        return Err(USAGE.to_string());
    };
    let packed = fs::read(stream).map_err(|error| format!("{stream}: {error}"))?;
    let batches = unpack(&packed)?;
    let batch = batches
        .get(number(batch)?)
        .ok_or("there is no such batch")?;
    let messages = messages(batch);
    let case = messages.first().ok_or("the batch has no case")?;
    let plan = messages
        .get(number(plan)?)
        .ok_or("the batch has no such plan")?;
    let mut picked = vec![*case];
    picked.resize(1 + number(times)?, *plan);
    fs::write(file, join(&picked)).map_err(|error| format!("{file}: {error}"))
}

fn number(word: &str) -> Result<usize, String> {
    word.parse()
        .map_err(|_| format!("{word} is not a number\n{USAGE}"))
}
