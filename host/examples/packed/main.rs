//! Reads packed batches on standard input and prints their output, as the reference's `compare`
//! asks of a program: what the exported functions answer, on days of every size.

mod lines;

use std::io::{self, Read, Write};
use std::process::ExitCode;

use reference::form::Form;
use reference::packed::{unpack, Extent};

fn main() -> ExitCode {
    match perform() {
        Ok(()) => ExitCode::SUCCESS,
        Err(complaint) => {
            eprintln!("{complaint}");
            ExitCode::FAILURE
        }
    }
}

fn perform() -> Result<(), String> {
    let told = |error: io::Error| error.to_string();
    let mut packed = Vec::new();
    io::stdin().read_to_end(&mut packed).map_err(told)?;
    let mut out = io::stdout().lock();
    for (number, batch) in unpack(&packed)?.into_iter().enumerate() {
        let output = lines::of_batch(Extent::of_run(Form::HOST), number, batch);
        out.write_all(output.as_bytes()).map_err(told)?;
    }
    out.flush().map_err(told)
}
