//! Reads packed batches on standard input and prints their output: what `compare` expects of a
//! program, done by the reference. `packed [--host]`; with `--host`, in the host form, with copies.

use std::io::{self, Read, Write};
use std::process::ExitCode;

use reference::arguments::{exit_code, Arguments};
use reference::form::Form;
use reference::packed::{output_to, unpack, Extent};

const USAGE: &str = "usage: packed [--host]";

fn main() -> ExitCode {
    exit_code(perform())
}

fn perform() -> Result<(), String> {
    let mut arguments = Arguments::of_program();
    let form = Form::host_if(arguments.flag("--host"));
    arguments
        .finish()
        .map_err(|complaint| format!("{complaint}\n{USAGE}"))?;
    let told = |error: io::Error| error.to_string();
    let mut packed = Vec::new();
    io::stdin().read_to_end(&mut packed).map_err(told)?;
    let batches = unpack(&packed)?;
    let mut out = io::stdout().lock();
    out.write_all(output_to(Extent::of_run(form), form, &batches).as_bytes())
        .map_err(told)?;
    out.flush().map_err(told)
}
