//! The batch program of the paper: reads a batch on standard input, case first, and prints a line
//! per message.

use std::io::{self, Read, Write};

use reference::batch::run;
use reference::form::Form;

fn main() -> io::Result<()> {
    let mut batch = Vec::new();
    io::stdin().read_to_end(&mut batch)?;
    let mut out = io::stdout().lock();
    for line in run(Form::BATCH, &batch) {
        writeln!(out, "{line}")?;
    }
    out.flush()
}
