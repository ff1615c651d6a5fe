//! The desk program.

use std::process::ExitCode;

fn main() -> ExitCode {
    host::program::main("kadunfo")
}
