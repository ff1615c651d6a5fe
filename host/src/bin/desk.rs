//! The desk program under its other name.

use std::process::ExitCode;

fn main() -> ExitCode {
    host::program::main("desk")
}
