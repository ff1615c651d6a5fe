//! The programs that list machine code and count its instructions: `objdump`, `nm`, callgrind and,
//! for packed streams, `cc`.

use std::fs::{self, File};
use std::path::{Path, PathBuf};
use std::process::{Command, Stdio};

use crate::mask::dump::{counts, Counts};
use crate::mask::listing::{functions, Function};
use crate::mask::symbols::{symbols, Symbols};

/// What a program that is called prints, or why it cannot be had.
fn printed(name: &str, words: &[&str], file: &Path) -> Result<String, String> {
    let output = Command::new(name).args(words).arg(file).output();
    let output = output.map_err(|error| format!("{name}: {error}"))?;
    if output.status.success() {
        return Ok(String::from_utf8_lossy(&output.stdout).into_owned());
    }
    Err(String::from_utf8_lossy(&output.stderr).into_owned())
}

/// The functions of a program, an object file or an archive.
pub fn listed(code: &Path) -> Result<Vec<Function>, String> {
    let words = ["-d", "-l", "--no-show-raw-insn", "-w"];
    let listing = printed("objdump", &words, code)?;
    functions(&listing).map_err(|complaint| format!("{}: {complaint}", code.display()))
}

/// Where a program holds its functions.
pub fn named(program: &Path) -> Result<Symbols, String> {
    let symbols = symbols(&printed("nm", &[], program)?);
    if symbols.is_empty() {
        return Err(format!("{}: it has no symbols", program.display()));
    }
    Ok(symbols)
}

/// The counts of a program in a dump.
pub fn dumped(dump: &Path, program: &Path) -> Result<Counts, String> {
    let told = |complaint: &dyn std::fmt::Display| format!("{}: {complaint}", dump.display());
    let text = fs::read(dump).map_err(|error| told(&error))?;
    counts(&String::from_utf8_lossy(&text), program).map_err(|complaint| told(&complaint))
}

/// A file of this process that is removed in the end.
struct Temporary(PathBuf);

impl Temporary {
    fn new(name: &str) -> Temporary {
        let name = format!("mask-{}-{name}", std::process::id());
        Temporary(std::env::temp_dir().join(name))
    }
}

impl Drop for Temporary {
    fn drop(&mut self) {
        let _ = fs::remove_file(&self.0);
    }
}

/// The program under callgrind, which leaves a dump.
fn callgrind(program: &Path, dump: &Temporary) -> Command {
    let mut command = Command::new("valgrind");
    command
        .args(["-q", "--tool=callgrind", "--dump-instr=yes"])
        .arg("--collect-jumps=yes")
        .arg(format!("--callgrind-out-file={}", dump.0.display()))
        .arg(program)
        .stdin(Stdio::null())
        .stdout(Stdio::null());
    command
}

/// Runs a command to its end, which must be a good one.
fn finish(mut command: Command, name: &str) -> Result<(), String> {
    let status = command.status();
    let status = status.map_err(|error| format!("{name}: {error}"))?;
    if status.success() {
        return Ok(());
    }
    Err(format!("{name}: {status}"))
}

/// The counts of a program on a standard input.
pub fn counted(program: &Path, input: &Path) -> Result<Counts, String> {
    let dump = Temporary::new("dump");
    let file = File::open(input).map_err(|error| format!("{}: {error}", input.display()))?;
    let mut command = callgrind(program, &dump);
    command.stdin(file);
    finish(command, "valgrind")?;
    dumped(&dump.0, program)
}

/// In C, what runs a program once for each batch of a packed stream, all in one process.
const EACH_BATCH: &str = include_str!("each_batch.c");

/// That, compiled.
fn each_batch() -> Result<Temporary, String> {
    let (source, library) = (Temporary::new("each.c"), Temporary::new("each.so"));
    fs::write(&source.0, EACH_BATCH).map_err(|error| format!("{}: {error}", source.0.display()))?;
    let mut compile = Command::new("cc");
    compile
        .args(["-std=gnu99", "-Wall", "-Wextra", "-Werror", "-O1"])
        .args(["-shared", "-fPIC"])
        .arg(&source.0)
        .arg("-o")
        .arg(&library.0);
    finish(compile, "cc")?;
    Ok(library)
}

/// The counts of a program on each batch of a packed stream.
pub fn counted_each(program: &Path, stream: &Path) -> Result<Counts, String> {
    let dump = Temporary::new("dump");
    let library = each_batch()?;
    let mut command = callgrind(program, &dump);
    command
        .env("LD_PRELOAD", &library.0)
        .env("PROGRAM", program)
        .env("PACKED", stream);
    finish(command, "valgrind")?;
    dumped(&dump.0, program)
}
