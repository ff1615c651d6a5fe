//! The batch program while its input is not ready: it sleeps between two tries, so that fifty take
//! half a second and not some microseconds, and answers as it does to input that is. It is the program that `tools/artifacts` puts into `target/bin` of the
//! repository.

use std::fs;
use std::io::{Read, Write};
use std::net::Shutdown;
use std::os::fd::OwnedFd;
use std::os::unix::net::UnixStream;
use std::process::{Command, Stdio};
use std::thread::sleep;
use std::time::{Duration, Instant};

const PROGRAM: &str = concat!(env!("CARGO_MANIFEST_DIR"), "/../target/bin/batch");
const INPUT: &str = concat!(env!("CARGO_MANIFEST_DIR"), "/../crates/batch/stdin");
const OUTPUT: &str = concat!(env!("CARGO_MANIFEST_DIR"), "/../crates/batch/stdout");

/// How long the program sleeps between two tries, and how many tries the input stays away for.
const PAUSE: Duration = Duration::from_millis(10);
const TRIES: u32 = 50;

/// Reads among them that have nothing to do with waiting: the system's when it loads the program,
/// and the program's of what is there.
const OTHER_READS: u32 = 15;

/// How many reads a process has made, those that found nothing included: `syscr` of its `io`.
fn reads(process: u32) -> u32 {
    let io = fs::read_to_string(format!("/proc/{process}/io")).expect("the process runs");
    let line = io.lines().find_map(|line| line.strip_prefix("syscr: "));
    line.expect("a count").parse().expect("a number")
}

#[test]
fn waiting_sleeps() {
    let input = fs::read(INPUT).expect("the program's input");
    let expected = fs::read(OUTPUT).expect("the program's output");
    let (mut sender, receiver) = UnixStream::pair().expect("two sockets");
    receiver
        .set_nonblocking(true)
        .expect("a socket that does not block");
    let mut program = Command::new(PROGRAM)
        .stdin(OwnedFd::from(receiver))
        .stdout(Stdio::piped())
        .spawn()
        .expect("`tools/artifacts` builds the program");

    let (begun, rest) = input.split_at(input.len() / 2);
    sender.write_all(begun).expect("the first half is sent");
    let since = Instant::now();
    let last = reads(program.id()) + TRIES;
    while reads(program.id()) < last {
        sleep(Duration::from_millis(1));
    }
    let waited = since.elapsed();
    sender.write_all(rest).expect("the second half is sent");
    sender.shutdown(Shutdown::Write).expect("the input ends");

    let mut answers = Vec::new();
    let mut output = program.stdout.take().expect("the program's output");
    output.read_to_end(&mut answers).expect("the output ends");
    program.wait().expect("the program ends");
    assert_eq!(answers, expected);
    assert!(waited >= PAUSE * (TRIES - OTHER_READS), "{waited:?}");
}
