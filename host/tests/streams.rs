//! The batch program's input and output when they fail, are interrupted, come in pieces or have no
//! room: with what the system has for it, and with a library in C between the two (`streams.c`),
//! which needs `cc`. It is the program that `tools/artifacts` puts into `target/bin` of the
//! repository. Where `KADUNFO_DUMPS` names a folder it is run under callgrind, and each run leaves a
//! dump there for the reference's `mask`.

use std::fs::{self, File};
use std::io::{ErrorKind, Read, Write};
use std::net::Shutdown;
use std::os::fd::OwnedFd;
use std::os::unix::net::UnixStream;
use std::path::{Path, PathBuf};
use std::process::{Child, Command, Output, Stdio};
use std::sync::LazyLock;
use std::thread::sleep;
use std::time::{Duration, Instant};

use reference::batch::run;
use reference::form::Form;

const HOST: &str = env!("CARGO_MANIFEST_DIR");
const SCRATCH: &str = env!("CARGO_TARGET_TMPDIR");
const PROGRAM: &str = concat!(env!("CARGO_MANIFEST_DIR"), "/../target/bin/batch");
const INPUT: &str = concat!(env!("CARGO_MANIFEST_DIR"), "/../crates/batch/stdin");
const OUTPUT: &str = concat!(env!("CARGO_MANIFEST_DIR"), "/../crates/batch/stdout");

/// Longer than any run.
const LONG: Duration = Duration::from_secs(600);

/// The system's numbers of errors.
const EIO: u32 = 5;
const EBADF: u32 = 9;
const EISDIR: u32 = 21;
const ECONNRESET: u32 = 104;

fn input() -> Vec<u8> {
    fs::read(INPUT).expect("the program's input")
}

fn output() -> String {
    fs::read_to_string(OUTPUT).expect("the program's output")
}

/// The first lines of the output.
fn lines(count: usize) -> String {
    output().split_inclusive('\n').take(count).collect()
}

fn input_failed(error: u32) -> String {
    format!("input failed {error}\n")
}

const OUTPUT_FAILED: &str = "output failed\n";

/// The words that run the program.
fn words() -> Vec<String> {
    assert!(
        Path::new(PROGRAM).exists(),
        "`tools/artifacts` builds the program"
    );
    let mut words = vec![PROGRAM.to_string()];
    if let Ok(folder) = std::env::var("KADUNFO_DUMPS") {
        let callgrind = format!(
            "valgrind -q --tool=callgrind --dump-instr=yes --collect-jumps=yes \
             --callgrind-out-file={folder}/streams.%p"
        );
        words.splice(0..0, callgrind.split(' ').map(str::to_string));
    }
    words
}

fn program() -> Command {
    let words = words();
    let mut command = Command::new(&words[0]);
    command.args(&words[1..]);
    command
}

/// The program behind a shell that changes what it has first.
fn behind(shell: &str) -> Command {
    let mut command = Command::new("sh");
    command
        .arg("-c")
        .arg(format!("{shell} exec \"$@\""))
        .arg("sh");
    command.args(words());
    command
}

fn given(mut command: Command) -> Command {
    command.stdin(File::open(INPUT).expect("the program's input"));
    command
}

/// Holds what a run left to what it must be; it always ends with 0.
fn hold(output: &Output, printed: &str, said: &str) {
    assert_eq!(String::from_utf8_lossy(&output.stdout), printed);
    assert_eq!(String::from_utf8_lossy(&output.stderr), said);
    assert!(output.status.success(), "{}", output.status);
}

fn ended(mut command: Command) -> Output {
    command.output().expect("the program runs")
}

#[test]
fn input_that_cannot_be_read_is_told() {
    let mut command = program();
    command.stdin(File::open(SCRATCH).expect("a folder"));
    hold(&ended(command), &input_failed(EISDIR), "");
    hold(&ended(behind("exec <&-;")), &input_failed(EBADF), "");
}

/// A peer that goes away with bytes unread breaks the connection: what came before is judged, and of
/// the message that is cut nothing is.
#[test]
fn input_that_breaks_off_is_told() {
    let input = input();
    let (mut sender, mut receiver) = UnixStream::pair().expect("two sockets");
    receiver.write_all(b"unread").expect("bytes for the peer");
    sender.write_all(&input[..input.len() - 1]).expect("a part");
    drop(sender);
    let mut command = program();
    command.stdin(OwnedFd::from(receiver));
    hold(&ended(command), &(lines(3) + &input_failed(ECONNRESET)), "");
}

#[test]
fn output_that_cannot_be_written_is_told() {
    let full = || {
        File::options()
            .write(true)
            .open("/dev/full")
            .expect("it is there")
    };
    let mut command = given(program());
    command.stdout(full()).stderr(Stdio::piped());
    hold(&ended(command), "", OUTPUT_FAILED);
    hold(&ended(given(behind("exec >&-;"))), "", OUTPUT_FAILED);
    let mut mute = given(program());
    mute.stdout(full()).stderr(full());
    hold(&ended(mute), "", "");
    hold(&ended(given(behind("exec >&- 2>&-;"))), "", "");
    hold(&ended(behind("exec <&- >&-;")), "", OUTPUT_FAILED);
}

/// A program of this Rattle ignores the signal from its start on, whatever the shell does.
#[test]
fn a_pipe_that_nobody_reads_ends_the_run() {
    let unread = || {
        let (reader, writer) = std::io::pipe().expect("a pipe");
        drop(reader);
        writer
    };
    let mut command = given(program());
    command.stdout(unread());
    hold(&ended(command), "", OUTPUT_FAILED);
    let mut deaf = given(behind("trap '' PIPE;"));
    deaf.stdout(unread());
    hold(&ended(deaf), "", OUTPUT_FAILED);
}

/// The case of the input with its first plan so often.
fn many_plans(count: usize) -> Vec<u8> {
    let batch = input();
    let frame =
        |at: usize| 3 + u32::from_be_bytes([0, batch[at], batch[at + 1], batch[at + 2]]) as usize;
    let case = frame(0);
    let plan = frame(case);
    let mut many = batch[..case].to_vec();
    for _ in 0..count {
        many.extend_from_slice(&batch[case..case + plan]);
    }
    many
}

/// A file that may not grow any more takes a part of a line.
#[test]
fn a_file_that_is_full_keeps_what_it_took() {
    const BLOCK: usize = 512;
    let (batch, wrote) = (scratch("full.batch"), scratch("full.wrote"));
    fs::write(&batch, many_plans(60)).expect("a file");
    let mut command = behind("trap '' XFSZ; ulimit -f 1;");
    command.stdin(File::open(&batch).expect("the batch"));
    command.stdout(File::create(&wrote).expect("a file"));
    let ended = command.stderr(Stdio::piped()).output().expect("it runs");
    let all = printed(&many_plans(60));
    let took = fs::read_to_string(&wrote).expect("what was written");
    assert!(took.len() % BLOCK == 0 && all.starts_with(&took) && took.len() < all.len());
    assert!(!took.is_empty() && !took.ends_with('\n'));
    hold(&ended, "", OUTPUT_FAILED);
}

/// The lines of a batch, by the reference.
fn printed(batch: &[u8]) -> String {
    let lines = run(Form::BATCH, batch).into_iter();
    lines.map(|line| format!("{line}\n")).collect()
}

fn scratch(name: &str) -> PathBuf {
    Path::new(SCRATCH).join(format!("streams.{name}"))
}

#[test]
fn bytes_that_come_one_by_one_are_a_batch() {
    let mut running = program()
        .stdin(Stdio::piped())
        .stdout(Stdio::piped())
        .spawn()
        .expect("the program runs");
    let mut sender = running.stdin.take().expect("its input");
    for byte in input() {
        sender.write_all(&[byte]).expect("a byte is sent");
        sleep(Duration::from_micros(100));
    }
    drop(sender);
    hold(&running.wait_with_output().expect("it ends"), &output(), "");
}

/// A count of `/proc/PID/io`, or the state of `/proc/PID/stat`.
fn calls(running: &Child, name: &str) -> u64 {
    let io = fs::read_to_string(format!("/proc/{}/io", running.id())).expect("it runs");
    let line = io.lines().find_map(|line| line.strip_prefix(name));
    line.expect("a count").trim().parse().expect("a number")
}

fn is_stopped(running: &Child) -> bool {
    let stat = fs::read_to_string(format!("/proc/{}/stat", running.id())).expect("it runs");
    stat.rsplit(") ").next().expect("a state").starts_with('T')
}

fn wait_until(mut is_so: impl FnMut() -> bool) {
    let since = Instant::now();
    while !is_so() {
        assert!(since.elapsed() < LONG, "it takes too long");
        sleep(Duration::from_millis(1));
    }
}

fn send(signal: &str, running: &Child) {
    let words = [signal.to_string(), running.id().to_string()];
    let status = Command::new("kill").args(words).status();
    assert!(status.expect("kill runs").success());
}

/// Stops a program and lets it go on: a call that waits on a socket with a time limit is
/// interrupted by that.
fn interrupt(running: &Child) {
    send("-STOP", running);
    wait_until(|| is_stopped(running));
    send("-CONT", running);
    wait_until(|| !is_stopped(running));
}

/// Interrupts until the program has made so many calls more.
fn interrupt_calls(running: &Child, name: &str, more: u64) {
    let last = calls(running, name) + more;
    while calls(running, name) < last {
        interrupt(running);
        sleep(Duration::from_millis(5));
    }
}

#[test]
fn an_interrupted_read_is_tried_again() {
    let input = input();
    let (mut sender, receiver) = UnixStream::pair().expect("two sockets");
    receiver.set_read_timeout(Some(LONG)).expect("a time limit");
    let running = program()
        .stdin(OwnedFd::from(receiver))
        .stdout(Stdio::piped())
        .spawn()
        .expect("the program runs");
    for part in input.chunks(input.len() / 2) {
        interrupt_calls(&running, "syscr:", 4);
        sender.write_all(part).expect("a part is sent");
    }
    sender.shutdown(Shutdown::Write).expect("the input ends");
    hold(&running.wait_with_output().expect("it ends"), &output(), "");
}

/// A socket without room for a byte, and how many bytes fill it.
fn full_socket() -> (UnixStream, UnixStream, usize) {
    let (mut socket, peer) = UnixStream::pair().expect("two sockets");
    socket.set_nonblocking(true).expect("it does not block");
    let mut fill = 0;
    for size in [4096, 1] {
        loop {
            match socket.write(&vec![b'.'; size]) {
                Ok(count) => fill += count,
                Err(error) if error.kind() == ErrorKind::WouldBlock => break,
                Err(error) => panic!("{error}"),
            }
        }
    }
    (socket, peer, fill)
}

/// Runs with a full socket as standard output, hands over the running program, then reads.
fn hold_when_full(socket: UnixStream, mut peer: UnixStream, fill: usize, during: impl Fn(&Child)) {
    let mut command = given(program());
    let mut running = command
        .stdout(OwnedFd::from(socket))
        .spawn()
        .expect("it runs");
    drop(command);
    during(&running);
    let mut all = Vec::new();
    peer.read_to_end(&mut all).expect("the output ends");
    assert!(running.wait().expect("it ends").success());
    assert_eq!(String::from_utf8_lossy(&all[fill..]), output());
}

#[test]
fn an_interrupted_write_is_tried_again() {
    let (socket, peer, fill) = full_socket();
    socket.set_nonblocking(false).expect("it blocks");
    socket.set_write_timeout(Some(LONG)).expect("a time limit");
    hold_when_full(socket, peer, fill, |running| {
        interrupt_calls(running, "syscw:", 4)
    });
}

#[test]
fn output_without_room_is_waited_for() {
    let (socket, peer, fill) = full_socket();
    hold_when_full(socket, peer, fill, |running| {
        let last = calls(running, "syscw:") + 4;
        wait_until(|| calls(running, "syscw:") >= last);
    });
}

static LIBRARY: LazyLock<PathBuf> = LazyLock::new(compile);

fn compile() -> PathBuf {
    let library = scratch("so");
    let done = Command::new("cc")
        .args(["-std=c99", "-Wall", "-Wextra", "-Werror", "-O1"])
        .args(["-shared", "-fPIC"])
        .arg(format!("{HOST}/tests/streams.c"))
        .arg("-o")
        .arg(&library)
        .output()
        .expect("cc runs");
    let complaints = String::from_utf8_lossy(&done.stderr);
    assert!(done.status.success(), "{complaints}");
    library
}

/// A run in which the next calls do what is told: what it prints and what it says.
fn hold_scripted(reads: &str, writes: &str, notes: &str, printed: &str, said: &str) {
    let mut command = given(program());
    command
        .env("LD_PRELOAD", &*LIBRARY)
        .env("READS", reads)
        .env("WRITES", writes)
        .env("NOTES", notes);
    hold(&ended(command), printed, said);
}

/// A frame is read in two calls, its head and the rest; `9999` leaves a call as it is.
#[test]
fn reads_may_be_short_interrupted_or_not_ready() {
    let all = output();
    for reads in [
        "1,1,1,2,1",
        "-4",
        "-11",
        "-4,1,-11,-4,-11,1,-4,2,-11,9999,-4,2,-4",
    ] {
        hold_scripted(reads, "", "", &all, "");
    }
}

#[test]
fn a_read_that_fails_ends_the_run_at_its_frame() {
    let failed = input_failed(EIO);
    for (reads, whole) in [
        ("-5", 0),
        ("2,-5", 0),
        ("9999,-5", 0),
        ("9999,9,-5", 0),
        ("9999,9999,-5", 1),
        ("9999,9999,9999,-5", 1),
        ("9999,9999,9999,9999,1,-4,-11,-5", 2),
    ] {
        hold_scripted(reads, "", "", &(lines(whole) + &failed), "");
    }
    hold_scripted("-0", "", "", &failed, "");
    for error in [1, 23, 104, 4095] {
        let failed = input_failed(error);
        hold_scripted(&format!("-{error}"), "", "", &failed, "");
        let (reads, printed) = (format!("9999,9999,-{error}"), lines(1) + &failed);
        hold_scripted(&reads, "", "", &printed, "");
    }
}

/// A system that tells of more bytes than were asked for is taken at as many.
#[test]
fn counts_above_what_was_asked_for_are_cut() {
    let mut blank = input();
    let case = 3 + u32::from_be_bytes([0, blank[0], blank[1], blank[2]]) as usize;
    blank[3..case].fill(0);
    hold_scripted("9999,=70000", "", "", &printed(&blank[..case]), "");
    let behind_first = output().replacen(&lines(1), "", 1);
    hold_scripted("", "=1000", "", &behind_first, "");
}

#[test]
fn writes_may_be_short_interrupted_or_not_ready() {
    let all = output();
    for writes in ["1,1,1", "-4", "-11", "-4,3,-11,1,-4,9999,2"] {
        hold_scripted("", writes, "", &all, "");
    }
}

#[test]
fn a_write_that_fails_or_takes_nothing_ends_the_run() {
    for (writes, whole, part) in [
        ("-28", 0, 0),
        ("=0", 0, 0),
        ("2,-5", 0, 2),
        ("9999,-5", 1, 0),
        ("9999,4,-4,=0", 1, 4),
    ] {
        let start = lines(whole).len() + part;
        hold_scripted("", writes, "", &output()[..start], OUTPUT_FAILED);
    }
    hold_scripted("-5", "-5", "", "", OUTPUT_FAILED);
}

/// What goes to standard error is tried once more only where a part was taken.
#[test]
fn a_note_that_cannot_be_written_is_left() {
    for (notes, said) in [("6", 14), ("-5", 0), ("=0", 0), ("6,-5", 6), ("6,1,1", 14)] {
        hold_scripted("", "-5", notes, "", &OUTPUT_FAILED[..said]);
    }
}
