//! What several tests share, each a part of it: the corpora, pair by pair; a directory of its own;
//! the promised stack; commands and programs in C.
#![allow(dead_code)]

use std::fs;
use std::path::{Path, PathBuf};
use std::process::Command;
use std::thread;

use host::{judge, Lent, Verdict, STACK};
use reference::batch::messages;
use reference::fault::Fault;
use reference::packed::unpack;

/// Batches of every edition up to 16 devices and 48 intervals, and larger ones.
pub const CORPORA: [&str; 2] = [
    concat!(env!("CARGO_MANIFEST_DIR"), "/../crates/corpus/stdin"),
    concat!(env!("CARGO_MANIFEST_DIR"), "/corpus/stdin"),
];

/// Calls `visit` with every batch of the corpora.
pub fn each_batch(mut visit: impl FnMut(&[u8])) {
    for path in CORPORA {
        let corpus = fs::read(path).expect("the corpus is committed");
        let batches = unpack(&corpus).expect("a packed stream");
        batches.into_iter().for_each(&mut visit);
    }
}

/// Calls `visit` with every case of the corpora and the plans behind it.
pub fn each_case(mut visit: impl FnMut(&[u8], &[&[u8]])) {
    each_batch(|batch| {
        if let Some((case, plans)) = messages(batch).split_first() {
            visit(case, plans);
        }
    });
}

/// Calls `visit` with every case and plan of the corpora.
pub fn each_pair(mut visit: impl FnMut(&[u8], &[u8])) {
    each_case(|case, plans| plans.iter().for_each(|plan| visit(case, plan)));
}

/// The reference's refusal as the wrappers have it.
pub fn fault(fault: Fault) -> host::Fault {
    host::Fault {
        number: u64::from(fault.number.figure()),
        bit: fault.bit as u64,
    }
}

/// The surplus of a plan that is accepted, and its completion in a buffer that just holds it.
pub fn accepted(case: &[u8], plan: &[u8]) -> Option<(i64, Vec<u8>)> {
    let mut completion = vec![0; judge(case, plan, &mut []).needed()?];
    match judge(case, plan, &mut completion) {
        Verdict::Accepted { surplus } => Some((surplus, completion)),
        other => panic!("{other:?}"),
    }
}

/// A directory of one test's own.
pub struct Scratch(pub PathBuf);

impl Scratch {
    pub fn new(test: &str) -> Scratch {
        let name = format!("{}-{test}", env!("CARGO_CRATE_NAME"));
        let path = Path::new(env!("CARGO_TARGET_TMPDIR")).join(name);
        let _ = fs::remove_dir_all(&path);
        fs::create_dir_all(&path).expect("a scratch directory");
        Scratch(path)
    }

    pub fn path(&self, name: &str) -> String {
        self.0.join(name).to_str().expect("text").to_string()
    }

    pub fn file(&self, name: &str, bytes: &[u8]) -> String {
        let path = self.path(name);
        fs::write(&path, bytes).expect("a scratch file");
        path
    }
}

/// A link that is gone when the test ends, well or not: `rt ci` takes no checkout with a link in it.
pub struct Symlink(pub String);

impl Symlink {
    pub fn new(to: &str, name: String) -> Symlink {
        std::os::unix::fs::symlink(to, &name).expect("a link");
        Symlink(name)
    }
}

impl Drop for Symlink {
    fn drop(&mut self) {
        let _ = fs::remove_file(&self.0);
    }
}

/// What is called in a thread that has the stack which the header promises to be enough.
pub fn in_promised_stack<T: Send>(call: impl FnOnce() -> T + Send) -> T {
    thread::scope(|scope| {
        let called = thread::Builder::new()
            .stack_size(STACK)
            .spawn_scoped(scope, call);
        called.expect("a thread").join().expect("an answer")
    })
}

/// What a command prints that ends well.
pub fn ran(command: &mut Command) -> String {
    let done = command.output().expect("the command runs");
    let complaints = String::from_utf8_lossy(&done.stderr);
    assert!(done.status.success(), "{command:?}: {complaints}");
    String::from_utf8(done.stdout).expect("text")
}

/// A program that this machine may lack; the test says so then.
pub fn found(program: &str) -> bool {
    let there = Command::new(program).arg("--version").output().is_ok();
    if !there {
        eprintln!("no {program} here, so this was not tried");
    }
    there
}

/// The program of `tests/NAME.c`: compiled with every warning an error, linked with the static library.
pub fn compiled(name: &str) -> PathBuf {
    let host = env!("CARGO_MANIFEST_DIR");
    let program = Path::new(env!("CARGO_TARGET_TMPDIR")).join(format!("{name}-in-c"));
    ran(Command::new("cc")
        .args(["-std=c99", "-pedantic", "-O1"])
        .args(["-Wall", "-Wextra", "-Werror"])
        .arg(format!("-I{host}/include"))
        .arg(format!("{host}/tests/{name}.c"))
        .arg(format!("{host}/../target/staticlib/libabi.a"))
        .arg("-o")
        .arg(&program));
    program
}
