//! How far long work is: shown on a terminal and nowhere else, up to 20 plans nowhere. The terminal is
//! made by `script` (Debian's bsdutils); where that is not there, the tests say so.

mod common;

use std::fs;
use std::process::Command;

use common::{found, Scratch};

const EXAMPLES: &str = concat!(env!("CARGO_MANIFEST_DIR"), "/../examples");
const PROGRAM: &str = env!("CARGO_BIN_EXE_kadunfo");

/// More than are judged without a word of it.
const MANY: usize = 21;

/// What a line of the shell shows on a terminal, and its exit status.
fn on_a_terminal(line: &str) -> Option<(String, Option<i32>)> {
    if !found("script") {
        return None;
    }
    let done = Command::new("script")
        .args(["-qec", line, "/dev/null"])
        .output()
        .expect("script runs");
    let shown = String::from_utf8(done.stdout).expect("text");
    Some((shown, done.status.code()))
}

fn quoted(word: &str) -> String {
    format!("'{word}'")
}

/// The two-set case, and its plan under so many names.
struct Day {
    scratch: Scratch,
    case: String,
    plans: Vec<String>,
}

impl Day {
    fn new(test: &str, count: usize) -> Day {
        let scratch = Scratch::new(test);
        let plan = fs::read(format!("{EXAMPLES}/two-sets.plan")).expect("an example");
        let plans = (1..=count).map(|number| scratch.file(&format!("{number}.plan"), &plan));
        Day {
            plans: plans.collect(),
            case: format!("{EXAMPLES}/two-sets.case"),
            scratch,
        }
    }

    /// `kadunfo VERB CASE PLAN.. REST` for a shell.
    fn line(&self, verb: &str, rest: &str) -> String {
        let files = [&self.case].into_iter().chain(&self.plans);
        let files: Vec<String> = files.map(|file| quoted(file)).collect();
        format!("{} {verb} {} {rest}", quoted(PROGRAM), files.join(" "))
    }
}

/// What is shown up to a plan and no further, as a terminal has it.
fn steps(until: usize) -> String {
    let step = |number: usize| format!("\rplan {number} of {MANY}");
    (1..=until).map(step).collect::<String>() + "\r\n"
}

/// The answer itself goes where it is sent, without a word of how far it was.
#[test]
fn progress_is_shown_on_a_terminal() {
    let day = Day::new("shown", MANY);
    let [out, folder] = ["out", "folder"].map(|name| day.scratch.path(name));
    fs::create_dir(&folder).expect("a folder");
    let (out_word, folder_word) = (quoted(&out), quoted(&folder));
    for (verb, rest) in [
        ("judge", format!("> {out_word}")),
        ("report", format!("-o {out_word} > /dev/null")),
        ("join", format!("-o {out_word} > /dev/null")),
        (
            "renumber",
            format!("--order 2,1 --out {folder_word} > {out_word}"),
        ),
    ] {
        let Some(shown) = on_a_terminal(&day.line(verb, &rest)) else {
            return;
        };
        assert_eq!(shown, (steps(MANY), Some(0)), "{verb}");
        let made = fs::read(&out).expect("an answer");
        assert!(!String::from_utf8_lossy(&made).contains(" of 21"), "{verb}");
    }
    let Some((both, _)) = on_a_terminal(&day.line("judge", "")) else {
        return;
    };
    let behind = both.strip_prefix(&steps(MANY)).expect("progress ahead");
    assert_eq!(behind.matches(": accepted 167860\r\n").count(), MANY);
}

#[test]
fn progress_is_not_shown_elsewhere() {
    let day = Day::new("elsewhere", MANY);
    let done = Command::new(PROGRAM)
        .arg("judge")
        .arg(&day.case)
        .args(&day.plans)
        .output()
        .expect("the program runs");
    assert_eq!(String::from_utf8_lossy(&done.stderr), "");
    let out = String::from_utf8(done.stdout).expect("text");
    assert_eq!(out.lines().count(), MANY);
    let err = day.scratch.path("err");
    let aside = day.line("judge", &format!("2> {}", quoted(&err)));
    let Some((shown, status)) = on_a_terminal(&aside) else {
        return;
    };
    assert_eq!((shown.replace("\r\n", "\n"), status), (out, Some(0)));
    assert_eq!(fs::read(&err).expect("it is there"), b"");
    let few = Day::new("few", MANY - 1);
    let shown = on_a_terminal(&few.line("judge", "> /dev/null"));
    assert_eq!(shown, Some((String::new(), Some(0))));
}

/// A complaint on the way begins a line of its own.
#[test]
fn a_complaint_stands_behind_progress() {
    let mut day = Day::new("complaint", MANY);
    day.plans[2] = day.scratch.file("cut", b"\x21");
    let Some((shown, status)) = on_a_terminal(&day.line("report", "-o -")) else {
        return;
    };
    let behind = shown.strip_prefix(&steps(3)).expect("progress ahead");
    assert!(behind.starts_with("refused 1 8: plan "), "{shown:?}");
    assert_eq!((behind.lines().count(), status), (1, Some(2)));
}
