//! The libraries as they are installed: built by `make install` into a folder, used from there by a
//! program in C++ and by the Python module.

mod common;

use std::fmt::Write as _;
use std::io::Write as _;
use std::path::{Path, PathBuf};
use std::process::{Command, Stdio};
use std::sync::LazyLock;

use common::{each_case, each_pair, found, ran};
use host::{
    breaches, inspect, judge, market, mend, read_completion, read_market, write_case, write_plan,
    Copied, Fault, Inspected, Listed, Mend, Mended, Read, Verdict, Written, LONGEST_CASE,
    LONGEST_COMPLETION, LONGEST_COPY, LONGEST_LIST, LONGEST_PLAN, MOST_NUMBERS,
};
use reference::worked_day::{lettered_days, two_set_day};

const HOST: &str = env!("CARGO_MANIFEST_DIR");
const SCRATCH: &str = env!("CARGO_TARGET_TMPDIR");

static INSTALLED: LazyLock<PathBuf> = LazyLock::new(install);

fn install() -> PathBuf {
    let prefix = Path::new(SCRATCH).join("installed");
    ran(Command::new("make")
        .args(["-C", HOST, "install"])
        .arg(format!("PREFIX={}", prefix.display()))
        .arg(format!("BUILD={SCRATCH}/build")));
    prefix
}

#[test]
fn the_shared_library_exports_the_header_alone() {
    let library = INSTALLED.join("lib/libkadunfo.so");
    let header = std::fs::read_to_string(INSTALLED.join("include/kadunfo.h")).expect("installed");
    if !found("nm") {
        return;
    }
    let defined = ran(Command::new("nm")
        .args(["-D", "--defined-only"])
        .arg(&library));
    let mut names: Vec<&str> = defined
        .lines()
        .filter_map(|line| line.split(' ').nth(2))
        .collect();
    let mut declared: Vec<&str> = header
        .lines()
        .filter_map(|line| line.strip_prefix("uint64_t ")?.split('(').next())
        .collect();
    names.sort_unstable();
    declared.sort_unstable();
    assert_eq!(names, declared);
    let needed = ran(Command::new("nm")
        .args(["-D", "--undefined-only"])
        .arg(&library));
    let needed: Vec<&str> = needed
        .split_whitespace()
        .filter(|name| name.len() > 1)
        .collect();
    assert!(
        needed
            .iter()
            .all(|name| name.starts_with("memcpy@") || name.starts_with("memset@")),
        "{needed:?}"
    );
}

#[test]
fn a_program_in_cpp_judges_the_lettered_days() {
    if !found("c++") {
        return;
    }
    let lib = INSTALLED.join("lib");
    let program = Path::new(SCRATCH).join("verdict");
    ran(Command::new("c++")
        .args(["-std=c++11", "-pedantic", "-Wall", "-Wextra", "-Werror"])
        .arg(format!("-I{}", INSTALLED.join("include").display()))
        .arg(format!("{HOST}/tests/libraries/verdict.cpp"))
        .arg(format!("-L{}", lib.display()))
        .arg(format!("-Wl,-rpath,{}", lib.display()))
        .args(["-lkadunfo", "-o"])
        .arg(&program));
    for (letter, day) in lettered_days() {
        let (case, plan) = day.messages();
        let files = ["case", "plan"].map(|name| Path::new(SCRATCH).join(format!("cpp-{name}")));
        std::fs::write(&files[0], &case).expect("written");
        std::fs::write(&files[1], &plan).expect("written");
        let expected = match judge(&case, &plan, &mut [0; LONGEST_COMPLETION]) {
            Verdict::Accepted { surplus } => format!("0 {surplus} 0 0 0\nread 1\n"),
            Verdict::Broken(first) => format!("1 {first}\n"),
            Verdict::CaseRefused(Fault { number, bit }) => format!("2 {number} {bit} 0 0\n"),
            Verdict::PlanRefused(Fault { number, bit }) => format!("3 {number} {bit} 0 0\n"),
            other => panic!("{other:?}"),
        };
        assert_eq!(
            ran(Command::new(&program).args(&files)),
            expected,
            "{letter}"
        );
    }
}

fn hex(bytes: &[u8]) -> String {
    bytes.iter().fold(String::new(), |mut text, byte| {
        write!(text, "{byte:02x}").expect("into a string");
        text
    })
}

fn refused(message: &str, Fault { number, bit }: Fault) -> String {
    format!("refused {message} {number} {bit}")
}

/// What the module says of a plan that is not accepted.
fn not_accepted(verdict: Verdict) -> String {
    match verdict {
        Verdict::Broken(first) => format!("broken {first}"),
        Verdict::CaseRefused(fault) => refused("case", fault),
        Verdict::PlanRefused(fault) => refused("plan", fault),
        other => panic!("{other:?}"),
    }
}

fn written(written: Written, result: &[u8]) -> String {
    match written {
        Written::Message { bytes } => hex(&result[..bytes]),
        Written::CaseRefused(fault) => refused("case", fault),
        Written::PlanRefused(fault) => refused("plan", fault),
        other => panic!("{other:?}"),
    }
}

fn listed(listed: Listed, list: &[u8]) -> String {
    match listed {
        Listed::Breaches { count } => {
            let entry = |e: &[u8]| format!("broken {} {} {} {}", e[0], e[1], e[2], e[3]);
            let entries: Vec<String> = list[..4 * count].chunks(4).map(entry).collect();
            entries.join(" ")
        }
        Listed::CaseRefused(fault) => refused("case", fault),
        Listed::PlanRefused(fault) => refused("plan", fault),
        other => panic!("{other:?}"),
    }
}

fn inspected(inspected: Inspected) -> String {
    match inspected {
        Inspected::Counts {
            devices,
            intervals,
            zones,
        } => format!("counts {devices} {intervals} {zones}"),
        Inspected::CaseRefused(fault) => refused("case", fault),
        other => panic!("{other:?}"),
    }
}

fn numbers(read: Read, table: &[u64], signed_last: bool) -> String {
    let Read::Figures { numbers } = read else {
        panic!("{read:?}")
    };
    let (last, others) = table[..numbers].split_last().expect("a mismatch");
    let mut words: Vec<String> = others.iter().map(u64::to_string).collect();
    words.push(if signed_last {
        (*last as i64).to_string()
    } else {
        last.to_string()
    });
    words.join(" ")
}

/// The lines of an accepted plan: its verdict, and behind the others what the readers say.
fn accepted(case: &[u8], plan: &[u8]) -> (String, Vec<String>) {
    let (surplus, result) = common::accepted(case, plan).expect("it is accepted");
    let mut copy = vec![0; LONGEST_COPY];
    let Copied::Written { bytes } = market(case, plan, &mut copy) else {
        panic!("an accepted plan has a copy")
    };
    let mut table = vec![0; MOST_NUMBERS];
    let whole = read_completion(case, &result, &mut table);
    let mut lines = vec![numbers(whole, &table, true)];
    let copied = read_market(case, &copy[..bytes], &mut table);
    lines.push(numbers(copied, &table, false));
    lines.push("refused message 2 0".to_owned());
    (format!("accepted {surplus} {}", hex(&result)), lines)
}

fn expected(case: &[u8], plan: &[u8]) -> Vec<String> {
    let mut buffer = vec![0; LONGEST_CASE.max(LONGEST_PLAN).max(LONGEST_LIST)];
    let verdict = judge(case, plan, &mut buffer);
    let (first, readings) = match verdict {
        Verdict::Accepted { .. } => accepted(case, plan),
        _ => (not_accepted(verdict), Vec::new()),
    };
    let list = breaches(case, plan, &mut buffer);
    let mut lines = vec![first, listed(list, &buffer), inspected(inspect(case))];
    let answer = write_case(case, &mut buffer);
    lines.push(written(answer, &buffer));
    let answer = write_plan(case, plan, &mut buffer);
    lines.push(written(answer, &buffer));
    lines.push(match market(case, plan, &mut buffer) {
        Copied::Written { bytes } => hex(&buffer[..bytes]),
        _ => not_accepted(verdict),
    });
    lines.push(match mend(case, plan) {
        Mended::Accepted { surplus } => format!("unbroken {surplus}"),
        Mended::By(Mend {
            interval,
            device,
            power,
        }) => format!("mended {interval} {device} {power}"),
        Mended::Nothing => "unmendable".to_owned(),
        _ => not_accepted(verdict),
    });
    lines.extend(readings);
    lines
}

/// What a script over the installed module prints.
fn by_python(script: &str, asked: String) -> String {
    let mut python = Command::new("python3")
        .arg(format!("{HOST}/tests/libraries/{script}"))
        .env("PYTHONPATH", INSTALLED.join("share/kadunfo"))
        .env("PYTHONDONTWRITEBYTECODE", "1")
        .env("KADUNFO_LIBRARY", INSTALLED.join("lib/libkadunfo.so"))
        .stdin(Stdio::piped())
        .stdout(Stdio::piped())
        .spawn()
        .expect("python3 runs");
    let mut input = python.stdin.take().expect("a pipe");
    let writer = std::thread::spawn(move || input.write_all(asked.as_bytes()));
    let output = python.wait_with_output().expect("it ends");
    writer.join().expect("written").expect("written");
    assert!(output.status.success());
    String::from_utf8(output.stdout).expect("text")
}

#[test]
fn the_python_module_dispatches() {
    if found("python3") {
        let (case, _) = two_set_day().messages();
        assert_eq!(by_python("dispatch.py", hex(&case)), "dispatched\n");
    }
}

/// A part of the corpora's batches, and the two-set day behind them.
#[test]
fn the_python_module_judges_batches() {
    if !found("python3") {
        return;
    }
    let (mut asked, mut cases, mut verdicts) = (String::new(), 0, [0; 3]);
    let mut ask = |case: &[u8], plans: &[&[u8]]| {
        let line: Vec<String> = [case].iter().chain(plans).map(|bytes| hex(bytes)).collect();
        writeln!(asked, "{}", line.join(" ")).expect("into a string");
        for plan in plans {
            match judge(case, plan, &mut [0; LONGEST_COMPLETION]) {
                Verdict::Accepted { .. } => verdicts[0] += 1,
                Verdict::Broken(_) => verdicts[1] += 1,
                Verdict::PlanRefused(_) => verdicts[2] += 1,
                other => assert!(matches!(other, Verdict::CaseRefused(_))),
            }
        }
    };
    each_case(|case, plans| {
        cases += 1;
        if cases % 20 == 0 {
            ask(case, plans);
        }
    });
    let (case, plan) = two_set_day().messages();
    ask(&case, &[&plan]);
    let expected = verdicts.map(|count| count.to_string()).join(" ");
    assert!(verdicts.iter().all(|&count| count > 10), "{expected}");
    assert_eq!(by_python("batches.py", asked), expected + "\n");
}

#[test]
fn the_python_module_answers_as_the_library_does() {
    if !found("python3") {
        return;
    }
    let (mut asked, mut answers, mut pairs) = (String::new(), Vec::new(), 0);
    each_pair(|case, plan| {
        pairs += 1;
        if pairs % 40 == 0 {
            writeln!(asked, "{} {}", hex(case), hex(plan)).expect("into a string");
            answers.extend(expected(case, plan));
        }
    });
    let lines = by_python("lines.py", asked);
    assert!(answers.len() > 500, "{}", answers.len());
    assert!(lines.lines().eq(answers.iter().map(String::as_str)));
}
