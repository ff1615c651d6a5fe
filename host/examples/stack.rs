//! The smallest stack, in steps of 4 KB, in which a thread calls each exported function on a batch's
//! first plan, which is accepted, and mends it with a power of its last interval too high: `stack
//! BATCH`. Each size is tried in a process of its own, which ends by a signal where the stack is too
//! small.

use std::env;
use std::fs;
use std::process::{Command, ExitCode, Stdio};
use std::thread;

use host::messages::read_case;
use host::{
    breaches, framed, inspect, judge, judge_batch, market, mend, messages, read_completion,
    read_market, split, with_buffer, write_case, write_plan, Batched, Copied, Framed, Inspected,
    Listed, Mend, Mended, Read, Verdict, Written, LONGEST_CASE, MOST_NUMBERS,
};

/// In steps of so many KB, at most so many steps.
const STEP: usize = 4;
const MOST_STEPS: usize = 384;

/// What a function is called on; the messages that are read are made before, by the main thread.
struct Day {
    batch: Vec<u8>,
    case: Vec<u8>,
    plan: Vec<u8>,
    /// The plan as a batch.
    plans: Vec<u8>,
    /// The plan with its last power too high.
    broken: Vec<u8>,
    completion: Vec<u8>,
    copy: Vec<u8>,
    result: Vec<u8>,
    table: Vec<u64>,
}

type Call = fn(&mut Day) -> bool;

const FUNCTIONS: [(&str, Call); 12] = [
    ("inspect", |day| {
        matches!(inspect(&day.case), Inspected::Counts { .. })
    }),
    ("judge", |day| {
        let verdict = judge(&day.case, &day.plan, &mut day.result);
        matches!(verdict, Verdict::Accepted { .. })
    }),
    ("judge-batch", |day| {
        let batched = judge_batch(&day.case, &day.plans, &mut day.result);
        matches!(batched, Batched::Judged(_))
    }),
    ("breaches", |day| {
        let listed = breaches(&day.case, &day.plan, &mut day.result);
        matches!(listed, Listed::Breaches { .. })
    }),
    ("write-case", |day| {
        let written = write_case(&day.case, &mut day.result);
        matches!(written, Written::Message { .. })
    }),
    ("write-plan", |day| {
        let written = write_plan(&day.case, &day.plan, &mut day.result);
        matches!(written, Written::Message { .. })
    }),
    ("market", |day| {
        let copied = market(&day.case, &day.plan, &mut day.result);
        matches!(copied, Copied::Written { .. })
    }),
    ("read-completion", |day| {
        let read = read_completion(&day.case, &day.completion, &mut day.table);
        matches!(read, Read::Figures { .. })
    }),
    ("read-market", |day| {
        let read = read_market(&day.case, &day.copy, &mut day.table);
        matches!(read, Read::Figures { .. })
    }),
    ("split", |day| {
        matches!(split(&day.batch, 0), Framed::Message { .. })
    }),
    ("mend", |day| {
        let mended = mend(&day.case, &day.plan);
        matches!(mended, Mended::Accepted { .. })
    }),
    ("mend-broken", |day| {
        let mended = mend(&day.case, &day.broken);
        matches!(mended, Mended::By(_))
    }),
];

fn main() -> ExitCode {
    let words: Vec<String> = env::args().skip(1).collect();
    match words.as_slice() {
        [batch] => search_all(batch),
        [batch, name, kilobytes] => attempt(batch, name, kilobytes.parse().expect("so many KB")),
        _ => {
            eprintln!("usage: stack BATCH");
            ExitCode::FAILURE
        }
    }
}

fn search_all(batch: &str) -> ExitCode {
    for (name, _) in FUNCTIONS {
        match search(batch, name) {
            Some(kilobytes) => println!("{name} {kilobytes} KB"),
            None => return ExitCode::FAILURE,
        }
    }
    ExitCode::SUCCESS
}

/// By halves: a stack that is enough is so with more.
fn search(batch: &str, name: &str) -> Option<usize> {
    let program = env::current_exe().expect("this program's path");
    let enough = |steps: usize| {
        Command::new(&program)
            .args([batch, name, &(STEP * steps).to_string()])
            .stderr(Stdio::null())
            .status()
            .is_ok_and(|status| status.success())
    };
    let (mut too_few, mut most) = (0, MOST_STEPS);
    if !enough(most) {
        return None;
    }
    while too_few + 1 < most {
        let steps = (too_few + most) / 2;
        if enough(steps) {
            most = steps;
        } else {
            too_few = steps;
        }
    }
    Some(STEP * most)
}

fn attempt(batch: &str, name: &str, kilobytes: usize) -> ExitCode {
    let (_, call) = FUNCTIONS
        .into_iter()
        .find(|(known, _)| *known == name)
        .expect("a function");
    let mut day = Day::of(fs::read(batch).expect("a batch"));
    let calling = thread::Builder::new()
        .stack_size(kilobytes * 1024)
        .spawn(move || call(&mut day))
        .expect("a thread");
    match calling.join() {
        Ok(true) => ExitCode::SUCCESS,
        _ => ExitCode::FAILURE,
    }
}

impl Day {
    fn of(batch: Vec<u8>) -> Day {
        let mut messages = messages(&batch).map(|message| message.expect("a message").to_vec());
        let (case, plan) = messages
            .next()
            .zip(messages.next())
            .expect("a case and a plan");
        let (verdict, completion) = with_buffer(|buffer| judge(&case, &plan, buffer));
        assert!(matches!(verdict, Verdict::Accepted { .. }), "{verdict:?}");
        let Copied::TooShort { bytes } = market(&case, &plan, &mut []) else {
            panic!("an accepted plan has a copy");
        };
        let mut copy = vec![0; bytes];
        assert_eq!(market(&case, &plan, &mut copy), Copied::Written { bytes });
        drop(messages);
        Day {
            batch,
            broken: broken(&case, &plan),
            plans: framed(&plan),
            case,
            plan,
            completion,
            copy,
            result: vec![0; LONGEST_CASE],
            table: vec![0; MOST_NUMBERS],
        }
    }
}

/// The plan with the highest power for its last device in its last interval.
fn broken(case: &[u8], plan: &[u8]) -> Vec<u8> {
    let figures = read_case(case).expect("it passes reading");
    let too_high = Mend {
        interval: figures.intervals.len(),
        device: figures.devices.len(),
        power: 100_000,
    };
    too_high.applied(&figures, plan).expect("such a field").1
}
