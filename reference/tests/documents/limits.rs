//! Limits and greatest figures of FIGURES, and the numbers in the sentences of REPLY.

use reference::batch::messages;
use reference::bits::HIGHEST_POWER;
use reference::busiest::busiest_batch;
use reference::case::{Side, MOST_ITEMS, MOST_STATES, MOST_ZONES};
use reference::clock::spans;
use reference::completion::{completion_bits, Completion, IntervalChoices};
use reference::edition::Edition;
use reference::fault::Number;
use reference::forced::forced;
use reference::form::{Form, Largest};
use reference::generate::extreme::{very_high_surplus_day, very_low_surplus_day};
use reference::judge::{find, Finding};
use reference::ours::complete;
use reference::rewrite::{rewrite_case, rewrite_plan};
use reference::worked_day::Day;

use crate::day::ROOM;
use crate::figures::rows_of;
use crate::names::document;
use crate::sentences::sentences;
use crate::text::{number, number_spans, printed};
use crate::FIGURES;

#[test]
fn limits_and_greatest_figures_are_as_printed() {
    for row in rows_of(&["Figure", "Value"]) {
        assert_eq!(row[1], printed(limit(&row[0])), "{}", row[0]);
    }
}

fn limit(name: &str) -> i128 {
    let small = Edition::Three.largest();
    let large = Edition::NEWEST.largest();
    let found = match name {
        "most devices, editions 1 to 3" => small.devices,
        "most intervals, editions 1 to 3" => small.intervals,
        "most devices, from edition 4 on" => large.devices,
        "most intervals, from edition 4 on" => large.intervals,
        "most zones" => MOST_ZONES,
        "most startup states" => MOST_STATES,
        "most windows of a kind, and blocks" => MOST_ITEMS,
        "most power of a field" => HIGHEST_POWER as usize,
        "longest message in a batch, library" => Form::HOST.longest_message,
        "longest message in a batch, batch program" => Form::BATCH.longest_message,
        "longest list, library" => longest_list(large, "KADUNFO_LONGEST_LIST"),
        "longest list, 16 devices and 48 intervals" => list_bytes(small),
        "longest completion, library" => longest_completion(),
        "longest case in the newest edition" => longest_written(large).0,
        "longest plan in the newest edition" => longest_written(large).1,
        "longest case in the newest edition, 16 devices and 48 intervals" => written(small).0,
        "longest plan in the newest edition, 16 devices and 48 intervals" => written(small).1,
        "stack of a call" => of_header("KADUNFO_STACK"),
        _ => return greatest(name),
    };
    found as i128
}

/// Four bytes for each rule of a device in an interval, of the DC link in an interval and of a window.
fn list_bytes(largest: Largest) -> usize {
    let cells = largest.devices * largest.intervals;
    4 * (cells * (19 + 6) + largest.intervals + largest.devices * MOST_ITEMS)
}

fn longest_list(largest: Largest, name: &str) -> usize {
    let bytes = list_bytes(largest);
    assert_eq!(bytes, of_header(name), "{name}");
    bytes
}

fn longest_completion() -> usize {
    let day = very_low_surplus_day(Edition::NEWEST, Largest::LARGE);
    let bytes = completion_bits(day.edition, &day.case).div_ceil(8);
    assert_eq!(bytes, of_header("KADUNFO_LONGEST_COMPLETION"));
    bytes
}

/// The bytes of the busiest case of so many devices and intervals, and of its plan, when written.
fn written(largest: Largest) -> (usize, usize) {
    let batch = busiest_batch(Edition::NEWEST, 1, largest.devices, largest.intervals);
    let [case, plan] = messages(&batch)[..] else {
        panic!("a case and a plan");
    };
    let mut room = vec![0; ROOM];
    let case_bytes = rewrite_case(case, &mut room).expect("a case");
    let plan_bytes = rewrite_plan(case, plan, &mut room).expect("a plan");
    (case_bytes, plan_bytes)
}

fn longest_written(largest: Largest) -> (usize, usize) {
    let longest = ["KADUNFO_LONGEST_CASE", "KADUNFO_LONGEST_PLAN"].map(of_header);
    let (case_bytes, plan_bytes) = written(largest);
    assert_eq!([case_bytes, plan_bytes], longest);
    (case_bytes, plan_bytes)
}

/// A figure of the C header.
fn of_header(name: &str) -> usize {
    let header = document("host/include/kadunfo.h");
    let start = format!("#define {name} ");
    let line = header
        .lines()
        .find_map(|line| line.strip_prefix(start.as_str()));
    let figure = line.and_then(|rest| rest.split(' ').next()).expect(name);
    figure.parse().expect(name)
}

/// The greatest figures of the days that are made for them.
fn greatest(name: &str) -> i128 {
    let low = |edition| very_low_surplus_day(edition, Largest::LARGE);
    let high = very_high_surplus_day(Edition::Four, Largest::LARGE);
    match name {
        "least surplus found, edition 4" => surplus(&low(Edition::Four)),
        "greatest surplus found, edition 4" => surplus(&high),
        "least surplus found, edition 5" => surplus(&low(Edition::Five)),
        "greatest mismatch found, edition 4" => {
            of_intervals(&low(Edition::Four), |i| i.mismatches.to_vec())
        }
        "greatest mismatch found, edition 5" => {
            of_intervals(&low(Edition::Five), |i| i.mismatches.to_vec())
        }
        "greatest shortfall found" => {
            // With one producing device, the shares of the largest one come on top.
            let mut mixed = low(Edition::Four);
            mixed.case.devices.last_mut().expect("a device").side = Side::Producing;
            of_intervals(&mixed, |i| i.shortfalls.concat())
        }
        "greatest overrun found" => {
            let overruns = completion(&low(Edition::Four)).overruns;
            overruns.into_iter().flatten().max().expect("an overrun")
        }
        _ => panic!("{name}: no such figure"),
    }
}

fn completion(day: &Day) -> Completion {
    let spans = spans(&day.case.durations);
    complete(
        &day.case,
        &spans,
        &day.plan,
        &forced(&day.case, &spans, &day.plan),
    )
    .completion
}

fn of_intervals(day: &Day, pick: fn(&IntervalChoices) -> Vec<i128>) -> i128 {
    let intervals = completion(day).intervals;
    intervals.iter().flat_map(pick).max().expect("a figure")
}

fn surplus(day: &Day) -> i128 {
    match find(day.edition, &day.case, &day.plan) {
        Finding::Accepted { surplus, .. } => surplus,
        Finding::Broken(place) => panic!("{place:?}"),
    }
}

/// A number with thousands in a sentence is a limit of FIGURES, which is worked out above.
#[test]
fn numbers_of_the_sentences_are_limits() {
    let limits: Vec<String> = rows_of(&["Figure", "Value"])
        .into_iter()
        .map(|row| row[1].clone())
        .collect();
    for (number, sentence) in sentences() {
        for (from, until) in number_spans(&sentence) {
            let figure = sentence[from..until].to_string();
            let known = !figure.contains(',') || limits.contains(&figure);
            assert!(known, "{number}: {figure} is no limit of {FIGURES}");
        }
    }
}

/// Numbers of refusals and of sizes in the sentences are those of the reading.
#[test]
fn numbers_in_the_sentences_are_those_of_the_reading() {
    let of = |fault: Number| fault.figure() as usize;
    let (small, large) = (Edition::Three.largest(), Edition::NEWEST.largest());
    let count = of(Number::Count);
    let expected: [(&str, Vec<usize>); 14] = [
        ("1.1", vec![of(Number::Cut)]),
        ("1.2", vec![of(Number::Cut)]),
        ("1.3", vec![of(Number::Kind)]),
        ("1.4", vec![count]),
        ("1.5", vec![of(Number::Range)]),
        (
            "1.6",
            vec![of(Number::Contradiction), 1, 4, of(Number::Fill)],
        ),
        ("1.8", vec![0, of(Number::Fill), 1, 4]),
        ("1.9", vec![of(Number::Fill)]),
        (
            "12.1",
            vec![
                small.devices,
                small.intervals,
                1,
                3,
                large.devices,
                large.intervals,
                4,
                count,
            ],
        ),
        ("12.2", vec![small.devices, small.intervals, count]),
        (
            "12.3",
            vec![MOST_ZONES, MOST_STATES, MOST_ITEMS, MOST_ITEMS, MOST_ITEMS],
        ),
        (
            "12.4",
            vec![Form::HOST.longest_message, Form::BATCH.longest_message],
        ),
        ("15.3", vec![of_header("KADUNFO_STACK")]),
        (
            "16.7",
            vec![
                of_header("KADUNFO_LONGEST_CASE"),
                of_header("KADUNFO_LONGEST_PLAN"),
            ],
        ),
    ];
    for (place, figures) in expected {
        let all = sentences();
        let (_, sentence) = all.iter().find(|(n, _)| n == place).expect(place);
        let found = number_spans(sentence)
            .into_iter()
            .map(|(from, until)| number(&sentence[from..until]));
        let figures: Vec<_> = figures
            .into_iter()
            .map(|figure| Ok(figure as i128))
            .collect();
        assert_eq!(found.collect::<Vec<_>>(), figures, "{place}: {sentence}");
    }
}
