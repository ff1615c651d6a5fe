//! `docs/MESSAGES.md` and the plan unit say the same: which case and which plan is refused, by which
//! number and at which bit; which figures a completion and a market copy have; and the day that is
//! written out there is the reference's.

mod common;
#[path = "message_page/table.rs"]
mod table;

use common::{accepted, each_case, each_pair};
use host::{inspect, judge, market, read_completion, read_market};
use host::{Copied, Inspected, Read, Verdict, LONGEST_COPY, MOST_NUMBERS};
use reference::worked_day::two_set_day;
use table::{page, table, Fault, Row, Stated, Walk};

/// What a page says of a message of a case.
fn told(rows: &[Row], message: &[u8], stated: &Stated) -> Result<Stated, Fault> {
    Walk::new(message, stated).whole(rows)
}

fn refused((number, bit): Fault) -> host::Fault {
    host::Fault { number, bit }
}

fn same_case(rows: &[Row], case: &[u8]) -> Option<Stated> {
    let answer = inspect(case);
    match told(rows, case, &Stated::new()) {
        Ok(stated) => {
            let [devices, intervals, zones] =
                ["devices", "intervals", "zones"].map(|name| stated[name] as usize);
            assert_eq!(
                answer,
                Inspected::Counts {
                    devices,
                    intervals,
                    zones
                }
            );
            Some(stated)
        }
        Err(fault) => {
            assert_eq!(answer, Inspected::CaseRefused(refused(fault)));
            None
        }
    }
}

#[test]
fn cases_and_plans_are_refused_as_the_page_says() {
    let page = page();
    let (of_case, of_plan) = (table(&page, "Case"), table(&page, "Plan"));
    let mut faults = std::collections::BTreeSet::new();
    each_case(|case, plans| {
        let Some(stated) = same_case(&of_case, case) else {
            if let Inspected::CaseRefused(fault) = inspect(case) {
                faults.insert(("case", fault.number));
            }
            return;
        };
        for plan in plans {
            let answer = judge(case, plan, &mut []);
            match told(&of_plan, plan, &stated) {
                Ok(_) => assert!(!matches!(answer, Verdict::PlanRefused(_))),
                Err(fault) => {
                    assert_eq!(answer, Verdict::PlanRefused(refused(fault)));
                    faults.insert(("plan", fault.0));
                }
            }
        }
    });
    let of_case = [1, 2, 3, 4, 5, 6].map(|number| ("case", number));
    let of_plan = [1, 2, 3, 4, 6].map(|number| ("plan", number));
    assert_eq!(
        faults,
        of_case.into_iter().chain(of_plan).collect(),
        "every number was met"
    );
}

/// Every beginning and every single bit changed, of a small day of an edition.
#[test]
fn damaged_cases_are_refused_as_the_page_says() {
    let rows = table(&page(), "Case");
    let mut case = two_set_day().messages().0;
    for length in 0..case.len() {
        same_case(&rows, &case[..length]);
    }
    for bit in 0..8 * case.len() {
        case[bit / 8] ^= 0x80 >> (bit % 8);
        same_case(&rows, &case);
        case[bit / 8] ^= 0x80 >> (bit % 8);
    }
}

/// The numbers behind the counts of a completion or copy, as a reader gives them.
fn numbers(rows: &[Row], message: &[u8], stated: &Stated) -> Vec<u64> {
    let mut walk = Walk::new(message, stated);
    walk.whole(rows)
        .expect("what the plan unit writes passes reading");
    let behind = walk
        .read
        .iter()
        .filter(|read| read.name == "surplus" || !read.each.is_empty());
    behind
        .flat_map(|read| read.values.iter().map(|&value| value as u64))
        .collect()
}

/// A reader's answer is what the page says of the message.
fn same_figures(rows: &[Row], message: &[u8], stated: &Stated, read: Read, table: &[u64]) {
    let expected = numbers(rows, message, stated);
    let numbers = expected.len();
    assert_eq!(read, Read::Figures { numbers });
    assert_eq!(table[..numbers], expected);
}

#[test]
fn completions_and_copies_have_the_figures_that_the_page_says() {
    let page = page();
    let of_case = table(&page, "Case");
    let (whole, copy) = (table(&page, "Completion"), table(&page, "Market copy"));
    let mut result = vec![0; LONGEST_COPY];
    let mut found = vec![0; MOST_NUMBERS];
    let mut days = 0;
    each_pair(|case, plan| {
        let Some((_, completion)) = accepted(case, plan) else {
            return;
        };
        days += 1;
        let stated = told(&of_case, case, &Stated::new()).expect("judged");
        let read = read_completion(case, &completion, &mut found);
        same_figures(&whole, &completion, &stated, read, &found);
        let Copied::Written { bytes } = market(case, plan, &mut result) else {
            panic!("the copy of an accepted plan is written")
        };
        let read = read_market(case, &result[..bytes], &mut found);
        same_figures(&copy, &result[..bytes], &stated, read, &found);
    });
    assert!(days > 1_000, "{days}");
}

/// A message by its fields, a line for each part of it, and then its bytes.
fn written_out(rows: &[Row], message: &[u8], stated: &Stated) -> String {
    let mut walk = Walk::new(message, stated);
    walk.whole(rows).expect("the worked day passes reading");
    let mut lines: Vec<String> = Vec::new();
    let mut part = None;
    for read in &walk.read {
        let values: Vec<String> = read.values.iter().map(i128::to_string).collect();
        let field = format!("{} {}", read.name, values.join(" "));
        if part.as_ref() == Some(&read.each) {
            let line = lines.last_mut().expect("a part that has begun");
            line.push_str("; ");
            line.push_str(&field);
        } else {
            let each: Vec<String> = read
                .each
                .iter()
                .map(|(each, k)| format!("{each} {k}"))
                .collect();
            let whose = if each.is_empty() {
                String::new()
            } else {
                each.join(", ") + ": "
            };
            lines.push(format!("bit {}: {whose}{field}", read.bit));
            part = Some(read.each.clone());
        }
    }
    lines.push(String::new());
    lines.extend(message.chunks(16).map(|bytes| {
        let bytes: Vec<String> = bytes.iter().map(|byte| format!("{byte:02x}")).collect();
        bytes.join(" ")
    }));
    lines
        .iter()
        .map(|line| format!("    {line}").trim_end().to_owned() + "\n")
        .collect()
}

#[test]
fn the_day_written_out_is_the_worked_day() {
    let page = page();
    let (case, plan) = two_set_day().messages();
    let (of_case, of_plan) = (table(&page, "Case"), table(&page, "Plan"));
    let stated = told(&of_case, &case, &Stated::new()).expect("the worked day");
    for (rows, message, stated) in [(of_case, case, Stated::new()), (of_plan, plan, stated)] {
        let text = written_out(&rows, &message, &stated);
        assert!(
            page.contains(&format!("\n\n{text}")),
            "the page should have\n{text}"
        );
    }
}
