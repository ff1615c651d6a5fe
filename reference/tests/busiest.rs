//! The busiest and the ordinary day are accepted, with every count at its largest.

use reference::batch::{messages, run, Line};
use reference::busiest::busiest_batch;
use reference::case::{read_case, Link};
use reference::edition::Edition;
use reference::form::Form;
use reference::ordinary::ordinary_batch;
use reference::plan::read_plan;

/// Editions and counts, with the largest messages of each: case, plan and completion.
const DAYS: [(Edition, [usize; 2], [usize; 3]); 7] = [
    (Edition::One, [16, 48], [29_812, 14_787, 12_165]),
    (Edition::Two, [16, 48], [37_203, 19_779, 13_887]),
    (Edition::Three, [16, 48], [43_731, 19_779, 13_887]),
    (Edition::Four, [16, 48], [43_739, 19_779, 13_888]),
    (Edition::Four, [64, 96], [328_103, 158_211, 70_324]),
    (Edition::Five, [16, 48], [43_743, 19_887, 14_164]),
    (Edition::Five, [64, 96], [328_113, 158_427, 70_876]),
];

/// Holds that a batch is a case and two plans of these lengths, and that both plans are accepted.
fn hold_to_lengths(edition: Edition, counts: [usize; 2], lengths: [usize; 3], batch: &[u8]) {
    let [devices, intervals] = counts;
    let [case, plan, completion] = lengths;
    let found: Vec<usize> = messages(batch).iter().map(|m| m.len()).collect();
    assert_eq!(found, [case, plan, plan]);
    let lines = run(Form::HOST, batch);
    assert_eq!(
        lines[0].to_string(),
        format!("0 case {devices} {intervals} 4")
    );
    assert!(matches!(lines[0], Line::Case { edition: found, .. } if found == edition));
    assert_eq!(lines.len(), 3);
    for line in &lines[1..] {
        assert!(matches!(line, Line::Accepted { message, .. } if message.len() == completion));
    }
}

#[test]
fn busiest_day_is_accepted() {
    for (edition, counts, lengths) in DAYS {
        let batch = busiest_batch(edition, 2, counts[0], counts[1]);
        hold_to_lengths(edition, counts, lengths, &batch);
    }
}

/// The ordinary day has as many figures; each device is on for most of the day, is switched two to
/// six times and, from edition 2 on, has two lines and, on the whole, reactive power.
#[test]
fn ordinary_day_is_accepted() {
    for (edition, counts, lengths) in DAYS {
        let batch = ordinary_batch(edition, 2, counts[0], counts[1]);
        hold_to_lengths(edition, counts, lengths, &batch);
        let messages = messages(&batch);
        let (_, case) = read_case(messages[0]).expect("the case passes reading");
        let plan = read_plan(edition, &case, messages[1]).expect("the plan passes reading");
        for (j, device) in case.devices.iter().enumerate() {
            let on: Vec<bool> = plan.intervals.iter().map(|row| row[j].on).collect();
            let states = [&[device.initially_on], &on[..]].concat();
            let switches = states.windows(2).filter(|pair| pair[0] != pair[1]).count();
            assert!((2..=6).contains(&switches), "{switches}");
            assert!(2 * on.iter().filter(|&&on| on).count() > on.len());
            let is_linked = matches!(device.link, Link::TwoLines { .. });
            assert_eq!(is_linked, edition.has_reactive_power());
        }
        assert_eq!(plan.has_reactive_power(), edition.has_reactive_power());
        assert_eq!(case.has_bars() && plan.has_flows(), edition.has_bars());
    }
}

/// Fewer devices and intervals are for growth.
#[test]
fn both_days_are_there_with_fewer_devices_and_intervals() {
    for [devices, intervals] in [[1, 1], [2, 3], [4, 12]] {
        for make in [busiest_batch, ordinary_batch] {
            let lines = run(Form::BATCH, &make(Edition::NEWEST, 1, devices, intervals));
            assert!(matches!(
                lines[..],
                [Line::Case { .. }, Line::Accepted { .. }]
            ));
        }
    }
}
