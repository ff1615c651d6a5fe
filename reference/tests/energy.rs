//! Energy by the minute (A.3), and beside it the formulation's midpoint rule: what each counts, and
//! that nothing but overruns and what follows from them depends on the rule.

use reference::bits::FieldReader;
use reference::case::{Case, EnergyKind, EnergyWindow, MOST_ITEMS};
use reference::clock::{spans, Span};
use reference::completion::completion_bits;
use reference::edition::Edition;
use reference::energy::EnergyRule::{self, ByMidpoint, ByMinute};
use reference::forced::forced;
use reference::form::Largest;
use reference::generate::batches::random_plan_message;
use reference::generate::extreme::{very_high_surplus_day, very_low_surplus_day};
use reference::generate::plans::{good_plan, wild_plan};
use reference::generate::sample::{random_sample, wild_case, Sample};
use reference::generate::shape::Size;
use reference::judge::{find, find_by, Finding};
use reference::meets::meets_by;
use reference::ours::{complete_by, Ours};
use reference::plan::{read_plan, Plan};
use reference::rng::Rng;
use reference::rules::Place;
use reference::worked_day::{lettered_days, two_set_day, Day};

const SEED: u64 = 13;

fn window(kind: EnergyKind, start: i128, end: i128, energy: i128) -> EnergyWindow {
    EnergyWindow {
        kind,
        start,
        end,
        energy,
    }
}

/// The minutes of the interval 60..120 that count in a window: by the minute, by the midpoint.
#[test]
fn minutes_that_count_in_a_window() {
    let span = Span {
        start: 60,
        end: 120,
    };
    let windows = [
        // Apart from it, or meeting it in an edge alone.
        ((0, 59), 0, 0),
        ((0, 60), 0, 0),
        ((120, 180), 0, 0),
        ((121, 180), 0, 0),
        // Ends inside it.
        ((0, 61), 1, 0),
        ((0, 89), 29, 0),
        ((0, 90), 30, 60),
        ((0, 91), 31, 60),
        ((60, 119), 59, 60),
        // Begins inside it.
        ((61, 180), 59, 60),
        ((89, 180), 31, 60),
        ((90, 180), 30, 0),
        ((91, 120), 29, 0),
        ((119, 180), 1, 0),
        // Lies within it, around the midpoint and beside it.
        ((89, 90), 1, 60),
        ((90, 91), 1, 0),
        ((61, 119), 58, 60),
        ((100, 110), 10, 0),
        // Edge to edge, and beyond.
        ((60, 120), 60, 60),
        ((0, 120), 60, 60),
        ((60, 180), 60, 60),
        ((59, 121), 60, 60),
        // Empty, on its edges and inside it.
        ((60, 60), 0, 0),
        ((120, 120), 0, 0),
        ((90, 90), 0, 0),
        ((0, 0), 0, 0),
    ];
    for ((start, end), by_minute, by_midpoint) in windows {
        let window = window(EnergyKind::Maximum, start, end, 0);
        let told = [ByMinute, ByMidpoint].map(|rule| rule.minutes(&span, &window));
        assert_eq!(told, [by_minute, by_midpoint], "{start}..{end}");
    }
}

/// By the minute, the minutes of all intervals are the window's own, wherever it lies in the day.
#[test]
fn every_minute_of_a_window_counts_once() {
    let durations = [2, 10, 4, 360, 6];
    let spans = spans(&durations);
    let last_end: i128 = durations.iter().sum();
    for start in 0..=last_end {
        for end in start..=last_end {
            let window = window(EnergyKind::Minimum, start, end, 0);
            let minutes: i128 = spans.iter().map(|s| ByMinute.minutes(s, &window)).sum();
            assert_eq!(minutes, end - start);
        }
    }
}

/// Where a window's edges lie on interval edges, and where it is empty at any minute, both rules
/// count the same minutes.
#[test]
fn both_rules_agree_from_interval_edge_to_interval_edge() {
    let spans = spans(&[2, 10, 4, 360, 6, 60]);
    let last_end = spans[spans.len() - 1].end;
    let mut edges: Vec<i128> = spans.iter().map(|span| span.start).collect();
    edges.push(last_end);
    let agree = |start: i128, end: i128| {
        let window = window(EnergyKind::Maximum, start, end, 0);
        for span in &spans {
            let [by_minute, by_midpoint] = [ByMinute, ByMidpoint].map(|r| r.minutes(span, &window));
            assert_eq!(by_minute, by_midpoint, "{start}..{end}");
        }
    };
    for (first, &start) in edges.iter().enumerate() {
        for &end in &edges[first..] {
            agree(start, end);
        }
    }
    for minute in 0..=last_end {
        agree(minute, minute);
    }
}

/// "Case (l) becomes 163,360 (30 minutes at 150 kW) and (m) 163,510"; by the midpoint they are
/// paper 01's. No other letter has an energy window.
#[test]
fn letters_by_either_rule() {
    let figures = |rule| -> Vec<Option<i128>> {
        lettered_days()
            .iter()
            .map(
                |(_, day)| match find_by(rule, day.edition, &day.case, &day.plan) {
                    Finding::Accepted { surplus, .. } => Some(surplus),
                    Finding::Broken(_) => None,
                },
            )
            .collect()
    };
    let (by_minute, by_midpoint) = (figures(ByMinute), figures(ByMidpoint));
    assert_eq!(by_minute[..11], by_midpoint[..11]);
    assert_eq!(by_minute[11..], [Some(163_360), Some(163_510)]);
    assert_eq!(by_midpoint[11..], [Some(158_860), Some(167_860)]);
}

/// What a rule makes of a read plan.
enum Outcome {
    Broken(Place),
    Accepted { ours: Ours, message: Vec<u8> },
}

fn outcome(rule: EnergyRule, edition: Edition, case: &Case, plan: &Plan) -> Outcome {
    match find_by(rule, edition, case, plan) {
        Finding::Broken(place) => Outcome::Broken(place),
        Finding::Accepted { surplus, message } => {
            let spans = spans(&case.durations);
            let ours = complete_by(rule, case, &spans, plan, &forced(case, &spans, plan));
            assert_eq!(ours.surplus, surplus);
            assert!(meets_by(rule, case, plan, &ours.completion));
            Outcome::Accepted { ours, message }
        }
    }
}

fn overruns_of(ours: &Ours) -> Vec<i128> {
    ours.completion.overruns.concat()
}

fn first_bits(message: &[u8], bits: usize) -> Vec<bool> {
    (0..bits)
        .map(|bit| message[bit / 8] & (0x80 >> (bit % 8)) != 0)
        .collect()
}

const OVERRUN_BITS: usize = 32;
const SURPLUS_BITS: usize = 64;

fn energy_windows(case: &Case) -> usize {
    let devices = case.devices.iter();
    devices.map(|device| device.energy_windows.len()).sum()
}

fn bits_before_overruns(edition: Edition, case: &Case) -> usize {
    completion_bits(edition, case) - SURPLUS_BITS - OVERRUN_BITS * energy_windows(case)
}

/// The overruns that a completion message holds.
fn overruns_in(edition: Edition, case: &Case, message: &[u8]) -> Vec<i128> {
    let mut fields = FieldReader::new(message);
    let whole = "the message is whole";
    for _ in 0..bits_before_overruns(edition, case) {
        fields.flag().expect(whole);
    }
    let overruns = (0..energy_windows(case))
        .map(|_| fields.unbounded(OVERRUN_BITS).expect(whole))
        .collect();
    fields.unbounded(SURPLUS_BITS).expect(whole);
    assert_eq!(fields.finish(), Ok(()));
    overruns
}

/// What two rules make of one plan: broken alike, accepted alike, accepted with other overruns.
#[derive(Default, Debug)]
struct Counts {
    broken: usize,
    same: usize,
    other_overruns: usize,
}

impl Counts {
    /// Holds that nothing but overruns, and the surplus by their price, depends on the rule.
    fn hold_apart_from_overruns(&mut self, edition: Edition, case: &Case, plan: &Plan) {
        let outcomes = [ByMinute, ByMidpoint].map(|rule| outcome(rule, edition, case, plan));
        let (ours, message, other, other_message) = match outcomes {
            [Outcome::Broken(place), Outcome::Broken(other)] => {
                assert_eq!(place, other);
                self.broken += 1;
                return;
            }
            [Outcome::Accepted { ours, message }, Outcome::Accepted {
                ours: other,
                message: other_message,
            }] => (ours, message, other, other_message),
            _ => panic!("one rule accepts what the other does not"),
        };
        // Starts, stops, states, blocks, shortfalls and mismatches.
        assert_eq!(ours.completion.intervals, other.completion.intervals);
        let (overruns, other_overruns) = (overruns_of(&ours), overruns_of(&other));
        let more: i128 = overruns.iter().sum::<i128>() - other_overruns.iter().sum::<i128>();
        assert_eq!(ours.surplus - other.surplus, -case.overrun_price * more);
        hold_bytes_apart_from_overruns(edition, case, &message, &other_message);
        assert_eq!(overruns_in(edition, case, &message), overruns);
        assert_eq!(overruns_in(edition, case, &other_message), other_overruns);
        if overruns == other_overruns {
            assert_eq!(message, other_message);
            self.same += 1;
        } else {
            self.other_overruns += 1;
        }
    }
}

/// The bits of a completion ahead of its overruns, and its length, are the same.
fn hold_bytes_apart_from_overruns(edition: Edition, case: &Case, message: &[u8], other: &[u8]) {
    let bits = bits_before_overruns(edition, case);
    assert_eq!(first_bits(message, bits), first_bits(other, bits));
    assert_eq!(message.len(), other.len());
}

fn samples(count: u64) -> impl Iterator<Item = (Rng, Sample)> {
    (0..count).map(|index| {
        let mut rng = Rng::numbered(SEED, index);
        let size = rng.pick(&[Size::Tiny, Size::Small, Size::Small, Size::Medium]);
        let sample = random_sample(&mut rng, size);
        (rng, sample)
    })
}

#[test]
fn nothing_but_overruns_depends_on_the_rule_on_the_worked_days() {
    let mut counts = Counts::default();
    for (_, day) in lettered_days() {
        counts.hold_apart_from_overruns(day.edition, &day.case, &day.plan);
    }
    assert_eq!(
        (counts.broken, counts.same, counts.other_overruns),
        (3, 8, 2)
    );
}

#[test]
fn nothing_but_overruns_depends_on_the_rule_on_drawn_days() {
    let mut counts = Counts::default();
    for (mut rng, sample) in samples(120) {
        for _ in 0..8 {
            let message = random_plan_message(&mut rng, &sample);
            if let Ok(plan) = read_plan(sample.edition, &sample.case, &message) {
                counts.hold_apart_from_overruns(sample.edition, &sample.case, &plan);
            }
        }
        let (edition, case) = wild_case(&mut rng, Size::Tiny);
        let plan = wild_plan(&mut rng, edition, &case);
        counts.hold_apart_from_overruns(edition, &case, &plan);
    }
    println!("{counts:?}");
    assert!(counts.broken > 300 && counts.same > 50 && counts.other_overruns > 200);
}

/// Windows moved to the nearest interval edges: both rules give the same bytes.
#[test]
fn days_with_windows_on_interval_edges_are_alike_by_either_rule() {
    let mut with_overruns = 0;
    for (mut rng, mut sample) in samples(80) {
        let edges: Vec<i128> = sample.spans.iter().flat_map(|s| [s.start, s.end]).collect();
        let nearest = |minute: i128| *edges.iter().min_by_key(|&&e| (e - minute).abs()).unwrap();
        for device in &mut sample.case.devices {
            for window in &mut device.energy_windows {
                (window.start, window.end) = (nearest(window.start), nearest(window.end));
            }
        }
        let plan = good_plan(&mut rng, &sample);
        let [by_minute, by_midpoint] =
            [ByMinute, ByMidpoint].map(|rule| find_by(rule, sample.edition, &sample.case, &plan));
        assert_eq!(by_minute, by_midpoint);
        let Finding::Accepted { message, .. } = by_minute else {
            panic!("a good plan is accepted");
        };
        let overruns = overruns_in(sample.edition, &sample.case, &message);
        with_overruns += usize::from(overruns.iter().any(|&overrun| overrun > 0));
    }
    assert!(with_overruns > 30, "{with_overruns}");
}

/// "best" is best under the rule in force: an overrun may not be less than its need, and ours is
/// exactly its need.
#[test]
fn overruns_are_the_least_that_meet() {
    let mut tried = 0;
    for (mut rng, sample) in samples(60) {
        let plan = good_plan(&mut rng, &sample);
        for rule in [ByMinute, ByMidpoint] {
            let Outcome::Accepted { ours, .. } = outcome(rule, sample.edition, &sample.case, &plan)
            else {
                panic!("a good plan is accepted");
            };
            let windows = ours.completion.overruns.iter().map(Vec::len);
            let places = windows
                .enumerate()
                .flat_map(|(j, n)| (0..n).map(move |w| (j, w)));
            for (j, w) in places {
                let mut less = ours.completion.clone();
                less.overruns[j][w] -= 1;
                assert!(!meets_by(rule, &sample.case, &plan, &less));
                tried += 1;
            }
        }
    }
    assert!(tried > 300, "{tried}");
}

/// The worked day with energy windows on device 1: startup power of 30 kW in 0..60, then 150 kW.
fn surplus_with(windows: &[EnergyWindow]) -> i128 {
    let mut day = two_set_day();
    day.case.devices[0].energy_windows = windows.to_vec();
    match find(day.edition, &day.case, &day.plan) {
        Finding::Accepted { surplus, .. } => surplus,
        Finding::Broken(place) => panic!("{place:?}"),
    }
}

/// Overrun price 1, so 167,860 less each overrun.
#[test]
fn windows_of_the_worked_day() {
    use EnergyKind::{Maximum, Minimum};
    let figures = [
        (window(Maximum, 0, 60, 0), 60 * 30),
        (window(Maximum, 0, 59, 0), 59 * 30),
        (window(Maximum, 1, 60, 0), 59 * 30),
        (window(Maximum, 59, 61, 0), 30 + 150),
        (window(Maximum, 30, 90, 0), 30 * 30 + 30 * 150),
        (window(Maximum, 119, 120, 0), 150),
        (window(Maximum, 120, 120, 0), 0),
        (window(Maximum, 75, 80, 0), 5 * 150),
        (window(Maximum, 75, 80, 749), 1),
        (window(Maximum, 75, 80, 750), 0),
        (window(Minimum, 75, 80, 750), 0),
        (window(Minimum, 75, 80, 751), 1),
        (window(Minimum, 90, 90, 7), 7),
        (window(Minimum, 0, 120, 10_801), 1),
    ];
    for (window, overrun) in figures {
        assert_eq!(surplus_with(&[window]), 167_860 - overrun, "{window:?}");
    }
    let all: Vec<EnergyWindow> = figures[..MOST_ITEMS].iter().map(|(w, _)| *w).collect();
    let overruns: i128 = figures[..MOST_ITEMS].iter().map(|(_, o)| o).sum();
    assert_eq!(surplus_with(&all), 167_860 - overruns);
}

fn overruns_written_for(day: &Day) -> Vec<i128> {
    let Finding::Accepted { message, .. } = find(day.edition, &day.case, &day.plan) else {
        panic!("the day is accepted");
    };
    overruns_in(day.edition, &day.case, &message)
}

/// The greatest overruns fit their 32 bits: 100,000 kW for 17,280 minutes above a maximum of 0,
/// and a minimum of 4·10^9 over a window that is empty.
#[test]
fn the_greatest_overruns_fit_their_field() {
    let mut high = very_high_surplus_day(Edition::One, Largest::SMALL);
    for device in &mut high.case.devices {
        device.energy_windows = vec![
            window(EnergyKind::Maximum, 0, 17_280, 0),
            window(EnergyKind::Maximum, 1, 17_279, 0),
        ];
    }
    let overruns = overruns_written_for(&high);
    let expected = [1_728_000_000, 1_727_800_000].repeat(16);
    assert_eq!(overruns, expected);
    let overruns = overruns_written_for(&very_low_surplus_day(Edition::One, Largest::SMALL));
    assert_eq!(overruns, [4_000_000_000; 64]);
    assert!(overruns[0] < 1 << OVERRUN_BITS);
}
