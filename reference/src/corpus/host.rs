//! The set for the host form: days of more than 16 devices or 48 intervals, and what the host form
//! refuses.

use super::{batch_of, batch_of_day, damaged_forms, grown_day, Maker, Set};
use crate::batch::{append_length, append_message, join};
use crate::busiest::busiest_batch;
use crate::case::{Block, Case, Device, Ramps, Side, Terms};
use crate::edition::Edition;
use crate::encode::{encode_case, encode_plan};
use crate::form::{Form, Largest};
use crate::generate::batches::plan_of_another_edition;
use crate::generate::breaks::plan_breaking;
use crate::generate::damage::any_above_range;
use crate::generate::device::Scale;
use crate::generate::extreme::{most_breaches_day, very_low_surplus_day};
use crate::generate::plans::good_plan;
use crate::generate::sample::{sample_of, Sample};
use crate::generate::shape::{Shape, Size};
use crate::plan::{Plan, Setting};
use crate::rng::Rng;
use crate::worked_day::Day;

pub(super) const HOST_SET: Set = Set {
    form: Form::HOST,
    head: HEAD,
    further_files: COPIES,
    numbers_note: NUMBERS_NOTE,
    option: " --host",
    parts: &PARTS,
};

const PARTS: [(&str, Maker); 8] = [
    (
        "the largest day, accepted and broken at its last place alone",
        |_| vec![largest_day()],
    ),
    ("the most breaches of a plan", |_| vec![most_breaches()]),
    ("days of more than 16 devices and 48 intervals", days_beyond),
    (
        "days of many devices or many intervals, and few of the other",
        narrow_days,
    ),
    ("starts, trajectories and flows over 96 intervals", |_| {
        long_days()
    }),
    (
        "days with as many devices or intervals as may be, and with more",
        grown_days,
    ),
    ("damaged plans of 17 devices, most starts above 96", damage),
    ("framing", |_| framing_batches()),
];

const LARGE: Largest = Largest::LARGE;

/// The day of the lowest surplus, and its plan with the last device off in the last interval, which
/// the case does not allow.
fn largest_day() -> Vec<u8> {
    let day = very_low_surplus_day(Edition::NEWEST, LARGE);
    let mut switched_off = day.plan.clone();
    switched_off.intervals[LARGE.intervals - 1][LARGE.devices - 1].on = false;
    batch_of(day.edition, &day.case, &[day.plan, switched_off])
}

fn most_breaches() -> Vec<u8> {
    batch_of_day(&most_breaches_day(Edition::NEWEST, LARGE))
}

/// A case of so many devices and intervals, of an edition that can say them.
fn sample(rng: &mut Rng, devices: usize, intervals: usize) -> Sample {
    let shape = Shape {
        size: Size::Beyond,
        devices,
        intervals,
        zones: rng.below(5),
    };
    let scale = rng.pick(&[Scale::Calm, Scale::Low, Scale::Low, Scale::Wide]);
    let edition = rng.pick(&shape.size.editions());
    sample_of(rng, edition, &shape, scale)
}

/// A case with a plan that keeps every rule and, where one is drawn, a plan that breaks one.
fn kept_and_broken(rng: &mut Rng, devices: usize, intervals: usize) -> Vec<u8> {
    let sample = sample(rng, devices, intervals);
    let rule = rng.from_to(1, i128::from(sample.edition.last_rule())) as u8;
    let mut plans = vec![good_plan(rng, &sample)];
    plans.extend(plan_breaking(rng, &sample, rule));
    batch_of(sample.edition, &sample.case, &plans)
}

fn days_beyond(rng: &mut Rng) -> Vec<Vec<u8>> {
    [(17, 49), (18, 55)]
        .map(|(devices, intervals)| kept_and_broken(rng, devices, intervals))
        .to_vec()
}

fn narrow_days(rng: &mut Rng) -> Vec<Vec<u8>> {
    let many_devices = [(64, 1), (64, 2), (33, 3), (17, 4)];
    let many_intervals = [(1, 96), (2, 96), (3, 65), (4, 49)];
    [many_devices, many_intervals]
        .concat()
        .into_iter()
        .map(|(devices, intervals)| kept_and_broken(rng, devices, intervals))
        .collect()
}

/// A device of 96 intervals of 2 minutes that runs at 200 kW, and rises and falls by 1 kW in a
/// minute.
fn slow_day(initially_on: bool, is_on: impl Fn(usize) -> bool) -> Day {
    const POWER: i128 = 200;
    let terms = Terms {
        pmin: POWER,
        pmax: POWER,
        blocks: vec![Block::plain(POWER, 1)],
        ..Terms::default()
    };
    let device = Device {
        initially_on,
        initial_power: if initially_on { POWER } else { 8 },
        ramps: Ramps {
            up: 1,
            down: 1,
            starting: 1,
            stopping: 1,
        },
        ..Device::plain(Side::Producing, vec![terms; LARGE.intervals])
    };
    let setting = |t: usize| Setting {
        on: is_on(t),
        online_power: if is_on(t) { POWER } else { 0 },
        ..Setting::default()
    };
    Day {
        edition: Edition::NEWEST,
        case: Case {
            mismatch_price: 1,
            overrun_price: 1,
            link_limit: 0,
            durations: vec![2; LARGE.intervals],
            zones: Vec::new(),
            devices: vec![device],
        },
        plan: Plan::plain((0..LARGE.intervals).map(|t| vec![setting(t)]).collect()),
    }
}

/// A start in every other interval; one start in the last, whose startup power fills the day; a
/// start in every other interval, whose startup powers all meet; a flow above its limit in the last
/// interval.
fn long_days() -> Vec<Vec<u8>> {
    let is_last = |t: usize| t + 1 == LARGE.intervals;
    let is_even = |t: usize| t % 2 == 1;
    let mut flowing = slow_day(true, |_| true);
    flowing.plan.flows[LARGE.intervals - 1] = 1;
    vec![
        busiest_batch(Edition::NEWEST, 1, 1, LARGE.intervals),
        batch_of_day(&slow_day(false, is_last)),
        batch_of_day(&slow_day(true, is_even)),
        batch_of_day(&flowing),
    ]
}

/// Of each edition one more than it takes; as many as the newest takes, and as its counts can say.
fn grown_days(rng: &mut Rng) -> Vec<Vec<u8>> {
    const SAID: usize = 127;
    let mut batches = Vec::new();
    for edition in Edition::ALL {
        let Largest { devices, intervals } = edition.largest();
        batches.push(grown_day(rng, edition, devices + 1, 1));
        batches.push(grown_day(rng, edition, 1, intervals + 1));
    }
    for (devices, intervals) in [(LARGE.devices, LARGE.intervals), (SAID, SAID)] {
        batches.push(grown_day(rng, Edition::NEWEST, devices, 1));
        batches.push(grown_day(rng, Edition::NEWEST, 1, intervals));
    }
    batches
}

/// Plans of 17 devices damaged in every kind of field; cases with more most starts than 96.
fn damage(rng: &mut Rng) -> Vec<Vec<u8>> {
    let many = sample(rng, 17, 1);
    let message = encode_plan(many.edition, &good_plan(rng, &many));
    let mut batch = join(&[encode_case(many.edition, &many.case).bytes]);
    append_message(&mut batch, &plan_of_another_edition(rng, &many));
    for plan in damaged_forms(rng, &message) {
        append_message(&mut batch, &plan);
    }
    append_message(&mut batch, &message.bytes);
    let mut batches = vec![batch];
    while batches.len() < 4 {
        let Sample { edition, case, .. } = sample(rng, 1, 2);
        let message = encode_case(edition, &case);
        let above = any_above_range(rng, &message, "most starts");
        batches.extend(above.map(|case| join(&[case])));
    }
    batches
}

/// A length one above the longest, the longest itself with nothing behind it, and one that the
/// batch form alone refuses with 4.
fn framing_batches() -> Vec<Vec<u8>> {
    let longest = Form::HOST.longest_message;
    [longest + 1, longest, Form::BATCH.longest_message + 1]
        .map(|length| {
            let mut batch = batch_of_day(&slow_day(true, |_| true));
            append_length(&mut batch, length);
            batch
        })
        .to_vec()
}

const HEAD: &str = "\
# Days of the host form

Batches of more devices or intervals than the batch program takes, and of what the host form
refuses, with the output that the host library and the reference are both held to.
";

const COPIES: &str = "\
- `copies`: for each accepted plan of `stdin` a line `batch K plan I: copy BYTES CRC; desk N CRC;
  market N CRC` (A.7), I being its index among the messages of batch K: the length and the CRC-32 of
  its market copy; how many numbers the desk reader gives of its completion, and the market reader of
  its copy, with the CRC-32 of these numbers, each in eight bytes, most significant first.
- `batch-copies`: the same of the batch program's corpus, `crates/corpus/stdin`.
";

const NUMBERS_NOTE: &str = "\
Lengths above 1,048,576 are framing 4. Every refusal of smaller days is in the batch program's
corpus.
";
