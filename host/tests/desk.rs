//! The desk program as it is run: its lines, its complaints and its exit statuses.

mod common;

use std::ffi::OsStr;
use std::fs;
use std::path::Path;
use std::process::Command;

use common::{each_case, each_pair, Scratch, Symlink};
use reference::breaches::breaches_of;
use reference::case::{
    read_case, Device, Link, LinkLine, ReactiveReserves, Reserves, Side, StartWindow, Status,
    Terms, Zone,
};
use reference::edition::Edition;
use reference::encode::encode_plan;
use reference::judge::judge;
use reference::mend::mend_of;
use reference::plan::{read_plan, Plan, Setting};
use reference::renumber::Order;
use reference::rewrite::{newest_case, newest_plan};
use reference::worked_day::{
    floor_days, lettered_days, link_days, reactive_days, two_set_day, Day, ToldDay,
};

/// What a run left: text of both outputs, exit status.
#[derive(Debug)]
struct Ran {
    out: String,
    err: String,
    status: Option<i32>,
}

fn desk<W: AsRef<OsStr>>(words: &[W]) -> Ran {
    let done = Command::new(env!("CARGO_BIN_EXE_desk"))
        .args(words)
        .output()
        .expect("the desk program runs");
    let text = |bytes: Vec<u8>| String::from_utf8(bytes).expect("text");
    Ran {
        out: text(done.stdout),
        err: text(done.stderr),
        status: done.status.code(),
    }
}

/// A run that complains in one line and prints nothing.
fn complaint<W: AsRef<OsStr>>(words: &[W], status: i32) -> String {
    let ran = desk(words);
    assert_eq!(
        (ran.out.as_str(), ran.status),
        ("", Some(status)),
        "{ran:?}"
    );
    let line = ran.err.strip_suffix('\n').expect("a line's end");
    assert!(!line.is_empty() && !line.contains('\n'), "{ran:?}");
    line.to_string()
}

/// A run that prints and does not complain.
fn answer<W: AsRef<OsStr>>(words: &[W], status: i32) -> String {
    let ran = desk(words);
    assert_eq!(
        (ran.err.as_str(), ran.status),
        ("", Some(status)),
        "{ran:?}"
    );
    ran.out
}

/// The verdict that `judge` prints, without the words behind it.
fn verdict_of<W: AsRef<OsStr>>(words: &[W], status: i32) -> String {
    let text = answer(words, status);
    let line = text.strip_suffix('\n').expect("a line's end");
    match line.split_once(": rule ") {
        Some((verdict, _)) => format!("{verdict}\n"),
        None => text,
    }
}

impl Scratch {
    /// The files of a day's case and plan.
    fn day(&self, day: &Day) -> [String; 2] {
        let (case, plan) = day.messages();
        [self.file("case", &case), self.file("plan", &plan)]
    }
}

fn lettered(letter: char) -> Day {
    let mut days = lettered_days().into_iter();
    days.find(|day| day.0 == letter).expect("a letter").1
}

#[test]
fn judge_prints_the_verdict() {
    let scratch = Scratch::new("judge");
    for (letter, line, status) in [
        ('a', "accepted 167860\n", 0),
        ('b', "broken 5 2 1 0\n", 1),
        ('g', "broken 2 2 1 0\n", 1),
        ('h', "accepted -1452140\n", 0),
        ('j', "broken 20 0 1 1\n", 1),
        ('l', "accepted 163360\n", 0),
    ] {
        let [case, plan] = scratch.day(&lettered(letter));
        assert_eq!(verdict_of(&["judge", &case, &plan], status), line);
    }
}

/// The verdicts of told days, in their order.
fn hold_verdicts(test: &str, days: &[ToldDay], verdicts: &[&str]) {
    let scratch = Scratch::new(test);
    assert_eq!(days.len(), verdicts.len());
    for ((about, day), verdict) in days.iter().zip(verdicts) {
        let [case, plan] = scratch.day(day);
        let status = i32::from(verdict.starts_with("broken"));
        let line = format!("{verdict}\n");
        let verdict = verdict_of(&["judge", &case, &plan], status);
        assert_eq!(verdict, line, "{about}");
    }
}

/// The days of edition 2 that were worked by hand, in their order.
#[test]
fn judge_prints_the_verdict_in_edition_2() {
    let verdicts = [
        "accepted 107860",
        "accepted 167860",
        "broken 21 1 2 0",
        "accepted 107440",
        "accepted -372560",
        "accepted 164920",
        "broken 23 2 1 0",
        "broken 23 2 1 0",
        "accepted 165580",
        "broken 25 1 1 0",
    ];
    hold_verdicts("judge-2", &reactive_days(), &verdicts);
}

/// The days of edition 3 that were worked by hand, in their order.
#[test]
fn judge_prints_the_verdict_in_edition_3() {
    let verdicts = ["accepted 164260", "broken 19 2 1 0"];
    hold_verdicts("judge-3", &floor_days(), &verdicts);
}

/// The worked day as the last two of 64 devices in the last two of 96 intervals. Before them the load
/// is on at 0 kW; all else is off all day.
fn large_day() -> Day {
    let mut day = in_edition(Edition::Four, two_set_day());
    let intervals = 96;
    day.case.durations = vec![60; intervals];
    for device in &mut day.case.devices {
        device.terms = vec![device.terms[0].clone(); intervals];
    }
    let idle = Device::plain(Side::Producing, vec![Terms::default(); intervals]);
    let idle = vec![idle; 64 - day.case.devices.len()];
    day.case.devices = [idle, day.case.devices].concat();
    let off = Setting::default();
    let quiet = vec![off, Setting { on: true, ..off }];
    let quiet = vec![quiet; intervals - day.plan.intervals.len()];
    day.plan = Plan::plain([quiet, day.plan.intervals].concat());
    for row in &mut day.plan.intervals {
        *row = [vec![off; 64 - row.len()], row.clone()].concat();
    }
    day
}

fn in_edition(edition: Edition, day: Day) -> Day {
    Day { edition, ..day }
}

/// The worked day; the large one, where device 63 starts after 600 and 5,700 minutes off, longer than
/// any state lasts: 216,000 of load, less 5,400 and 33,000 of blocks, 240 while on and 10,000 of the
/// start.
#[test]
fn judge_prints_the_verdict_in_edition_4() {
    let worked = in_edition(Edition::Four, two_set_day());
    let mut broken = large_day();
    broken.plan.intervals[95][62].online_power = 151;
    let days = [
        ("the worked day", worked),
        ("the large day", large_day()),
        ("the large day with 151 kW at its start", broken),
    ];
    let verdicts = ["accepted 167860", "accepted 167360", "broken 5 96 63 0"];
    hold_verdicts("judge-4", &days, &verdicts);
}

/// The worked day of edition 5, with device 2 on bar 1, and other limits and flows.
fn barred_day(link_limit: i128, flows: [i128; 2]) -> Day {
    let mut day = link_days()[0].1.clone();
    day.case.link_limit = link_limit;
    day.plan.flows = flows.to_vec();
    day
}

/// The days of edition 5 that were worked by hand, in their order.
#[test]
fn judge_prints_the_verdict_in_edition_5() {
    let verdicts = ["accepted 167860", "broken 27 2 0 0", "accepted -7032140"];
    hold_verdicts("judge-5", &link_days(), &verdicts);
}

/// The field of so many bits at a place.
fn field(message: &[u8], at: usize, width: usize) -> u64 {
    (at..at + width).fold(0, |value, bit| {
        2 * value + u64::from(message[bit / 8] >> (7 - bit % 8) & 1)
    })
}

/// Puts a field of so many bits at a place.
fn put(message: &mut [u8], at: usize, width: usize, value: u64) {
    for (bit, below) in (at..at + width).zip((0..width).rev()) {
        let mask = 1 << (7 - bit % 8);
        message[bit / 8] &= !mask;
        message[bit / 8] |= mask * (value >> below & 1) as u8;
    }
}

/// 1 kW and 1 kvar more of load than comes over the DC link: 1,200 more of its block, less 60,000 for
/// each mismatch. In the completion they stand behind the header's 25 bits and 2 devices of 73.
#[test]
fn mismatches_of_a_completion_are_those_of_bar_0_and_bar_1() {
    let scratch = Scratch::new("bars");
    let mut day = barred_day(150, [30, 150]);
    day.plan.intervals[0][1].online_power = 31;
    day.case.devices[1].terms[0].qmax = 1;
    day.plan.intervals[0][1].reactive_power = 1;
    let [case, plan] = scratch.day(&day);
    let result = scratch.path("result");
    let line = answer(&["judge", &case, &plan, "--result", &result], 0);
    assert_eq!(line, "accepted 49060\n");
    let completion = fs::read(&result).expect("a completion");
    let mismatches = [0, 1, 2, 3].map(|k| field(&completion, 171 + 23 * k, 23));
    assert_eq!(mismatches, [0, 1, 0, 1]);
}

/// The completion that `judge` writes to a file is the reference's, of so many bytes.
fn hold_completion(scratch: &Scratch, day: &Day, bytes: usize) {
    let [case, plan] = scratch.day(day);
    let result = scratch.path("result");
    answer(&["judge", &case, &plan, "--result", &result], 0);
    let mut expected = vec![0; bytes];
    let (case, plan) = day.messages();
    judge(&case, &plan, &mut expected);
    assert_eq!(fs::read(&result).expect("a completion"), expected);
}

/// A header of 22 bits, from edition 4 on 25; in each interval 73 for a device, 198 for a zone and 23,
/// from edition 2 on 66 for a zone and 23 more, in edition 5 another 46; 64 of surplus.
#[test]
fn judge_writes_the_completion_of_an_accepted_plan_alone() {
    let scratch = Scratch::new("result");
    let day = two_set_day();
    hold_completion(&scratch, &day, 53);
    hold_completion(&scratch, &reactive_days()[0].1, 59);
    hold_completion(&scratch, &reactive_days()[4].1, 125);
    hold_completion(&scratch, &floor_days()[0].1, 59);
    hold_completion(&scratch, &large_day(), 56_628);
    hold_completion(&scratch, &barred_day(150, [30, 150]), 71);
    let [case, plan] = scratch.day(&lettered('b'));
    let other = scratch.path("other");
    answer(&["judge", "--result", &other, &case, &plan], 1);
    assert!(!Path::new(&other).exists());
    let nowhere = scratch.path("nowhere/result");
    let [case, plan] = scratch.day(&day);
    let line = complaint(&["judge", &case, &plan, "--result", &nowhere], 3);
    assert!(line.starts_with(&format!("desk: cannot write {nowhere}: ")));
}

/// The lines of a day.
fn lines_of(test: &str, day: &Day) -> Vec<String> {
    let [case, plan] = Scratch::new(test).day(day);
    let text = answer(&["breaches", &case, &plan], 1);
    text.lines().map(String::from).collect()
}

/// The lines of the worked day after a change.
fn lines_after(test: &str, change: impl Fn(&mut Day)) -> Vec<String> {
    let mut day = two_set_day();
    change(&mut day);
    lines_of(test, &day)
}

#[test]
fn no_breaches_of_an_accepted_plan() {
    let later = [
        reactive_days()[4].1.clone(),
        floor_days()[0].1.clone(),
        large_day(),
        barred_day(150, [30, 150]),
    ];
    for day in [two_set_day()].into_iter().chain(later) {
        let [case, plan] = Scratch::new("none").day(&day);
        assert_eq!(answer(&["breaches", &case, &plan], 0), "no breaches\n");
    }
}

/// Startup power is 150 − 2·60 = 30 kW in interval 1, so 151 is 121 more.
#[test]
fn plan_b_in_words() {
    let [case, plan] = Scratch::new("b").day(&lettered('b'));
    assert_eq!(
        answer(&["breaches", &case, &plan], 1),
        "5 2 1 0 rule 5 (ramp up) at interval 2, device 1: power rises by 121 kW (from 30 to 151), \
         at most 120 kW (60 min at 2 kW/min starting)\n"
    );
}

#[test]
fn five_changes_in_words() {
    let window = |most_starts| StartWindow {
        start: 60,
        end: 120,
        most_starts,
    };
    let lines = lines_after("five", |day| {
        day.case.devices[1].terms[0].status = Status::Off;
        day.plan.intervals[1][0].online_power = 151;
        day.plan.intervals[1][0].reserves.rgu = 21;
        day.plan.intervals[1][1].online_power = 201;
        day.case.devices[0].start_windows = vec![window(0), window(1), window(0)];
    });
    let expected = [
        "1 1 2 0 rule 1 (fixed status) at interval 1, device 2: is on, must be off (fixed by the case)",
        "5 2 1 0 rule 5 (ramp up) at interval 2, device 1: power rises by 121 kW (from 30 to 151), at most 120 kW (60 min at 2 kW/min starting)",
        "7 2 1 0 rule 7 (regulation up limit) at interval 2, device 1: regulation up is 21 kW (rgu 21), at most 20 kW (rgu limit)",
        "9 2 1 0 rule 9 (synchronized reserve limit) at interval 2, device 1: regulation up and synchronized reserve is 21 kW (rgu 21), at most 20 kW (scr limit)",
        "10 2 1 0 rule 10 (online ramping up limit) at interval 2, device 1: regulation up, synchronized and online ramping up reserve is 21 kW (rgu 21), at most 20 kW (rru_on limit)",
        "16 2 2 0 rule 16 (highest online power) at interval 2, device 2: online power with down reserves is 201 kW (online 201), at most 200 kW (pmax)",
        "19 2 2 0 rule 19 (block caps) at interval 2, device 2: power is 201 kW (online 201), at most 200 kW (blocks 200)",
        "20 0 1 1 rule 20 (starts in a window) at device 1, window 1: has 1 start (from minute 60 before minute 120), at most 0 starts",
        "20 0 1 3 rule 20 (starts in a window) at device 1, window 3: has 1 start (from minute 60 before minute 120), at most 0 starts",
    ];
    assert_eq!(lines, expected);
}

/// Device 1, on at 150 in interval 2, with 100 of each reserve.
#[test]
fn reserves_in_words() {
    let lines = lines_after("reserves", |day| {
        day.plan.intervals[1][0].reserves = Reserves::from_order([100; 8]);
    });
    let expected = [
        "7 2 1 0 rule 7 (regulation up limit) at interval 2, device 1: regulation up is 100 kW (rgu 100), at most 20 kW (rgu limit)",
        "8 2 1 0 rule 8 (regulation down limit) at interval 2, device 1: regulation down is 100 kW (rgd 100), at most 20 kW (rgd limit)",
        "9 2 1 0 rule 9 (synchronized reserve limit) at interval 2, device 1: regulation up and synchronized reserve is 200 kW (rgu 100 + scr 100), at most 20 kW (scr limit)",
        "10 2 1 0 rule 10 (online ramping up limit) at interval 2, device 1: regulation up, synchronized and online ramping up reserve is 300 kW (rgu 100 + scr 100 + rru_on 100), at most 20 kW (rru_on limit)",
        "11 2 1 0 rule 11 (online ramping down limit) at interval 2, device 1: regulation down and online ramping down reserve is 200 kW (rgd 100 + rrd_on 100), at most 20 kW (rrd_on limit)",
        "12 2 1 0 rule 12 (non-synchronized reserve limit) at interval 2, device 1: non-synchronized reserve is 100 kW (nsc 100), at most 0 kW (while on)",
        "13 2 1 0 rule 13 (offline ramping up limit) at interval 2, device 1: non-synchronized and offline ramping up reserve is 200 kW (nsc 100 + rru_off 100), at most 0 kW (while on)",
        "14 2 1 0 rule 14 (offline ramping down limit) at interval 2, device 1: offline ramping down reserve is 100 kW (rrd_off 100), at most 0 kW (while on)",
        "15 2 1 0 rule 15 (reserves of the other side) at interval 2, device 1: offline ramping down reserve is 100 kW (rrd_off 100), must be 0 kW (producing)",
        "16 2 1 0 rule 16 (highest online power) at interval 2, device 1: online power with up reserves is 450 kW (online 150 + rgu 100 + scr 100 + rru_on 100), at most 200 kW (pmax)",
        "17 2 1 0 rule 17 (lowest online power) at interval 2, device 1: online power less down reserves is -50 kW (online 150 - rgd 100 - rrd_on 100), at least 150 kW (pmin)",
        "18 2 1 0 rule 18 (highest offline power) at interval 2, device 1: startup and shutdown power with offline reserves is 200 kW (startup 0 + nsc 100 + rru_off 100), at most 0 kW (while on)",
    ];
    assert_eq!(lines, expected);
}

/// Device 2 is initially on for 10 minutes and off all day; device 1 starts after 70 minutes off.
#[test]
fn initial_states_in_words() {
    let lines = lines_after("initial", |day| {
        let devices = &mut day.case.devices;
        (devices[0].minutes_already_so, devices[0].minimum_down) = (10, 71);
        (devices[1].minutes_already_so, devices[1].minimum_up) = (10, 71);
        day.plan.intervals[0][1] = Setting::default();
        day.plan.intervals[1][1] = Setting::default();
    });
    let expected = [
        "2 1 2 0 rule 2 (initial state) at interval 1, device 2: is off 10 min after its initial on state began (10 min before the day), at least 71 min (minimum up)",
        "2 2 1 0 rule 2 (initial state) at interval 2, device 1: is on 70 min after its initial off state began (10 min before the day), at least 71 min (minimum down)",
        "2 2 2 0 rule 2 (initial state) at interval 2, device 2: is off 70 min after its initial on state began (10 min before the day), at least 71 min (minimum up)",
    ];
    assert_eq!(lines, expected);
}

/// Device 2, initially on, is off, on and off in intervals of 60, 30 and 60 minutes.
#[test]
fn minimum_times_in_words() {
    let lines = lines_after("minimum", |day| {
        day.case.durations = vec![60, 30, 60];
        for device in &mut day.case.devices {
            device.terms = vec![device.terms[0].clone(); 3];
        }
        let device_2 = &mut day.case.devices[1];
        (device_2.minimum_up, device_2.minimum_down) = (31, 61);
        let idle = Setting::default();
        let rows = [false, true, false].map(|on| vec![idle, Setting { on, ..idle }]);
        day.plan = Plan::plain(rows.to_vec());
    });
    let expected = [
        "3 2 2 0 rule 3 (minimum down time) at interval 2, device 2: starts 60 min after its last stop (in interval 1), at least 61 min (minimum down)",
        "4 3 2 0 rule 4 (minimum up time) at interval 3, device 2: stops 30 min after its last start (in interval 2), at least 31 min (minimum up)",
    ];
    assert_eq!(lines, expected);
}

#[test]
fn ramps_in_words() {
    let lines = lines_after("up", |day| day.case.devices[1].ramps.up = 1);
    let expected = "5 2 2 0 rule 5 (ramp up) at interval 2, device 2: power rises by 120 kW (from 30 to 150), at most 60 kW (60 min at 1 kW/min up)";
    assert_eq!(lines, [expected]);
    let lines = lines_after("down", |day| {
        day.case.devices[1].ramps.down = 1;
        day.plan.intervals[0][1].online_power = 150;
        day.plan.intervals[1][1].online_power = 30;
    });
    let expected = "6 2 2 0 rule 6 (ramp down) at interval 2, device 2: power falls by 120 kW (from 150 to 30), at most 60 kW (60 min at 1 kW/min down)";
    assert_eq!(lines, [expected]);
    let lines = lines_after("stopping", |day| {
        day.case.devices[1].ramps.stopping = 1;
        day.plan.intervals[0][1].online_power = 150;
        day.plan.intervals[1][1] = Setting::default();
    });
    let expected = "6 2 2 0 rule 6 (ramp down) at interval 2, device 2: power falls by 150 kW (from 150 to 0), at most 60 kW (60 min at 1 kW/min stopping)";
    assert_eq!(lines, [expected]);
}

/// Reserves of device 2, which consumes: down reserves raise its power, up reserves lower it.
#[test]
fn a_consuming_device_in_words() {
    let lines = lines_after("consuming", |day| {
        day.plan.intervals[0][1].online_power = 10;
        day.plan.intervals[0][1].reserves.rgu = 15;
        day.plan.intervals[1][1].online_power = 190;
        day.plan.intervals[1][1].reserves.rgd = 15;
    });
    let expected = [
        "17 1 2 0 rule 17 (lowest online power) at interval 1, device 2: online power less up reserves is -5 kW (online 10 - rgu 15), at least 0 kW (pmin)",
        "16 2 2 0 rule 16 (highest online power) at interval 2, device 2: online power with down reserves is 205 kW (online 190 + rgd 15), at most 200 kW (pmax)",
    ];
    assert_eq!(lines, expected);
    let lines = lines_after("other-side", |day| {
        day.plan.intervals[0][1] = Setting::default();
        day.plan.intervals[0][1].reserves.nsc = 1;
        day.plan.intervals[0][1].reserves.rru_off = 1;
        day.plan.intervals[1][1] = Setting::default();
        day.plan.intervals[1][1].online_power = 1;
    });
    let expected = [
        "15 1 2 0 rule 15 (reserves of the other side) at interval 1, device 2: non-synchronized and offline ramping up reserve is 2 kW (nsc 1 + rru_off 1), must be 0 kW (consuming)",
        "16 2 2 0 rule 16 (highest online power) at interval 2, device 2: online power with down reserves is 1 kW (online 1), at most 0 kW (while off)",
    ];
    assert_eq!(lines, expected);
}

/// Device 1 in interval 1 is off with a startup power of 30 kW.
#[test]
fn a_startup_in_words() {
    let lines = lines_after("startup", |day| {
        let terms = &mut day.case.devices[0].terms[0];
        (terms.pmin, terms.pmax) = (0, 40);
        terms.blocks.clear();
        day.plan.intervals[0][0].reserves.nsc = 15;
    });
    let expected = [
        "18 1 1 0 rule 18 (highest offline power) at interval 1, device 1: startup and shutdown power with offline reserves is 45 kW (startup 30 + nsc 15), at most 40 kW (pmax)",
        "19 1 1 0 rule 19 (block caps) at interval 1, device 1: power is 30 kW (online 0 + startup 30), at most 0 kW (no blocks)",
    ];
    assert_eq!(lines, expected);
}

/// The worked day in edition 3.
fn floored_day() -> Day {
    in_edition(Edition::Three, two_set_day())
}

/// 150 kW of device 1 below floors of 71 and 80; 30 kW of device 2 below one of 31, then 150 kW
/// above a cap, and a floor, of 149.
#[test]
fn both_bounds_of_blocks_in_words() {
    let lines = lines_of("floors", &floor_days()[1].1);
    let expected = "19 2 1 0 rule 19 (block floors) at interval 2, device 1: power is 150 kW (online 150), at least 151 kW (block floors 71 + 80)";
    assert_eq!(lines, [expected]);
    let mut day = floored_day();
    day.case.devices[1].terms[0].blocks[0].floor = 31;
    let block = &mut day.case.devices[1].terms[1].blocks[0];
    (block.cap, block.floor) = (149, 149);
    let expected = [
        "19 1 2 0 rule 19 (block floors) at interval 1, device 2: power is 30 kW (online 30), at least 31 kW (block floors 31)",
        "19 2 2 0 rule 19 (block caps) at interval 2, device 2: power is 150 kW (online 150), at most 149 kW (blocks 149)",
    ];
    assert_eq!(lines_of("bounds", &day), expected);
}

/// Device 1 is on in interval 1 and starts again in interval 3, with 150 − 1·120 = 30 kW of it in
/// interval 1: its whole power is held to floors of 181. While off it has no floors.
#[test]
fn floors_and_trajectories_in_words() {
    let mut day = floored_day();
    day.case.durations = vec![60; 3];
    for device in &mut day.case.devices {
        device.terms = vec![device.terms[0].clone(); 3];
    }
    day.case.devices[0].ramps.starting = 1;
    for (terms, floors) in day.case.devices[0].terms.iter_mut().zip([81, 100, 0]) {
        (terms.blocks[0].floor, terms.blocks[1].floor) = (100, floors);
    }
    let (idle, on) = (day.plan.intervals[0][0], day.plan.intervals[1][0]);
    let load = day.plan.intervals[1][1];
    day.plan = Plan::plain(vec![vec![on, load], vec![idle, load], vec![on, load]]);
    let lines = lines_of("floors-on", &day);
    let of_19: Vec<&String> = lines
        .iter()
        .filter(|line| line.starts_with("19 "))
        .collect();
    let expected = "19 1 1 0 rule 19 (block floors) at interval 1, device 1: power is 180 kW (online 150 + startup 30), at least 181 kW (block floors 100 + 81)";
    assert_eq!(of_19, [expected]);
}

/// The worked day in edition 2, with limits of −9 and 11 kvar on both devices.
fn reactive_day() -> Day {
    let mut day = in_edition(Edition::Two, two_set_day());
    for device in &mut day.case.devices {
        for terms in &mut device.terms {
            (terms.qmin, terms.qmax) = (-9, 11);
        }
    }
    day
}

/// Sets q, qru and qrd of a device in an interval, both from 1.
fn set(day: &mut Day, (interval, device): (usize, usize), [q, qru, qrd]: [i128; 3]) {
    let setting = &mut day.plan.intervals[interval - 1][device - 1];
    setting.reactive_power = q;
    setting.reactive_reserves = ReactiveReserves { qru, qrd };
}

/// A producing device holds qru against qmax and qrd against qmin, a consuming device the other way
/// round; device 1 gives startup power in interval 1.
#[test]
fn reactive_limits_in_words() {
    let mut day = reactive_day();
    set(&mut day, (1, 1), [7, 5, 0]);
    set(&mut day, (1, 2), [7, 0, 5]);
    set(&mut day, (2, 1), [7, 0, 17]);
    set(&mut day, (2, 2), [-10, 1, 0]);
    let expected = [
        "21 1 1 0 rule 21 (highest reactive power) at interval 1, device 1: reactive power with up reserve is 12 kvar (q 7 + qru 5), at most 11 kvar (qmax 11 x n 1; n is on 0 + startups 1)",
        "21 1 2 0 rule 21 (highest reactive power) at interval 1, device 2: reactive power with down reserve is 12 kvar (q 7 + qrd 5), at most 11 kvar (qmax 11 x n 1; n is on 1)",
        "22 2 1 0 rule 22 (lowest reactive power) at interval 2, device 1: reactive power less down reserve is -10 kvar (q 7 - qrd 17), at least -9 kvar (qmin -9 x n 1; n is on 1)",
        "22 2 2 0 rule 22 (lowest reactive power) at interval 2, device 2: reactive power less up reserve is -11 kvar (q -10 - qru 1), at least -9 kvar (qmin -9 x n 1; n is on 1)",
    ];
    assert_eq!(lines_of("limits", &day), expected);
}

/// Device 2 is off in interval 1 without any power left of its initial 30 kW.
#[test]
fn reactive_power_while_off_in_words() {
    let mut day = reactive_day();
    day.plan.intervals[0][1] = Setting::default();
    set(&mut day, (1, 2), [1, 2, 0]);
    let expected = [
        "21 1 2 0 rule 21 (highest reactive power) at interval 1, device 2: reactive power with down reserve is 1 kvar (q 1), at most 0 kvar (qmax 11 x n 0; n is on 0)",
        "22 1 2 0 rule 22 (lowest reactive power) at interval 1, device 2: reactive power less up reserve is -1 kvar (q 1 - qru 2), at least 0 kvar (qmin -9 x n 0; n is on 0)",
    ];
    assert_eq!(lines_of("off", &day), expected);
}

/// 150 kW, off, and 150 kW again at 2 kW/min: 30 kW of the stop and 30 of the start in interval 2,
/// where limits and offsets count twice.
#[test]
fn trajectories_that_meet_in_words() {
    let mut day = reactive_day();
    day.case.durations.push(60);
    for device in &mut day.case.devices {
        device.terms.push(device.terms[1].clone());
    }
    let device_1 = &mut day.case.devices[0];
    (device_1.initially_on, device_1.initial_power) = (true, 150);
    device_1.link = Link::TwoLines {
        upper: LinkLine {
            offset: 8,
            slope: 50,
        },
        lower: LinkLine {
            offset: -8,
            slope: -50,
        },
    };
    let (off, on) = (day.plan.intervals[0][0], day.plan.intervals[1][0]);
    let load = day.plan.intervals[1][1];
    day.plan = Plan::plain(vec![vec![on, load], vec![off, load], vec![on, load]]);
    set(&mut day, (2, 1), [20, 3, 40]);
    let expected = [
        "21 2 1 0 rule 21 (highest reactive power) at interval 2, device 1: reactive power with up reserve is 23 kvar (q 20 + qru 3), at most 22 kvar (qmax 11 x n 2; n is on 0 + startups 1 + shutdowns 1)",
        "22 2 1 0 rule 22 (lowest reactive power) at interval 2, device 1: reactive power less down reserve is -20 kvar (q 20 - qrd 40), at least -18 kvar (qmin -9 x n 2; n is on 0 + startups 1 + shutdowns 1)",
        "23 2 1 0 rule 23 (upper line of the p-q link) at interval 2, device 1: reactive power with up reserve is 23000 var (q 20 + qru 3), at most 19000 var (1000 x offset 8 x n 2 + slope 50 x p 60; n is on 0 + startups 1 + shutdowns 1)",
        "24 2 1 0 rule 24 (lower line of the p-q link) at interval 2, device 1: reactive power less down reserve is -20000 var (q 20 - qrd 40), at least -19000 var (1000 x offset -8 x n 2 + slope -50 x p 60; n is on 0 + startups 1 + shutdowns 1)",
    ];
    assert_eq!(lines_of("meeting", &day), expected);
}

/// The worked days: 333 thousandths of 150 kW, and 1 kvar with 201 thousandths of 30 and of 150 kW.
#[test]
fn links_in_words() {
    let days = reactive_days();
    let line_of = |left: &str| {
        format!("23 2 1 0 rule 23 (upper line of the p-q link) at interval 2, device 1: reactive power with up reserve is 50000 var ({left}), at most 49950 var (1000 x offset 0 x n 1 + slope 333 x p 150; n is on 1)")
    };
    assert_eq!(lines_of("line", &days[6].1), [line_of("q 50")]);
    assert_eq!(lines_of("line", &days[7].1), [line_of("q 49 + qru 1")]);
    let expected = [
        "25 1 1 0 rule 25 (equality of the p-q link) at interval 1, device 1: reactive power is 7000 var (q 7), must be 7030 var (1000 x offset 1 x n 1 + slope 201 x p 30; n is on 0 + startups 1)",
        "25 2 1 0 rule 25 (equality of the p-q link) at interval 2, device 1: reactive power is 31000 var (q 31), must be 31150 var (1000 x offset 1 x n 1 + slope 201 x p 150; n is on 1)",
    ];
    assert_eq!(lines_of("equality", &days[9].1), expected);
    // A lower line of device 2, which consumes: −1 kvar and −333 thousandths of 150 kW.
    let mut day = reactive_day();
    for terms in &mut day.case.devices[1].terms {
        (terms.qmin, terms.qmax) = (-100, 100);
    }
    day.case.devices[1].link = Link::TwoLines {
        upper: LinkLine {
            offset: 100,
            slope: 0,
        },
        lower: LinkLine {
            offset: -1,
            slope: -333,
        },
    };
    set(&mut day, (2, 2), [-46, 5, 0]);
    let expected = "24 2 2 0 rule 24 (lower line of the p-q link) at interval 2, device 2: reactive power less up reserve is -51000 var (q -46 - qru 5), at least -50950 var (1000 x offset -1 x n 1 + slope -333 x p 150; n is on 1)";
    assert_eq!(lines_of("lower", &day), [expected]);
}

/// One line for both reserves; rule 20 comes last.
#[test]
fn reserves_beside_an_equality_in_words() {
    let mut day = reactive_day();
    day.case.devices[0].link = Link::Equality(LinkLine {
        offset: 0,
        slope: 0,
    });
    day.case.devices[0].start_windows = vec![StartWindow {
        start: 60,
        end: 120,
        most_starts: 0,
    }];
    set(&mut day, (1, 1), [0, 0, 1]);
    set(&mut day, (2, 1), [0, 2, 3]);
    let expected = [
        "26 1 1 0 rule 26 (reserves beside an equality) at interval 1, device 1: reactive reserves are 1 kvar (qru 0 + qrd 1), must be 0 kvar (equality)",
        "26 2 1 0 rule 26 (reserves beside an equality) at interval 2, device 1: reactive reserves are 5 kvar (qru 2 + qrd 3), must be 0 kvar (equality)",
        "20 0 1 1 rule 20 (starts in a window) at device 1, window 1: has 1 start (from minute 60 before minute 120), at most 0 starts",
    ];
    assert_eq!(lines_of("beside", &day), expected);
}

/// In the last interval of the large day device 63 gives 1 kW more than its start allows, and device
/// 64 takes 1 kW more than its pmax and its block; device 63 may not start in the day's last hour.
#[test]
fn a_large_day_in_words() {
    let mut day = large_day();
    day.case.devices[62].start_windows = [(0, 5_700, 0), (5_700, 5_760, 0), (0, 5_760, 96)]
        .map(|(start, end, most_starts)| StartWindow {
            start,
            end,
            most_starts,
        })
        .to_vec();
    day.plan.intervals[95][62].online_power = 151;
    day.plan.intervals[95][63].online_power = 201;
    let expected = [
        "5 96 63 0 rule 5 (ramp up) at interval 96, device 63: power rises by 121 kW (from 30 to 151), at most 120 kW (60 min at 2 kW/min starting)",
        "16 96 64 0 rule 16 (highest online power) at interval 96, device 64: online power with down reserves is 201 kW (online 201), at most 200 kW (pmax)",
        "19 96 64 0 rule 19 (block caps) at interval 96, device 64: power is 201 kW (online 201), at most 200 kW (blocks 200)",
        "20 0 63 2 rule 20 (starts in a window) at device 63, window 2: has 1 start (from minute 5700 before minute 5760), at most 0 starts",
    ];
    assert_eq!(lines_of("large", &day), expected);
}

/// The limit holds either way.
#[test]
fn flows_in_words() {
    let expected = [
        "27 1 0 0 rule 27 (DC link limit) at interval 1: flow is -150 kW, at least -149 kW",
        "27 2 0 0 rule 27 (DC link limit) at interval 2: flow is 150 kW, at most 149 kW",
    ];
    let lines = lines_of("flows", &barred_day(149, [-150, 150]));
    assert_eq!(lines, expected);
}

/// Rule 27 comes behind the devices of its interval, before those of the next and before rule 20.
#[test]
fn flows_stand_behind_their_devices_in_words() {
    let mut day = barred_day(0, [1, -1]);
    day.case.devices[1].terms[0].status = Status::Off;
    day.case.devices[0].start_windows = vec![StartWindow {
        start: 60,
        end: 120,
        most_starts: 0,
    }];
    day.plan.intervals[1][0].online_power = 151;
    let expected = [
        "1 1 2 0 rule 1 (fixed status) at interval 1, device 2: is on, must be off (fixed by the case)",
        "27 1 0 0 rule 27 (DC link limit) at interval 1: flow is 1 kW, at most 0 kW",
        "5 2 1 0 rule 5 (ramp up) at interval 2, device 1: power rises by 121 kW (from 30 to 151), at most 120 kW (60 min at 2 kW/min starting)",
        "27 2 0 0 rule 27 (DC link limit) at interval 2: flow is -1 kW, at least 0 kW",
        "20 0 1 1 rule 20 (starts in a window) at device 1, window 1: has 1 start (from minute 60 before minute 120), at most 0 starts",
    ];
    assert_eq!(lines_of("behind", &day), expected);
}

#[test]
fn inspect_prints_what_a_case_holds() {
    let mut day = lettered('h');
    day.case.durations[1] = 30;
    let [case, _] = Scratch::new("inspect").day(&day);
    let expected = "\
case 2 2 1
edition 1
devices 2
intervals 2: 1 x 60 min, 1 x 30 min; 90 min in all
zones 1
mismatch price 1000 grains per kW min
overrun price 1 grains per kW min
device 1: producing; in zone 1; initially off for 600 min at 0 kW; minimum up 60 min, down 60 min; ramps up 10, down 10, starting 2, stopping 2 kW/min; pmin from 150 kW, pmax to 200 kW; costs in grains: on 4 per min, start 10000, stop 0; startup states 2, start windows 0, energy windows 0
device 2: consuming; in zone 1; initially on for 600 min at 30 kW; minimum up 0 min, down 0 min; ramps up 100, down 100, starting 100, stopping 100 kW/min; pmin from 0 kW, pmax to 200 kW; costs in grains: on 0 per min, start 0, stop 0; startup states 0, start windows 0, energy windows 0
";
    assert_eq!(answer(&["inspect", &case], 0), expected);
}

/// With limits, p-q links of both kinds and a zone of device 2.
#[test]
fn inspect_prints_what_a_case_of_edition_2_holds() {
    let mut day = reactive_day();
    day.case.devices[0].terms[1].qmin = -100;
    day.case.devices[0].link = Link::TwoLines {
        upper: LinkLine {
            offset: 0,
            slope: 333,
        },
        lower: LinkLine {
            offset: -100,
            slope: -1,
        },
    };
    day.case.devices[1].link = Link::Equality(LinkLine {
        offset: 1,
        slope: 200,
    });
    day.case.devices[1].zone_bits[1] = true;
    day.case.zones = vec![
        Zone::plain(2),
        Zone {
            shortfall_prices: [1, 1, 1, 1, 1, 1, 3, 5],
            minima: vec![[0, 0, 2, 0], [0, 0, 0, 1]],
            ..Zone::plain(2)
        },
    ];
    let [case, _] = Scratch::new("inspect-2").day(&day);
    let expected = "\
case 2 2 2
edition 2
devices 2
intervals 2: 2 x 60 min; 120 min in all
zones 2
mismatch price 1000 grains per kW min and kvar min
overrun price 1 grains per kW min
zone 1: minima to 0 kvar of qru, 0 kvar of qrd; shortfall prices 1 grains per var min of qru, 1 of qrd
zone 2: minima to 2 kvar of qru, 1 kvar of qrd; shortfall prices 3 grains per var min of qru, 5 of qrd
device 1: producing; in no zone; initially off for 600 min at 0 kW; minimum up 60 min, down 60 min; ramps up 10, down 10, starting 2, stopping 2 kW/min; pmin from 150 kW, pmax to 200 kW; costs in grains: on 4 per min, start 10000, stop 0; startup states 2, start windows 0, energy windows 0; qmin from -100 kvar, qmax to 11 kvar; p-q link by two lines, upper 0 kvar + 333 var per kW, lower -100 kvar - 1 var per kW
device 2: consuming; in zone 2; initially on for 600 min at 30 kW; minimum up 0 min, down 0 min; ramps up 100, down 100, starting 100, stopping 100 kW/min; pmin from 0 kW, pmax to 200 kW; costs in grains: on 0 per min, start 0, stop 0; startup states 0, start windows 0, energy windows 0; qmin from -9 kvar, qmax to 11 kvar; p-q link by an equality, 1 kvar + 200 var per kW
";
    assert_eq!(answer(&["inspect", &case], 0), expected);
    let unlinked = Scratch::new("inspect-plain").day(&reactive_day());
    assert!(answer(&["inspect", &unlinked[0]], 0).ends_with("qmax to 11 kvar; no p-q link\n"));
}

/// Device 1 with floors of 0 and 80, device 2 with none.
#[test]
fn inspect_prints_what_a_case_of_edition_3_holds() {
    let [case, _] = Scratch::new("inspect-3").day(&floor_days()[0].1);
    let expected = "\
case 2 2 0
edition 3
devices 2
intervals 2: 2 x 60 min; 120 min in all
zones 0
mismatch price 1000 grains per kW min and kvar min
overrun price 1 grains per kW min
device 1: producing; in no zone; initially off for 600 min at 0 kW; minimum up 60 min, down 60 min; ramps up 10, down 10, starting 2, stopping 2 kW/min; pmin from 150 kW, pmax to 200 kW; costs in grains: on 4 per min, start 10000, stop 0; startup states 2, start windows 0, energy windows 0; qmin from 0 kvar, qmax to 0 kvar; no p-q link; block floors to 80 kW in an interval
device 2: consuming; in no zone; initially on for 600 min at 30 kW; minimum up 0 min, down 0 min; ramps up 100, down 100, starting 100, stopping 100 kW/min; pmin from 0 kW, pmax to 200 kW; costs in grains: on 0 per min, start 0, stop 0; startup states 0, start windows 0, energy windows 0; qmin from 0 kvar, qmax to 0 kvar; no p-q link; block floors to 0 kW in an interval
";
    assert_eq!(answer(&["inspect", &case], 0), expected);
}

/// The first lines, one of the devices that are off all day, and the load's.
#[test]
fn inspect_prints_what_a_large_case_holds() {
    let [case, _] = Scratch::new("inspect-4").day(&large_day());
    let text = answer(&["inspect", &case], 0);
    let lines: Vec<&str> = text.lines().collect();
    let expected = [
        "case 64 96 0",
        "edition 4",
        "devices 64",
        "intervals 96: 96 x 60 min; 5760 min in all",
        "zones 0",
        "mismatch price 1000 grains per kW min and kvar min",
        "overrun price 1 grains per kW min",
    ];
    assert_eq!(lines[..7], expected);
    assert_eq!(lines.len(), 7 + 64);
    assert!(
        lines[7].starts_with("device 1: producing; in no zone; initially off for 0 min at 0 kW; ")
    );
    let last = "device 64: consuming; in no zone; initially on for 600 min at 30 kW; ";
    assert!(lines[70].starts_with(last));
    assert!(lines[70].ends_with("; no p-q link; block floors to 0 kW in an interval"));
}

#[test]
fn inspect_prints_what_a_case_of_edition_5_holds() {
    let [case, _] = Scratch::new("inspect-5").day(&barred_day(150, [30, 150]));
    let expected = "\
case 2 2 0
edition 5
devices 2
intervals 2: 2 x 60 min; 120 min in all
zones 0
mismatch price 1000 grains per kW min and kvar min of each bar
overrun price 1 grains per kW min
DC link limit 150 kW between bar 0 and bar 1
device 1: producing; in no zone; initially off for 600 min at 0 kW; minimum up 60 min, down 60 min; ramps up 10, down 10, starting 2, stopping 2 kW/min; pmin from 150 kW, pmax to 200 kW; costs in grains: on 4 per min, start 10000, stop 0; startup states 2, start windows 0, energy windows 0; qmin from 0 kvar, qmax to 0 kvar; no p-q link; block floors to 0 kW in an interval; on bar 0
device 2: consuming; in no zone; initially on for 600 min at 30 kW; minimum up 0 min, down 0 min; ramps up 100, down 100, starting 100, stopping 100 kW/min; pmin from 0 kW, pmax to 200 kW; costs in grains: on 0 per min, start 0, stop 0; startup states 0, start windows 0, energy windows 0; qmin from 0 kvar, qmax to 0 kvar; no p-q link; block floors to 0 kW in an interval; on bar 1
";
    assert_eq!(answer(&["inspect", &case], 0), expected);
}

/// Plans of the worked day that are damaged, four bits of power set in one (15 x 2^13), and how each is refused behind `refused`; `{}` is the
/// file.
fn refused_plans(whole: &[u8]) -> [(Vec<u8>, &'static str); 5] {
    let changed = |at: usize, byte: u8| [&whole[..at], &[byte], &whole[at + 1..]].concat();
    [
        (
            whole[..1].to_vec(),
            "1 8: plan {}: count of sets: the message ends before or inside this field",
        ),
        (
            changed(0, 0x31),
            "2 0: plan {}: kind is 3: this is no plan (it says to be a completion)",
        ),
        (
            changed(1, 0x18),
            "3 8: plan {}: count of sets is 3: unlike the case's",
        ),
        (
            changed(2, 0x4f),
            "4 20: plan {}: set 1, interval 1: power is 122880: out of its range, 0..100000",
        ),
        (
            [whole, &[0]].concat(),
            "6 640: plan {}: a byte behind the message's end",
        ),
    ]
}

#[test]
fn a_refused_plan_is_told() {
    let scratch = Scratch::new("refused");
    let [case, plan] = scratch.day(&two_set_day());
    let result = scratch.path("result");
    for (bytes, expected) in refused_plans(&fs::read(&plan).expect("a plan")) {
        let damaged = scratch.file("damaged", &bytes);
        let expected = format!("refused {}", expected.replace("{}", &damaged));
        for words in [
            vec!["breaches", &case, &damaged],
            vec!["judge", &case, &damaged],
            vec!["judge", &case, &damaged, "--result", &result],
        ] {
            assert_eq!(complaint(&words, 2), expected);
        }
    }
    assert!(!Path::new(&result).exists());
}

/// A plan where the case belongs, whatever stands where the plan does.
#[test]
fn a_refused_case_comes_first() {
    let scratch = Scratch::new("refused-case");
    let [_, plan] = scratch.day(&two_set_day());
    let empty = scratch.file("empty", &[]);
    let expected =
        format!("refused 2 0: case {plan}: kind is 2: this is no case (it says to be a plan)");
    assert_eq!(complaint(&["judge", &plan, &empty], 2), expected);
    assert_eq!(complaint(&["breaches", &plan, &empty], 2), expected);
    assert_eq!(complaint(&["inspect", &plan], 2), expected);
}

/// A plan of each edition for a case of another; a case of an edition that is not there.
#[test]
fn another_edition_is_told() {
    let scratch = Scratch::new("editions");
    let messages = Edition::ALL.map(|edition| {
        let (case, plan) = in_edition(edition, two_set_day()).messages();
        let name = |kind: &str| format!("{kind}-{edition:?}");
        [
            scratch.file(&name("case"), &case),
            scratch.file(&name("plan"), &plan),
        ]
    });
    for [case, own] in &messages {
        for [_, plan] in messages.iter().filter(|[_, plan]| plan != own) {
            let edition = fs::read(plan).expect("a plan")[0] & 15;
            let words = format!("edition is {edition}: unlike the case's");
            let expected = format!("refused 2 4: plan {plan}: {words}");
            assert_eq!(complaint(&["judge", case, plan], 2), expected);
            assert_eq!(complaint(&["breaches", case, plan], 2), expected);
        }
    }
    let [.., [newest, _]] = &messages;
    let mut case = fs::read(newest).expect("a case");
    case[0] = 0x16;
    let unknown = scratch.file("unknown", &case);
    let words = "edition is 6: an edition that is unknown";
    let expected = format!("refused 2 4: case {unknown}: {words}");
    assert_eq!(complaint(&["inspect", &unknown], 2), expected);
}

/// More devices or intervals than an edition has: the count of devices stands at bit 8, that of
/// intervals 5 bits later, in edition 4 it is 7.
#[test]
fn a_day_that_is_too_large_is_told() {
    let scratch = Scratch::new("too-large");
    let large = |edition, devices: usize, intervals: usize| {
        let mut day = in_edition(edition, two_set_day());
        day.case.durations = vec![2; intervals];
        let idle = Device::plain(Side::Producing, vec![Terms::default(); intervals]);
        day.case.devices = vec![idle; devices];
        day.plan = Plan::plain(vec![vec![Setting::default(); devices]; intervals]);
        scratch.day(&day)
    };
    for (edition, devices, intervals, bit, meaning) in [
        (
            Edition::Three,
            17,
            48,
            8,
            "sets is 17: out of its range, 1..16",
        ),
        (
            Edition::Three,
            16,
            49,
            13,
            "intervals is 49: out of its range, 1..48",
        ),
        (
            Edition::Four,
            65,
            96,
            8,
            "sets is 65: out of its range, 1..64",
        ),
        (
            Edition::Four,
            64,
            97,
            15,
            "intervals is 97: out of its range, 1..96",
        ),
    ] {
        let [case, plan] = large(edition, devices, intervals);
        let meaning = format!("count of {meaning}");
        let expected = format!("refused 3 {bit}: case {case}: {meaning}");
        assert_eq!(complaint(&["inspect", &case], 2), expected);
        assert_eq!(complaint(&["judge", &case, &plan], 2), expected);
    }
    for (edition, devices, intervals) in [(Edition::Three, 16, 48), (Edition::Four, 64, 96)] {
        let [case, plan] = large(edition, devices, intervals);
        assert_eq!(answer(&["judge", &case, &plan], 0), "accepted 0\n");
    }
}

/// The 7 bits of most starts end with byte 69: 53 + 16 of the front, 352, 97 and 3 of device 1, and 32.
#[test]
fn most_starts_above_96_are_told() {
    let scratch = Scratch::new("most-starts");
    let mut day = in_edition(Edition::Four, two_set_day());
    day.case.devices[0].start_windows = vec![StartWindow {
        start: 60,
        end: 120,
        most_starts: 96,
    }];
    let [case, plan] = scratch.day(&day);
    assert_eq!(answer(&["judge", &case, &plan], 0), "accepted 167860\n");
    let mut bytes = fs::read(&case).expect("a case");
    assert_eq!(bytes[69], 96);
    bytes[69] = 97;
    let above = scratch.file("above", &bytes);
    let words = "set 1: starts 1 most is 97: out of its range, 0..96";
    let expected = format!("refused 4 553: case {above}: {words}");
    assert_eq!(complaint(&["judge", &above, &plan], 2), expected);
}

/// The DC link limit stands behind 53 bits of the case; the flow of interval 1 behind 22 of the plan and
/// two devices of 206.
#[test]
fn flows_and_limits_out_of_their_range_are_told() {
    let scratch = Scratch::new("flow-range");
    let [case, plan] = scratch.day(&barred_day(100_000, [-100_000, 100_000]));
    assert!(answer(&["judge", &case, &plan], 0).starts_with("accepted -"));
    let mut bytes = fs::read(&case).expect("a case");
    assert_eq!(field(&bytes, 53, 17), 100_000);
    put(&mut bytes, 53, 17, 100_001);
    let above = scratch.file("above", &bytes);
    let words = "link limit is 100001: out of its range, 0..100000";
    let expected = format!("refused 4 53: case {above}: {words}");
    assert_eq!(complaint(&["inspect", &above], 2), expected);
    let mut bytes = fs::read(&plan).expect("a plan");
    assert_eq!(field(&bytes, 434, 18), (1 << 18) - 100_000);
    for (flow, told) in [(100_001, "100001"), ((1 << 18) - 100_001, "-100001")] {
        put(&mut bytes, 434, 18, flow);
        let beyond = scratch.file("beyond", &bytes);
        let words = format!("flow, interval 1 is {told}: out of its range, -100000..100000");
        let expected = format!("refused 4 434: plan {beyond}: {words}");
        assert_eq!(complaint(&["judge", &case, &beyond], 2), expected);
    }
}

/// Behind pmin 201 and pmax 200 of device 2 in interval 2 of edition 1: 50 + 16 of the front, 455 and
/// 430 of device 1, 361 and 183 of device 2, and 19. qmin 12 and qmax 11 of device 1 in interval 1
/// of edition 2: 66, 457 and 215, and 18. The floor of its first block in edition 3: 66, 457, 39 and
/// 17; in edition 4 the front has 3 bits more, in edition 5 another 17, and the device a bar.
#[test]
fn a_contradiction_in_a_case_is_told() {
    let scratch = Scratch::new("contradiction");
    let mut real = two_set_day();
    real.case.devices[1].terms[1].pmin = 201;
    let mut reactive = reactive_day();
    reactive.case.devices[0].terms[0].qmin = 12;
    let mut floored = floored_day();
    floored.case.devices[0].terms[0].blocks[0].floor = 101;
    let larger = in_edition(Edition::Four, floored.clone());
    let barred = in_edition(Edition::Five, floored.clone());
    let floor = "set 1, interval 1: block 1 floor is 101: above its cap";
    for (day, bit, words) in [
        (
            real,
            1_514,
            "set 2, interval 2: pmax is 200: pmin is above it",
        ),
        (
            reactive,
            756,
            "set 1, interval 1: qmax is 11: qmin is above it",
        ),
        (floored, 579, floor),
        (larger, 582, floor),
        (barred, 600, floor),
    ] {
        let [case, plan] = scratch.day(&day);
        let expected = format!("refused 5 {bit}: case {case}: {words}");
        for words in [
            vec!["inspect", &case],
            vec!["judge", &case, &plan],
            vec!["breaches", &case, &plan],
        ] {
            assert_eq!(complaint(&words, 2), expected);
        }
    }
}

#[test]
fn files_that_cannot_be_read_are_told() {
    let scratch = Scratch::new("missing");
    let [case, plan] = scratch.day(&two_set_day());
    let (missing, directory) = (scratch.path("missing"), scratch.path(""));
    for words in [
        ["judge", &missing, &plan],
        ["judge", &case, &missing],
        ["breaches", &missing, &plan],
        ["breaches", &case, &missing],
    ] {
        let line = complaint(&words, 3);
        assert!(line.starts_with(&format!("desk: cannot read {missing}: ")));
    }
    for path in [missing, directory] {
        let line = complaint(&["inspect", &path], 3);
        assert!(line.starts_with(&format!("desk: cannot read {path}: ")));
    }
}

#[test]
fn output_that_cannot_be_written_is_told() {
    let [case, plan] = Scratch::new("full").day(&two_set_day());
    let full = fs::File::options().write(true).open("/dev/full");
    let done = Command::new(env!("CARGO_BIN_EXE_desk"))
        .args(["judge", &case, &plan])
        .stdout(full.expect("a device that is always full"))
        .output()
        .expect("the desk program runs");
    assert_eq!(done.status.code(), Some(3));
    assert!(done
        .stderr
        .starts_with(b"desk: cannot write standard output: "));
}

const JUDGE: &str = "usage: desk judge CASE PLAN.. [--result FILE] [--json]";
const BREACHES: &str = "usage: desk breaches CASE PLAN [--by rule|set] [--rule N] [--set N] [--interval N] [--csv] [--json]";
const INSPECT: &str = "usage: desk inspect CASE [--json]";
const RENUMBER: &str = "usage: desk renumber CASE PLAN.. --order ORDER --out FOLDER";
const MEND: &str = "usage: desk mend CASE PLAN [-o OUT] [--json]";

/// Wrong words, and what is complained of.
const WRONG: [(&str, &str); 32] = [
    ("", "no verb"),
    ("solve c p", "unknown verb solve"),
    ("judge", JUDGE),
    ("judge c", JUDGE),
    ("judge c p q --result f", JUDGE),
    ("judge c p --result", "--result needs a file"),
    ("judge c p --resul f", "unknown option --resul"),
    ("judge c p --result f --result g", "--result twice"),
    ("breaches c", BREACHES),
    ("breaches c p q", BREACHES),
    ("breaches c p --result f", BREACHES),
    ("inspect", INSPECT),
    ("inspect c p", INSPECT),
    ("inspect c --result f", INSPECT),
    ("inspect c --order 1", INSPECT),
    ("inspect c -o f", INSPECT),
    ("mend", MEND),
    ("mend c", MEND),
    ("mend c p q", MEND),
    ("mend c p --result f", MEND),
    ("mend c p --out f", MEND),
    ("mend c p -o", "-o needs a file"),
    ("judge c p --out f", JUDGE),
    ("renumber --order 1 --out f", RENUMBER),
    ("renumber c p --order 1", RENUMBER),
    ("renumber c p --out f", RENUMBER),
    ("renumber c p --order 1 --out f --result r", RENUMBER),
    ("renumber c p --out f --order", "--order needs an order"),
    ("renumber c p --order 1 --out", "--out needs a folder"),
    (
        "renumber c --out f --order 2,2",
        "--order 2,2 does not name each set once",
    ),
    (
        "renumber c --out f --order 0,1",
        "--order 0,1 does not name each set once",
    ),
    (
        "renumber c --out f --order 1,,2",
        "--order 1,,2 does not name each set once",
    ),
];

#[test]
fn wrong_usage_is_told() {
    for (words, expected) in WRONG {
        let words: Vec<&str> = words.split_whitespace().collect();
        let line = complaint(&words, 3);
        assert_eq!(line, format!("desk: {expected} (see desk --help)"));
    }
}

#[test]
fn help_tells_usage_and_statuses() {
    for words in [&["--help"][..], &["-h"]] {
        let text = answer(words, 0);
        for part in [
            "judge CASE PLAN",
            "breaches CASE PLAN",
            "inspect CASE",
            "market CASE PLAN OUT",
            "show CASE MESSAGE",
            "mend CASE PLAN [-o OUT] [--json]",
        ] {
            assert!(text.contains(part), "{text}");
        }
        for status in 0..=4 {
            assert!(text.contains(&format!("\n  {status}  ")), "{text}");
        }
    }
}

/// A printed line, taken apart.
#[derive(Debug)]
struct Sentence {
    numbers: [usize; 4],
    place: String,
    figure: i64,
    relation: &'static str,
    bound: i64,
}

impl Sentence {
    fn of(line: &str) -> Sentence {
        let (numbers, words) = line.split_once(" rule ").expect("the rule");
        let numbers: Vec<usize> = numbers
            .split(' ')
            .map(|n| n.parse().expect("a number"))
            .collect();
        let words = without_parentheses(words);
        let (rule_and_place, comparison) = words.split_once(": ").expect("a comparison");
        let (rule, place) = rule_and_place.split_once(" at ").expect("a place");
        assert_eq!(rule.trim(), numbers[0].to_string());
        let relation = [", at most ", ", at least ", ", must be "]
            .into_iter()
            .find(|relation| comparison.contains(relation))
            .expect("a relation");
        let (left, right) = comparison.split_once(relation).expect("two sides");
        Sentence {
            numbers: numbers.try_into().expect("four numbers"),
            place: place.to_string(),
            figure: only_figure(left),
            relation,
            bound: only_figure(right),
        }
    }

    fn is_violated(&self) -> bool {
        match self.relation {
            ", at most " => self.figure > self.bound,
            ", at least " => self.figure < self.bound,
            _ => self.figure != self.bound,
        }
    }

    /// The place in words, from the numbers.
    fn expected_place(&self) -> String {
        let [_, interval, device, window] = self.numbers;
        match (device, window) {
            (0, _) => format!("interval {interval}"),
            (_, 0) => format!("interval {interval}, device {device}"),
            _ => format!("device {device}, window {window}"),
        }
    }
}

/// How a figure comes about stands in parentheses.
fn without_parentheses(words: &str) -> String {
    let mut depth = 0;
    let mut left = String::new();
    for letter in words.chars() {
        depth += i32::from(letter == '(');
        if depth == 0 {
            left.push(letter);
        }
        depth -= i32::from(letter == ')');
    }
    assert_eq!(depth, 0);
    left
}

/// The one figure of a side; of a state, on is 1 and off is 0.
fn only_figure(side: &str) -> i64 {
    let words: Vec<&str> = side.split_whitespace().collect();
    let figures: Vec<i64> = words.iter().filter_map(|word| word.parse().ok()).collect();
    match (figures.as_slice(), words.as_slice()) {
        ([figure], _) => *figure,
        ([], [.., "on"]) => 1,
        ([], [.., "off"]) => 0,
        _ => panic!("one figure in {side:?}"),
    }
}

/// Calls `visit` with every plan of the corpus that breaks a rule, its case, and its list as the
/// reference has it.
fn each_broken(mut visit: impl FnMut(&[u8], &[u8], Vec<[usize; 4]>)) {
    each_pair(|case_message, plan_message| {
        let Ok((edition, case)) = read_case(case_message) else {
            return;
        };
        let Ok(plan) = read_plan(edition, &case, plan_message) else {
            return;
        };
        let list: Vec<[usize; 4]> = breaches_of(&case, &plan)
            .iter()
            .map(|at| [usize::from(at.rule), at.interval, at.device, at.window])
            .collect();
        if !list.is_empty() {
            visit(case_message, plan_message, list);
        }
    });
}

/// Every so many of the broken plans is run, and each whose list is long.
const EVERY: usize = 8;
const LONG: usize = 500;

#[test]
fn sentences_of_the_corpus_tell_figures_that_break_the_rule() {
    let scratch = Scratch::new("corpus");
    let (mut broken, mut runs, mut lines) = (0, 0, [0; 28]);
    each_broken(|case, plan, list| {
        broken += 1;
        if broken % EVERY != 0 && list.len() < LONG {
            return;
        }
        let [case, plan] = [scratch.file("case", case), scratch.file("plan", plan)];
        let text = answer(&["breaches", &case, &plan], 1);
        let sentences: Vec<Sentence> = text.lines().map(Sentence::of).collect();
        assert!(sentences.iter().map(|sentence| sentence.numbers).eq(list));
        for sentence in sentences {
            assert!(sentence.is_violated(), "{sentence:?}");
            assert_eq!(sentence.place, sentence.expected_place());
            lines[sentence.numbers[0]] += 1;
        }
        runs += 1;
    });
    println!(
        "{runs} of {broken} broken plans; lines by rule {:?}",
        &lines[1..]
    );
    assert!(runs > 150 && lines[1..].iter().all(|&count| count > 50));
}

/// The worked day of edition 1 in edition 5, and the verdict that it had.
#[test]
fn renew_writes_the_newest_edition() {
    let scratch = Scratch::new("renew");
    let day = lettered('b');
    let [case, plan] = scratch.day(&day);
    let newest = Day {
        edition: Edition::NEWEST,
        ..day
    };
    let (new_case, new_plan) = newest.messages();
    let outs = [scratch.path("new-case"), scratch.path("new-plan")];
    let [case_out, plan_out] = &outs;
    assert_eq!(answer(&["renew", &case, case_out], 0), "case 258\n");
    assert_eq!(fs::read(case_out).expect("it is written"), new_case);
    assert!(!Path::new(plan_out).exists());
    let lines = answer(&["renew", &case, case_out, &plan, plan_out], 0);
    assert_eq!(lines, "case 258\nplan 111\n");
    assert_eq!(fs::read(case_out).expect("it is written"), new_case);
    assert_eq!(fs::read(plan_out).expect("it is written"), new_plan);
    let verdict = verdict_of(&["judge", case_out, plan_out], 1);
    assert_eq!(verdict, "broken 5 2 1 0\n");
    // Once more, over files that are there: as they stand.
    let again = [
        scratch.file("again-case", b"x"),
        scratch.file("again-plan", b"y"),
    ];
    let words = ["renew", case_out, &again[0], plan_out, &again[1]];
    assert_eq!(answer(&words, 0), "case 258\nplan 111\n");
    assert_eq!(fs::read(&again[0]).expect("it is written"), new_case);
    assert_eq!(fs::read(&again[1]).expect("it is written"), new_plan);
    // Nothing is left beside them.
    let left = fs::read_dir(&scratch.0).expect("the directory").count();
    assert_eq!(left, 6);
}

/// An output that is an input, by whatever name, or the other output; nothing is written.
#[test]
fn renew_refuses_an_output_that_is_an_input() {
    let scratch = Scratch::new("renew-apart");
    let [case, plan] = scratch.day(&lettered('a'));
    let before = [&case, &plan].map(|path| fs::read(path).expect("it is there"));
    let link = Symlink::new(&case, scratch.path("linked"));
    let linked = &link.0;
    let hard = scratch.path("hard");
    fs::hard_link(&plan, &hard).expect("a link");
    let roundabout = format!("{}/./case", scratch.0.display());
    let [one, other] = [scratch.path("one"), scratch.path("other")];
    for (words, named) in [
        (vec![&case, &case], &case),
        (vec![&case, linked], linked),
        (vec![&case, &roundabout], &roundabout),
        (vec![&case, &plan, &plan, &one], &plan),
        (vec![&case, &one, &plan, &case], &case),
        (vec![&case, &hard, &plan, &one], &hard),
    ] {
        let words: Vec<&str> = [vec!["renew"], words.iter().map(|w| w.as_str()).collect()].concat();
        let line = complaint(&words, 3);
        assert_eq!(line, format!("desk: {named} is an input (see desk --help)"));
    }
    let line = complaint(&["renew", &case, &one, &plan, &one], 3);
    assert_eq!(
        line,
        format!("desk: {one} is written twice (see desk --help)")
    );
    assert!(!Path::new(&one).exists() && !Path::new(&other).exists());
    let after = [&case, &plan].map(|path| fs::read(path).expect("it is there"));
    assert_eq!(before, after);
}

/// A refused message, or a place that cannot be written, leaves every output as it was.
#[test]
fn renew_writes_whole_files_or_none() {
    let scratch = Scratch::new("renew-whole");
    let (case, plan) = lettered('a').messages();
    let case_file = scratch.file("case", &case);
    let cut_case = scratch.file("cut-case", &case[..1]);
    let plan_file = scratch.file("plan", &plan);
    let cut_plan = scratch.file("cut-plan", &plan[..1]);
    let [one, other] = [scratch.file("one", b"one"), scratch.file("other", b"other")];
    let line = complaint(&["renew", &cut_case, &one, &plan_file, &other], 2);
    assert!(
        line.starts_with(&format!("refused 1 8: case {cut_case}: ")),
        "{line}"
    );
    let line = complaint(&["renew", &case_file, &one, &cut_plan, &other], 2);
    assert!(
        line.starts_with(&format!("refused 1 8: plan {cut_plan}: ")),
        "{line}"
    );
    let nowhere = scratch.path("no-such-folder/out");
    let line = complaint(&["renew", &case_file, &one, &plan_file, &nowhere], 3);
    assert!(
        line.starts_with(&format!("desk: cannot write {nowhere}: ")),
        "{line}"
    );
    let folder = scratch.path("folder");
    fs::create_dir(&folder).expect("a folder");
    let line = complaint(&["renew", &case_file, &folder], 3);
    assert!(
        line.starts_with(&format!("desk: cannot write {folder}: ")),
        "{line}"
    );
    let line = complaint(&["renew", &scratch.path("absent"), &one], 3);
    assert!(line.starts_with("desk: cannot read "), "{line}");
    assert_eq!(fs::read(&one).expect("it is there"), b"one");
    assert_eq!(fs::read(&other).expect("it is there"), b"other");
    assert_eq!(fs::read_dir(&scratch.0).expect("the directory").count(), 7);
    for words in [
        vec!["renew"],
        vec!["renew", &case_file],
        vec!["renew", &case_file, &one, &plan_file],
    ] {
        let line = complaint(&words, 3);
        assert_eq!(
            line,
            "desk: usage: desk renew CASE OUT [PLAN OUT] (see desk --help)"
        );
    }
}

/// The words of a renumbering of a case and plans, to a folder.
fn renumber_words<'a>(files: &[&'a str], order: &'a str, folder: &'a str) -> Vec<&'a str> {
    let options = ["--order", order, "--out", folder];
    [&["renumber"], files, &options].concat()
}

impl Scratch {
    /// A folder in it, and a file there.
    fn folder(&self, name: &str) -> (String, impl Fn(&str) -> String) {
        let folder = self.0.join(name);
        fs::create_dir(&folder).expect("a folder");
        let path = folder.to_str().expect("text").to_string();
        (path, move |name| {
            folder.join(name).to_str().expect("text").to_string()
        })
    }
}

/// Plans (a), (b) and one that two sets break, of the worked day in edition 1; and back again.
#[test]
fn renumber_writes_the_sets_in_another_order() {
    let scratch = Scratch::new("renumber");
    let (case, a) = lettered('a').messages();
    let (_, b) = lettered('b').messages();
    let mut both = lettered('b');
    both.plan.intervals[1][1].online_power = 201;
    let files = [
        ("case", &case),
        ("a", &a),
        ("b", &b),
        ("both", &both.messages().1),
    ];
    let inputs = files.map(|(name, bytes)| scratch.file(name, bytes));
    let inputs: Vec<&str> = inputs.iter().map(String::as_str).collect();
    let (folder, there) = scratch.folder("out");
    let lines = "case 258\nplan 111\nplan 111\nplan 111\n";
    let words = renumber_words(&inputs, "2,1", &folder);
    assert_eq!(answer(&words, 0), lines);
    let swap = Order::new(vec![1, 0]).expect("both places");
    let bytes = |path: String| fs::read(path).expect("it is written");
    assert_eq!(bytes(there("case")), newest_case(&swap.case(&both.case)));
    assert_eq!(bytes(there("both")), newest_plan(&swap.plan(&both.plan)));
    for (plan, verdict, status) in [
        ("a", "accepted 167860\n", 0),
        ("b", "broken 5 2 2 0\n", 1),
        ("both", "broken 16 2 1 0\n", 1),
    ] {
        let words = ["judge", &there("case"), &there(plan)];
        assert_eq!(verdict_of(&words, status), verdict);
    }
    // Back, over files that are there: the newest edition of what it was.
    let (folder, again) = scratch.folder("again");
    fs::write(again("case"), b"x").expect("a file");
    let outputs = ["case", "a", "b", "both"].map(&there);
    let outputs: Vec<&str> = outputs.iter().map(String::as_str).collect();
    assert_eq!(answer(&renumber_words(&outputs, "2,1", &folder), 0), lines);
    assert_eq!(bytes(again("case")), newest_case(&both.case));
    assert_eq!(bytes(again("both")), newest_plan(&both.plan));
    // A case alone; and nothing is left beside what is written.
    let (folder, _) = scratch.folder("alone");
    let words = renumber_words(&inputs[..1], "1,2", &folder);
    assert_eq!(answer(&words, 0), "case 258\n");
    for (folder, count) in [("out", 4), ("again", 4), ("alone", 1)] {
        let left = fs::read_dir(scratch.0.join(folder)).expect("the directory");
        assert_eq!(left.count(), count);
    }
}

/// An output that is an input or another output, an order of other counts, a refused message, a
/// folder that is not there: nothing is written.
#[test]
fn renumber_writes_whole_files_or_none() {
    let scratch = Scratch::new("renumber-none");
    let [case, plan] = scratch.day(&lettered('a'));
    let own = scratch.path("");
    let line = complaint(&renumber_words(&[&case, &plan], "2,1", &own), 3);
    assert_eq!(line, format!("desk: {case} is an input (see desk --help)"));
    let (folder, there) = scratch.folder("out");
    let (_, elsewhere) = scratch.folder("elsewhere");
    fs::copy(&plan, elsewhere("plan")).expect("a copy");
    let other = elsewhere("plan");
    let words = [&case, &plan, &other].map(String::as_str);
    let line = complaint(&renumber_words(&words, "2,1", &folder), 3);
    let twice = there("plan");
    assert_eq!(
        line,
        format!("desk: {twice} is written twice (see desk --help)")
    );
    let line = complaint(&renumber_words(&[&case, &plan], "2,1,3", &folder), 3);
    let complains = "desk: --order names 3 sets, the case has 2 (see desk --help)";
    assert_eq!(line, complains);
    let cut = scratch.file("cut", &fs::read(&plan).expect("it is there")[..1]);
    let line = complaint(&renumber_words(&[&case, &plan, &cut], "2,1", &folder), 2);
    assert!(
        line.starts_with(&format!("refused 1 8: plan {cut}: ")),
        "{line}"
    );
    let line = complaint(&renumber_words(&[&cut, &plan], "2,1", &folder), 2);
    assert!(
        line.starts_with(&format!("refused 2 0: case {cut}: ")),
        "{line}"
    );
    let absent = scratch.path("absent");
    let line = complaint(&renumber_words(&[&case, &absent], "2,1", &folder), 3);
    assert!(
        line.starts_with(&format!("desk: cannot read {absent}: ")),
        "{line}"
    );
    let nowhere = scratch.path("no-such-folder");
    let line = complaint(&renumber_words(&[&case, &plan], "2,1", &nowhere), 3);
    assert!(
        line.starts_with(&format!("desk: cannot write {nowhere}/case: ")),
        "{line}"
    );
    assert_eq!(fs::read_dir(&folder).expect("the directory").count(), 0);
}

/// Every so many of the corpora's cases is renumbered with its plans that pass reading.
const EVERY_CASE: usize = 12;

/// Reversed, of every edition and size: what the reference writes of the rearranged figures.
#[test]
fn renumbered_cases_of_the_corpus_are_the_references() {
    let scratch = Scratch::new("renumber-corpus");
    let (folder, there) = scratch.folder("out");
    let (mut cases, mut runs, mut plans_written) = (0, 0, 0);
    each_case(|case_message, plan_messages| {
        let Ok((edition, case)) = read_case(case_message) else {
            return;
        };
        cases += 1;
        if cases % EVERY_CASE != 0 {
            return;
        }
        let devices = case.devices.len();
        let reversed = Order::new((0..devices).rev().collect()).expect("each place");
        let numbers: Vec<String> = (1..=devices).rev().map(|n| n.to_string()).collect();
        let plans: Vec<Plan> = plan_messages
            .iter()
            .filter_map(|message| read_plan(edition, &case, message).ok())
            .collect();
        let mut files = vec![scratch.file("case", case_message)];
        for (k, plan) in plans.iter().enumerate() {
            let message = encode_plan(edition, plan).bytes;
            files.push(scratch.file(&format!("plan-{k}"), &message));
        }
        let files: Vec<&str> = files.iter().map(String::as_str).collect();
        answer(&renumber_words(&files, &numbers.join(","), &folder), 0);
        let bytes = |name: &str| fs::read(there(name)).expect("it is written");
        assert_eq!(bytes("case"), newest_case(&reversed.case(&case)));
        for (k, plan) in plans.iter().enumerate() {
            let expected = newest_plan(&reversed.plan(plan));
            assert_eq!(bytes(&format!("plan-{k}")), expected);
        }
        runs += 1;
        plans_written += plans.len();
    });
    println!("{runs} of {cases} cases, {plans_written} plans");
    assert!(runs > 20 && plans_written > 100);
}

/// The two-set day's copy, byte by byte: the header, and in interval 2 a start of device 1.
#[test]
fn market_writes_the_copy() {
    let scratch = Scratch::new("market");
    let [case, plan] = scratch.day(&lettered('a'));
    let copy = scratch.path("copy");
    assert_eq!(answer(&["market", &case, &plan, &copy], 0), "copy 10\n");
    let by_hand = [0x41, 0x10, 0x40, 0, 0, 0, 0x40, 0, 0, 0];
    assert_eq!(fs::read(&copy).expect("it is written"), by_hand);
    // Once more, over a file that is there.
    let over = scratch.file("over", b"longer than a copy");
    assert_eq!(answer(&["market", &case, &plan, &over], 0), "copy 10\n");
    assert_eq!(fs::read(&over).expect("it is written"), by_hand);
    // Other prices and costs give the same file.
    let mut dearer = lettered('a');
    dearer.case.mismatch_price = 7;
    dearer.case.devices[0].start_cost = 5;
    dearer.case.devices[0].startup_states[1].cost = 3;
    dearer.case.devices[0].terms[1].blocks[0].price = -9;
    let (dearer, _) = dearer.messages();
    let dearer = scratch.file("dearer", &dearer);
    assert_eq!(answer(&["market", &dearer, &plan, &over], 0), "copy 10\n");
    assert_eq!(fs::read(&over).expect("it is written"), by_hand);
    assert_ne!(
        answer(&["judge", &dearer, &plan], 0),
        answer(&["judge", &case, &plan], 0)
    );
    // Nothing is left beside them.
    let left = fs::read_dir(&scratch.0).expect("the directory").count();
    assert_eq!(left, 5);
}

/// A broken plan, a refused message, an output that is an input or cannot be written: nothing is
/// written, and what was there stays.
#[test]
fn market_writes_a_whole_file_or_none() {
    let scratch = Scratch::new("market-whole");
    let (case, plan) = lettered('a').messages();
    let (_, broken) = lettered('b').messages();
    let cut_case = scratch.file("cut-case", &case[..1]);
    let cut_plan = scratch.file("cut-plan", &plan[..1]);
    let [case, plan] = [scratch.file("case", &case), scratch.file("plan", &plan)];
    let broken = scratch.file("broken", &broken);
    let out = scratch.file("out", b"out");
    let told = answer(&["market", &case, &broken, &out], 1);
    assert_eq!(told, "broken 5 2 1 0\n");
    let line = complaint(&["market", &cut_case, &plan, &out], 2);
    assert!(
        line.starts_with(&format!("refused 1 8: case {cut_case}: ")),
        "{line}"
    );
    let line = complaint(&["market", &case, &cut_plan, &out], 2);
    assert!(
        line.starts_with(&format!("refused 1 8: plan {cut_plan}: ")),
        "{line}"
    );
    let link = Symlink::new(&plan, scratch.path("linked"));
    let linked = &link.0;
    for input in [&case, &plan, linked] {
        let line = complaint(&["market", &case, &plan, input], 3);
        assert_eq!(line, format!("desk: {input} is an input (see desk --help)"));
    }
    let nowhere = scratch.path("no-such-folder/out");
    let line = complaint(&["market", &case, &plan, &nowhere], 3);
    assert!(
        line.starts_with(&format!("desk: cannot write {nowhere}: ")),
        "{line}"
    );
    for words in [
        vec!["market"],
        vec!["market", &case, &plan],
        vec!["market", &case, &plan, &out, &out],
        vec!["market", &case, &plan, &out, "--result", &out],
    ] {
        let line = complaint(&words, 3);
        assert_eq!(
            line,
            "desk: usage: desk market CASE PLAN OUT (see desk --help)"
        );
    }
    assert_eq!(fs::read(&out).expect("it is there"), b"out");
    assert_eq!(fs::read_dir(&scratch.0).expect("the directory").count(), 7);
}

/// The files of a day's case, completion and copy.
fn shown_files(scratch: &Scratch, day: &Day) -> [String; 3] {
    let [case, plan] = scratch.day(day);
    let [completion, copy] = [scratch.path("completion"), scratch.path("copy")];
    answer(&["judge", &case, &plan, "--result", &completion], 0);
    answer(&["market", &case, &plan, &copy], 0);
    [case, completion, copy]
}

/// The worked day: 30 kW in the first block, then a start in state 2 with 100 and 50 kW; the load at
/// 30, then 150 kW.
#[test]
fn show_prints_a_completion_and_a_copy() {
    let scratch = Scratch::new("show");
    let [case, completion, copy] = shown_files(&scratch, &lettered('a'));
    assert_eq!(
        answer(&["show", &case, &completion], 0),
        "completion 2 2 0\n\
         edition 1\n\
         device 1, interval 1: neither starts nor stops; no startup state; \
         block powers 30, 0, 0, 0 kW\n\
         device 1, interval 2: starts; startup state 2; block powers 100, 50, 0, 0 kW\n\
         device 2, interval 1: neither starts nor stops; no startup state; \
         block powers 30, 0, 0, 0 kW\n\
         device 2, interval 2: neither starts nor stops; no startup state; \
         block powers 150, 0, 0, 0 kW\n\
         interval 1: mismatch 0 kW\n\
         interval 2: mismatch 0 kW\n\
         surplus 167860 grains\n"
    );
    assert_eq!(
        answer(&["show", &case, &copy], 0),
        "market copy 2 2 0\n\
         edition 1\n\
         device 1, interval 1: neither starts nor stops\n\
         device 1, interval 2: starts\n\
         device 2, interval 1: neither starts nor stops\n\
         device 2, interval 2: neither starts nor stops\n\
         interval 1: mismatch 0 kW\n\
         interval 2: mismatch 0 kW\n"
    );
}

/// The lines of a day's copy behind those of its devices' intervals.
fn shown_slacks(scratch: &Scratch, day: &Day) -> Vec<String> {
    let [case, _, copy] = shown_files(scratch, day);
    let text = answer(&["show", &case, &copy], 0);
    let lines = text.lines().skip(2 + 4);
    lines.map(String::from).collect()
}

/// Shortfalls of day (h), of edition 2's zone, the overrun of day (l), and bars 60 kW apart.
#[test]
fn show_prints_shortfalls_mismatches_and_overruns() {
    let scratch = Scratch::new("show-slacks");
    let zone = |interval: usize, watts: u64| {
        format!(
            "zone 1, interval {interval}: shortfalls rgu {watts} W, rgd 0 W, scr {watts} W, \
             nsc {watts} W, rru 0 W, rrd 0 W"
        )
    };
    let none = |interval: usize| format!("interval {interval}: mismatch 0 kW");
    assert_eq!(
        shown_slacks(&scratch, &lettered('h')),
        [zone(1, 1_500), zone(2, 7_500), none(1), none(2)]
    );
    let [case, completion, _] = shown_files(&scratch, &lettered('h'));
    let text = answer(&["show", &case, &completion], 0);
    assert!(text.ends_with("\nsurplus -1452140 grains\n"), "{text}");
    assert_eq!(
        shown_slacks(&scratch, &reactive_days()[4].1),
        [
            format!("{}; qru 1000 var, qrd 0 var", zone(1, 0)),
            format!("{}; qru 0 var, qrd 1000 var", zone(2, 0)),
            format!("{}; reactive mismatch 1 kvar", none(1)),
            format!("{}; reactive mismatch 0 kvar", none(2)),
        ]
    );
    let [case, _, copy] = shown_files(&scratch, &lettered('l'));
    let text = answer(&["show", &case, &copy], 0);
    let overrun = "device 1, energy window 1: overrun 4500 kW min";
    assert_eq!(text.lines().nth(4), Some(overrun));
    assert_eq!(
        shown_slacks(&scratch, &link_days()[2].1)[0],
        "interval 1: mismatch 60 kW on bar 0, 60 kW on bar 1; \
         reactive mismatch 0 kvar on bar 0, 0 kvar on bar 1"
    );
}

/// Refusals name the case, the completion or the copy; another kind is refused as it stands.
#[test]
fn show_tells_refusals() {
    let scratch = Scratch::new("show-refusals");
    let [case, completion, copy] = shown_files(&scratch, &lettered('a'));
    let bytes = |path: &str| fs::read(path).expect("it is there");
    let tell = |case: &str, message: &str, line: &str| {
        let told = complaint(&["show", case, message], 2);
        assert!(told.starts_with(line), "{told}");
    };
    let cut_case = scratch.file("cut-case", &bytes(&case)[..1]);
    tell(&cut_case, &copy, &format!("refused 1 8: case {cut_case}: "));
    let cut = scratch.file("cut", &bytes(&completion)[..1]);
    tell(&case, &cut, &format!("refused 1 8: completion {cut}: "));
    let longer = scratch.file("longer", &[&bytes(&copy)[..], &[0]].concat());
    tell(
        &case,
        &longer,
        &format!("refused 6 80: market copy {longer}: "),
    );
    let mut unlike = bytes(&copy);
    unlike[2] |= 4;
    let unlike = scratch.file("unlike", &unlike);
    tell(
        &case,
        &unlike,
        &format!("refused 3 19: market copy {unlike}: "),
    );
    let other = scratch.file("other", &[0x11]);
    tell(&case, &other, &format!("refused 2 0: message {other}: "));
    let empty = scratch.file("empty", &[]);
    tell(&case, &empty, &format!("refused 1 0: message {empty}: "));
    for words in [
        vec!["show", &case],
        vec!["show", &case, &copy, &copy],
        vec!["show", &case, &copy, "--result", &copy],
    ] {
        let line = complaint(&words, 3);
        assert_eq!(
            line,
            "desk: usage: desk show CASE MESSAGE [--json] (see desk --help)"
        );
    }
}

/// Plan (b): 150 kW of device 1 in place of 151; then 1 kW of load more at 20 for 60 minutes, and 1 kW
/// of mismatch at 1,000: 167,860 + 1,200 - 60,000.
#[test]
fn mend_tells_and_writes_the_mended_plan() {
    let scratch = Scratch::new("mend");
    let day = lettered('b');
    let mut mended = day.clone();
    mended.plan.intervals[1][0].online_power = 150;
    for edition in Edition::ALL {
        let [case, plan] = scratch.day(&in_edition(edition, day.clone()));
        let told = "mended 2 1 150\n\
             interval 2, device 1: online power 150 kW in place of 151 kW, 1 kW less\n\
             mends 5 2 1 0 rule 5 (ramp up) at interval 2, device 1: power rises by 121 kW \
             (from 30 to 151), at most 120 kW (60 min at 2 kW/min starting)\n\
             then accepted 109060\n";
        assert_eq!(answer(&["mend", &case, &plan], 0), told);
        let out = scratch.file("out", b"longer than nothing");
        assert_eq!(answer(&["mend", &case, &plan, "-o", &out], 0), told);
        let (_, expected) = in_edition(edition, mended.clone()).messages();
        assert_eq!(fs::read(&out).expect("it is written"), expected);
        assert_eq!(answer(&["judge", &case, &out], 0), "accepted 109060\n");
    }
    // Nothing is left beside them.
    assert_eq!(fs::read_dir(&scratch.0).expect("the directory").count(), 3);
}

/// A power of a set that is off breaks its highest power and, for it has no blocks, its caps: 0 mends
/// both. The load that falls too far is mended in the interval before.
#[test]
fn mend_tells_every_rule_that_it_mends() {
    let scratch = Scratch::new("mend-rules");
    let mut day = two_set_day();
    day.case.devices[0].terms[0].blocks.clear();
    day.case.devices[0].ramps.starting = 3;
    day.plan.intervals[0][0].online_power = 7;
    let [case, plan] = scratch.day(&day);
    let text = answer(&["mend", &case, &plan], 0);
    let lines: Vec<&str> = text.lines().collect();
    assert_eq!(
        lines[..4],
        [
            "mended 1 1 0",
            "interval 1, device 1: online power 0 kW in place of 7 kW, 7 kW less",
            "mends 16 1 1 0 rule 16 (highest online power) at interval 1, device 1: online power \
             with up reserves is 7 kW (online 7), at most 0 kW (while off)",
            "mends 19 1 1 0 rule 19 (block caps) at interval 1, device 1: power is 7 kW (online 7), \
             at most 0 kW (no blocks)",
        ]
    );
    let mut day = two_set_day();
    day.case.devices[1].ramps.down = 1;
    day.plan.intervals[0][1].online_power = 90;
    day.plan.intervals[1][1].online_power = 28;
    let [case, plan] = scratch.day(&day);
    let text = answer(&["mend", &case, &plan], 0);
    assert!(
        text.starts_with(
            "mended 1 2 88\n\
             interval 1, device 2: online power 88 kW in place of 90 kW, 2 kW less\n\
             mends 6 2 2 0 rule 6 (ramp down) at interval 2, device 2: "
        ),
        "{text}"
    );
}

/// A plan that is accepted, one that nothing mends, a refused message, an output that is an input or
/// cannot be written: nothing is written, and what was there stays.
#[test]
fn mend_writes_a_mended_plan_or_nothing() {
    let scratch = Scratch::new("mend-nothing");
    let (case, plan) = lettered('a').messages();
    let (case_g, plan_g) = lettered('g').messages();
    let (_, broken) = lettered('b').messages();
    let cut_case = scratch.file("cut-case", &case[..1]);
    let cut_plan = scratch.file("cut-plan", &plan[..1]);
    let [case, plan] = [scratch.file("case", &case), scratch.file("plan", &plan)];
    let [case_g, plan_g] = [
        scratch.file("case-g", &case_g),
        scratch.file("plan-g", &plan_g),
    ];
    let broken = scratch.file("broken", &broken);
    let out = scratch.file("out", b"out");
    let told = answer(&["mend", &case, &plan, "-o", &out], 0);
    assert_eq!(told, "accepted 167860\n");
    let told = answer(&["mend", &case_g, &plan_g, "-o", &out], 1);
    assert_eq!(
        told,
        "no mend: no replacement of one online power makes this plan accepted\n"
    );
    let line = complaint(&["mend", &cut_case, &broken, "-o", &out], 2);
    assert!(
        line.starts_with(&format!("refused 1 8: case {cut_case}: ")),
        "{line}"
    );
    let line = complaint(&["mend", &case, &cut_plan, "-o", &out], 2);
    assert!(
        line.starts_with(&format!("refused 1 8: plan {cut_plan}: ")),
        "{line}"
    );
    let link = Symlink::new(&broken, scratch.path("linked"));
    let linked = &link.0;
    for input in [&case, &broken, linked] {
        let line = complaint(&["mend", &case, &broken, "-o", input], 3);
        assert_eq!(line, format!("desk: {input} is an input (see desk --help)"));
    }
    let nowhere = scratch.path("no-such-folder/out");
    let line = complaint(&["mend", &case, &broken, "-o", &nowhere], 3);
    assert!(
        line.starts_with(&format!("desk: cannot write {nowhere}: ")),
        "{line}"
    );
    assert_eq!(fs::read(&out).expect("it is there"), b"out");
    assert_eq!(fs::read_dir(&scratch.0).expect("the directory").count(), 9);
}

/// On a part of the corpora: the file is the reference's mended plan, the lines are those of every
/// breach, and the surplus is the reference's.
#[test]
fn mends_of_the_corpus_are_the_references() {
    let scratch = Scratch::new("mend-corpus");
    let (mut pairs, mut mended, mut none) = (0, 0, 0);
    each_broken(|case_bytes, plan_bytes, breaches| {
        pairs += 1;
        if pairs % 25 != 0 {
            return;
        }
        let (edition, figures) = read_case(case_bytes).expect("it passes reading");
        let old = read_plan(edition, &figures, plan_bytes).expect("it passes reading");
        let [case, plan] = [
            scratch.file("case", case_bytes),
            scratch.file("plan", plan_bytes),
        ];
        let out = scratch.path("out");
        let Some((mend, surplus)) = mend_of(&figures, &old) else {
            let told = answer(&["mend", &case, &plan, "-o", &out], 1);
            assert!(told.starts_with("no mend: "));
            none += 1;
            return;
        };
        let told = answer(&["mend", &case, &plan, "-o", &out], 0);
        let expected = encode_plan(edition, &mend.applied(&old)).bytes;
        assert_eq!(fs::read(&out).expect("it is written"), expected);
        assert!(
            told.ends_with(&format!("\nthen accepted {surplus}\n")),
            "{told}"
        );
        let rules: Vec<[usize; 4]> = told
            .lines()
            .filter_map(|line| line.strip_prefix("mends "))
            .map(|line| Sentence::of(line).numbers)
            .collect();
        assert_eq!(rules, breaches);
        mended += 1;
    });
    assert!(mended > 5 && none > 20, "{mended} mended, {none} not");
}
