//! Breaches in words: what the rule is, and the figures on both sides of it.

use std::fmt;

use crate::comparison::{Comparison, Figure, Relation, Unit};
use crate::day::{Day, Point};
use crate::messages::Case;
use crate::messages::Reserve::{self, *};
use crate::reactive;

/// A broken rule and its place, as a list holds it: each number from 1, or 0 where there is none.
#[derive(Clone, Copy, PartialEq, Eq, Debug)]
pub struct Breach {
    pub rule: u8,
    pub interval: u8,
    pub device: u8,
    pub window: u8,
}

impl From<[u8; 4]> for Breach {
    fn from([rule, interval, device, window]: [u8; 4]) -> Breach {
        Breach {
            rule,
            interval,
            device,
            window,
        }
    }
}

impl Breach {
    /// By figures of the plan unit in the same order; `None` where one is larger than a list can hold.
    pub fn of(figures: [u64; 4]) -> Option<Breach> {
        let [rule, interval, device, window] = figures.map(|figure| u8::try_from(figure).ok());
        Some(Breach {
            rule: rule?,
            interval: interval?,
            device: device?,
            window: window?,
        })
    }

    /// Rule, interval, device, window.
    pub fn numbers(&self) -> [u8; 4] {
        [self.rule, self.interval, self.device, self.window]
    }

    /// Its place in words.
    pub fn place(&self, case: &Case) -> String {
        let [interval, device, window] = [self.interval, self.device, self.window].map(usize::from);
        place_words(case, interval, device, window)
    }
}

/// The numbers that are there, each with its word, and the device's name where it has one.
pub fn place_words(case: &Case, interval: usize, device: usize, window: usize) -> String {
    let named = [
        ("interval", interval, String::new()),
        ("device", device, name_words(case, device)),
        ("window", window, String::new()),
    ];
    let there = named.iter().filter(|(_, number, _)| *number > 0);
    let words: Vec<String> = there
        .map(|(word, number, name)| format!("{word} {number}{name}"))
        .collect();
    words.join(", ")
}

fn name_words(case: &Case, device: usize) -> String {
    let place = device.checked_sub(1);
    let device = place.and_then(|place| case.devices.get(place));
    match device.map(|device| device.name.as_str()) {
        None | Some("") => String::new(),
        Some(name) => format!(" ({name})"),
    }
}

impl fmt::Display for Breach {
    fn fmt(&self, out: &mut fmt::Formatter) -> fmt::Result {
        let Breach {
            rule,
            interval,
            device,
            window,
        } = self;
        write!(out, "{rule} {interval} {device} {window}")
    }
}

/// What each rule is about, from rule 1.
pub const RULES: [&str; 27] = [
    "fixed status",
    "initial state",
    "minimum down time",
    "minimum up time",
    "ramp up",
    "ramp down",
    "regulation up limit",
    "regulation down limit",
    "synchronized reserve limit",
    "online ramping up limit",
    "online ramping down limit",
    "non-synchronized reserve limit",
    "offline ramping up limit",
    "offline ramping down limit",
    "reserves of the other side",
    "highest online power",
    "lowest online power",
    "highest offline power",
    "block caps",
    "starts in a window",
    "highest reactive power",
    "lowest reactive power",
    "upper line of the p-q link",
    "lower line of the p-q link",
    "equality of the p-q link",
    "reserves beside an equality",
    "DC link limit",
];

/// One line of a breach: its four numbers, then the rule, the place and both sides in words.
///
/// `None` where the breach is not in the day or its figures do not break the rule.
pub fn explain(day: &Day, breach: Breach) -> Option<String> {
    let comparison = compare(day, breach)?;
    let rule = name_of(breach.rule, &comparison)?;
    let place = breach.place(&day.case);
    let number = breach.rule;
    (!comparison.holds())
        .then(|| format!("{breach} rule {number} ({rule}) at {place}: {comparison}"))
}

/// What a rule is about; rule 19 by the bound that is told.
fn name_of(rule: u8, comparison: &Comparison) -> Option<&'static str> {
    match (rule, &comparison.relation) {
        (19, Relation::AtLeast) => Some("block floors"),
        _ => RULES.get(usize::from(rule).checked_sub(1)?).copied(),
    }
}

/// Both sides of a rule at a place; `None` where it asks nothing there.
fn compare(day: &Day, breach: Breach) -> Option<Comparison> {
    let at = |number: u8| usize::from(number);
    match breach.rule {
        20 if breach.interval == 0 => starts_in_window(day, at(breach.device), at(breach.window)),
        1..=19 | 21..=26 if breach.window == 0 => compare_at(
            day.point(at(breach.interval), at(breach.device))?,
            breach.rule,
        ),
        27 if breach.device == 0 && breach.window == 0 => flow(day, at(breach.interval)),
        _ => None,
    }
}

fn compare_at(point: Point, rule: u8) -> Option<Comparison> {
    match rule {
        1 => fixed_status(point),
        2 => initial_state(point),
        3 => since_stop(point),
        4 => since_start(point),
        5 => Some(rise(point)),
        6 => Some(fall(point)),
        7..=14 => Some(reserve_limit(point, usize::from(rule - 7))),
        15 => Some(reserves_of_the_other_side(point)),
        16 => Some(highest_online(point)),
        17 => Some(lowest_online(point)),
        18 => Some(highest_offline(point)),
        19 => Some(block_bounds(point)),
        21..=26 => reactive::compare(point, rule),
        _ => None,
    }
}

/// Rule 1.
fn fixed_status(point: Point) -> Option<Comparison> {
    Some(Comparison {
        subject: "is #",
        left: Figure::new(i64::from(point.on()), ""),
        relation: Relation::MustBe,
        right: Figure::new(i64::from(point.cell().fixed?), "fixed by the case"),
        unit: Unit::State,
    })
}

/// Rule 2; it asks nothing of a device that is in its initial state.
fn initial_state(point: Point) -> Option<Comparison> {
    let device = point.device();
    let (subject, minimum) = if device.initially_on {
        (
            "is off # after its initial on state began",
            minimum_up(point),
        )
    } else {
        (
            "is on # after its initial off state began",
            minimum_down(point),
        )
    };
    let before = device.minutes_already_so;
    let left = Figure::new(
        point.time().start + before,
        format!("{before} min before the day"),
    );
    (point.on() != device.initially_on).then(|| at_least_minutes(subject, left, minimum))
}

/// Rule 3, by the last stop before this start.
fn since_stop(point: Point) -> Option<Comparison> {
    let stop = point.earlier().find(|earlier| earlier.stops())?;
    let subject = "starts # after its last stop";
    let comparison = at_least_minutes(subject, since(point, stop), minimum_down(point));
    point.starts().then_some(comparison)
}

/// Rule 4, by the last start before this stop.
fn since_start(point: Point) -> Option<Comparison> {
    let start = point.earlier().find(|earlier| earlier.starts())?;
    let subject = "stops # after its last start";
    let comparison = at_least_minutes(subject, since(point, start), minimum_up(point));
    point.stops().then_some(comparison)
}

fn since(point: Point, earlier: Point) -> Figure {
    Figure::new(
        point.time().start - earlier.time().start,
        format!("in interval {}", earlier.interval()),
    )
}

fn minimum_up(point: Point) -> Figure {
    Figure::new(point.device().minimum_up, "minimum up")
}

fn minimum_down(point: Point) -> Figure {
    Figure::new(point.device().minimum_down, "minimum down")
}

fn at_least_minutes(subject: &'static str, left: Figure, right: Figure) -> Comparison {
    Comparison {
        subject,
        left,
        relation: Relation::AtLeast,
        right,
        unit: Unit::Minutes,
    }
}

/// Rule 5.
fn rise(point: Point) -> Comparison {
    let device = point.device();
    let most = if point.on() && !point.starts() {
        by_ramp(point, device.up_ramp, "up")
    } else {
        by_ramp(point, device.starting_ramp, "starting")
    };
    let (from, to) = (point.previous_power(), point.power());
    let left = Figure::new(to - from, format!("from {from} to {to}"));
    Comparison::kilowatts("power rises by #", left, Relation::AtMost, most)
}

/// Rule 6.
fn fall(point: Point) -> Comparison {
    let device = point.device();
    let most = if point.on() {
        by_ramp(point, device.down_ramp, "down")
    } else {
        by_ramp(point, device.stopping_ramp, "stopping")
    };
    let (from, to) = (point.previous_power(), point.power());
    let left = Figure::new(from - to, format!("from {from} to {to}"));
    Comparison::kilowatts("power falls by #", left, Relation::AtMost, most)
}

fn by_ramp(point: Point, ramp: i64, name: &str) -> Figure {
    let minutes = point.duration();
    let origin = format!("{minutes} min at {ramp} kW/min {name}");
    Figure::new(minutes * ramp, origin)
}

/// Rules 7 to 14: the reserves that are added, held to the limit of the last of them, and whether
/// they are those of a device that is on.
const RESERVE_LIMITS: [(&str, &[Reserve], bool); 8] = [
    ("regulation up is #", &[Rgu], true),
    ("regulation down is #", &[Rgd], true),
    (
        "regulation up and synchronized reserve is #",
        &[Rgu, Scr],
        true,
    ),
    (
        "regulation up, synchronized and online ramping up reserve is #",
        &[Rgu, Scr, RruOn],
        true,
    ),
    (
        "regulation down and online ramping down reserve is #",
        &[Rgd, RrdOn],
        true,
    ),
    ("non-synchronized reserve is #", &[Nsc], false),
    (
        "non-synchronized and offline ramping up reserve is #",
        &[Nsc, RruOff],
        false,
    ),
    ("offline ramping down reserve is #", &[RrdOff], false),
];

fn reserve_limit(point: Point, index: usize) -> Comparison {
    let (subject, reserves, when_on) = RESERVE_LIMITS[index];
    let limiting = reserves[reserves.len() - 1];
    let limit = point.device().reserve_limits[limiting as usize];
    let origin = format!("{} limit", limiting.name());
    let right = while_state(point, when_on, limit, &origin);
    let left = Figure::sum(&named(point, reserves));
    Comparison::kilowatts(subject, left, Relation::AtMost, right)
}

fn named(point: Point, reserves: &[Reserve]) -> Vec<(&'static str, i64)> {
    let figure = |reserve: &Reserve| (reserve.name(), point.reserve(*reserve));
    reserves.iter().map(figure).collect()
}

/// A figure that counts while the device is on, or while it is off; else 0.
fn while_state(point: Point, on: bool, figure: i64, origin: &str) -> Figure {
    match (point.on() == on, point.on()) {
        (true, _) => Figure::new(figure, origin),
        (false, true) => Figure::new(0, "while on"),
        (false, false) => Figure::new(0, "while off"),
    }
}

/// Rule 15.
fn reserves_of_the_other_side(point: Point) -> Comparison {
    let (subject, reserves, side): (_, &[Reserve], _) = if point.device().consuming {
        (
            "non-synchronized and offline ramping up reserve is #",
            &[Nsc, RruOff],
            "consuming",
        )
    } else {
        ("offline ramping down reserve is #", &[RrdOff], "producing")
    };
    let left = Figure::sum(&named(point, reserves));
    Comparison::kilowatts(subject, left, Relation::MustBe, Figure::new(0, side))
}

const UP_ONLINE: &[Reserve] = &[Rgu, Scr, RruOn];
const DOWN_ONLINE: &[Reserve] = &[Rgd, RrdOn];

/// Rule 16: reserves that would raise the device's own power.
fn highest_online(point: Point) -> Comparison {
    let (subject, reserves) = if point.device().consuming {
        ("online power with down reserves is #", DOWN_ONLINE)
    } else {
        ("online power with up reserves is #", UP_ONLINE)
    };
    let mut terms = vec![("online", point.setting().online)];
    terms.extend(named(point, reserves));
    let pmax = while_state(point, true, point.cell().pmax, "pmax");
    Comparison::kilowatts(subject, Figure::sum(&terms), Relation::AtMost, pmax)
}

/// Rule 17: reserves that would lower the device's own power.
fn lowest_online(point: Point) -> Comparison {
    let (subject, reserves) = if point.device().consuming {
        ("online power less up reserves is #", UP_ONLINE)
    } else {
        ("online power less down reserves is #", DOWN_ONLINE)
    };
    let mut terms = vec![("online", point.setting().online)];
    terms.extend(named(point, reserves).iter().map(|(name, kw)| (*name, -kw)));
    let pmin = while_state(point, true, point.cell().pmin, "pmin");
    Comparison::kilowatts(subject, Figure::sum(&terms), Relation::AtLeast, pmin)
}

/// Rule 18.
fn highest_offline(point: Point) -> Comparison {
    let reserves: &[Reserve] = if point.device().consuming {
        &[RrdOff]
    } else {
        &[Nsc, RruOff]
    };
    let mut terms = vec![
        ("startup", point.startup_power()),
        ("shutdown", point.shutdown_power()),
    ];
    terms.extend(named(point, reserves));
    let subject = "startup and shutdown power with offline reserves is #";
    let pmax = while_state(point, false, point.cell().pmax, "pmax");
    Comparison::kilowatts(subject, Figure::sum(&terms), Relation::AtMost, pmax)
}

/// Rule 19, by its upper bound where the power is above it, else by its lower one: floors are never
/// above caps, so both cannot be broken.
fn block_bounds(point: Point) -> Comparison {
    let power = Figure::sum(&[
        ("online", point.setting().online),
        ("startup", point.startup_power()),
        ("shutdown", point.shutdown_power()),
    ]);
    let caps = point.cell().caps();
    let most: i64 = caps.iter().sum();
    let (relation, right) = if point.power() > most {
        let right = Figure::new(most, block_words("blocks", &caps));
        (Relation::AtMost, right)
    } else {
        let floors = point.cell().floors();
        let origin = block_words("block floors", &floors);
        let right = while_state(point, true, floors.iter().sum(), &origin);
        (Relation::AtLeast, right)
    };
    Comparison::kilowatts("power is #", power, relation, right)
}

/// A figure of each block, as they are added.
fn block_words(name: &str, figures: &[i64]) -> String {
    let told: Vec<String> = figures.iter().map(i64::to_string).collect();
    match told.as_slice() {
        [] => "no blocks".to_string(),
        told => format!("{name} {}", told.join(" + ")),
    }
}

/// Rule 20.
fn starts_in_window(day: &Day, device: usize, window: usize) -> Option<Comparison> {
    let windows = &day.case.devices.get(device.checked_sub(1)?)?.start_windows;
    let window = windows.get(window.checked_sub(1)?)?;
    let within = |start: i64| window.start <= start && start < window.end;
    let starts = (1..=day.case.intervals.len())
        .filter_map(|interval| day.point(interval, device))
        .filter(|point| point.starts() && within(point.time().start))
        .count();
    let origin = format!("from minute {} before minute {}", window.start, window.end);
    Some(Comparison {
        subject: "has #",
        left: Figure::new(i64::try_from(starts).ok()?, origin),
        relation: Relation::AtMost,
        right: Figure::new(window.most_starts, ""),
        unit: Unit::Starts,
    })
}

/// Rule 27, by its upper bound where the flow is above it, else by its lower one.
fn flow(day: &Day, interval: usize) -> Option<Comparison> {
    let (flow, limit) = (day.flow(interval)?, day.case.link_limit);
    let (relation, bound) = if flow > limit {
        (Relation::AtMost, limit)
    } else {
        (Relation::AtLeast, -limit)
    };
    let [flow, bound] = [flow, bound].map(|kilowatts| Figure::new(kilowatts, ""));
    Some(Comparison::kilowatts("flow is #", flow, relation, bound))
}
