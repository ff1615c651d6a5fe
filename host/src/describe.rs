//! A case in words.

use crate::messages::{Case, Device, Interval, Line, Link, Zone};

/// The lines of a case, each with its end: the batch program's words and counts, the day, each
/// zone's reactive needs where the edition has them, each device with its floors and its bar where
/// it has them.
pub fn describe(case: &Case) -> String {
    let mut lines = day_lines(case);
    if case.has_reactive_power() {
        for (number, zone) in (1..).zip(&case.zones) {
            lines.push(format!("zone {number}: {}", zone_words(zone)));
        }
    }
    for (number, device) in (1..).zip(&case.devices) {
        let mut words = device_words(device);
        if case.has_reactive_power() {
            words.extend([reactive_words(device), link_words(&device.link)]);
        }
        if case.has_floors() {
            words.push(floor_words(device));
        }
        if case.has_bars() {
            words.push(format!("on bar {}", device.bar));
        }
        lines.push(format!("device {number}: {}", words.join("; ")));
    }
    lines.join("\n") + "\n"
}

/// Counts, durations, prices and the DC link limit of the day.
fn day_lines(case: &Case) -> Vec<String> {
    let (devices, intervals) = (case.devices.len(), case.intervals.len());
    let zones = case.zones.len();
    let minutes = case.intervals.last().map_or(0, |last| last.end);
    let mut lines = vec![
        format!("case {devices} {intervals} {zones}"),
        format!("edition {}", case.edition),
        format!("devices {devices}"),
        format!(
            "intervals {intervals}: {}; {minutes} min in all",
            durations(&case.intervals)
        ),
        format!("zones {zones}"),
        format!(
            "mismatch price {} grains per {}",
            case.mismatch_price,
            mismatched(case)
        ),
        format!("overrun price {} grains per kW min", case.overrun_price),
    ];
    if case.has_bars() {
        let limit = case.link_limit;
        lines.push(format!("DC link limit {limit} kW between bar 0 and bar 1"));
    }
    lines
}

/// What a mismatch is counted in.
fn mismatched(case: &Case) -> &'static str {
    match (case.has_reactive_power(), case.has_bars()) {
        (_, true) => "kW min and kvar min of each bar",
        (true, false) => "kW min and kvar min",
        (false, false) => "kW min",
    }
}

/// The greatest minima of the day, and what a shortfall costs.
fn zone_words(zone: &Zone) -> String {
    let greatest = |kind: usize| zone.minima.iter().map(|minima| minima[kind]).max();
    let [.., qru_price, qrd_price] = zone.prices;
    format!(
        "minima to {} kvar of qru, {} kvar of qrd; shortfall prices {qru_price} grains per var min \
         of qru, {qrd_price} of qrd",
        greatest(2).unwrap_or(0),
        greatest(3).unwrap_or(0)
    )
}

/// Durations that follow one another alike are told once: `2 x 60 min, 1 x 30 min`.
fn durations(intervals: &[Interval]) -> String {
    let duration = |interval: &Interval| interval.minutes();
    let runs = intervals.chunk_by(|a, b| duration(a) == duration(b));
    let told: Vec<String> = runs
        .map(|run| format!("{} x {} min", run.len(), duration(&run[0])))
        .collect();
    told.join(", ")
}

fn device_words(device: &Device) -> Vec<String> {
    let side = if device.consuming {
        "consuming"
    } else {
        "producing"
    };
    vec![
        side.to_string(),
        zones_words(device),
        initial_words(device),
        format!(
            "minimum up {} min, down {} min",
            device.minimum_up, device.minimum_down
        ),
        format!(
            "ramps up {}, down {}, starting {}, stopping {} kW/min",
            device.up_ramp, device.down_ramp, device.starting_ramp, device.stopping_ramp
        ),
        power_words(device),
        format!(
            "costs in grains: on {} per min, start {}, stop {}",
            device.on_cost, device.start_cost, device.stop_cost
        ),
        format!(
            "startup states {}, start windows {}, energy windows {}",
            device.startup_states.len(),
            device.start_windows.len(),
            device.energy_windows.len()
        ),
    ]
}

fn zones_words(device: &Device) -> String {
    let members = (1..).zip(device.in_zone).filter(|(_, member)| *member);
    let numbers: Vec<String> = members.map(|(number, _)| number.to_string()).collect();
    match numbers.as_slice() {
        [] => "in no zone".to_string(),
        [one] => format!("in zone {one}"),
        several => format!("in zones {}", several.join(", ")),
    }
}

fn initial_words(device: &Device) -> String {
    let state = if device.initially_on { "on" } else { "off" };
    format!(
        "initially {state} for {} min at {} kW",
        device.minutes_already_so, device.initial_power
    )
}

/// From the least pmin to the greatest pmax of the day.
fn power_words(device: &Device) -> String {
    let lowest = device.cells.iter().map(|cell| cell.pmin).min();
    let highest = device.cells.iter().map(|cell| cell.pmax).max();
    format!(
        "pmin from {} kW, pmax to {} kW",
        lowest.unwrap_or(0),
        highest.unwrap_or(0)
    )
}

/// The most that the floors of an interval come to.
fn floor_words(device: &Device) -> String {
    let sums = device.cells.iter().map(|cell| cell.floors().iter().sum());
    let greatest: i64 = sums.max().unwrap_or(0);
    format!("block floors to {greatest} kW in an interval")
}

/// From the least qmin to the greatest qmax of the day.
fn reactive_words(device: &Device) -> String {
    let lowest = device.cells.iter().map(|cell| cell.qmin).min();
    let highest = device.cells.iter().map(|cell| cell.qmax).max();
    format!(
        "qmin from {} kvar, qmax to {} kvar",
        lowest.unwrap_or(0),
        highest.unwrap_or(0)
    )
}

fn link_words(link: &Link) -> String {
    match link {
        Link::None => "no p-q link".to_string(),
        Link::TwoLines { upper, lower } => format!(
            "p-q link by two lines, upper {}, lower {}",
            line_words(upper),
            line_words(lower)
        ),
        Link::Equality(line) => format!("p-q link by an equality, {}", line_words(line)),
    }
}

/// A slope in thousandths of a kvar per kW is one in var per kW.
fn line_words(line: &Line) -> String {
    let sign = if line.slope < 0 { '-' } else { '+' };
    let slope = line.slope.abs();
    format!("{} kvar {sign} {slope} var per kW", line.offset)
}
