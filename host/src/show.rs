//! A completion or a market copy in words, from the numbers that its reader gives.

use std::slice;

use crate::messages::{Case, Kind, MOST_BLOCKS, NEEDS, REAL_NEEDS};

/// The lines of a message, each with its end: its name with the case's counts, the edition; each
/// device's intervals and overruns, each zone's intervals, the mismatches of each interval, and the
/// surplus of a completion. `None` where the numbers are not as many as the case has it.
pub fn show(case: &Case, kind: Kind, numbers: &[u64]) -> Option<String> {
    let mut rest = numbers.iter();
    let mut devices = vec![Vec::new(); case.devices.len()];
    let mut zones = vec![Vec::new(); case.zones.len()];
    let mut intervals = Vec::new();
    for t in 1..=case.intervals.len() {
        for (number, lines) in (1..).zip(&mut devices) {
            let words = choices(&mut rest, kind)?;
            lines.push(format!("device {number}, interval {t}: {words}"));
        }
        for (number, lines) in (1..).zip(&mut zones) {
            let words = shortfalls(&mut rest, case)?;
            lines.push(format!("zone {number}, interval {t}: {words}"));
        }
        intervals.push(format!("interval {t}: {}", mismatches(&mut rest, case)?));
    }
    for (number, (device, lines)) in (1..).zip(case.devices.iter().zip(&mut devices)) {
        for window in 1..=device.energy_windows.len() {
            let overrun = rest.next()?;
            lines.push(format!(
                "device {number}, energy window {window}: overrun {overrun} kW min"
            ));
        }
    }
    let mut lines = front(case, kind);
    lines.extend(devices.into_iter().chain(zones).flatten());
    lines.extend(intervals);
    if kind == Kind::Completion {
        // In two's complement.
        lines.push(format!("surplus {} grains", *rest.next()? as i64));
    }
    rest.next().is_none().then(|| lines.join("\n") + "\n")
}

fn front(case: &Case, kind: Kind) -> Vec<String> {
    let (devices, intervals) = (case.devices.len(), case.intervals.len());
    let zones = case.zones.len();
    vec![
        format!("{} {devices} {intervals} {zones}", kind.name()),
        format!("edition {}", case.edition),
    ]
}

/// What a device does in an interval; of a completion its startup state and block powers too.
fn choices(rest: &mut slice::Iter<u64>, kind: Kind) -> Option<String> {
    let told = match (rest.next()?, rest.next()?) {
        (0, 0) => "neither starts nor stops",
        (0, _) => "stops",
        (_, 0) => "starts",
        _ => "starts and stops",
    };
    if kind == Kind::MarketCopy {
        return Some(told.to_string());
    }
    let state = match rest.next()? {
        0 => "no startup state".to_string(),
        state => format!("startup state {state}"),
    };
    let mut powers = Vec::with_capacity(MOST_BLOCKS);
    for _ in 0..MOST_BLOCKS {
        powers.push(rest.next()?.to_string());
    }
    Some(format!(
        "{told}; {state}; block powers {} kW",
        powers.join(", ")
    ))
}

fn shortfalls(rest: &mut slice::Iter<u64>, case: &Case) -> Option<String> {
    let (real, reactive) = NEEDS.split_at(REAL_NEEDS);
    let mut words = vec![named(rest, real, "W")?];
    if case.has_reactive_power() {
        words.push(named(rest, reactive, "var")?);
    }
    Some(format!("shortfalls {}", words.join("; ")))
}

/// `rgu 0 W, rgd 0 W`.
fn named(rest: &mut slice::Iter<u64>, names: &[&str], unit: &str) -> Option<String> {
    let mut words = Vec::with_capacity(names.len());
    for name in names {
        words.push(format!("{name} {} {unit}", rest.next()?));
    }
    Some(words.join(", "))
}

fn mismatches(rest: &mut slice::Iter<u64>, case: &Case) -> Option<String> {
    let mut words = vec![format!("mismatch {}", of_bars(rest, case, "kW")?)];
    if case.has_reactive_power() {
        let reactive = of_bars(rest, case, "kvar")?;
        words.push(format!("reactive mismatch {reactive}"));
    }
    Some(words.join("; "))
}

/// The one figure, or that of each bar.
fn of_bars(rest: &mut slice::Iter<u64>, case: &Case, unit: &str) -> Option<String> {
    let first = rest.next()?;
    if !case.has_bars() {
        return Some(format!("{first} {unit}"));
    }
    let second = rest.next()?;
    Some(format!("{first} {unit} on bar 0, {second} {unit} on bar 1"))
}
