//! A case as text.

use super::words::clock;
use crate::messages::{
    needs_of, reserves_of, Case, Cell, Device, EnergyWindow, Interval, Line, Link, StartWindow,
    StartupState, Zone, COSTS, MOST_BLOCKS, NEEDS, RAMPS, REAL_RESERVES, RESERVES, SHARED_NEEDS,
};

/// Runs of equal figures, up to which a series is told by times.
const FEW_STEPS: usize = 6;

/// A series: one figure, or few with the times from which they hold, or all of them.
pub fn series(figures: &[String], moments: Option<&[i64]>) -> String {
    let runs: Vec<&[String]> = figures.chunk_by(|a, b| a == b).collect();
    let words: Vec<String> = match moments {
        _ if runs.len() == 1 => vec![figures[0].clone()],
        Some(moments) if runs.len() <= FEW_STEPS && runs.len() < figures.len() => {
            by_times(&runs, moments)
        }
        _ => runs.iter().map(|run| by_count(run)).collect(),
    };
    words.join(" ")
}

fn by_times(runs: &[&[String]], moments: &[i64]) -> Vec<String> {
    let mut from = 0;
    let mut words = Vec::new();
    for run in runs {
        if from > 0 {
            words.push(clock(moments[from]));
        }
        words.push(run[0].clone());
        from += run.len();
    }
    words
}

fn by_count(run: &[String]) -> String {
    match run.len() {
        1 => run[0].clone(),
        times => format!("{times}x{}", run[0]),
    }
}

/// Figures as words of a series.
pub fn told(figures: impl IntoIterator<Item = i64>) -> Vec<String> {
    figures.into_iter().map(|value| value.to_string()).collect()
}

/// `up 1 down 2`.
fn pairs(names: &[&str], figures: &[i64]) -> String {
    let pair = |(name, figure): (&&str, &i64)| format!("{name} {figure}");
    let pairs: Vec<String> = names.iter().zip(figures).map(pair).collect();
    pairs.join(" ")
}

/// Durations, each run of them by its count, since nothing is said once for all.
fn durations(intervals: &[Interval]) -> String {
    let runs = intervals.chunk_by(|a, b| a.minutes() == b.minutes());
    let told: Vec<String> = runs
        .map(|run| format!("{}x{}", run.len(), run[0].minutes()))
        .collect();
    told.join(" ")
}

/// The text of a case, with the names of its sets.
pub fn case_text(case: &Case) -> String {
    let moments = case.moments();
    let mut lines = vec![
        format!("case edition {}", case.edition),
        format!("intervals {}", durations(&case.intervals)),
        format!("mismatch price {}", case.mismatch_price),
        format!("overrun price {}", case.overrun_price),
    ];
    if case.has_bars() {
        lines.push(format!("link limit {} kW", case.link_limit));
    }
    for (number, zone) in (1..).zip(&case.zones) {
        lines.push(format!("\nzone {number}"));
        lines.extend(zone_lines(case, &moments, zone));
    }
    for (number, device) in (1..).zip(&case.devices) {
        let side = if device.consuming {
            "consuming"
        } else {
            "producing"
        };
        let name = match device.name.as_str() {
            "" => String::new(),
            name => format!(" \"{name}\""),
        };
        lines.push(format!("\nset {number} {side}{name}"));
        lines.extend(set_lines(case, &moments, device));
    }
    lines.join("\n") + "\n"
}

fn zone_lines(case: &Case, moments: &[i64], zone: &Zone) -> Vec<String> {
    let needs = needs_of(case.edition);
    let mut lines = vec![
        format!("  share {}", pairs(&NEEDS[..SHARED_NEEDS], &zone.shares)),
        format!("  shortfall price {}", pairs(&NEEDS[..needs], &zone.prices)),
    ];
    for (index, need) in NEEDS[SHARED_NEEDS..needs].iter().enumerate() {
        let minima: Vec<i64> = zone.minima.iter().map(|minima| minima[index]).collect();
        if minima.iter().any(|minimum| *minimum != 0) {
            let minima = series(&told(minima), Some(moments));
            lines.push(format!("  minimum {need} {minima}"));
        }
    }
    lines
}

fn set_lines(case: &Case, moments: &[i64], device: &Device) -> Vec<String> {
    let mut lines = term_lines(case, device);
    lines.extend(device.startup_states.iter().map(state_line));
    lines.extend(device.start_windows.iter().map(starts_line));
    lines.extend(device.energy_windows.iter().map(energy_line));
    lines.extend(link_line(&device.link));
    lines.extend(status_line(moments, device));
    let cells = Cells { device, moments };
    lines.push(format!("  pmin {}", cells.series(|cell| cell.pmin)));
    lines.push(format!("  pmax {}", cells.series(|cell| cell.pmax)));
    lines.extend(block_lines(case, &cells));
    for (index, name) in RESERVES[..reserves_of(case.edition)].iter().enumerate() {
        lines.extend(cells.line(&format!("price {name}"), |cell| cell.prices[index]));
    }
    lines.extend(cells.line("qmin", |cell| cell.qmin));
    lines.extend(cells.line("qmax", |cell| cell.qmax));
    lines
}

fn term_lines(case: &Case, device: &Device) -> Vec<String> {
    let mut lines = Vec::new();
    let members = (1..).zip(device.in_zone).filter(|(_, member)| *member);
    let zones: Vec<String> = members
        .map(|(zone, _): (usize, _)| zone.to_string())
        .collect();
    if !zones.is_empty() {
        lines.push(format!("  zones {}", zones.join(" ")));
    }
    if case.has_bars() {
        lines.push(format!("  bar {}", device.bar));
    }
    let state = if device.initially_on { "on" } else { "off" };
    lines.push(format!(
        "  initially {state} {} min at {} kW",
        device.minutes_already_so, device.initial_power
    ));
    lines.push(format!(
        "  minimum up {} min down {} min",
        device.minimum_up, device.minimum_down
    ));
    let ramps = [
        device.up_ramp,
        device.down_ramp,
        device.starting_ramp,
        device.stopping_ramp,
    ];
    lines.push(format!("  ramp {}", pairs(&RAMPS, &ramps)));
    let costs = [device.on_cost, device.start_cost, device.stop_cost];
    lines.push(format!("  cost {}", pairs(&COSTS, &costs)));
    lines.push(limit_line(&device.reserve_limits));
    lines
}

fn limit_line(limits: &[i64; REAL_RESERVES]) -> String {
    let first = limits[0];
    if limits.iter().all(|limit| *limit == first) {
        return format!("  limit all {first}");
    }
    format!("  limit {}", pairs(&RESERVES[..REAL_RESERVES], limits))
}

fn state_line(state: &StartupState) -> String {
    let StartupState {
        longest_downtime,
        cost,
    } = state;
    format!("  state {longest_downtime} min {cost}")
}

fn starts_line(window: &StartWindow) -> String {
    let (start, end) = (clock(window.start), clock(window.end));
    format!("  starts {start} {end} at most {}", window.most_starts)
}

fn energy_line(window: &EnergyWindow) -> String {
    let (start, end) = (clock(window.start), clock(window.end));
    let kind = if window.is_minimum { "least" } else { "most" };
    format!("  energy {start} {end} at {kind} {}", window.energy)
}

fn link_line(link: &Link) -> Option<String> {
    let line = |line: &Line| format!("{} {}", line.offset, line.slope);
    match link {
        Link::None => None,
        Link::TwoLines { upper, lower } => {
            let (upper, lower) = (line(upper), line(lower));
            Some(format!("  pq lines upper {upper} lower {lower}"))
        }
        Link::Equality(equality) => Some(format!("  pq equality {}", line(equality))),
    }
}

fn status_line(moments: &[i64], device: &Device) -> Option<String> {
    let word = |cell: &Cell| match cell.fixed {
        None => "free".to_string(),
        Some(true) => "on".to_string(),
        Some(false) => "off".to_string(),
    };
    let is_fixed = device.cells.iter().any(|cell| cell.fixed.is_some());
    let words: Vec<String> = device.cells.iter().map(word).collect();
    is_fixed.then(|| format!("  status {}", series(&words, Some(moments))))
}

/// The cells of a set as series.
struct Cells<'a> {
    device: &'a Device,
    moments: &'a [i64],
}

impl Cells<'_> {
    fn series(&self, figure: impl Fn(&Cell) -> i64) -> String {
        series(
            &told(self.device.cells.iter().map(figure)),
            Some(self.moments),
        )
    }

    /// A line where a figure is not 0.
    fn line(&self, name: &str, figure: impl Fn(&Cell) -> i64) -> Option<String> {
        let is_said = self.device.cells.iter().any(|cell| figure(cell) != 0);
        is_said.then(|| format!("  {name} {}", self.series(figure)))
    }

    /// A cap, or `-` where there is no such block.
    fn caps(&self, index: usize) -> String {
        let cap = |cell: &Cell| match cell.blocks.get(index) {
            Some(block) => block.cap.to_string(),
            None => "-".to_string(),
        };
        let caps: Vec<String> = self.device.cells.iter().map(cap).collect();
        series(&caps, Some(self.moments))
    }
}

fn block_lines(case: &Case, cells: &Cells) -> Vec<String> {
    let is_there = |index: &usize| {
        let mut all = cells.device.cells.iter();
        all.any(|cell| cell.blocks.len() > *index)
    };
    let line = |index: usize| {
        let part = |figure: fn(&crate::messages::Block) -> i64| {
            cells.series(|cell| cell.blocks.get(index).map_or(0, figure))
        };
        let floor = if case.has_floors() {
            format!(" floor {}", part(|block| block.floor))
        } else {
            String::new()
        };
        let (caps, prices) = (cells.caps(index), part(|block| block.price));
        format!("  block {} cap {caps}{floor} price {prices}", index + 1)
    };
    (0..MOST_BLOCKS).filter(is_there).map(line).collect()
}
