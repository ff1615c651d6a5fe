//! A row for each set: its height is the set's power of the most that it may have.

use super::canvas::{cut, Band, Canvas, Span, BROKEN, CURVE, LEFT, WIDE};
use super::View;
use crate::bill::grouped;
use crate::messages::{Case, Device};
use crate::text::clock;

const INK: [&str; 8] = [
    "#4477aa", "#66ccee", "#228833", "#ccbb44", "#ee8866", "#aa3377", "#88aacc", "#999933",
];
const TAKES: &str = "#a9a9a9";

/// A colour for each producing set; those that consume share one.
pub fn colours(case: &Case) -> Vec<String> {
    let givers = case
        .devices
        .iter()
        .filter(|device| !device.consuming)
        .count();
    let mut number = 0;
    let colour = |device: &Device| {
        if device.consuming {
            return TAKES.to_string();
        }
        number += 1;
        if givers <= INK.len() {
            return INK[number - 1].to_string();
        }
        let light = if number % 2 == 0 { 50 } else { 65 };
        format!("hsl({},55%,{light}%)", (number - 1) * 360 / givers)
    };
    case.devices.iter().map(colour).collect()
}

/// Height of a row and of the gap below it, by how many there are.
fn sizes(sets: usize) -> (f64, f64) {
    match sets {
        0..=12 => (26.0, 12.0),
        13..=24 => (18.0, 5.0),
        _ => (11.0, 2.0),
    }
}

/// Rows that are too low for letters in them.
const LOW: f64 = 12.0;
/// A gap that has room for windows.
const ROOMY: f64 = 5.0;

/// The rows of all sets and the key below them; answers how far down they reach.
pub fn draw(canvas: &mut Canvas, view: &View, top: f64) -> f64 {
    let case = &view.day.case;
    let (height, gap) = sizes(case.devices.len());
    let mut band = Band { top, height };
    for j in 0..case.devices.len() {
        canvas.open("set");
        row(canvas, view, j, band);
        windows(canvas, view, j, band.top + height, gap);
        broken(canvas, view, j, band);
        figures(canvas, view, j, band);
        canvas.close();
        band.top += height + gap;
    }
    key(canvas, view, band.top, gap > ROOMY)
}

fn row(canvas: &mut Canvas, view: &View, j: usize, band: Band) {
    let device = &view.day.case.devices[j];
    label(canvas, view, j, band);
    let all = Span {
        left: LEFT,
        width: WIDE,
    };
    canvas.rect(all, band, "fill='#f5f5f5'", "");
    let most = view.most(j);
    let level = |power: i64| band.height * power as f64 / most as f64;
    let first = device.cells.first().map(|cell| cell.pmax);
    if device.cells.iter().any(|cell| Some(cell.pmax) != first) {
        let line = canvas.steps(|t| band.top + band.height - level(device.cells[t].pmax));
        canvas.path(&line, "stroke='#999' stroke-dasharray='2 2'", "pmax");
    }
    for (from, until) in view.runs(j) {
        run(
            canvas,
            view,
            j,
            band,
            (from, until),
            level(view.powers[from][j]),
        );
    }
}

fn label(canvas: &mut Canvas, view: &View, j: usize, band: Band) {
    let case = &view.day.case;
    let device = &case.devices[j];
    let bar = if case.has_bars() {
        format!(" · bar {}", device.bar)
    } else {
        String::new()
    };
    let side = if device.consuming { '−' } else { '+' };
    let size = if band.height > LOW { 11 } else { 9 };
    canvas.text(
        LEFT - 8.0,
        band.top + band.height / 2.0 + 4.0,
        &format!("text-anchor='end' font-size='{size}'"),
        &format!("{}{bar} {side}", cut(&case.device_name(j), 20)),
    );
}

/// Intervals of one power.
fn run(
    canvas: &mut Canvas,
    view: &View,
    j: usize,
    band: Band,
    (from, until): (usize, usize),
    level: f64,
) {
    let (on, power) = (view.is_on(from, j), view.powers[from][j]);
    let span = canvas.span(from, until);
    if on || power > 0 {
        let height = level.max(1.5);
        let bar = Band {
            top: band.top + band.height - height,
            height,
        };
        let fill = if on { view.colours[j].as_str() } else { CURVE };
        let title = run_title(canvas, view, j, (from, until));
        canvas.rect(span, bar, &format!("fill='{fill}'"), &title);
    }
}

/// The power of each run that has room for it, above frames that it may cross.
fn figures(canvas: &mut Canvas, view: &View, j: usize, band: Band) {
    if band.height <= LOW {
        return;
    }
    for (from, until) in view.runs(j) {
        let (power, span) = (view.powers[from][j], canvas.span(from, until));
        let figure = grouped(i128::from(power));
        if power > 0 && span.width > 7.0 * figure.len() as f64 {
            let how = "text-anchor='middle' font-size='10' stroke='white' stroke-width='2.5' \
                       paint-order='stroke'";
            let middle = span.left + span.width / 2.0;
            canvas.text(middle, band.top + band.height - 5.0, how, &figure);
        }
    }
}

fn run_title(canvas: &Canvas, view: &View, j: usize, (from, until): (usize, usize)) -> String {
    let which = match until - from {
        1 => format!("interval {}", from + 1),
        _ => format!("intervals {} to {until}", from + 1),
    };
    let power = view.powers[from][j];
    let how = match (view.is_on(from, j), power) {
        (true, _) => "on",
        (false, 0) => "off",
        (false, _) => "off, on a start-up or shut-down curve",
    };
    let name = view.day.case.device_name(j);
    let (start, end) = (clock(canvas.moments[from]), clock(canvas.moments[until]));
    let power = grouped(i128::from(power));
    format!("{name}, {which}, {start}-{end}: {how}, {power} kW")
}

/// Start windows as brackets below their set, energy windows dotted; where rows are low, start
/// windows that are broken alone.
fn windows(canvas: &mut Canvas, view: &View, j: usize, top: f64, gap: f64) {
    let device = &view.day.case.devices[j];
    for (number, window) in (1..).zip(&device.start_windows) {
        let broken = view.breaks_window(j, number);
        if !broken && gap <= ROOMY {
            continue;
        }
        let (ink, width) = if broken { (BROKEN, 2) } else { ("#555", 1) };
        let (start, end) = (canvas.x(window.start), canvas.x(window.end));
        let line = format!("M{start:.1} {:.1} v3 H{end:.1} v-3", top + 1.0);
        let (from, until) = (clock(window.start), clock(window.end));
        let most = window.most_starts;
        let title = format!("start window {number}, {from}-{until}: at most {most} starts");
        let class = if broken { " class='broken'" } else { "" };
        let how = format!("stroke='{ink}' stroke-width='{width}'{class}");
        canvas.path(&line, &how, &title);
        if broken {
            let how = format!("font-size='10' font-weight='bold' fill='{BROKEN}'");
            canvas.text(LEFT + WIDE + 5.0, top + 4.0, &how, "!20");
        }
    }
    let energies = device.energy_windows.iter().filter(|_| gap > ROOMY);
    for (number, window) in (1..).zip(energies) {
        let (start, end) = (canvas.x(window.start), canvas.x(window.end));
        let line = format!("M{start:.1} {:.1} H{end:.1}", top + 7.0);
        let kind = if window.is_minimum { "least" } else { "most" };
        let (from, until) = (clock(window.start), clock(window.end));
        let energy = grouped(i128::from(window.energy));
        canvas.path(
            &line,
            "stroke='#555' stroke-width='1.5' stroke-dasharray='1.5 2.5'",
            &format!("energy window {number}, {from}-{until}: at {kind} {energy} kW min"),
        );
    }
}

/// Broken places are framed, with the numbers of their rules.
fn broken(canvas: &mut Canvas, view: &View, j: usize, band: Band) {
    for t in 0..canvas.intervals() {
        let rules = view.rules_at(t, j + 1);
        if rules.is_empty() {
            continue;
        }
        let span = canvas.span(t, t + 1);
        let how = format!(
            "class='broken' fill='{BROKEN}' fill-opacity='0.12' stroke='{BROKEN}' stroke-width='1.5'"
        );
        let name = view.day.case.device_name(j);
        let title = format!("{name}, interval {}: breaks {}", t + 1, rules.join(", "));
        canvas.rect(span, band, &how, &title);
        let figure = format!("!{}", rules.join(","));
        if band.height > LOW && span.width > 6.5 * figure.len() as f64 {
            let how = format!(
                "font-size='10' font-weight='bold' fill='{BROKEN}' stroke='white' \
                 stroke-width='2.5' paint-order='stroke'"
            );
            canvas.text(span.left + 2.0, band.top + 10.0, &how, &figure);
        }
    }
}

fn key(canvas: &mut Canvas, view: &View, top: f64, has_windows: bool) -> f64 {
    let first = view.colours.first().map_or(TAKES, String::as_str);
    let mut left = LEFT;
    for (word, fill, opacity) in [
        ("on", first, "1"),
        ("off, on a start-up or shut-down curve", CURVE, "1"),
        ("a rule is broken", BROKEN, "0.35"),
    ] {
        let span = Span { left, width: 12.0 };
        let band = Band {
            top: top + 2.0,
            height: 10.0,
        };
        let how = format!("fill='{fill}' fill-opacity='{opacity}'");
        canvas.rect(span, band, &how, "");
        canvas.text(left + 16.0, top + 11.0, "fill='#555'", word);
        left += 34.0 + 5.9 * word.len() as f64;
    }
    let rest = "height: power of the set's most · dashed: pmax · + producing, − consuming";
    canvas.text(left, top + 11.0, "fill='#555'", rest);
    let has_any =
        |device: &Device| !device.start_windows.is_empty() || !device.energy_windows.is_empty();
    if !has_windows || !view.day.case.devices.iter().any(has_any) {
        return top + 14.0;
    }
    let words = "brackets below a set: start windows; dotted: energy windows";
    canvas.text(LEFT, top + 26.0, "fill='#555'", words);
    top + 29.0
}
