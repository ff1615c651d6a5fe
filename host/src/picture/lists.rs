//! Below the charts: the zones' shortfalls, and the bill or the breaches.

use super::canvas::{cut, Band, Canvas, Span, BROKEN, LEFT, WIDE};
use crate::bill::{grouped, Bill, Entry};
use crate::explain::{Breach, RULES};
use crate::messages::{needs_of, Case, Outcome, NEEDS, REAL_NEEDS};

/// Entries of a bill, and breaches, beyond which a summary is drawn.
const MOST_ENTRIES: usize = 28;
const MOST_BREACHES: usize = 40;
/// The breaches that are told ahead of a summary.
const FIRST_BREACHES: usize = 10;

/// How many breaches of a list are told in words.
pub fn told_breaches(count: usize) -> usize {
    if count > MOST_BREACHES {
        FIRST_BREACHES
    } else {
        count
    }
}

/// A strip for each reserve that a zone is short of, darker where it is shorter.
pub fn zones(canvas: &mut Canvas, case: &Case, outcome: &Outcome, mut top: f64) -> f64 {
    for z in 0..case.zones.len() {
        for need in 0..needs_of(case.edition) {
            let shortfalls: Vec<i64> = outcome
                .rows
                .iter()
                .map(|row| row.shortfalls[z][need])
                .collect();
            if shortfalls.iter().any(|shortfall| *shortfall > 0) {
                strip(canvas, (z, need), &shortfalls, top);
                top += 13.0;
            }
        }
    }
    top
}

/// Thousandths as a figure with what is behind the point.
fn thousandths(figure: i64) -> String {
    let whole = grouped(i128::from(figure / 1_000));
    match figure % 1_000 {
        0 => whole,
        part => format!("{whole}.{part:03}")
            .trim_end_matches('0')
            .to_string(),
    }
}

fn strip(canvas: &mut Canvas, (z, need): (usize, usize), shortfalls: &[i64], top: f64) {
    let most = shortfalls.iter().copied().max().unwrap_or(0).max(1);
    let unit = if need < REAL_NEEDS { "kW" } else { "kvar" };
    let (zone, name) = (z + 1, NEEDS[need]);
    let words = format!("zone {zone}: {name} short, to {} {unit}", thousandths(most));
    canvas.open("zone");
    canvas.text(
        LEFT - 8.0,
        top + 9.0,
        "text-anchor='end' font-size='10'",
        &words,
    );
    let band = Band { top, height: 10.0 };
    let all = Span {
        left: LEFT,
        width: WIDE,
    };
    canvas.rect(all, band, "fill='#f5f5f5'", "");
    for (t, shortfall) in shortfalls.iter().enumerate() {
        if *shortfall > 0 {
            let opacity = 0.15 + 0.65 * *shortfall as f64 / most as f64;
            let how = format!("fill='{BROKEN}' fill-opacity='{opacity:.2}'");
            let figure = thousandths(*shortfall);
            let title = format!(
                "zone {zone}, interval {}: {figure} {unit} of {name} short",
                t + 1
            );
            canvas.rect(canvas.span(t, t + 1), band, &how, &title);
        }
    }
    canvas.close();
}

/// The surplus, entry by entry; by kind where there are many.
pub fn bill(canvas: &mut Canvas, bill: &Bill, mut top: f64) -> f64 {
    let by_kind;
    let entries: &[Entry] = if bill.entries.len() > MOST_ENTRIES {
        by_kind = bill.by_kind();
        let words = "by kind, the greatest first; 'show' has every set";
        canvas.text(440.0, top, "fill='#555'", words);
        &by_kind
    } else {
        &bill.entries
    };
    canvas.text(
        10.0,
        top,
        "font-size='12'",
        "What the surplus is made of, grains",
    );
    let most = entries
        .iter()
        .map(|entry| entry.grains.abs())
        .max()
        .unwrap_or(0)
        .max(1);
    for item in entries {
        top += 17.0;
        entry(canvas, item, most, top);
    }
    top += 19.0;
    canvas.text(10.0, top, "font-weight='bold'", "surplus");
    let how = "font-weight='bold' text-anchor='end'";
    canvas.text(430.0, top, how, &grouped(bill.total()));
    canvas.text(440.0, top, "fill='#555'", "blue: gained · orange: paid");
    top
}

/// One entry, with a bar of its part of the greatest.
fn entry(canvas: &mut Canvas, entry: &Entry, most: i128, top: f64) {
    canvas.open("entry");
    let words = format!("{}: {}", entry.who, entry.what);
    canvas.text(10.0, top, "", &cut(&words, 42));
    canvas.text(430.0, top, "text-anchor='end'", &grouped(entry.grains));
    let width = 260.0 * entry.grains.abs() as f64 / most as f64;
    let span = Span {
        left: 440.0,
        width: width.max(1.0),
    };
    let band = Band {
        top: top - 10.0,
        height: 12.0,
    };
    let fill = if entry.grains < 0 {
        "#f4a582"
    } else {
        "#92c5de"
    };
    canvas.rect(span, band, &format!("fill='{fill}'"), "");
    canvas.text(710.0, top, "fill='#555'", &entry.why);
    canvas.close();
}

/// The first breaches in words; where there are many, then how many of each rule.
pub fn breaches(canvas: &mut Canvas, list: &[Breach], lines: &[String], mut top: f64) -> f64 {
    let all = grouped(list.len() as i128);
    let words = format!("What is broken, in the order of judging: {all} in all");
    canvas.text(10.0, top, "font-size='12'", &words);
    for line in lines {
        top += 16.0;
        let words = line
            .split_once(" rule ")
            .map_or(line.as_str(), |(_, words)| words);
        let how = format!("class='breach' font-size='10' fill='{BROKEN}'");
        canvas.text(10.0, top, &how, &cut(&format!("rule {words}"), 190));
    }
    if lines.len() == list.len() {
        return top;
    }
    top += 22.0;
    let more = grouped((list.len() - lines.len()) as i128);
    let words = format!("and {more} more, which 'show' lists; together, by rule:");
    canvas.text(10.0, top, "fill='#555'", &words);
    for (number, name) in (1..).zip(RULES) {
        let count = list.iter().filter(|breach| breach.rule == number).count();
        if count > 0 {
            top += 16.0;
            canvas.text(90.0, top, "text-anchor='end'", &grouped(count as i128));
            let words = format!("rule {number} ({name})");
            canvas.text(100.0, top, &format!("fill='{BROKEN}'"), &words);
        }
    }
    top
}

/// The mend of a broken plan, or that there is none.
pub fn mend(canvas: &mut Canvas, words: &str, top: f64) -> f64 {
    canvas.text(10.0, top, "class='mend' font-size='12'", &cut(words, 160));
    top
}
