//! A completion or a market copy as text.

use super::case_writer::{series, told};
use super::plan_text::handle;
use crate::messages::{bars_of, needs_of, Case, Choice, Chosen, Kind, Outcome, NEEDS};

/// The text of a completion or a copy; beside its case with names and times.
pub fn outcome_text(kind: Kind, outcome: &Outcome, case: Option<&Case>) -> String {
    let mut lines = vec![format!("{} edition {}", kind.name(), outcome.edition)];
    let first = outcome.rows.first();
    for j in 0..first.map_or(0, |row| row.choices.len()) {
        lines.extend(choice_lines(kind, outcome, case, j));
    }
    for z in 0..first.map_or(0, |row| row.shortfalls.len()) {
        for (need, name) in NEEDS[..needs_of(outcome.edition)].iter().enumerate() {
            let head = format!("zone {} shortfall {name}", z + 1);
            lines.extend(line(outcome, case, &head, |row| row.shortfalls[z][need]));
        }
    }
    for bar in 0..bars_of(outcome.edition) {
        let head = |what: &str| match bars_of(outcome.edition) {
            1 => what.to_string(),
            _ => format!("bar {bar} {what}"),
        };
        let real = |row: &Chosen| row.mismatches[bar];
        lines.extend(line(outcome, case, &head("mismatch"), real));
        let reactive = |row: &Chosen| row.reactive_mismatches[bar];
        lines.extend(line(outcome, case, &head("reactive mismatch"), reactive));
    }
    lines.extend(overrun_lines(outcome, case));
    if let Some(surplus) = outcome.surplus {
        lines.push(format!("surplus {surplus}"));
    }
    lines.join("\n") + "\n"
}

/// What is chosen for a set, where it is not 0.
fn choice_lines(kind: Kind, outcome: &Outcome, case: Option<&Case>, j: usize) -> Vec<String> {
    let set = handle(case, j);
    let of = |what: &str, figure: &dyn Fn(&Choice) -> i64| {
        let head = format!("set {set} {what}");
        line(outcome, case, &head, |row| figure(&row.choices[j]))
    };
    let mut lines = Vec::new();
    lines.extend(of("started", &|choice| i64::from(choice.started)));
    lines.extend(of("stopped", &|choice| i64::from(choice.stopped)));
    if kind == Kind::Completion {
        lines.extend(of("state", &|choice| choice.state));
        for block in 0..4 {
            let head = format!("block {}", block + 1);
            lines.extend(of(&head, &|choice| choice.blocks[block]));
        }
    }
    lines
}

/// A line where a figure is not 0.
fn line(
    outcome: &Outcome,
    case: Option<&Case>,
    head: &str,
    figure: impl Fn(&Chosen) -> i64,
) -> Option<String> {
    let figures: Vec<i64> = outcome.rows.iter().map(figure).collect();
    let moments = case.map(Case::moments);
    let is_said = figures.iter().any(|figure| *figure != 0);
    is_said.then(|| format!("{head} {}", series(&told(figures), moments.as_deref())))
}

/// Overruns, of which each window has one; with the case by set and window.
fn overrun_lines(outcome: &Outcome, case: Option<&Case>) -> Vec<String> {
    let of_case = |case: &Case| -> Vec<String> {
        let windows = |j: usize| (1..=case.devices[j].energy_windows.len()).map(move |w| (j, w));
        let all = (0..case.devices.len()).flat_map(windows);
        all.map(|(j, window)| format!("set {} energy {window} overrun", handle(Some(case), j)))
            .collect()
    };
    let by_number = |number: usize| format!("overrun {number}");
    let heads = match case {
        Some(case) => of_case(case),
        None => (1..=outcome.overruns.len()).map(by_number).collect(),
    };
    let pairs = heads.iter().zip(&outcome.overruns);
    pairs
        .map(|(head, overrun)| format!("{head} {overrun}"))
        .collect()
}
