//! A plan from its text, and as text.

use super::case_writer::{series as told_series, told};
use super::words::{coded, figure, index_of, series, slices, words, At, Lines, Read};
use crate::messages::{Case, Plan, Row, Setting, BARS, REACTIVE, RESERVES};

/// The figures of a set, in the order of a text: whether it is on, its power, the reserves, q.
pub const FIGURES: [&str; 13] = [
    "on", "power", "rgu", "rgd", "scr", "nsc", "rru_on", "rru_off", "rrd_on", "rrd_off", "qru",
    "qrd", "q",
];
const ON: usize = 0;
const POWER: usize = 1;
const Q: usize = 12;
/// The first that is reactive.
const FIRST_REACTIVE: usize = 10;

/// How on and off are said.
const STATES: [(&str, &str); 4] = [("1", "1"), ("0", "0"), ("on", "1"), ("off", "0")];

/// How many of the figures an edition has.
pub fn figures_of(edition: i64) -> usize {
    if edition < REACTIVE {
        FIRST_REACTIVE
    } else {
        FIGURES.len()
    }
}

/// A figure of a set by its place in `FIGURES`.
pub fn figure_of(setting: &Setting, index: usize) -> i64 {
    match index {
        ON => i64::from(setting.on),
        POWER => setting.online,
        Q => setting.reactive.q,
        _ => setting.reserve(index - 2),
    }
}

/// Sets it; whether a set is on is 0 or 1.
pub fn put_figure(at: At, setting: &mut Setting, index: usize, value: i64) -> Read<()> {
    match (index, value) {
        (ON, 0 | 1) => setting.on = value == 1,
        (ON, _) => return at.wrong(format!("on is {value}: 0 or 1")),
        (POWER, _) => setting.online = value,
        (Q, _) => setting.reactive.q = value,
        _ => *setting.reserve_mut(index - 2) = value,
    }
    Ok(())
}

/// A plan of a case in which every figure is 0.
pub fn idle_plan(case: &Case) -> Plan {
    let row = Row {
        settings: vec![Setting::default(); case.devices.len()],
        flow: 0,
    };
    Plan {
        edition: case.edition,
        rows: vec![row; case.intervals.len()],
    }
}

/// The plan of a text for a case, and which line said what.
pub fn read_plan(case: &Case, text: &str) -> Read<(Plan, Lines)> {
    let mut reader = PlanReader {
        case,
        moments: case.moments(),
        plan: idle_plan(case),
        lines: Lines::default(),
    };
    let mut last = 1;
    for (number, line) in (1..).zip(text.lines()) {
        let at = At(number);
        last = number;
        let words = words(at, line)?;
        if !words.is_empty() {
            reader.line(at, &words)?;
        }
    }
    for number in 1..=case.devices.len() {
        let key = format!("set {number}: on");
        if reader.lines.of(&key).is_none() {
            let complaint = format!("set {number} has no line 'set {number} on ..'");
            return At(last).wrong(complaint);
        }
    }
    Ok((reader.plan, reader.lines))
}

struct PlanReader<'a> {
    case: &'a Case,
    moments: Vec<i64>,
    plan: Plan,
    lines: Lines,
}

impl PlanReader<'_> {
    fn line(&mut self, at: At, words: &[&str]) -> Read<()> {
        match words {
            ["plan"] => self.lines.once(at, "edition"),
            ["plan", "edition", edition] => {
                self.lines.once(at, "edition")?;
                self.plan.edition = figure(at, edition)?;
                Ok(())
            }
            ["flow", figures @ ..] => self.flow(at, figures),
            ["set", set, what, figures @ ..] => self.set(at, set, what, figures),
            [first, ..] => at.wrong(format!("unknown line '{first}'; plan, set or flow")),
            [] => Ok(()),
        }
    }

    fn flow(&mut self, at: At, figures: &[&str]) -> Read<()> {
        at.since(BARS, self.plan.edition, "flow")?;
        self.lines.once(at, "flow")?;
        let figures = series(at, &self.moments, "flow", figures)?;
        for (row, flow) in self.plan.rows.iter_mut().zip(figures) {
            row.flow = flow;
        }
        Ok(())
    }

    fn set(&mut self, at: At, set: &str, what: &str, words: &[&str]) -> Read<()> {
        let j = set_of(at, self.case, set)?;
        let index = index_of(at, &FIGURES, what, "figure")?;
        if index >= FIRST_REACTIVE {
            at.since(REACTIVE, self.plan.edition, what)?;
        }
        self.lines.once(at, format!("set {}: {what}", j + 1))?;
        let figures = if index == ON {
            let codes = coded(at, words, &STATES)?;
            series(at, &self.moments, what, &slices(&codes))?
        } else {
            series(at, &self.moments, what, words)?
        };
        for (row, value) in self.plan.rows.iter_mut().zip(figures) {
            put_figure(at, &mut row.settings[j], index, value)?;
        }
        Ok(())
    }
}

/// A set by its number from 1, or by its name in the case; its place from 0.
pub fn set_of(at: At, case: &Case, word: &str) -> Read<usize> {
    let sets = case.devices.len();
    if word.starts_with(|letter: char| letter.is_ascii_digit()) {
        let number = figure(at, word)?;
        let is_there = (1..=sets as i64).contains(&number);
        return match is_there {
            true => Ok(number as usize - 1),
            false => at.wrong(format!("set {number}: the case has {sets} sets")),
        };
    }
    let name = word.trim_matches('"');
    let mut found = (0..sets).filter(|j| case.devices[*j].name == name);
    match (found.next(), found.next()) {
        (Some(j), None) => Ok(j),
        (None, _) => at.wrong(format!("the case has no set {word}")),
        _ => at.wrong(format!("several sets are {word}")),
    }
}

/// How a text calls a set: by its name where no other has it, else by its number.
pub fn handle(case: Option<&Case>, j: usize) -> String {
    let name = case.map_or("", |case| case.devices[j].name.as_str());
    let of_name = |case: &Case| {
        let same = case.devices.iter().filter(|device| device.name == name);
        same.count()
    };
    if name.is_empty() || case.map_or(0, of_name) != 1 {
        (j + 1).to_string()
    } else {
        format!("\"{name}\"")
    }
}

/// The text of a plan; beside its case with names and times.
pub fn plan_text(plan: &Plan, case: Option<&Case>) -> String {
    let moments = case.map(Case::moments);
    let short = |figures: &[i64]| told_series(&told(figures.iter().copied()), moments.as_deref());
    let mut lines = vec![format!("plan edition {}", plan.edition)];
    let sets = plan.rows.first().map_or(0, |row| row.settings.len());
    for j in 0..sets {
        let set = handle(case, j);
        for (index, name) in FIGURES.iter().enumerate() {
            let figure = |row: &Row| figure_of(&row.settings[j], index);
            let figures: Vec<i64> = plan.rows.iter().map(figure).collect();
            if index == ON || figures.iter().any(|figure| *figure != 0) {
                lines.push(format!("set {set} {name} {}", short(&figures)));
            }
        }
    }
    let flows: Vec<i64> = plan.rows.iter().map(|row| row.flow).collect();
    if flows.iter().any(|flow| *flow != 0) {
        lines.push(format!("flow {}", short(&flows)));
    }
    lines.join("\n") + "\n"
}

// The reserves stand between power and q.
const _: () = assert!(FIGURES.len() == RESERVES.len() + 3);
