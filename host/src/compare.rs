//! Two plans of a case side by side.

use crate::balance::powers;
use crate::bill::{grouped, Bill, Entry, Owner};
use crate::day::Day;
use crate::json::{Json, Member};
use crate::judged::{Findings, Judged};
use crate::messages::{Case, Setting, RESERVES};
use crate::text::clock;

/// Both verdicts with their mends, what differs by set and interval, and the difference of the bills; or what is not
/// borne out.
pub fn compare(one: &Judged, other: &Judged) -> Result<String, String> {
    let mut lines = Vec::new();
    for (name, judged) in [("first", one), ("second", other)] {
        lines.push(format!("{name:<7} {}", judged.headline()?));
        lines.extend(judged.mend().map(|mend| format!("{:<7} {mend}", "")));
    }
    lines.push(String::new());
    let changes = changes(&one.day, &other.day);
    if changes.is_empty() {
        lines.push("the plans have the same figures".into());
    }
    lines.extend(changes.iter().map(|change| change.words(&one.day.case)));
    if let Some(terms) = terms(one, other) {
        lines.push(String::new());
        lines.extend(bill_lines(&terms));
    }
    Ok(lines.join("\n") + "\n")
}

/// What differs, and the difference of the bills where both plans are accepted, for a machine.
pub fn compare_members(one: &Judged, other: &Judged) -> Vec<Member> {
    let changes = changes(&one.day, &other.day);
    let changes = changes.iter().map(Change::json).collect();
    let mut members = vec![("changes", Json::List(changes))];
    if let Some(terms) = terms(one, other) {
        let bill = terms.iter().map(Term::json).collect();
        members.push(("bill", Json::List(bill)));
        members.push(("difference", Json::Number(total(&terms).difference())));
    }
    members
}

/// A figure in the first plan and in the second.
#[derive(Clone, Copy, PartialEq)]
struct Both<T> {
    first: T,
    second: T,
}

impl<T: Copy + Into<i128>> Both<T> {
    fn difference(self) -> i128 {
        self.second.into() - self.first.into()
    }

    fn members(self) -> [Member; 2] {
        [
            ("first", Json::number(self.first)),
            ("second", Json::number(self.second)),
        ]
    }
}

/// What differs in an interval, of a set or of the flow.
struct Change {
    /// From 0, with its start.
    interval: usize,
    start: i64,
    /// From 0; none of the flow.
    device: Option<usize>,
    /// Each by its name.
    figures: Vec<(&'static str, Both<i64>)>,
}

impl Change {
    /// `interval 2 (1:00), 1 Diesel: power 150 -> 151`.
    fn words(&self, case: &Case) -> String {
        let device = self.device.map(|j| format!(", {}", case.device_name(j)));
        let figure = |(name, both): &(&str, Both<i64>)| {
            let Both { first, second } = both;
            format!("{name} {first} -> {second}")
        };
        let figures: Vec<String> = self.figures.iter().map(figure).collect();
        format!(
            "interval {} ({}){}: {}",
            self.interval + 1,
            clock(self.start),
            device.unwrap_or_default(),
            figures.join(", ")
        )
    }

    fn json(&self) -> Json {
        let mut members = vec![("interval", Json::count(self.interval + 1))];
        members.extend(self.device.map(|j| ("device", Json::count(j + 1))));
        let figure = |(name, both): &(&str, Both<i64>)| {
            let mut members = vec![("name", Json::text(*name))];
            members.extend(both.members());
            Json::Object(members)
        };
        let figures = self.figures.iter().map(figure).collect();
        members.push(("figures", Json::List(figures)));
        Json::Object(members)
    }
}

/// The figures of a setting with its power, each by its name.
fn figures(setting: &Setting, power: i64) -> Vec<(&'static str, i64)> {
    let mut figures = vec![
        ("on", i64::from(setting.on)),
        ("online power", setting.online),
        ("power", power),
        ("q", setting.reactive.q),
    ];
    let reserves = RESERVES.iter().enumerate();
    figures.extend(reserves.map(|(index, name)| (*name, setting.reserve(index))));
    figures
}

/// Those of two lists by the same names that differ.
fn differing(
    one: Vec<(&'static str, i64)>,
    other: Vec<(&'static str, i64)>,
) -> Vec<(&'static str, Both<i64>)> {
    let both = one.into_iter().zip(other);
    let named = both.map(|((name, first), (_, second))| (name, Both { first, second }));
    named
        .filter(|(_, both)| both.first != both.second)
        .collect()
}

/// What differs by interval: of each set in turn, then of the flow.
fn changes(one: &Day, other: &Day) -> Vec<Change> {
    let (first, second) = (powers(one), powers(other));
    let mut changes = Vec::new();
    for (t, interval) in one.case.intervals.iter().enumerate() {
        let (row, later) = (&one.plan.rows[t], &other.plan.rows[t]);
        let mut add = |device, figures: Vec<_>| {
            if !figures.is_empty() {
                changes.push(Change {
                    interval: t,
                    start: interval.start,
                    device,
                    figures,
                });
            }
        };
        for j in 0..one.case.devices.len() {
            let before = figures(&row.settings[j], first[t][j]);
            let after = figures(&later.settings[j], second[t][j]);
            add(Some(j), differing(before, after));
        }
        let flow = |flow: i64| vec![("flow", flow)];
        add(None, differing(flow(row.flow), flow(later.flow)));
    }
    changes
}

/// An entry of either bill, with what it comes to in both, 0 where it is not there.
struct Term {
    owner: Owner,
    who: String,
    what: String,
    grains: Both<i128>,
}

impl Term {
    fn json(&self) -> Json {
        let mut members = vec![
            ("who", Json::text(self.who.clone())),
            ("what", Json::text(self.what.clone())),
        ];
        members.extend(self.grains.members());
        members.push(("difference", Json::Number(self.grains.difference())));
        Json::Object(members)
    }
}

/// What an entry of a bill comes to, 0 where it is not there.
fn grains(bill: &Bill, wanted: &Entry) -> i128 {
    let is_it = |entry: &&Entry| (&entry.who, &entry.what) == (&wanted.who, &wanted.what);
    bill.entries
        .iter()
        .find(is_it)
        .map_or(0, |entry| entry.grains)
}

/// The entries of both bills, by owner; none where a plan is broken.
fn terms(one: &Judged, other: &Judged) -> Option<Vec<Term>> {
    let (Findings::Accepted { bill: first, .. }, Findings::Accepted { bill: second, .. }) =
        (&one.findings, &other.findings)
    else {
        return None;
    };
    let is_new = |entry: &&Entry| grains(first, entry) == 0;
    let entries = first.entries.iter();
    let entries = entries.chain(second.entries.iter().filter(is_new));
    let term = |entry: &Entry| Term {
        owner: entry.owner,
        who: entry.who.clone(),
        what: entry.what.clone(),
        grains: Both {
            first: grains(first, entry),
            second: grains(second, entry),
        },
    };
    let mut terms: Vec<Term> = entries.map(term).collect();
    terms.sort_by_key(|term| match term.owner {
        Owner::Device(j) => (0, j),
        Owner::Zone(z) => (1, z),
        Owner::Bar(bar) => (2, bar.unwrap_or(0)),
    });
    Some(terms)
}

/// Both surpluses.
fn total(terms: &[Term]) -> Both<i128> {
    Both {
        first: terms.iter().map(|term| term.grains.first).sum(),
        second: terms.iter().map(|term| term.grains.second).sum(),
    }
}

fn bill_lines(terms: &[Term]) -> Vec<String> {
    let line = |grains: Both<i128>, words: &str| {
        let difference = grouped(grains.difference());
        let (first, second) = (grouped(grains.first), grouped(grains.second));
        format!("{first:>22} {second:>22} {difference:>22}  {words}")
    };
    let mut lines = vec![format!(
        "{:>22} {:>22} {:>22}",
        "first, grains", "second, grains", "difference"
    )];
    for Term {
        who, what, grains, ..
    } in terms
    {
        lines.push(line(*grains, &format!("{who}: {what}")));
    }
    lines.push(line(total(terms), "surplus"));
    lines
}
