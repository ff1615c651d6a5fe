//! A judged day as tables for the eye: what each bar is given and takes, the power of each set, and the
//! bill, or the breaches and the mend.

use std::collections::HashSet;

use crate::balance::{balances, powers, reactive_balances, Balance};
use crate::bill::{grouped, Bill};
use crate::day::Day;
use crate::explain::Breach;
use crate::judged::{Findings, Judged};
use crate::text::clock;

/// Sets side by side.
const ABREAST: usize = 8;
/// Letters of a column.
const WIDE: usize = 12;

/// The day of a plan; or what is not borne out.
pub fn day(judged: &Judged) -> Result<String, String> {
    let mut lines = vec![judged.headline()?, String::new()];
    lines.extend(figures(judged));
    lines.push(String::new());
    match &judged.findings {
        Findings::Accepted { bill, .. } => lines.extend(bill_lines(bill)),
        Findings::Broken(list) => lines.extend(judged.lines(list.len())?),
    }
    lines.extend(judged.mend());
    Ok(lines.join("\n") + "\n")
}

/// What each bar is given and takes, and the power of each set.
pub fn figures(judged: &Judged) -> Vec<String> {
    let (day, broken) = (&judged.day, Broken::of(judged.breaches()));
    let mut lines = bar_lines(day, &broken);
    lines.extend(reactive_lines(day));
    let sets: Vec<usize> = (0..day.case.devices.len()).collect();
    let powers = powers(day);
    for part in sets.chunks(ABREAST) {
        lines.push(String::new());
        lines.extend(set_lines(day, &broken, &powers, part));
    }
    lines.push(String::new());
    lines.push(
        "+ producing   - consuming   ~ with start-up or shut-down power   ! a rule is broken"
            .into(),
    );
    lines
}

fn column(text: impl AsRef<str>) -> String {
    format!(" {:>WIDE$}", text.as_ref())
}

fn figure(value: i64) -> String {
    grouped(i128::from(value))
}

/// Number and times of an interval.
fn time(day: &Day, t: usize) -> String {
    let interval = day.case.intervals[t];
    let (start, end) = (clock(interval.start), clock(interval.end));
    format!("{:>3} {start:>6}-{end:<6}", t + 1)
}

/// The width of what stands ahead of the columns.
fn ahead(unit: &str) -> String {
    format!("{unit:<17}")
}

/// Heads of given, taken and apart, by bar where there are two.
fn bar_heads(day: &Day) -> String {
    let head = |bar: usize| {
        let on = if day.case.has_bars() {
            format!(" bar {bar}")
        } else {
            String::new()
        };
        let heads = ["given", "taken", "apart"];
        heads.map(|head| column(format!("{head}{on}"))).concat()
    };
    (0..day.case.bars()).map(head).collect()
}

fn bar_columns(bars: &[Balance]) -> String {
    let columns = |bar: &Balance| {
        let figures = [bar.given, bar.taken, bar.mismatch()];
        figures.map(|value| column(figure(value))).concat()
    };
    bars.iter().map(columns).collect()
}

/// The places of a list, by interval and set from 1, or 0 for the link.
struct Broken(HashSet<[usize; 2]>);

impl Broken {
    fn of(list: &[Breach]) -> Broken {
        let place = |breach: &Breach| [breach.interval, breach.device].map(usize::from);
        Broken(list.iter().map(place).collect())
    }

    fn mark(&self, t: usize, device: usize) -> &'static str {
        match self.0.contains(&[t + 1, device]) {
            true => "!",
            false => "",
        }
    }
}

fn bar_lines(day: &Day, broken: &Broken) -> Vec<String> {
    let flow = if day.case.has_bars() {
        column("flow")
    } else {
        String::new()
    };
    let mut lines = vec![format!("{}{}{flow}", ahead("kW"), bar_heads(day))];
    let balances = balances(day, &powers(day));
    for (t, bars) in balances.iter().enumerate() {
        let mut line = time(day, t) + &bar_columns(&bars[..day.case.bars()]);
        if day.case.has_bars() {
            let mark = broken.mark(t, 0);
            let flow = figure(day.plan.rows[t].flow);
            line += &column(format!("{mark}{flow}"));
        }
        lines.push(line);
    }
    lines
}

/// Reactive power, where there is any.
fn reactive_lines(day: &Day) -> Vec<String> {
    let balances = reactive_balances(day);
    let is_any = |bars: &[Balance; 2]| bars.iter().any(|bar| bar.given + bar.taken > 0);
    if !balances.iter().any(is_any) {
        return Vec::new();
    }
    let mut lines = vec![String::new(), ahead("kvar") + &bar_heads(day)];
    for (t, bars) in balances.iter().enumerate() {
        lines.push(time(day, t) + &bar_columns(&bars[..day.case.bars()]));
    }
    lines
}

fn set_lines(day: &Day, broken: &Broken, powers: &[Vec<i64>], sets: &[usize]) -> Vec<String> {
    let head = |j: &usize| {
        let side = if day.case.devices[*j].consuming {
            '-'
        } else {
            '+'
        };
        let name: String = day.case.device_name(*j).chars().take(WIDE - 2).collect();
        column(format!("{side}{name}"))
    };
    let heads: String = sets.iter().map(head).collect();
    let mut lines = vec![ahead("kW") + &heads];
    for (t, powers) in powers.iter().enumerate() {
        let cell = |j: &usize| {
            let setting = &day.plan.rows[t].settings[*j];
            let power = powers[*j];
            let told = if setting.on || power > 0 {
                figure(power)
            } else {
                "off".to_string()
            };
            let curve = if power != setting.online { "~" } else { "" };
            let mark = broken.mark(t, j + 1);
            column(format!("{mark}{told}{curve}"))
        };
        let cells: String = sets.iter().map(cell).collect();
        lines.push(time(day, t) + &cells);
    }
    lines
}

/// The terms of a surplus, and their sum.
pub fn bill_lines(bill: &Bill) -> Vec<String> {
    let mut lines = vec![format!("{:>26}", "grains")];
    for entry in &bill.entries {
        let (grains, who) = (grouped(entry.grains), &entry.who);
        let (what, why) = (&entry.what, &entry.why);
        lines.push(format!("{grains:>26}  {who:<22} {what:<20} {why}"));
    }
    lines.push(format!("{:>26}  surplus", grouped(bill.total())));
    lines
}
