//! What a surplus is made of: every term, from the choices of the completion and the case's prices.

use crate::day::Day;
use crate::messages::{Choice, Device, Outcome, Zone, NEEDS, REAL_NEEDS, REAL_RESERVES, RESERVES};

/// Whose an entry is.
#[derive(Clone, Copy, PartialEq, Eq, Debug)]
pub enum Owner {
    /// A device, from 0.
    Device(usize),
    /// A zone, from 0.
    Zone(usize),
    /// A bar; `None` where there is one.
    Bar(Option<usize>),
}

impl Owner {
    /// The same for every device, and for every zone.
    fn kind(self) -> Owner {
        match self {
            Owner::Device(_) => Owner::Device(0),
            Owner::Zone(_) => Owner::Zone(0),
            bar => bar,
        }
    }
}

/// A term of the surplus.
#[derive(Clone, PartialEq, Eq, Debug)]
pub struct Entry {
    pub owner: Owner,
    /// Its name, as a text has it.
    pub who: String,
    pub what: String,
    /// Above 0 gained, below 0 paid.
    pub grains: i128,
    /// How it comes about.
    pub why: String,
}

/// The terms of a surplus that are not 0.
#[derive(Clone, PartialEq, Eq, Debug)]
pub struct Bill {
    pub entries: Vec<Entry>,
}

impl Bill {
    pub fn total(&self) -> i128 {
        self.entries.iter().map(|entry| entry.grains).sum()
    }

    /// One entry for each kind, the greatest first, for where sets and zones are many.
    pub fn by_kind(&self) -> Vec<Entry> {
        let mut kinds: Vec<(Entry, usize)> = Vec::new();
        for entry in &self.entries {
            let kind = of_kind(entry);
            match kinds.iter_mut().find(|(known, _)| is_alike(known, &kind)) {
                Some((known, count)) => {
                    known.grains += entry.grains;
                    *count += 1;
                }
                None => kinds.push((kind, 1)),
            }
        }
        kinds.sort_by_key(|(entry, _)| -entry.grains.abs());
        let counted = |(entry, count): (Entry, usize)| match count {
            1 => entry,
            count => Entry {
                why: format!("{count} entries"),
                ..entry
            },
        };
        kinds.into_iter().map(counted).collect()
    }
}

/// An entry as one of all sets, or of all zones.
fn of_kind(entry: &Entry) -> Entry {
    let numbered = |letter: char| letter == ' ' || letter.is_ascii_digit();
    let (who, what) = match entry.owner {
        Owner::Device(_) => ("all sets", entry.what.trim_end_matches(numbered)),
        Owner::Zone(_) => ("all zones", entry.what.as_str()),
        Owner::Bar(_) => (entry.who.as_str(), entry.what.as_str()),
    };
    Entry {
        owner: entry.owner.kind(),
        who: who.to_string(),
        what: what.to_string(),
        ..entry.clone()
    }
}

fn is_alike(one: &Entry, other: &Entry) -> bool {
    (one.owner, &one.what) == (other.owner, &other.what)
}

/// The bill of an accepted plan.
pub fn bill(day: &Day, outcome: &Outcome) -> Bill {
    let mut terms = Terms {
        day,
        outcome,
        entries: Vec::new(),
    };
    let mut window = 0;
    for j in 0..day.case.devices.len() {
        terms.device(j);
        terms.reserves(j);
        terms.overruns(j, window);
        window += day.case.devices[j].energy_windows.len();
    }
    for (z, zone) in day.case.zones.iter().enumerate() {
        terms.zone(z, zone);
    }
    for bar in 0..day.case.bars() {
        terms.bar(bar);
    }
    Bill {
        entries: terms.entries,
    }
}

struct Terms<'a> {
    day: &'a Day,
    outcome: &'a Outcome,
    entries: Vec<Entry>,
}

impl Terms<'_> {
    fn add(&mut self, owner: Owner, what: impl Into<String>, grains: i128, why: String) {
        let who = match owner {
            Owner::Device(j) => self.day.case.device_name(j),
            Owner::Zone(z) => format!("zone {}", z + 1),
            Owner::Bar(Some(bar)) => format!("bar {bar}"),
            Owner::Bar(None) => "the bar".to_string(),
        };
        if grains != 0 {
            self.entries.push(Entry {
                owner,
                who,
                what: what.into(),
                grains,
                why,
            });
        }
    }

    /// A figure of each interval, summed over the day.
    fn sum(&self, figure: impl Fn(usize) -> i128) -> i128 {
        (0..self.day.case.intervals.len()).map(figure).sum()
    }

    /// The same by the minute.
    fn by_minute(&self, figure: impl Fn(usize) -> i128) -> i128 {
        let minutes = |t: usize| i128::from(self.day.case.intervals[t].minutes());
        self.sum(|t| minutes(t) * figure(t))
    }

    fn choice(&self, t: usize, j: usize) -> &Choice {
        &self.outcome.rows[t].choices[j]
    }

    /// Energy, minutes on, starts, stops and startup states.
    fn device(&mut self, j: usize) {
        let device = &self.day.case.devices[j];
        let owner = Owner::Device(j);
        let (energy, worth) = self.energy(j, device);
        let (sign, what) = if device.consuming {
            (1, "energy taken")
        } else {
            (-1, "energy given")
        };
        let why = format!("{} kW min", grouped(energy));
        self.add(owner, what, sign * worth, why);
        let rows = &self.day.plan.rows;
        let on = self.by_minute(|t| i128::from(rows[t].settings[j].on));
        let starts = self.sum(|t| i128::from(self.choice(t, j).started));
        let stops = self.sum(|t| i128::from(self.choice(t, j).stopped));
        for (what, count, cost) in [
            ("minutes on", on, device.on_cost),
            ("starts", starts, device.start_cost),
            ("stops", stops, device.stop_cost),
        ] {
            self.counted(owner, what.to_string(), count, cost);
        }
        for (number, state) in (1..).zip(&device.startup_states) {
            let count = self.sum(|t| i128::from(self.choice(t, j).state == number));
            self.counted(owner, format!("startup state {number}"), count, state.cost);
        }
    }

    /// So many at a cost each.
    fn counted(&mut self, owner: Owner, what: String, count: i128, cost: i64) {
        let cost = i128::from(cost);
        let why = format!("{} at {}", grouped(count), grouped(cost));
        self.add(owner, what, -count * cost, why);
    }

    /// The energy of all blocks, and what they are worth.
    fn energy(&self, j: usize, device: &Device) -> (i128, i128) {
        let energy = self.by_minute(|t| self.choice(t, j).blocks.iter().map(|&kw| wide(kw)).sum());
        let worth = self.by_minute(|t| {
            let prices = device.cells[t].blocks.iter().map(|block| block.price);
            let blocks = prices.zip(self.choice(t, j).blocks);
            blocks.map(|(price, kw)| wide(price) * wide(kw)).sum()
        });
        (energy, worth)
    }

    fn reserves(&mut self, j: usize) {
        let cells = &self.day.case.devices[j].cells;
        let rows = &self.day.plan.rows;
        for (index, name) in RESERVES.iter().enumerate() {
            let held = |t: usize| wide(rows[t].settings[j].reserve(index));
            let amount = self.by_minute(held);
            let cost = self.by_minute(|t| wide(cells[t].prices[index]) * held(t));
            let unit = if index < REAL_RESERVES { "kW" } else { "kvar" };
            let why = format!("{} {unit} min", grouped(amount));
            self.add(Owner::Device(j), format!("reserve {name}"), -cost, why);
        }
    }

    /// Of the energy windows of a device, the first of which is that of a number from 0.
    fn overruns(&mut self, j: usize, first: usize) {
        let windows = &self.day.case.devices[j].energy_windows;
        let price = self.day.case.overrun_price;
        for (index, window) in windows.iter().enumerate() {
            let overrun = wide(self.outcome.overruns[first + index]);
            let which = if window.is_minimum {
                "missing"
            } else {
                "too many"
            };
            let why = format!("{} kW min {which} at {price}", grouped(overrun));
            let what = format!("energy window {}", index + 1);
            self.add(Owner::Device(j), what, -overrun * wide(price), why);
        }
    }

    fn zone(&mut self, z: usize, zone: &Zone) {
        for (index, need) in NEEDS.iter().enumerate() {
            let unit = if index < REAL_NEEDS { "W" } else { "var" };
            let rows = &self.outcome.rows;
            let figure = |t: usize| rows[t].shortfalls[z][index];
            let what = format!("{need} short");
            self.slack(Owner::Zone(z), what, unit, zone.prices[index], figure);
        }
    }

    fn bar(&mut self, bar: usize) {
        let owner = Owner::Bar(self.day.case.has_bars().then_some(bar));
        let (rows, price) = (&self.outcome.rows, self.day.case.mismatch_price);
        let real = |t: usize| rows[t].mismatches[bar];
        self.slack(owner, "mismatch".into(), "kW", price, real);
        let reactive = |t: usize| rows[t].reactive_mismatches[bar];
        self.slack(owner, "reactive mismatch".into(), "kvar", price, reactive);
    }

    /// What is short or apart, at a price by the minute.
    fn slack(
        &mut self,
        owner: Owner,
        what: String,
        unit: &str,
        price: i64,
        figure: impl Fn(usize) -> i64,
    ) {
        let amount = self.by_minute(|t| wide(figure(t)));
        let most = (0..self.day.case.intervals.len()).map(&figure).max();
        let (most, told) = (grouped(wide(most.unwrap_or(0))), grouped(wide(price)));
        let why = format!("up to {most} {unit} at {told} per {unit} min");
        self.add(owner, what, -amount * wide(price), why);
    }
}

fn wide(figure: i64) -> i128 {
    i128::from(figure)
}

/// Thousands apart.
pub fn grouped(figure: i128) -> String {
    let digits = figure.unsigned_abs().to_string();
    let mut out = String::new();
    if figure < 0 {
        out.push('-');
    }
    for (index, digit) in digits.chars().enumerate() {
        if index > 0 && (digits.len() - index).is_multiple_of(3) {
            out.push(',');
        }
        out.push(digit);
    }
    out
}
