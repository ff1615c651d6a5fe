//! A case from its text.

use super::words::{
    coded, figure, groups, index_of, list, named, series, slices, words, At, Lines, Read,
};
use crate::messages::{
    intervals_of, needs_of, reserves_of, Block, Case, Cell, Device, EnergyWindow, Line, Link,
    StartWindow, StartupState, Zone, BARS, COSTS, FLOORS, MOST_BLOCKS, MOST_ZONES, NEEDS, RAMPS,
    REACTIVE, REAL_RESERVES, RESERVES, SHARED_NEEDS,
};

/// Zones and sets beyond which a text is not read on; whether there may be so many is the plan unit's
/// to say.
const TOO_MANY_ZONES: usize = 7;
const TOO_MANY_SETS: usize = 127;

/// The status words of a series, with the figure that stands for each.
const STATUS: [(&str, &str); 3] = [("free", "0"), ("on", "1"), ("off", "2")];

/// What the lines belong to.
#[derive(Clone, Copy)]
enum Section {
    Day,
    Zone(usize),
    Set(usize),
}

struct CaseReader {
    case: Case,
    lines: Lines,
    section: Section,
    moments: Vec<i64>,
}

/// The case of a text, and which line said what.
pub fn read_case(text: &str) -> Read<(Case, Lines)> {
    let mut reader = CaseReader {
        case: Case::default(),
        lines: Lines::default(),
        section: Section::Day,
        moments: vec![0],
    };
    for (number, line) in (1..).zip(text.lines()) {
        let at = At(number);
        if let Some((first, rest)) = words(at, line)?.split_first() {
            reader.line(at, first, rest)?;
        }
    }
    Ok((reader.case, reader.lines))
}

impl CaseReader {
    fn line(&mut self, at: At, first: &str, rest: &[&str]) -> Read<()> {
        let is_ahead = ["case", "intervals", "mismatch", "overrun", "link"].contains(&first);
        if self.case.intervals.is_empty() && !is_ahead {
            return at.wrong("'intervals' must stand ahead of this line");
        }
        match (first, rest) {
            ("case", ["edition", edition]) => {
                self.lines.once(at, "edition")?;
                self.case.edition = figure(at, edition)?;
                Ok(())
            }
            ("intervals", minutes) => self.intervals(at, minutes),
            ("mismatch" | "overrun", ["price", price]) => self.price(at, first, price),
            ("link", ["limit", limit]) => {
                self.lines.once(at, "link limit")?;
                at.since(BARS, self.case.edition, "link limit")?;
                self.case.link_limit = figure(at, limit)?;
                Ok(())
            }
            ("zone", [number]) => self.zone(at, number),
            ("set", [number, side, name @ ..]) => self.set(at, number, side, name),
            _ => self.section_line(at, first, rest),
        }
    }

    fn intervals(&mut self, at: At, words: &[&str]) -> Read<()> {
        self.lines.once(at, "half the minutes")?;
        self.lines.again(at, "count of intervals");
        let minutes = list(at, words)?;
        if let Some(odd) = minutes.iter().find(|minutes| *minutes % 2 != 0) {
            let what = "an interval lasts an even number of minutes, 2 to 360";
            return at.wrong(format!("{odd}: {what}"));
        }
        if let Some(long) = minutes.iter().find(|minutes| !(0..=510).contains(*minutes)) {
            return at.wrong(format!("{long}: an interval lasts 2 to 360 minutes"));
        }
        self.case.intervals = intervals_of(&minutes);
        self.moments = self.case.moments();
        Ok(())
    }

    fn price(&mut self, at: At, which: &str, price: &str) -> Read<()> {
        self.lines.once(at, format!("{which} price"))?;
        let into = match which {
            "mismatch" => &mut self.case.mismatch_price,
            _ => &mut self.case.overrun_price,
        };
        *into = figure(at, price)?;
        Ok(())
    }

    fn zone(&mut self, at: At, number: &str) -> Read<()> {
        let next = self.case.zones.len() + 1;
        in_turn(at, "zone", next, number)?;
        if next > TOO_MANY_ZONES {
            return at.wrong("a case has up to 4 zones");
        }
        self.lines.again(at, "count of zones");
        self.lines.again(at, format!("zone {next}"));
        self.case.zones.push(Zone {
            minima: vec![[0; NEEDS.len() - SHARED_NEEDS]; self.case.intervals.len()],
            ..Zone::default()
        });
        self.section = Section::Zone(next - 1);
        Ok(())
    }

    fn set(&mut self, at: At, number: &str, side: &str, name: &[&str]) -> Read<()> {
        let next = self.case.devices.len() + 1;
        in_turn(at, "set", next, number)?;
        if next > TOO_MANY_SETS {
            return at.wrong("a case has up to 64 sets");
        }
        let consuming = match side {
            "producing" => false,
            "consuming" => true,
            other => return at.wrong(format!("'{other}': producing or consuming")),
        };
        self.lines.again(at, "count of sets");
        self.lines.again(at, format!("set {next}"));
        self.case.devices.push(Device {
            consuming,
            name: name_of(at, name)?,
            cells: vec![Cell::default(); self.case.intervals.len()],
            ..Device::default()
        });
        self.section = Section::Set(next - 1);
        Ok(())
    }

    fn section_line(&mut self, at: At, first: &str, rest: &[&str]) -> Read<()> {
        let (edition, moments) = (self.case.edition, self.moments.as_slice());
        match self.section {
            Section::Day => {
                let line = [&[first], rest].concat().join(" ");
                at.wrong(format!("unknown line '{line}'"))
            }
            Section::Zone(index) => ZoneLine {
                at,
                edition,
                moments,
                owner: format!("zone {}", index + 1),
                lines: &mut self.lines,
                zone: &mut self.case.zones[index],
            }
            .read(first, rest),
            Section::Set(index) => SetLine {
                at,
                edition,
                moments,
                owner: format!("set {}", index + 1),
                lines: &mut self.lines,
                set: &mut self.case.devices[index],
            }
            .read(first, rest),
        }
    }
}

/// Zones and sets are numbered 1, 2 and so on in turn.
fn in_turn(at: At, what: &str, next: usize, number: &str) -> Read<()> {
    if figure(at, number)? != next as i64 {
        return at.wrong(format!("{what} {next} comes next"));
    }
    Ok(())
}

/// The name of a set, which is the text's alone.
fn name_of(at: At, words: &[&str]) -> Read<String> {
    let name = match words {
        [] => "",
        [name] => name.trim_matches('"'),
        _ => return at.wrong("a name of several words stands in quotes"),
    };
    if name.contains(char::is_control) {
        return at.wrong("a name has a control character");
    }
    Ok(name.to_string())
}

/// A line of a zone.
struct ZoneLine<'a> {
    at: At,
    edition: i64,
    moments: &'a [i64],
    owner: String,
    lines: &'a mut Lines,
    zone: &'a mut Zone,
}

impl ZoneLine<'_> {
    fn said(&mut self, what: &str) -> Read<()> {
        self.lines.once(self.at, format!("{}: {what}", self.owner))
    }

    fn read(mut self, first: &str, rest: &[&str]) -> Read<()> {
        let (at, needs) = (self.at, needs_of(self.edition));
        match (first, rest) {
            ("share", shares) => {
                self.said("share")?;
                named(at, &NEEDS[..SHARED_NEEDS], shares, &mut self.zone.shares)
            }
            ("shortfall", ["price", prices @ ..]) => {
                self.said("shortfall price")?;
                named(at, &NEEDS[..needs], prices, &mut self.zone.prices[..needs])
            }
            ("minimum", [need, figures @ ..]) => {
                let index = index_of(at, &NEEDS[SHARED_NEEDS..needs], need, "minimum")?;
                self.said(&format!("minimum {need}"))?;
                let figures = series(at, self.moments, first, figures)?;
                for (minima, figure) in self.zone.minima.iter_mut().zip(figures) {
                    minima[index] = figure;
                }
                Ok(())
            }
            _ => {
                let rest = rest.join(" ");
                let known = "share, shortfall price, minimum";
                at.wrong(format!("unknown line '{first} {rest}' of a zone; {known}"))
            }
        }
    }
}

/// A line of a set.
struct SetLine<'a> {
    at: At,
    edition: i64,
    moments: &'a [i64],
    owner: String,
    lines: &'a mut Lines,
    set: &'a mut Device,
}

impl SetLine<'_> {
    fn said(&mut self, what: &str) -> Read<()> {
        self.lines.once(self.at, format!("{}: {what}", self.owner))
    }

    fn read(mut self, first: &str, rest: &[&str]) -> Read<()> {
        let brought = match first {
            "qmin" | "qmax" | "pq" => REACTIVE,
            "bar" => BARS,
            _ => 1,
        };
        self.at.since(brought, self.edition, first)?;
        match first {
            "state" | "starts" | "energy" => self.item(first, rest),
            "zones" | "bar" | "initially" | "minimum" | "ramp" | "cost" | "limit" | "pq" => {
                self.said(first)?;
                self.term(first, rest)
            }
            "status" | "pmin" | "pmax" | "qmin" | "qmax" => {
                self.said(first)?;
                self.column(first, rest)
            }
            "price" | "block" => self.numbered(first, rest),
            _ => self.unknown(first, rest),
        }
    }

    fn unknown(&self, first: &str, rest: &[&str]) -> Read<()> {
        let rest = rest.join(" ");
        self.at
            .wrong(format!("unknown line '{first} {rest}' of a set"))
    }

    /// An item of a list: a startup state, a start window, an energy window.
    fn item(mut self, first: &str, rest: &[&str]) -> Read<()> {
        let at = self.at;
        let count = match (first, rest) {
            ("state", [downtime, cost]) => {
                self.set.startup_states.push(StartupState {
                    longest_downtime: figure(at, downtime)?,
                    cost: figure(at, cost)?,
                });
                self.set.startup_states.len()
            }
            ("starts", [start, end, "most", most]) => {
                self.set.start_windows.push(StartWindow {
                    start: figure(at, start)?,
                    end: figure(at, end)?,
                    most_starts: figure(at, most)?,
                });
                self.set.start_windows.len()
            }
            ("energy", [start, end, kind @ ("most" | "least"), energy]) => {
                self.set.energy_windows.push(EnergyWindow {
                    is_minimum: *kind == "least",
                    start: figure(at, start)?,
                    end: figure(at, end)?,
                    energy: figure(at, energy)?,
                });
                self.set.energy_windows.len()
            }
            _ => return self.unknown(first, rest),
        };
        self.said(&format!("{first} {count}"))
    }

    /// What holds for the whole day.
    fn term(self, first: &str, rest: &[&str]) -> Read<()> {
        let (at, set) = (self.at, &mut *self.set);
        match (first, rest) {
            ("zones", zones) => set_zones(at, set, zones)?,
            ("bar", [bar]) => set.bar = figure(at, bar)?,
            ("initially", [state @ ("on" | "off"), minutes, power]) => {
                set.initially_on = *state == "on";
                set.minutes_already_so = figure(at, minutes)?;
                set.initial_power = figure(at, power)?;
            }
            ("minimum", times) => {
                let mut minutes = [set.minimum_up, set.minimum_down];
                named(at, &["up", "down"], times, &mut minutes)?;
                [set.minimum_up, set.minimum_down] = minutes;
            }
            ("ramp", ramps) => set_ramps(at, set, ramps)?,
            ("cost", costs) => set_costs(at, set, costs)?,
            ("limit", limits) => {
                let names = &RESERVES[..REAL_RESERVES];
                named(at, names, limits, &mut set.reserve_limits)?;
            }
            ("pq", link) => match link_of(at, link)? {
                Some(link) => set.link = link,
                None => return self.unknown(first, rest),
            },
            _ => return self.unknown(first, rest),
        }
        Ok(())
    }

    /// A figure of each interval.
    fn column(self, first: &str, rest: &[&str]) -> Read<()> {
        if first == "status" {
            let codes = coded(self.at, rest, &STATUS)?;
            let statuses = series(self.at, self.moments, first, &slices(&codes))?;
            for (cell, status) in self.set.cells.iter_mut().zip(statuses) {
                cell.fixed = [None, Some(true), Some(false)][status as usize];
            }
            return Ok(());
        }
        let figures = series(self.at, self.moments, first, rest)?;
        for (cell, figure) in self.set.cells.iter_mut().zip(figures) {
            match first {
                "pmin" => cell.pmin = figure,
                "pmax" => cell.pmax = figure,
                "qmin" => cell.qmin = figure,
                _ => cell.qmax = figure,
            }
        }
        Ok(())
    }

    /// The price of a reserve, or a block, in each interval.
    fn numbered(mut self, first: &str, rest: &[&str]) -> Read<()> {
        let Some((which, figures)) = rest.split_first() else {
            return self.unknown(first, rest);
        };
        self.said(&format!("{first} {which}"))?;
        if first == "block" {
            return self.block(which, figures);
        }
        let names = &RESERVES[..reserves_of(self.edition)];
        let index = index_of(self.at, names, which, "reserve")?;
        let figures = series(self.at, self.moments, first, figures)?;
        for (cell, figure) in self.set.cells.iter_mut().zip(figures) {
            cell.prices[index] = figure;
        }
        Ok(())
    }

    /// `cap C floor F price P`; a cap of `-` means that the interval has no such block.
    fn block(self, which: &str, words: &[&str]) -> Read<()> {
        let at = self.at;
        let number = match figure(at, which)? {
            number @ 1..=4 => number as usize,
            _ => return at.wrong(format!("a set has up to {MOST_BLOCKS} blocks")),
        };
        let intervals = self.set.cells.len();
        let mut caps = vec![None; intervals];
        let (mut floors, mut prices) = (vec![0; intervals], vec![0; intervals]);
        for (word, figures) in groups(at, words)? {
            match word {
                "cap" => caps = caps_of(at, self.moments, &figures)?,
                "floor" => {
                    at.since(FLOORS, self.edition, "floor")?;
                    floors = series(at, self.moments, word, &figures)?;
                }
                "price" => prices = series(at, self.moments, word, &figures)?,
                _ => {
                    return at.wrong(format!("unknown word '{word}'; one of: cap floor price"));
                }
            }
        }
        for (t, cell) in self.set.cells.iter_mut().enumerate() {
            let Some(cap) = caps[t] else { continue };
            if cell.blocks.len() + 1 != number {
                let (interval, before) = (t + 1, number - 1);
                return at.wrong(format!(
                    "block {number} in interval {interval} without block {before}"
                ));
            }
            let (floor, price) = (floors[t], prices[t]);
            cell.blocks.push(Block { cap, floor, price });
        }
        Ok(())
    }
}

/// Caps of a block, where there is one.
fn caps_of(at: At, moments: &[i64], words: &[&str]) -> Read<Vec<Option<i64>>> {
    /// Stands for no block; no cap can be said that is below 0.
    const NONE: i64 = -1;
    let coded: Vec<String> = words
        .iter()
        .map(|word| match word.strip_suffix('-') {
            Some(times) if times.is_empty() || times.ends_with('x') => format!("{times}{NONE}"),
            _ => word.to_string(),
        })
        .collect();
    let figures = series(at, moments, "cap", &slices(&coded))?;
    if let Some(below) = words.iter().find(|word| word.contains(&NONE.to_string())) {
        return at.wrong(format!(
            "'{below}': a cap is 0 or more, or '-' for no block"
        ));
    }
    let cap = |figure: i64| (figure != NONE).then_some(figure);
    Ok(figures.into_iter().map(cap).collect())
}

fn set_zones(at: At, set: &mut Device, zones: &[&str]) -> Read<()> {
    for zone in zones {
        let number = figure(at, zone)?;
        if !(1..=MOST_ZONES as i64).contains(&number) {
            return at.wrong(format!("zones are 1 to {MOST_ZONES}"));
        }
        let member = &mut set.in_zone[number as usize - 1];
        if *member {
            return at.wrong(format!("zone {number} twice"));
        }
        *member = true;
    }
    Ok(())
}

fn set_ramps(at: At, set: &mut Device, words: &[&str]) -> Read<()> {
    let mut ramps = [0; RAMPS.len()];
    named(at, &RAMPS, words, &mut ramps)?;
    [
        set.up_ramp,
        set.down_ramp,
        set.starting_ramp,
        set.stopping_ramp,
    ] = ramps;
    Ok(())
}

fn set_costs(at: At, set: &mut Device, words: &[&str]) -> Read<()> {
    let mut costs = [0; COSTS.len()];
    named(at, &COSTS, words, &mut costs)?;
    [set.on_cost, set.start_cost, set.stop_cost] = costs;
    Ok(())
}

/// `lines upper A B lower C D` or `equality A B`.
fn link_of(at: At, words: &[&str]) -> Read<Option<Link>> {
    let line = |offset: &str, slope: &str| -> Read<Line> {
        Ok(Line {
            offset: figure(at, offset)?,
            slope: figure(at, slope)?,
        })
    };
    Ok(match words {
        ["lines", "upper", a, b, "lower", c, d] => Some(Link::TwoLines {
            upper: line(a, b)?,
            lower: line(c, d)?,
        }),
        ["equality", a, b] => Some(Link::Equality(line(a, b)?)),
        _ => None,
    })
}
