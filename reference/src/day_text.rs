//! Cases and plans as text (`docs/DESK.md`), read a second time: `examples/` must come to the same
//! bytes here as at the desk. Right texts are read; of a wrong one no more is told than its line.

mod words;

use crate::case::{
    Block, Case, Device, EnergyKind, EnergyWindow, Link, LinkLine, Ramps, ReactiveReserves,
    Reserves, Side, StartWindow, StartupState, Status, Terms, Zone, MOST_ZONES,
};
use crate::edition::Edition;
use crate::plan::{Plan, Setting};
use crate::worked_day::Day;
use words::{figure, figures, lines, pairs, parts, series, Told};

const RESERVES: [&str; 8] = [
    "rgu", "rgd", "scr", "nsc", "rru_on", "rru_off", "rrd_on", "rrd_off",
];
const REACTIVE_RESERVES: [&str; 2] = ["qru", "qrd"];
const SHARES: [&str; 4] = ["rgu", "rgd", "scr", "nsc"];
const SHORTFALLS: [&str; 8] = ["rgu", "rgd", "scr", "nsc", "rru", "rrd", "qru", "qrd"];
const MINIMA: [&str; 4] = ["rru", "rrd", "qru", "qrd"];

/// A case and a plan of it by their texts.
pub fn read_day(case: &str, plan: &str) -> Told<Day> {
    let mut text = CaseText::default();
    for (number, words) in lines(case) {
        let told = |()| format!("case, line {number}: {}", words.join(" "));
        text.line(&words).ok_or(()).map_err(told)?;
    }
    let edition = text.edition.ok_or("the case names no edition")?;
    let mut day = Day {
        edition,
        plan: no_plan(&text.case),
        case: text.case,
    };
    for (number, words) in lines(plan) {
        let told = |()| format!("plan, line {number}: {}", words.join(" "));
        let line = plan_line(&mut day, &text.names, &words);
        line.ok_or(()).map_err(told)?;
    }
    Ok(day)
}

/// What a case's lines have said so far.
struct CaseText {
    edition: Option<Edition>,
    case: Case,
    /// The sets' names, empty where there is none.
    names: Vec<String>,
}

impl Default for CaseText {
    fn default() -> CaseText {
        CaseText {
            edition: None,
            case: Case {
                mismatch_price: 0,
                overrun_price: 0,
                link_limit: 0,
                durations: Vec::new(),
                zones: Vec::new(),
                devices: Vec::new(),
            },
            names: Vec::new(),
        }
    }
}

impl CaseText {
    fn line(&mut self, words: &[&str]) -> Option<()> {
        let case = &mut self.case;
        match words {
            ["case", "edition", edition] => self.edition = Some(edition_of(edition)?),
            ["intervals", minutes @ ..] => case.durations = figures(minutes)?,
            ["mismatch", "price", price] => case.mismatch_price = figure(price)?,
            ["overrun", "price", price] => case.overrun_price = figure(price)?,
            ["link", "limit", limit] => case.link_limit = figure(limit)?,
            ["zone", _] => case.zones.push(Zone::plain(case.durations.len())),
            ["set", _, side, name @ ..] => {
                case.devices.push(new_set(side, case.durations.len())?);
                self.names.push(name.concat().replace('"', ""));
            }
            line if case.devices.is_empty() => {
                zone_line(case.zones.last_mut()?, &case.durations, line)?;
            }
            line => set_line(case.devices.last_mut()?, &case.durations, line)?,
        }
        Some(())
    }
}

fn edition_of(word: &str) -> Option<Edition> {
    Edition::numbered(figure(word)?)
}

/// "What is not said is 0".
fn new_set(side: &str, intervals: usize) -> Option<Device> {
    let side = match side {
        "producing" => Side::Producing,
        "consuming" => Side::Consuming,
        _ => return None,
    };
    Some(Device {
        ramps: Ramps {
            up: 0,
            down: 0,
            starting: 0,
            stopping: 0,
        },
        reserve_limits: Reserves::default(),
        ..Device::plain(side, vec![Terms::default(); intervals])
    })
}

fn zone_line(zone: &mut Zone, durations: &[i128], words: &[&str]) -> Option<()> {
    match words {
        ["share", rest @ ..] => pairs(&SHARES, rest, &mut zone.shares),
        ["shortfall", "price", rest @ ..] => pairs(&SHORTFALLS, rest, &mut zone.shortfall_prices),
        ["minimum", product, rest @ ..] => {
            let index = MINIMA.iter().position(|known| known == product)?;
            let row = series(durations, rest, figure)?;
            let minima = zone.minima.iter_mut().zip(row);
            minima.for_each(|(minima, figure)| minima[index] = figure);
            Some(())
        }
        _ => None,
    }
}

/// Two figures by their names.
fn two(names: [&str; 2], words: &[&str]) -> Option<[i128; 2]> {
    let mut both = [0; 2];
    pairs(&names, words, &mut both)?;
    Some(both)
}

fn set_line(set: &mut Device, durations: &[i128], words: &[&str]) -> Option<()> {
    match words {
        ["zones", zones @ ..] => {
            for zone in zones {
                let index = zone.parse::<usize>().ok()?.checked_sub(1)?;
                *set.zone_bits
                    .get_mut(index)
                    .filter(|_| index < MOST_ZONES)? = true;
            }
        }
        ["bar", bar] => set.bar = bar.parse().ok()?,
        ["initially", state, minutes, power] => {
            set.initially_on = on_or_off(state)?;
            (set.minutes_already_so, set.initial_power) = (figure(minutes)?, figure(power)?);
        }
        ["minimum", rest @ ..] => {
            [set.minimum_up, set.minimum_down] = two(["up", "down"], rest)?;
        }
        ["ramp", rest @ ..] => set.ramps = ramps(rest)?,
        ["cost", rest @ ..] => {
            let mut costs = [0; 3];
            pairs(&["on", "start", "stop"], rest, &mut costs)?;
            [set.on_cost, set.start_cost, set.stop_cost] = costs;
        }
        ["limit", rest @ ..] => {
            let mut limits = [0; 8];
            pairs(&RESERVES, rest, &mut limits)?;
            set.reserve_limits = Reserves::from_order(limits);
        }
        ["state", downtime, cost] => set.startup_states.push(StartupState {
            longest_downtime: figure(downtime)?,
            cost: figure(cost)?,
        }),
        ["starts", from, until, "most", starts] => set.start_windows.push(StartWindow {
            start: figure(from)?,
            end: figure(until)?,
            most_starts: figure(starts)?,
        }),
        ["energy", from, until, kind, energy] => set.energy_windows.push(EnergyWindow {
            kind: match *kind {
                "most" => EnergyKind::Maximum,
                "least" => EnergyKind::Minimum,
                _ => return None,
            },
            start: figure(from)?,
            end: figure(until)?,
            energy: figure(energy)?,
        }),
        ["pq", "lines", "upper", upper @ .., "lower", offset, slope] => {
            let [upper_offset, upper_slope] = upper else {
                return None;
            };
            set.link = Link::TwoLines {
                upper: line(upper_offset, upper_slope)?,
                lower: line(offset, slope)?,
            };
        }
        ["pq", "equality", offset, slope] => set.link = Link::Equality(line(offset, slope)?),
        line => terms_line(&mut set.terms, durations, line)?,
    }
    Some(())
}

fn ramps(words: &[&str]) -> Option<Ramps> {
    let mut ramps = [0; 4];
    pairs(&["up", "down", "starting", "stopping"], words, &mut ramps)?;
    let [up, down, starting, stopping] = ramps;
    Some(Ramps {
        up,
        down,
        starting,
        stopping,
    })
}

fn line(offset: &str, slope: &str) -> Option<LinkLine> {
    Some(LinkLine {
        offset: figure(offset)?,
        slope: figure(slope)?,
    })
}

fn on_or_off(word: &str) -> Option<bool> {
    match word {
        "on" | "1" => Some(true),
        "off" | "0" => Some(false),
        _ => None,
    }
}

fn status(word: &str) -> Option<Status> {
    match word {
        "free" => Some(Status::Free),
        "on" => Some(Status::On),
        "off" => Some(Status::Off),
        _ => None,
    }
}

/// What a line says of each interval.
fn terms_line(terms: &mut [Terms], durations: &[i128], words: &[&str]) -> Option<()> {
    let row = |words: &[&str]| series(durations, words, figure);
    match words {
        ["status", rest @ ..] => {
            let row = series(durations, rest, status)?;
            let cells = terms.iter_mut().zip(row);
            cells.for_each(|(cell, status)| cell.status = status);
        }
        ["block", _, rest @ ..] => blocks(terms, durations, rest)?,
        ["price", product, rest @ ..] => {
            for (cell, price) in terms.iter_mut().zip(row(rest)?) {
                let mut real = cell.reserve_prices.in_order();
                let mut reactive = cell.reactive_prices.in_order();
                *reserve(&mut real, &mut reactive, product)? = price;
                cell.reserve_prices = Reserves::from_order(real);
                cell.reactive_prices = ReactiveReserves::from_order(reactive);
            }
        }
        [what, rest @ ..] => {
            for (cell, figure) in terms.iter_mut().zip(row(rest)?) {
                *match *what {
                    "pmin" => &mut cell.pmin,
                    "pmax" => &mut cell.pmax,
                    "qmin" => &mut cell.qmin,
                    "qmax" => &mut cell.qmax,
                    _ => return None,
                } = figure;
            }
        }
        [] => return None,
    }
    Some(())
}

/// A figure of one of the ten reserves, by its name.
fn reserve<'a>(
    real: &'a mut [i128; 8],
    reactive: &'a mut [i128; 2],
    name: &str,
) -> Option<&'a mut i128> {
    let of = |names: &[&str]| names.iter().position(|known| *known == name);
    match of(&RESERVES) {
        Some(index) => real.get_mut(index),
        None => reactive.get_mut(of(&REACTIVE_RESERVES)?),
    }
}

/// "a cap of `-`: no such block in that interval".
fn blocks(terms: &mut [Terms], durations: &[i128], words: &[&str]) -> Option<()> {
    let cap = |word: &str| match word {
        "-" => Some(None),
        word => figure(word).map(Some),
    };
    let [caps, floors, prices] = parts(["cap", "floor", "price"], words)?;
    let caps = series(durations, caps, cap)?;
    let or_none = |words: &[&str]| match words {
        [] => Some(vec![0; durations.len()]),
        words => series(durations, words, figure),
    };
    let (floors, prices) = (or_none(floors)?, or_none(prices)?);
    for (t, cell) in terms.iter_mut().enumerate() {
        cell.blocks.extend(caps[t].map(|cap| Block {
            cap,
            floor: floors[t],
            price: prices[t],
        }));
    }
    Some(())
}

/// Every set off.
fn no_plan(case: &Case) -> Plan {
    let off = vec![Setting::default(); case.devices.len()];
    Plan::plain(vec![off; case.durations.len()])
}

/// A line of a plan; its edition, where it is said, is the case's.
fn plan_line(day: &mut Day, names: &[String], words: &[&str]) -> Option<()> {
    let durations = &day.case.durations;
    match words {
        ["plan"] => {}
        ["plan", "edition", edition] if edition_of(edition)? == day.edition => {}
        ["flow", rest @ ..] => day.plan.flows = series(durations, rest, figure)?,
        ["set", set, what, rest @ ..] => {
            let index = match set.strip_prefix('"') {
                Some(name) => names.iter().position(|known| known == name)?,
                None => set.parse::<usize>().ok()?.checked_sub(1)?,
            };
            let on = |word: &str| on_or_off(word).map(i128::from);
            let row = match *what {
                "on" => series(durations, rest, on)?,
                _ => series(durations, rest, figure)?,
            };
            for (settings, figure) in day.plan.intervals.iter_mut().zip(row) {
                set_figure(settings.get_mut(index)?, what, figure)?;
            }
        }
        _ => return None,
    }
    Some(())
}

fn set_figure(setting: &mut Setting, what: &str, figure: i128) -> Option<()> {
    match what {
        "on" => setting.on = figure == 1,
        "power" => setting.online_power = figure,
        "q" => setting.reactive_power = figure,
        name => {
            let mut real = setting.reserves.in_order();
            let mut reactive = setting.reactive_reserves.in_order();
            *reserve(&mut real, &mut reactive, name)? = figure;
            setting.reserves = Reserves::from_order(real);
            setting.reactive_reserves = ReactiveReserves::from_order(reactive);
        }
    }
    Some(())
}
