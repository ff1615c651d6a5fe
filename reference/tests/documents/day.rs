//! A day as the documents write it: changes, one behind the other, and what its messages become.

use reference::batch::join;
use reference::bits::overwrite;
use reference::case::{
    Block, Case, Device, EnergyKind, EnergyWindow, Link, LinkLine, Ramps, ReactiveReserves,
    Reserves, Side, StartWindow, StartupState, Status, Terms, Zone,
};
use reference::edition::Edition;
use reference::encode::{encode_case, encode_plan};
use reference::plan::{Plan, Setting};
use reference::rewrite::{rewrite_case, rewrite_plan};
use reference::worked_day::Day;

use crate::text::{number, numbers};

pub type Told<T> = Result<T, String>;

const PRODUCTS: [&str; 8] = [
    "rgu", "rgd", "scr", "nsc", "rru_on", "rru_off", "rrd_on", "rrd_off",
];
const SHORTFALLS: [&str; 8] = ["rgu", "rgd", "scr", "nsc", "rru", "rrd", "qru", "qrd"];
const MINIMA: [&str; 4] = ["rru", "rrd", "qru", "qrd"];

/// Room for every completion, list and message of the days here.
pub const ROOM: usize = 1 << 20;

/// What is done to the bytes of a message.
#[derive(Clone)]
enum Edit {
    Cut(usize),
    AddByte(u8),
    Bits(usize, usize, i128),
}

/// What is asked of the day.
#[derive(Clone, PartialEq)]
pub enum Asked {
    /// A verdict, with a result buffer of so many bytes if it is said.
    Verdict(Option<usize>),
    /// The list of breaches, in a buffer of so many bytes if it is said.
    List(Option<usize>),
    /// The lines of the batch program for this batch.
    Lines(Vec<u8>),
    /// The case, or the plan with its case, written in the newest edition, in a buffer of so many
    /// bytes if it is said.
    Writing(Message, Option<usize>),
    /// The market's copy, in a buffer of so many bytes if it is said.
    Market(Option<usize>),
    /// The smallest change of one online power that mends the plan.
    Mend,
    /// The plan so many times in one call, in a buffer of so many bytes if it is said.
    Many(usize, Option<usize>),
    /// The cheapest dispatch: interval, target, devices in the order named, their earlier powers.
    Dispatch {
        interval: u64,
        target: u64,
        devices: Vec<u64>,
        earlier: Vec<u64>,
    },
}

#[derive(Clone, Copy, PartialEq)]
pub enum Message {
    Case,
    Plan,
}

/// A day with its changes.
#[derive(Clone)]
pub struct Sheet {
    pub day: Day,
    plan_edition: Option<Edition>,
    case_edits: Vec<Edit>,
    plan_edits: Vec<Edit>,
    /// Whether both messages are written in the newest edition.
    newest: bool,
    pub asked: Asked,
}

impl Sheet {
    /// A day of no interval and no device.
    pub fn empty() -> Sheet {
        let case = Case {
            mismatch_price: 1,
            overrun_price: 1,
            link_limit: 0,
            durations: Vec::new(),
            zones: Vec::new(),
            devices: Vec::new(),
        };
        Sheet::of(Day {
            edition: Edition::One,
            case,
            plan: Plan::plain(Vec::new()),
        })
    }

    /// A day as it stands.
    pub fn of(day: Day) -> Sheet {
        Sheet {
            day,
            plan_edition: None,
            case_edits: Vec::new(),
            plan_edits: Vec::new(),
            newest: false,
            asked: Asked::Verdict(None),
        }
    }

    /// The day with changes that stand behind one another with `;`.
    pub fn with(mut self, changes: &str) -> Told<Sheet> {
        for change in changes.split(';').map(str::trim).filter(|c| !c.is_empty()) {
            let words: Vec<&str> = change.split_whitespace().collect();
            self.change(&words).map_err(|e| format!("{change}: {e}"))?;
        }
        if self.newest {
            self.told_messages()?;
        }
        Ok(self)
    }

    fn change(&mut self, words: &[&str]) -> Told<()> {
        match words {
            ["device", d, rest @ ..] => self.device_change(place(d)?, rest),
            ["zone", z, rest @ ..] => self.zone_change(place(z)?, rest),
            ["plan" | "case" | "result" | "list" | "batch" | "write" | "newest" | "market"
            | "mend" | "plans", ..] => self.message_change(words),
            ["dispatch", interval, "to", target, named @ ..] => {
                self.asked = dispatch(interval, target, named)?;
                Ok(())
            }
            _ => self.day_change(words),
        }
    }

    fn day_change(&mut self, words: &[&str]) -> Told<()> {
        match words {
            ["edition", e] => self.day.edition = edition(e)?,
            ["intervals", lengths @ ..] => self.set_intervals(numbers(lengths)?),
            ["add", n, "intervals"] => {
                let last = *self.day.case.durations.last().ok_or("no interval yet")?;
                let mut all = self.day.case.durations.clone();
                all.extend(vec![last; size(n)?]);
                self.set_intervals(all);
            }
            ["add", n, "devices"] => (0..size(n)?).for_each(|_| self.add_idle_device()),
            ["devices", "in", "order", numbers @ ..] => return self.rearrange(numbers),
            ["mismatch", "price", v] => self.day.case.mismatch_price = number(v)?,
            ["overrun", "price", v] => self.day.case.overrun_price = number(v)?,
            ["DC", "limit", v] => self.day.case.link_limit = number(v)?,
            ["flow", series @ ..] => self.day.plan.flows = self.series(series)?,
            _ => return Err("no such change".into()),
        }
        Ok(())
    }

    /// One figure for all intervals, or one for each.
    fn series(&self, words: &[&str]) -> Told<Vec<i128>> {
        let intervals = self.day.case.intervals();
        let said = numbers(words)?;
        match said.len() {
            1 => Ok(vec![said[0]; intervals]),
            n if n == intervals => Ok(said),
            n => Err(format!("{n} figures for {intervals} intervals")),
        }
    }

    /// Sets the durations; an interval that is new is as the last one before.
    fn set_intervals(&mut self, durations: Vec<i128>) {
        let Day { case, plan, .. } = &mut self.day;
        let count = durations.len();
        case.durations = durations;
        for device in &mut case.devices {
            let last = device.terms.last().cloned().unwrap_or_default();
            device.terms.resize(count, last);
        }
        for zone in &mut case.zones {
            zone.minima.resize(count, [0; 4]);
        }
        let idle = vec![Setting::default(); case.devices.len()];
        let last = plan.intervals.last().cloned().unwrap_or(idle);
        plan.intervals.resize(count, last);
        plan.flows.resize(count, 0);
    }

    fn add_device(&mut self, side: Side) {
        let terms = vec![Terms::default(); self.day.case.intervals()];
        self.day.case.devices.push(Device::plain(side, terms));
        for settings in &mut self.day.plan.intervals {
            settings.push(Setting::default());
        }
    }

    /// A consuming device that is on at 0 kW all day.
    fn add_idle_device(&mut self) {
        self.add_device(Side::Consuming);
        let device = self.day.case.devices.last_mut().expect("one was added");
        device.initially_on = true;
        for settings in &mut self.day.plan.intervals {
            settings.last_mut().expect("one was added").on = true;
        }
    }

    /// The devices of case and plan in the order in which their old numbers are named.
    fn rearrange(&mut self, numbers: &[&str]) -> Told<()> {
        let old: Vec<usize> = numbers.iter().map(|n| place(n)).collect::<Told<_>>()?;
        let mut each = old.clone();
        each.sort();
        if !each.into_iter().eq(0..self.day.case.devices.len()) {
            return Err("each device once".into());
        }
        let Day { case, plan, .. } = &mut self.day;
        case.devices = old.iter().map(|i| case.devices[*i].clone()).collect();
        for settings in &mut plan.intervals {
            *settings = old.iter().map(|i| settings[*i].clone()).collect();
        }
        Ok(())
    }

    fn zone_change(&mut self, z: usize, words: &[&str]) -> Told<()> {
        let minimum = match words {
            ["minimum", _, series @ ..] => self.series(series)?,
            _ => Vec::new(),
        };
        let case = &mut self.day.case;
        if z == case.zones.len() {
            case.zones.push(Zone::plain(case.durations.len()));
        }
        let zone = case.zones.get_mut(z).ok_or("no such zone")?;
        match words {
            ["share", p, v] => zone.shares[among(&SHORTFALLS[..4], p)?] = number(v)?,
            ["price", p, v] => zone.shortfall_prices[among(&SHORTFALLS, p)?] = number(v)?,
            ["minimum", p, ..] => {
                let k = among(&MINIMA, p)?;
                for (minima, v) in zone.minima.iter_mut().zip(minimum) {
                    minima[k] = v;
                }
            }
            _ => return Err("no such change of a zone".into()),
        }
        Ok(())
    }

    fn device_change(&mut self, d: usize, words: &[&str]) -> Told<()> {
        match words {
            ["producing"] if d == self.day.case.devices.len() => self.add_device(Side::Producing),
            ["consuming"] if d == self.day.case.devices.len() => self.add_device(Side::Consuming),
            ["status", said @ ..] => return self.status_change(d, said),
            ["on" | "power" | "q" | "qru" | "qrd", series @ ..] => {
                return self.setting_change(d, words[0], series)
            }
            ["pmin" | "pmax" | "qmin" | "qmax", series @ ..] => {
                return self.terms_change(d, words[0], series)
            }
            ["price", p, series @ ..] => return self.price_change(d, p, series),
            ["block", k, what, series @ ..] => {
                return self.block_change(d, place(k)?, what, series)
            }
            [product, series @ ..] if PRODUCTS.contains(product) => {
                return self.setting_change(d, product, series)
            }
            _ => {
                let device = self.day.case.devices.get_mut(d).ok_or("no such device")?;
                return plain_change(device, words);
            }
        }
        Ok(())
    }

    fn status_change(&mut self, d: usize, said: &[&str]) -> Told<()> {
        let device = self.day.case.devices.get_mut(d).ok_or("no such device")?;
        if said.len() != device.terms.len() {
            return Err("one status for each interval".into());
        }
        for (terms, word) in device.terms.iter_mut().zip(said) {
            terms.status = match *word {
                "free" => Status::Free,
                "on" => Status::On,
                "off" => Status::Off,
                _ => return Err("no such status".into()),
            };
        }
        Ok(())
    }

    fn terms_change(&mut self, d: usize, what: &str, series: &[&str]) -> Told<()> {
        let series = self.series(series)?;
        let device = self.day.case.devices.get_mut(d).ok_or("no such device")?;
        for (terms, v) in device.terms.iter_mut().zip(series) {
            match what {
                "pmin" => terms.pmin = v,
                "pmax" => terms.pmax = v,
                "qmin" => terms.qmin = v,
                _ => terms.qmax = v,
            }
        }
        Ok(())
    }

    fn price_change(&mut self, d: usize, product: &str, series: &[&str]) -> Told<()> {
        let series = self.series(series)?;
        let device = self.day.case.devices.get_mut(d).ok_or("no such device")?;
        for (terms, v) in device.terms.iter_mut().zip(series) {
            match product {
                "qru" => terms.reactive_prices.qru = v,
                "qrd" => terms.reactive_prices.qrd = v,
                _ => set_product(&mut terms.reserve_prices, product, v)?,
            }
        }
        Ok(())
    }

    fn block_change(&mut self, d: usize, k: usize, what: &str, series: &[&str]) -> Told<()> {
        let series = self.series(series)?;
        let device = self.day.case.devices.get_mut(d).ok_or("no such device")?;
        for (terms, v) in device.terms.iter_mut().zip(series) {
            if k == terms.blocks.len() {
                terms.blocks.push(Block::plain(0, 0));
            }
            let block = terms.blocks.get_mut(k).ok_or("no such block")?;
            match what {
                "cap" => block.cap = v,
                "floor" => block.floor = v,
                "price" => block.price = v,
                _ => return Err("no such figure of a block".into()),
            }
        }
        Ok(())
    }

    fn setting_change(&mut self, d: usize, what: &str, series: &[&str]) -> Told<()> {
        let series = self.series(series)?;
        for (settings, v) in self.day.plan.intervals.iter_mut().zip(series) {
            let setting = settings.get_mut(d).ok_or("no such device")?;
            match what {
                "on" => setting.on = v == 1,
                "power" => setting.online_power = v,
                "q" => setting.reactive_power = v,
                "qru" => {
                    setting.reactive_reserves = ReactiveReserves {
                        qru: v,
                        ..setting.reactive_reserves
                    }
                }
                "qrd" => {
                    setting.reactive_reserves = ReactiveReserves {
                        qrd: v,
                        ..setting.reactive_reserves
                    }
                }
                _ => set_product(&mut setting.reserves, what, v)?,
            }
        }
        Ok(())
    }

    fn message_change(&mut self, words: &[&str]) -> Told<()> {
        match words {
            ["plan", "edition", e] => self.plan_edition = Some(edition(e)?),
            ["result", n, "bytes"] => self.asked = Asked::Verdict(Some(size(n)?)),
            ["list"] => self.asked = Asked::List(None),
            ["list", n, "bytes"] => self.asked = Asked::List(Some(size(n)?)),
            ["newest", "edition"] => self.newest = true,
            ["market"] => self.asked = Asked::Market(None),
            ["mend"] => self.asked = Asked::Mend,
            ["plans", count] => self.asked = Asked::Many(size(count)?, None),
            ["plans", count, "in", n, "bytes"] => {
                self.asked = Asked::Many(size(count)?, Some(size(n)?))
            }
            ["market", n, "bytes"] => self.asked = Asked::Market(Some(size(n)?)),
            ["write", which] => self.asked = Asked::Writing(message(which)?, None),
            ["write", which, n, "bytes"] => {
                self.asked = Asked::Writing(message(which)?, Some(size(n)?))
            }
            ["batch", "of", rest @ ..] => self.asked = Asked::Lines(self.batch_of(rest)?),
            ["batch", "cut", n] => match &mut self.asked {
                Asked::Lines(batch) => batch.truncate(size(n)?),
                _ => return Err("no batch yet".into()),
            },
            ["plan", rest @ ..] => self.plan_edits.push(edit(rest)?),
            ["case", rest @ ..] => self.case_edits.push(edit(rest)?),
            _ => return Err("no such change of a message".into()),
        }
        Ok(())
    }

    /// A batch of messages that stand behind one another with commas.
    fn batch_of(&self, words: &[&str]) -> Told<Vec<u8>> {
        let mut messages = Vec::new();
        for part in words.join(" ").split(',') {
            let words: Vec<&str> = part.split_whitespace().collect();
            let (case, plan) = self.messages();
            let message = match words.first() {
                Some(&"case") => case,
                Some(&"plan") => plan,
                _ => return Err(format!("{part}: no message")),
            };
            messages.push(match &words[1..] {
                [] => message,
                rest => edited(message, &[edit(rest)?])?,
            });
        }
        Ok(join(&messages))
    }

    /// Whether nothing is done to the bytes of the messages.
    pub fn is_unedited(&self) -> bool {
        self.plan_edition.is_none() && self.case_edits.is_empty() && self.plan_edits.is_empty()
    }

    /// The bytes of the case and of the plan, with what is done to them.
    pub fn messages(&self) -> (Vec<u8>, Vec<u8>) {
        self.told_messages().expect("what is done can be done")
    }

    fn told_messages(&self) -> Told<(Vec<u8>, Vec<u8>)> {
        let Day {
            edition,
            case,
            plan,
        } = &self.day;
        let case = encode_case(*edition, case).bytes;
        let plan = encode_plan(self.plan_edition.unwrap_or(*edition), plan).bytes;
        let case = edited(case, &self.case_edits)?;
        let plan = edited(plan, &self.plan_edits)?;
        if self.newest {
            return in_newest(&case, &plan);
        }
        Ok((case, plan))
    }
}

/// A case and its plan, written in the newest edition.
pub fn in_newest(case: &[u8], plan: &[u8]) -> Told<(Vec<u8>, Vec<u8>)> {
    let (mut new_case, mut new_plan) = (vec![0; ROOM], vec![0; ROOM]);
    let case_bytes = rewrite_case(case, &mut new_case).map_err(|e| format!("{e:?}"))?;
    let plan_bytes = rewrite_plan(case, plan, &mut new_plan).map_err(|e| format!("{e:?}"))?;
    new_case.truncate(case_bytes);
    new_plan.truncate(plan_bytes);
    Ok((new_case, new_plan))
}

fn message(word: &str) -> Told<Message> {
    match word {
        "case" => Ok(Message::Case),
        "plan" => Ok(Message::Plan),
        _ => Err(format!("{word}: no message")),
    }
}

fn plain_change(device: &mut Device, words: &[&str]) -> Told<()> {
    match words {
        ["initially", state @ ("on" | "off"), minutes, "at", power] => {
            device.initially_on = *state == "on";
            device.minutes_already_so = number(minutes)?;
            device.initial_power = number(power)?;
        }
        ["minimum", "up", v] => device.minimum_up = number(v)?,
        ["minimum", "down", v] => device.minimum_down = number(v)?,
        ["ramps", figures @ ..] => device.ramps = ramps(&numbers(figures)?)?,
        ["costs", on, start, stop] => {
            device.on_cost = number(on)?;
            device.start_cost = number(start)?;
            device.stop_cost = number(stop)?;
        }
        ["limits", v] => device.reserve_limits = Reserves::from_order([number(v)?; 8]),
        ["state", k, longest, cost] => {
            return put_state(device, place(k)?, number(longest)?, number(cost)?)
        }
        ["zone", z] => *device.zone_bits.get_mut(place(z)?).ok_or("no such zone")? = true,
        ["bar", b] => device.bar = size(b)?,
        ["p-q", rest @ ..] => device.link = link(rest)?,
        [kind, "window", span, "at", bound, v] => {
            return put_window(device, [kind, bound], window(span)?, number(v)?)
        }
        _ => return Err("no such change of a device".into()),
    }
    Ok(())
}

/// One window more: of starts, or of energy with either bound.
fn put_window(
    device: &mut Device,
    kind: [&str; 2],
    (start, end): (i128, i128),
    figure: i128,
) -> Told<()> {
    let kind = match kind {
        ["start", "most"] => {
            device.start_windows.push(StartWindow {
                start,
                end,
                most_starts: figure,
            });
            return Ok(());
        }
        ["energy", "most"] => EnergyKind::Maximum,
        ["energy", "least"] => EnergyKind::Minimum,
        _ => return Err("no such window".into()),
    };
    device.energy_windows.push(EnergyWindow {
        kind,
        start,
        end,
        energy: figure,
    });
    Ok(())
}

fn ramps(figures: &[i128]) -> Told<Ramps> {
    match *figures {
        [up, down, starting, stopping] => Ok(Ramps {
            up,
            down,
            starting,
            stopping,
        }),
        _ => Err("four ramps".into()),
    }
}

fn put_state(device: &mut Device, k: usize, longest_downtime: i128, cost: i128) -> Told<()> {
    let state = StartupState {
        longest_downtime,
        cost,
    };
    let states = &mut device.startup_states;
    if k == states.len() {
        states.push(state);
    }
    *states.get_mut(k).ok_or("no such state")? = state;
    Ok(())
}

fn link(words: &[&str]) -> Told<Link> {
    let line = |offset: &str, slope: &str| -> Told<LinkLine> {
        Ok(LinkLine {
            offset: number(offset)?,
            slope: number(slope)?,
        })
    };
    match words {
        ["lines", u, v, "and", l, m] => Ok(Link::TwoLines {
            upper: line(u, v)?,
            lower: line(l, m)?,
        }),
        ["equality", u, v] => Ok(Link::Equality(line(u, v)?)),
        _ => Err("no such p-q link".into()),
    }
}

fn window(span: &str) -> Told<(i128, i128)> {
    let (start, end) = span.split_once("..").ok_or("no window")?;
    Ok((number(start)?, number(end)?))
}

fn edit(words: &[&str]) -> Told<Edit> {
    match words {
        ["cut", n] => Ok(Edit::Cut(size(n)?)),
        ["add", "byte", v] => Ok(Edit::AddByte(size(v)? as u8)),
        ["bits", at, width, "hold", v] => Ok(Edit::Bits(size(at)?, size(width)?, number(v)?)),
        _ => Err("no such change of a message".into()),
    }
}

fn edited(mut bytes: Vec<u8>, edits: &[Edit]) -> Told<Vec<u8>> {
    for edit in edits {
        match *edit {
            Edit::Cut(n) if n < bytes.len() => bytes.truncate(n),
            Edit::Cut(_) => return Err("the message is no longer than that".into()),
            Edit::AddByte(v) => bytes.push(v),
            Edit::Bits(at, width, _) if at + width > 8 * bytes.len() => {
                return Err("the message has no such bits".into())
            }
            Edit::Bits(at, width, v) => overwrite(&mut bytes, at, width, v),
        }
    }
    Ok(bytes)
}

fn set_product(reserves: &mut Reserves, product: &str, v: i128) -> Told<()> {
    let mut eight = reserves.in_order();
    eight[among(&PRODUCTS, product)?] = v;
    *reserves = Reserves::from_order(eight);
    Ok(())
}

/// The place of a word in a list.
pub fn among(words: &[&str], word: &str) -> Told<usize> {
    let at = words.iter().position(|w| *w == word);
    at.ok_or(format!("{word}: no such product"))
}

/// The place, from 0, of what the documents count from 1.
pub fn place(word: &str) -> Told<usize> {
    size(word)?.checked_sub(1).ok_or("counted from 1".into())
}

pub fn size(word: &str) -> Told<usize> {
    usize::try_from(number(word)?).map_err(|e| format!("{word}: {e}"))
}

pub fn edition(word: &str) -> Told<Edition> {
    Edition::numbered(number(word)?).ok_or(format!("{word}: no such edition"))
}

pub const ZONE_PRODUCTS: [&str; 8] = SHORTFALLS;

/// A dispatch of an interval to a target: `device D at V` for each that stays on.
fn dispatch(interval: &str, target: &str, named: &[&str]) -> Told<Asked> {
    let (mut devices, mut earlier) = (Vec::new(), Vec::new());
    for one in named.chunks(4) {
        let ["device", device, "at", power] = one else {
            return Err("no device with its earlier power".into());
        };
        devices.push(size(device)? as u64);
        earlier.push(size(power)? as u64);
    }
    Ok(Asked::Dispatch {
        interval: size(interval)? as u64,
        target: size(target)? as u64,
        devices,
        earlier,
    })
}
