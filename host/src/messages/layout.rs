//! The one description of each message: its fields in their order, each with the name that the text
//! form gives it, its width and its range, in every edition.

use super::fields::{Field, Name, Step, Stop, Walk};
use super::model::{
    bars_of, needs_of, Block, Case, Cell, Chosen, Device, EnergyWindow, Interval, Kind, Line, Link,
    Outcome, Plan, Setting, StartWindow, Zone, BARS, FLOORS, LARGER, MOST_BLOCKS, MOST_ZONES,
    NEEDS, NEWEST_EDITION, REACTIVE, REAL_RESERVES, RESERVES, SHARED_NEEDS,
};

const FLAG: Field = Field::any(1);
const POWER: Field = Field::up_to(17, 100_000);
/// A reactive power, or a flow, of either sign.
const SIGNED_POWER: Field = Field::within(18, -100_000, 100_000);
const RESERVE_PRICE: Field = Field::up_to(14, 10_000);
const SLACK_PRICE: Field = Field::within(14, 1, 10_000);
const MINUTES: Field = Field::up_to(16, 60_000);
/// A minute of the day; that a window ends with the day is another check.
const MOMENT: Field = Field::any(16);
const RAMP: Field = Field::within(17, 1, 100_000);
const COST: Field = Field::up_to(30, 1_000_000_000);
const STATE_COST: Field = Field::within(31, -1_000_000_000, 1_000_000_000);
const BLOCK_PRICE: Field = Field::within(15, -10_000, 10_000);
const SLOPE: Field = Field::within(15, -10_000, 10_000);
const MINIMUM: Field = Field::up_to(23, 6_400_000);
const ZONES: Field = Field::up_to(3, 4);
const STATES: Field = Field::up_to(3, 3);
const ITEMS: Field = Field::up_to(3, 4);
const SHORTFALL: Field = Field::any(33);
const MISMATCH: Field = Field::any(23);
const OVERRUN: Field = Field::any(32);
const SURPLUS: Field = Field::within(64, i64::MIN, i64::MAX);

pub const RAMPS: [&str; 4] = ["up", "down", "starting", "stopping"];
pub const COSTS: [&str; 3] = ["on", "start", "stop"];

/// Somebody who goes over a message of an edition.
struct Over<'w> {
    walk: &'w mut dyn Walk,
    edition: i64,
}

impl Over<'_> {
    fn field(&mut self, name: Name, field: Field, value: &mut i64) -> Step {
        self.walk.field(name, field, value)
    }

    fn flag(&mut self, name: Name, value: &mut bool) -> Step {
        let mut bit = i64::from(*value);
        self.field(name, FLAG, &mut bit)?;
        *value = bit == 1;
        Ok(())
    }

    /// The length of a list, which gets it.
    fn count<T: Clone + Default>(&mut self, name: Name, field: Field, list: &mut Vec<T>) -> Step {
        let mut count = list.len() as i64;
        self.field(name, field, &mut count)?;
        list.resize(count as usize, T::default());
        Ok(())
    }

    fn is_since(&self, edition: i64) -> bool {
        self.edition >= edition
    }

    /// A field of the edition, before larger days and since.
    fn by_size(&self, before: Field, since: Field) -> Field {
        if self.is_since(LARGER) {
            since
        } else {
            before
        }
    }
}

/// Kind and edition; what stands behind them goes by the edition, of which one that is unknown is
/// taken for the newest.
fn head<'w>(walk: &'w mut dyn Walk, kind: Kind, edition: &mut i64) -> Result<Over<'w>, Stop> {
    let mut number = kind.number();
    let expected = Field::within(4, number, number);
    walk.field(&|| "kind".into(), expected, &mut number)?;
    if number != kind.number() {
        return Err(Stop);
    }
    let known = Field::within(4, 1, NEWEST_EDITION);
    walk.field(&|| "edition".into(), known, edition)?;
    let edition = *edition;
    Ok(Over { walk, edition })
}

/// The counts of devices and intervals.
fn counts(over: &mut Over, devices: &mut i64, intervals: &mut i64) -> Step {
    let few = over.by_size(Field::within(5, 1, 16), Field::within(7, 1, 64));
    over.field(&|| "count of sets".into(), few, devices)?;
    let few = over.by_size(Field::within(6, 1, 48), Field::within(7, 1, 96));
    over.field(&|| "count of intervals".into(), few, intervals)
}

pub fn case(walk: &mut dyn Walk, case: &mut Case) -> Step {
    let over = &mut head(walk, Kind::Case, &mut case.edition)?;
    let mut devices = case.devices.len() as i64;
    let mut intervals = case.intervals.len() as i64;
    counts(over, &mut devices, &mut intervals)?;
    over.count(&|| "count of zones".into(), ZONES, &mut case.zones)?;
    let price = &mut case.mismatch_price;
    over.field(&|| "mismatch price".into(), SLACK_PRICE, price)?;
    let price = &mut case.overrun_price;
    over.field(&|| "overrun price".into(), SLACK_PRICE, price)?;
    if over.is_since(BARS) {
        over.field(&|| "link limit".into(), POWER, &mut case.link_limit)?;
    }
    case.intervals
        .resize(intervals as usize, Interval::default());
    durations(over, &mut case.intervals)?;
    for (number, item) in (1..).zip(&mut case.zones) {
        zone(over, number, intervals as usize, item)?;
    }
    case.devices.resize(devices as usize, Device::default());
    for (number, item) in (1..).zip(&mut case.devices) {
        device(over, number, intervals as usize, item)?;
    }
    Ok(())
}

/// One behind the other, from minute 0; a message holds half of each duration.
fn durations(over: &mut Over, intervals: &mut [Interval]) -> Step {
    let mut start = 0;
    for (number, interval) in (1..).zip(intervals) {
        let mut half = interval.minutes() / 2;
        let name = || format!("half the minutes, interval {number}");
        over.field(&name, Field::within(8, 1, 180), &mut half)?;
        let end = start + 2 * half;
        *interval = Interval { start, end };
        start = end;
    }
    Ok(())
}

fn zone(over: &mut Over, number: usize, intervals: usize, zone: &mut Zone) -> Step {
    let needs = needs_of(over.edition);
    for (need, share) in NEEDS.iter().zip(&mut zone.shares) {
        let name = || format!("zone {number}: share {need}");
        over.field(&name, Field::up_to(10, 1_000), share)?;
    }
    for (need, price) in NEEDS[..needs].iter().zip(&mut zone.prices) {
        let name = || format!("zone {number}: shortfall price {need}");
        over.field(&name, Field::within(7, 1, 100), price)?;
    }
    zone.minima.resize(intervals, Default::default());
    for (interval, minima) in (1..).zip(&mut zone.minima) {
        for (need, minimum) in NEEDS[SHARED_NEEDS..needs].iter().zip(minima) {
            let name = || format!("zone {number}, interval {interval}: minimum {need}");
            over.field(&name, MINIMUM, minimum)?;
        }
    }
    Ok(())
}

fn device(over: &mut Over, number: usize, intervals: usize, device: &mut Device) -> Step {
    let of = |what: &str| format!("set {number}: {what}");
    initial(over, &of, device)?;
    terms(over, &of, device)?;
    states(over, &of, device)?;
    start_windows(over, &of, &mut device.start_windows)?;
    energy_windows(over, &of, &mut device.energy_windows)?;
    if over.is_since(REACTIVE) {
        link(over, &of, &mut device.link)?;
    }
    if over.is_since(BARS) {
        over.field(&|| of("bar"), FLAG, &mut device.bar)?;
    }
    device.cells.resize(intervals, Cell::default());
    for (interval, item) in (1..).zip(&mut device.cells) {
        let at = |what: &str| format!("set {number}, interval {interval}: {what}");
        cell(over, &at, item)?;
    }
    Ok(())
}

/// A name by what is said of a device, or of it in an interval.
type Of<'a> = &'a dyn Fn(&str) -> String;

fn initial(over: &mut Over, of: Of, device: &mut Device) -> Step {
    over.flag(&|| of("side"), &mut device.consuming)?;
    zones(over, of, &mut device.in_zone)?;
    over.flag(&|| of("initially on"), &mut device.initially_on)?;
    let power = &mut device.initial_power;
    over.field(&|| of("initially at kW"), POWER, power)?;
    let minutes = &mut device.minutes_already_so;
    over.field(&|| of("initially for min"), MINUTES, minutes)
}

/// One bit for each zone, zone 1 first.
fn zones(over: &mut Over, of: Of, in_zone: &mut [bool; MOST_ZONES]) -> Step {
    let add = |bits, member: &bool| 2 * bits + i64::from(*member);
    let mut bits = in_zone.iter().fold(0, add);
    over.field(&|| of("zones"), Field::any(MOST_ZONES), &mut bits)?;
    for (below, member) in in_zone.iter_mut().rev().enumerate() {
        *member = bits >> below & 1 == 1;
    }
    Ok(())
}

/// Minimum times, ramps, costs and reserve limits.
fn terms(over: &mut Over, of: Of, device: &mut Device) -> Step {
    over.field(&|| of("minimum up"), MINUTES, &mut device.minimum_up)?;
    over.field(&|| of("minimum down"), MINUTES, &mut device.minimum_down)?;
    let ramps = [
        &mut device.up_ramp,
        &mut device.down_ramp,
        &mut device.starting_ramp,
        &mut device.stopping_ramp,
    ];
    for (name, ramp) in RAMPS.iter().zip(ramps) {
        over.field(&|| of(&format!("ramp {name}")), RAMP, ramp)?;
    }
    over.field(&|| of("cost on"), POWER, &mut device.on_cost)?;
    over.field(&|| of("cost start"), COST, &mut device.start_cost)?;
    over.field(&|| of("cost stop"), COST, &mut device.stop_cost)?;
    for (name, limit) in RESERVES.iter().zip(&mut device.reserve_limits) {
        over.field(&|| of(&format!("limit {name}")), POWER, limit)?;
    }
    Ok(())
}

fn states(over: &mut Over, of: Of, device: &mut Device) -> Step {
    over.count(&|| of("state count"), STATES, &mut device.startup_states)?;
    for (number, state) in (1..).zip(&mut device.startup_states) {
        let part = |what: &str| of(&format!("state {number} {what}"));
        let downtime = &mut state.longest_downtime;
        over.field(&|| part("downtime"), MINUTES, downtime)?;
        over.field(&|| part("cost"), STATE_COST, &mut state.cost)?;
    }
    Ok(())
}

fn start_windows(over: &mut Over, of: Of, windows: &mut Vec<StartWindow>) -> Step {
    over.count(&|| of("starts count"), ITEMS, windows)?;
    let most = over.by_size(Field::up_to(6, 48), Field::up_to(7, 96));
    for (number, window) in (1..).zip(windows) {
        let part = |what: &str| of(&format!("starts {number} {what}"));
        over.field(&|| part("from"), MOMENT, &mut window.start)?;
        over.field(&|| part("until"), MOMENT, &mut window.end)?;
        over.field(&|| part("most"), most, &mut window.most_starts)?;
    }
    Ok(())
}

fn energy_windows(over: &mut Over, of: Of, windows: &mut Vec<EnergyWindow>) -> Step {
    over.count(&|| of("energy count"), ITEMS, windows)?;
    for (number, window) in (1..).zip(windows) {
        let part = |what: &str| of(&format!("energy {number} {what}"));
        over.flag(&|| part("kind"), &mut window.is_minimum)?;
        over.field(&|| part("from"), MOMENT, &mut window.start)?;
        over.field(&|| part("until"), MOMENT, &mut window.end)?;
        let energy = &mut window.energy;
        over.field(&|| part("kW min"), Field::up_to(32, 4_000_000_000), energy)?;
    }
    Ok(())
}

fn link(over: &mut Over, of: Of, link: &mut Link) -> Step {
    let mut kind = match link {
        Link::None => 0,
        Link::TwoLines { .. } => 1,
        Link::Equality(_) => 2,
    };
    over.field(&|| of("pq kind"), Field::up_to(2, 2), &mut kind)?;
    match (kind, &mut *link) {
        (0, _) => *link = Link::None,
        (1, Link::TwoLines { .. }) | (2, Link::Equality(_)) => {}
        (1, _) => {
            let (upper, lower) = Default::default();
            *link = Link::TwoLines { upper, lower };
        }
        (2, _) => *link = Link::Equality(Line::default()),
        _ => return Err(Stop),
    }
    match link {
        Link::None => Ok(()),
        Link::TwoLines { upper, lower } => {
            line(over, of, "upper", upper)?;
            line(over, of, "lower", lower)
        }
        Link::Equality(equality) => line(over, of, "equality", equality),
    }
}

fn line(over: &mut Over, of: Of, which: &str, line: &mut Line) -> Step {
    let part = |what: &str| of(&format!("pq {which} {what}"));
    over.field(&|| part("offset"), SIGNED_POWER, &mut line.offset)?;
    over.field(&|| part("slope"), SLOPE, &mut line.slope)
}

fn cell(over: &mut Over, at: Of, cell: &mut Cell) -> Step {
    status(over, at, &mut cell.fixed)?;
    over.field(&|| at("pmin"), POWER, &mut cell.pmin)?;
    over.field(&|| at("pmax"), POWER, &mut cell.pmax)?;
    blocks(over, at, &mut cell.blocks)?;
    let (real, reactive) = cell.prices.split_at_mut(REAL_RESERVES);
    reserve_prices(over, at, &RESERVES[..REAL_RESERVES], real)?;
    if over.is_since(REACTIVE) {
        over.field(&|| at("qmin"), SIGNED_POWER, &mut cell.qmin)?;
        over.field(&|| at("qmax"), SIGNED_POWER, &mut cell.qmax)?;
        reserve_prices(over, at, &RESERVES[REAL_RESERVES..], reactive)?;
    }
    Ok(())
}

fn status(over: &mut Over, at: Of, fixed: &mut Option<bool>) -> Step {
    let mut status = match fixed {
        None => 0,
        Some(true) => 1,
        Some(false) => 2,
    };
    over.field(&|| at("status"), Field::up_to(2, 2), &mut status)?;
    *fixed = match status {
        0 => None,
        1 => Some(true),
        2 => Some(false),
        _ => return Err(Stop),
    };
    Ok(())
}

fn blocks(over: &mut Over, at: Of, blocks: &mut Vec<Block>) -> Step {
    over.count(&|| at("block count"), ITEMS, blocks)?;
    for (number, block) in (1..).zip(blocks) {
        let part = |what: &str| at(&format!("block {number} {what}"));
        over.field(&|| part("cap"), POWER, &mut block.cap)?;
        if over.is_since(FLOORS) {
            over.field(&|| part("floor"), POWER, &mut block.floor)?;
        }
        over.field(&|| part("price"), BLOCK_PRICE, &mut block.price)?;
    }
    Ok(())
}

fn reserve_prices(over: &mut Over, at: Of, names: &[&str], prices: &mut [i64]) -> Step {
    for (name, price) in names.iter().zip(prices) {
        over.field(&|| at(&format!("price {name}")), RESERVE_PRICE, price)?;
    }
    Ok(())
}

pub fn plan(walk: &mut dyn Walk, plan: &mut Plan) -> Step {
    let over = &mut head(walk, Kind::Plan, &mut plan.edition)?;
    let mut devices = plan.rows.first().map_or(0, |row| row.settings.len()) as i64;
    let mut intervals = plan.rows.len() as i64;
    counts(over, &mut devices, &mut intervals)?;
    plan.rows.resize(intervals as usize, Default::default());
    for (interval, row) in (1..).zip(&mut plan.rows) {
        row.settings.resize(devices as usize, Setting::default());
        for (number, item) in (1..).zip(&mut row.settings) {
            let at = |what: &str| format!("set {number}, interval {interval}: {what}");
            setting(over, &at, item)?;
        }
        if over.is_since(BARS) {
            let name = || format!("flow, interval {interval}");
            over.field(&name, SIGNED_POWER, &mut row.flow)?;
        }
    }
    Ok(())
}

fn setting(over: &mut Over, at: Of, setting: &mut Setting) -> Step {
    over.flag(&|| at("on"), &mut setting.on)?;
    over.field(&|| at("power"), POWER, &mut setting.online)?;
    for (name, reserve) in RESERVES.iter().zip(&mut setting.reserves) {
        over.field(&|| at(name), POWER, reserve)?;
    }
    if over.is_since(REACTIVE) {
        let reactive = &mut setting.reactive;
        over.field(&|| at("q"), SIGNED_POWER, &mut reactive.q)?;
        over.field(&|| at("qru"), POWER, &mut reactive.qru)?;
        over.field(&|| at("qrd"), POWER, &mut reactive.qrd)?;
    }
    Ok(())
}

/// A completion or a market copy; of overruns there are as many as the outcome has beforehand.
pub fn outcome(walk: &mut dyn Walk, kind: Kind, outcome: &mut Outcome) -> Step {
    let over = &mut head(walk, kind, &mut outcome.edition)?;
    let first = outcome.rows.first();
    let mut devices = first.map_or(0, |row| row.choices.len()) as i64;
    let mut zones = first.map_or(0, |row| row.shortfalls.len()) as i64;
    let mut intervals = outcome.rows.len() as i64;
    counts(over, &mut devices, &mut intervals)?;
    over.field(&|| "count of zones".into(), ZONES, &mut zones)?;
    outcome.rows.resize(intervals as usize, Chosen::default());
    for (interval, row) in (1..).zip(&mut outcome.rows) {
        row.choices.resize(devices as usize, Default::default());
        row.shortfalls.resize(zones as usize, Default::default());
        chosen(over, kind, interval, row)?;
    }
    for (number, overrun) in (1..).zip(&mut outcome.overruns) {
        over.field(&|| format!("overrun {number}"), OVERRUN, overrun)?;
    }
    if kind == Kind::Completion {
        let surplus = outcome.surplus.get_or_insert(0);
        over.field(&|| "surplus".into(), SURPLUS, surplus)?;
    }
    Ok(())
}

fn chosen(over: &mut Over, kind: Kind, interval: usize, row: &mut Chosen) -> Step {
    for (number, choice) in (1..).zip(&mut row.choices) {
        let at = |what: &str| format!("set {number}, interval {interval}: {what}");
        over.flag(&|| at("started"), &mut choice.started)?;
        over.flag(&|| at("stopped"), &mut choice.stopped)?;
        if kind == Kind::Completion {
            over.field(&|| at("state"), Field::any(3), &mut choice.state)?;
            blocks_of(over, &at, &mut choice.blocks)?;
        }
    }
    let needs = &NEEDS[..needs_of(over.edition)];
    for (number, shortfalls) in (1..).zip(&mut row.shortfalls) {
        for (need, shortfall) in needs.iter().zip(shortfalls) {
            let name = || format!("zone {number}, interval {interval}: shortfall {need}");
            over.field(&name, SHORTFALL, shortfall)?;
        }
    }
    mismatches(over, interval, "mismatch", &mut row.mismatches)?;
    if over.is_since(REACTIVE) {
        let reactive = &mut row.reactive_mismatches;
        mismatches(over, interval, "reactive mismatch", reactive)?;
    }
    Ok(())
}

fn blocks_of(over: &mut Over, at: Of, blocks: &mut [i64; MOST_BLOCKS]) -> Step {
    for (number, power) in (1..).zip(blocks) {
        over.field(&|| at(&format!("block {number}")), Field::any(17), power)?;
    }
    Ok(())
}

fn mismatches(over: &mut Over, interval: usize, what: &str, figures: &mut [i64; 2]) -> Step {
    for (bar, figure) in (0..bars_of(over.edition)).zip(figures) {
        let name = || format!("bar {bar}, interval {interval}: {what}");
        over.field(&name, MISMATCH, figure)?;
    }
    Ok(())
}
