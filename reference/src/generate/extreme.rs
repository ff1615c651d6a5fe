//! Days with the greatest figures that messages can say: a very low and a very high surplus, and
//! the most breaches.

use crate::case::{
    Block, Case, Device, EnergyKind, EnergyWindow, Link, LinkLine, Ramps, ReactiveReserves,
    Reserves, Side, StartWindow, StartupState, Status, Terms, Zone, MOST_ITEMS, MOST_SHORTFALLS,
    MOST_STATES, MOST_ZONES,
};
use crate::edition::Edition;
use crate::form::Largest;
use crate::plan::{Plan, Setting};
use crate::worked_day::Day;

const HIGHEST_COST: i128 = 1_000_000_000;
const HIGHEST_PRICE: i128 = 10_000;
const HIGHEST_POWER: i128 = 100_000;

/// The greatest minimum, over nothing.
const UNMET: EnergyWindow = EnergyWindow {
    kind: EnergyKind::Minimum,
    start: 0,
    end: 0,
    energy: 4_000_000_000,
};

/// Every price and every need as great as it can be, no reserve anywhere: consuming devices that pay
/// for their power, in all four zones, each with four energy minima over nothing. From edition 2 on
/// also every reactive need, and 100,000 kvar of each device that nothing produces; from edition 3
/// on all power in the last block, whose floor asks for it; in edition 5 the greatest flow from the
/// bar of all devices to the other.
pub fn very_low_surplus_day(edition: Edition, largest: Largest) -> Day {
    let device = Device {
        zone_bits: [true; MOST_ZONES],
        on_cost: 100_000,
        start_cost: HIGHEST_COST,
        stop_cost: HIGHEST_COST,
        energy_windows: vec![UNMET; MOST_ITEMS],
        ..device(largest, Side::Consuming, -HIGHEST_PRICE, HIGHEST_COST)
    };
    let zone = Zone {
        shares: [1_000; 4],
        shortfall_prices: [100, 100, 100, 100, 100, 100, 1, 1],
        minima: vec![[HIGHEST_MINIMUM, HIGHEST_MINIMUM, 0, 0]; largest.intervals],
    };
    let case = Case {
        mismatch_price: HIGHEST_PRICE,
        overrun_price: HIGHEST_PRICE,
        link_limit: 0,
        durations: vec![LONGEST; largest.intervals],
        zones: vec![zone; MOST_ZONES],
        devices: vec![device; largest.devices],
    };
    let mut day = full_day(edition, case);
    if edition.has_reactive_power() {
        set_greatest_reactive_needs(&mut day);
    }
    if edition.has_floors() {
        set_greatest_floors(&mut day.case);
    }
    if edition.has_bars() {
        set_greatest_flows(&mut day);
    }
    day
}

fn set_greatest_flows(day: &mut Day) {
    day.case.link_limit = HIGHEST_POWER;
    day.plan.flows.fill(HIGHEST_POWER);
}

/// The greatest floor in the last block of each device and interval.
fn set_greatest_floors(case: &mut Case) {
    let terms = case.devices.iter_mut().flat_map(|device| &mut device.terms);
    for last in terms.filter_map(|terms| terms.blocks.last_mut()) {
        last.floor = HIGHEST_POWER;
    }
}

const HIGHEST_MINIMUM: i128 = 6_400_000;

/// Every reactive figure at its greatest, and no reactive reserve.
fn set_greatest_reactive_needs(day: &mut Day) {
    for zone in &mut day.case.zones {
        zone.shortfall_prices = [100; MOST_SHORTFALLS];
        zone.minima.fill([HIGHEST_MINIMUM; 4]);
    }
    set_greatest_reactive_terms(&mut day.case);
    for setting in day.plan.intervals.iter_mut().flatten() {
        setting.reactive_power = HIGHEST_POWER;
    }
}

/// Limits, prices and lines at the ends of their ranges.
fn set_greatest_reactive_terms(case: &mut Case) {
    let highest_line = LinkLine {
        offset: HIGHEST_POWER,
        slope: HIGHEST_SLOPE,
    };
    let lowest_line = LinkLine {
        offset: -HIGHEST_POWER,
        slope: -HIGHEST_SLOPE,
    };
    for device in &mut case.devices {
        device.link = Link::TwoLines {
            upper: highest_line,
            lower: lowest_line,
        };
        for terms in &mut device.terms {
            (terms.qmin, terms.qmax) = (-HIGHEST_POWER, HIGHEST_POWER);
            terms.reactive_prices = ReactiveReserves::from_order([HIGHEST_PRICE; 2]);
        }
    }
}

const HIGHEST_SLOPE: i128 = 10_000;

/// The very high surplus day in edition 2 with as much of both reactive reserves as a device can
/// hold, at the highest price, and no zone that needs them.
pub fn costly_reactive_reserves_day() -> Day {
    let mut day = very_high_surplus_day(Edition::Two, Largest::SMALL);
    set_greatest_reactive_terms(&mut day.case);
    for setting in day.plan.intervals.iter_mut().flatten() {
        setting.reactive_reserves = ReactiveReserves::from_order([HIGHEST_POWER; 2]);
    }
    day
}

/// As many producing devices, paid for their power, as consuming ones at the highest price; no
/// zones; each start in a state of the lowest cost.
pub fn very_high_surplus_day(edition: Edition, largest: Largest) -> Day {
    let producing = device(largest, Side::Producing, -HIGHEST_PRICE, -HIGHEST_COST);
    let consuming = device(largest, Side::Consuming, HIGHEST_PRICE, -HIGHEST_COST);
    let case = Case {
        mismatch_price: 1,
        overrun_price: 1,
        link_limit: 0,
        durations: vec![LONGEST; largest.intervals],
        zones: Vec::new(),
        devices: [
            vec![producing; largest.devices / 2],
            vec![consuming; largest.devices / 2],
        ]
        .concat(),
    };
    full_day(edition, case)
}

/// The most breaches that a plan can have: devices that are switched in every interval, so that each
/// breaks 15 rules in each interval, rule 2 in every other, in which it is on, rule 3 or 4 in all but
/// the first, and rule 20 in four windows. From edition 2 on four rules more in each interval: 21 to
/// 24, or, of a device whose link is an equality, 21, 22, 25 and 26. In edition 5 rule 27 in each
/// interval.
///
/// No plan has more. Rules 5 and 6 are never broken at one place, nor rules 3 and 4; each interval
/// more away from the initial state breaks rule 2 once more and is two switches less. No link is of
/// two kinds.
pub fn most_breaches_day(edition: Edition, largest: Largest) -> Day {
    let mut day = most_breaches_without_reactive_power(edition, largest);
    if edition.has_reactive_power() {
        add_most_reactive_breaches(&mut day);
    }
    if edition.has_bars() {
        day.plan.flows.fill(1);
    }
    day
}

/// Limits and lines of 0, and both reserves as great as can be; every fourth device, two of either
/// side, with an equality that its power is far from.
fn add_most_reactive_breaches(day: &mut Day) {
    let line = |slope| LinkLine { offset: 0, slope };
    for (number, device) in day.case.devices.iter_mut().enumerate() {
        device.link = match number / 2 % 4 {
            0 => Link::Equality(line(1)),
            _ => Link::TwoLines {
                upper: line(0),
                lower: line(0),
            },
        };
    }
    for setting in day.plan.intervals.iter_mut().flatten() {
        setting.reactive_reserves = ReactiveReserves::from_order([HIGHEST_POWER; 2]);
    }
}

fn most_breaches_without_reactive_power(edition: Edition, largest: Largest) -> Day {
    const POWER_ON: i128 = 50_000;
    const POWER_OFF: i128 = 25_000;
    let is_on = |t: usize| t.is_multiple_of(2);
    let terms = |t: usize| Terms {
        status: if is_on(t) { Status::Off } else { Status::On },
        ..Terms::default()
    };
    let setting = |t: usize| Setting {
        on: is_on(t),
        online_power: if is_on(t) { POWER_ON } else { POWER_OFF },
        reserves: Reserves::from_order([HIGHEST_POWER; 8]),
        ..Setting::default()
    };
    let device = |number: usize| {
        let side = [Side::Producing, Side::Consuming][number % 2];
        never_allowed(side, (0..largest.intervals).map(terms).collect())
    };
    Day {
        edition,
        case: Case {
            mismatch_price: 1,
            overrun_price: 1,
            link_limit: 0,
            durations: vec![SHORTEST; largest.intervals],
            zones: Vec::new(),
            devices: (0..largest.devices).map(device).collect(),
        },
        plan: Plan::plain(
            (0..largest.intervals)
                .map(|t| vec![setting(t); largest.devices])
                .collect(),
        ),
    }
}

/// The shortest and the longest interval, in minutes.
const SHORTEST: i128 = 2;
const LONGEST: i128 = 360;

/// Off, with the longest minima, the slowest ramps, no reserve limits and no start allowed.
fn never_allowed(side: Side, terms: Vec<Terms>) -> Device {
    let no_start = StartWindow {
        start: 0,
        end: SHORTEST * terms.len() as i128,
        most_starts: 0,
    };
    Device {
        minimum_up: 60_000,
        minimum_down: 60_000,
        ramps: Ramps {
            up: 1,
            down: 1,
            starting: 1,
            stopping: 1,
        },
        reserve_limits: Reserves::default(),
        start_windows: vec![no_start; MOST_ITEMS],
        ..Device::plain(side, terms)
    }
}

/// Initially off, without costs; every block at one price, every state at one cost.
fn device(largest: Largest, side: Side, price: i128, state_cost: i128) -> Device {
    let block = Block::plain(HIGHEST_POWER, price);
    let terms = Terms {
        status: Status::On,
        pmin: HIGHEST_POWER,
        pmax: HIGHEST_POWER,
        blocks: vec![block; MOST_ITEMS],
        reserve_prices: Reserves::from_order([HIGHEST_PRICE; 8]),
        ..Terms::default()
    };
    let state = StartupState {
        longest_downtime: 60_000,
        cost: state_cost,
    };
    let window = StartWindow {
        start: 0,
        end: LONGEST * largest.intervals as i128,
        most_starts: 1,
    };
    Device {
        initial_power: HIGHEST_POWER,
        minutes_already_so: 60_000,
        minimum_up: 60_000,
        minimum_down: 60_000,
        ramps: Ramps {
            up: 100_000,
            down: 100_000,
            starting: 100_000,
            stopping: 100_000,
        },
        reserve_limits: Reserves::from_order([HIGHEST_POWER; 8]),
        startup_states: vec![state; MOST_STATES],
        start_windows: vec![window; MOST_ITEMS],
        ..Device::plain(side, vec![terms; largest.intervals])
    }
}

/// Every device on at the highest power all day, without reserves.
fn full_day(edition: Edition, case: Case) -> Day {
    let setting = Setting {
        on: true,
        online_power: HIGHEST_POWER,
        ..Setting::default()
    };
    let settings = vec![setting; case.devices.len()];
    Day {
        edition,
        plan: Plan::plain(vec![settings; case.intervals()]),
        case,
    }
}
