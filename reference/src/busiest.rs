//! The busiest day that a plan unit can be given: every count at its largest, each device a member
//! of every zone, and a plan that starts or stops every device in every interval. From edition 2 on
//! each device has two link lines and every reactive price, and reactive reserves while on;
//! from edition 3 on each block has a floor; in edition 5 devices of both sides are on each bar, with
//! a flow between.

use crate::batch::join;
use crate::case::{
    Block, Case, Device, EnergyKind, EnergyWindow, Link, LinkLine, ReactiveReserves, Reserves,
    Side, StartWindow, StartupState, Terms, Zone, MOST_ITEMS, MOST_SHORTFALLS, MOST_STATES,
    MOST_ZONES,
};
use crate::edition::Edition;
use crate::plan::{Plan, Setting};
use crate::worked_day::Day;

const MINUTES: i128 = 30;

/// The case, then the plan so many times; with fewer devices or intervals, for growth.
pub fn busiest_batch(edition: Edition, times: usize, devices: usize, intervals: usize) -> Vec<u8> {
    let (case, plan) = busiest_day(edition, devices, intervals).messages();
    let mut messages = vec![case];
    messages.resize(1 + times, plan);
    join(&messages)
}

fn busiest_day(edition: Edition, devices: usize, intervals: usize) -> Day {
    let mut day = Day {
        edition,
        case: case(devices, intervals),
        plan: plan(devices, intervals),
    };
    if edition.has_reactive_power() {
        add_reactive_power(&mut day);
    }
    if edition.has_floors() {
        add_floors(&mut day.case);
    }
    if edition.has_bars() {
        add_bars(&mut day);
    }
    day
}

/// Two devices on bar 0, two on bar 1, and so on; 20 kW from bar 0 to bar 1 in each interval.
fn add_bars(day: &mut Day) {
    for (number, device) in day.case.devices.iter_mut().enumerate() {
        device.bar = number / 2 % 2;
    }
    day.case.link_limit = 20;
    day.plan.flows.fill(20);
}

/// 10 kW of each of four blocks: of 50 kW, 10 are left to the best price.
fn add_floors(case: &mut Case) {
    let terms = case.devices.iter_mut().flat_map(|device| &mut device.terms);
    for block in terms.flat_map(|terms| &mut terms.blocks) {
        block.floor = 10;
    }
}

/// Prices, minima and lines everywhere; 20 kvar while on, with reserves below a line that cuts a
/// kvar: 40·n + 333 thousandths of 50 kW.
fn add_reactive_power(day: &mut Day) {
    for minima in day.case.zones.iter_mut().flat_map(|zone| &mut zone.minima) {
        *minima = [10; 4];
    }
    for device in &mut day.case.devices {
        device.link = Link::TwoLines {
            upper: LinkLine {
                offset: 40,
                slope: 333,
            },
            lower: LinkLine {
                offset: -40,
                slope: -333,
            },
        };
        for terms in &mut device.terms {
            (terms.qmin, terms.qmax) = (-100, 100);
            terms.reactive_prices = ReactiveReserves::from_order([1; 2]);
        }
    }
    for setting in day.plan.intervals.iter_mut().flatten() {
        if setting.on {
            setting.reactive_power = 20;
            setting.reactive_reserves = ReactiveReserves::from_order([3; 2]);
        }
    }
}

fn case(devices: usize, intervals: usize) -> Case {
    let zone = Zone {
        shares: [100; 4],
        shortfall_prices: [1; MOST_SHORTFALLS],
        minima: vec![[10, 10, 0, 0]; intervals],
    };
    Case {
        mismatch_price: 10,
        overrun_price: 1,
        link_limit: 0,
        durations: vec![MINUTES; intervals],
        zones: vec![zone; MOST_ZONES],
        devices: (0..devices)
            .map(|number| device(number, intervals))
            .collect(),
    }
}

fn device(number: usize, intervals: usize) -> Device {
    let day = MINUTES * intervals as i128;
    let side = [Side::Producing, Side::Consuming][number % 2];
    let terms = Terms {
        pmax: 200,
        blocks: (0..MOST_ITEMS as i128)
            .map(|price| Block::plain(100, price))
            .collect(),
        reserve_prices: Reserves::from_order([1; 8]),
        ..Terms::default()
    };
    let state = StartupState {
        longest_downtime: 600,
        cost: -100,
    };
    let starts = StartWindow {
        start: 0,
        end: day,
        most_starts: intervals as i128,
    };
    let energy = EnergyWindow {
        kind: EnergyKind::Maximum,
        start: 0,
        end: day,
        energy: 0,
    };
    Device {
        zone_bits: [true; MOST_ZONES],
        initially_on: true,
        startup_states: vec![state; MOST_STATES],
        start_windows: vec![starts; MOST_ITEMS],
        energy_windows: vec![energy; MOST_ITEMS],
        ..Device::plain(side, vec![terms; intervals])
    }
}

/// Off in the first interval, on in the second, and so on; up and down reserves while on.
fn plan(devices: usize, intervals: usize) -> Plan {
    let setting = |interval: usize| Setting {
        on: interval % 2 == 1,
        online_power: if interval % 2 == 1 { 50 } else { 0 },
        reserves: match interval % 2 {
            1 => Reserves::from_order([3, 3, 3, 0, 3, 0, 3, 0]),
            _ => Reserves::default(),
        },
        ..Setting::default()
    };
    let settings = (0..intervals).map(|interval| vec![setting(interval); devices]);
    Plan::plain(settings.collect())
}
