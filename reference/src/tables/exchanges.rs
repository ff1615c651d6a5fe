//! Rows that a reading breaks which takes one figure for another: a rule's limit, a reserve, the turn
//! of rule 27, the bar of a mismatch, the width or the place of a field.
//!
//! Unless a row says otherwise: one device in one interval of 10 minutes, pmin 0, pmax 100, a block
//! of 100 at 7, mismatch price 1.

use super::reactive::with_fields;
use super::{draft, Draft, Row};
use crate::case::{
    Block, EnergyKind, EnergyWindow, Link, LinkLine, Ramps, ReactiveReserves, Reserves, Side,
    StartWindow, StartupState, Zone,
};
use crate::edition::Edition;

/// Every row about exchanges; those whose lists are worked out come last.
pub(super) fn rows() -> Vec<Row> {
    let mut rows = limit_rows();
    rows.extend(forbidden_rows());
    rows.extend(offline_rows());
    rows.extend(mismatch_rows());
    rows.extend(whole_rows());
    rows.extend(refused_rows());
    rows.extend(turn_rows());
    rows
}

/// Eight limits, no two alike, "in order".
const LIMITS: [i128; 8] = [3, 5, 7, 9, 11, 13, 17, 19];

/// A device that stays on at 50 kW, or off, and holds these reserves.
fn holding(side: Side, on: bool, eight: [i128; 8]) -> Draft {
    let mut draft = draft(side, on, 10, &[on]);
    draft.setting(1).online_power = if on { 50 } else { 0 };
    draft.setting(1).reserves = Reserves::from_order(eight);
    draft
}

/// Rules 7 to 14, "against its limit": each sum at its own limit, and one above it.
fn limit_rows() -> Vec<Row> {
    let limited = |side, on, eight, about: &str| {
        let mut day = holding(side, on, eight);
        day.device().reserve_limits = Reserves::from_order(LIMITS);
        day.row(about)
    };
    let while_on = |eight, about| limited(Side::Producing, true, eight, about);
    let while_off = |eight, about| limited(Side::Producing, false, eight, about);
    let consuming = |eight, about| limited(Side::Consuming, false, eight, about);
    vec![
        while_on([3, 5, 4, 0, 4, 0, 12, 0], "on: five sums at their limits"),
        while_on([4, 5, 3, 0, 4, 0, 12, 0], "rgu 4 above 3"),
        while_on([3, 6, 4, 0, 4, 0, 11, 0], "rgd 6 above 5"),
        while_on([3, 5, 5, 0, 3, 0, 12, 0], "rgu and scr 8 above 7"),
        while_on([3, 5, 4, 0, 5, 0, 12, 0], "rgu, scr and rru_on 12 above 11"),
        while_on([3, 5, 4, 0, 4, 0, 13, 0], "rgd and rrd_on 18 above 17"),
        while_off([0, 0, 0, 9, 0, 4, 0, 0], "off: two sums at their limits"),
        while_off([0, 0, 0, 10, 0, 3, 0, 0], "nsc 10 above 9"),
        while_off([0, 0, 0, 9, 0, 5, 0, 0], "nsc and rru_off 14 above 13"),
        consuming([0, 0, 0, 0, 0, 0, 0, 19], "rrd_off at its limit"),
        consuming([0, 0, 0, 0, 0, 0, 0, 20], "rrd_off 20 above 19"),
    ]
}

/// Rule 15: each reserve that a side may not hold, alone.
fn forbidden_rows() -> Vec<Row> {
    let alone = |side, eight, about: &str| holding(side, false, eight).row(about);
    vec![
        alone(Side::Consuming, [0, 0, 0, 1, 0, 0, 0, 0], "consuming: nsc"),
        alone(
            Side::Consuming,
            [0, 0, 0, 0, 0, 1, 0, 0],
            "consuming: rru_off",
        ),
        alone(
            Side::Producing,
            [0, 0, 0, 0, 0, 0, 0, 1],
            "producing: rrd_off",
        ),
    ]
}

/// Rule 18 with pmax 25, where 10 kW are left of 30 kW: "psu+psd plus nsc+rru_off (producing) or
/// rrd_off (consuming)".
fn offline_rows() -> Vec<Row> {
    let stopping = |side, eight, about: &str| {
        let mut day = holding(side, false, eight);
        day.device().initially_on = true;
        day.device().initial_power = 30;
        day.device().ramps.stopping = 2;
        day.device().terms[0].pmax = 25;
        day.row(about)
    };
    let producing = |eight, about| stopping(Side::Producing, eight, about);
    let consuming = |eight, about| stopping(Side::Consuming, eight, about);
    vec![
        consuming([0, 0, 0, 0, 0, 0, 0, 15], "psd and rrd_off at pmax"),
        consuming([0, 0, 0, 0, 0, 0, 0, 16], "psd and rrd_off above pmax"),
        producing([0, 0, 0, 8, 0, 7, 0, 0], "psd, nsc and rru_off at pmax"),
        producing([0, 0, 0, 9, 0, 7, 0, 0], "psd, nsc 9 and rru_off above"),
        producing([0, 0, 0, 8, 0, 8, 0, 0], "psd, nsc and rru_off 8 above"),
    ]
}

/// A day in edition 5 of a producing device on bar 0, at 20 kW and 5 kvar, and a consuming one on
/// another bar, at 30 kW and 3 kvar.
fn pair(bar: usize, flow: i128) -> Draft {
    let mut pair = draft(Side::Producing, true, 10, &[true]);
    pair.edition = Edition::Five;
    pair.case.link_limit = 6;
    pair.plan.flows[0] = flow;
    pair.device().terms[0].qmax = 5;
    pair.add_twin();
    pair.case.devices[1].side = Side::Consuming;
    pair.case.devices[1].bar = bar;
    let settings = &mut pair.plan.intervals[0];
    (settings[0].online_power, settings[0].reactive_power) = (20, 5);
    (settings[1].online_power, settings[1].reactive_power) = (30, 3);
    pair
}

/// Four mismatches, no two alike: "Each bar has its own mismatch, real and reactive".
fn mismatch_rows() -> Vec<Row> {
    vec![
        pair(1, 6).row("14 and 24 kW, 5 and 3 kvar of mismatch"),
        pair(1, -6).row("26 and 36 kW, 5 and 3 kvar of mismatch"),
        pair(0, 6).row("16 and 6 kW, 2 kvar and none of mismatch"),
    ]
}

/// A day of an edition with one of everything that its messages have, hardly a figure of them 0 and
/// hardly two alike.
fn whole_day(edition: Edition) -> Draft {
    let mut day = draft(Side::Producing, false, 10, &[true]);
    day.edition = edition;
    (day.case.mismatch_price, day.case.overrun_price) = (2, 3);
    day.case.zones.push(Zone {
        shares: [100, 200, 300, 400],
        shortfall_prices: [1, 2, 3, 4, 5, 6, 1, 1],
        minima: vec![[5, 6, 0, 0]],
    });
    set_whole_device(&mut day);
    let setting = day.setting(1);
    setting.online_power = 60;
    setting.reserves = Reserves::from_order([1, 2, 3, 0, 4, 0, 5, 0]);
    if edition.has_reactive_power() {
        add_reactive_power(&mut day);
    }
    if edition.has_floors() {
        let blocks = &mut day.device().terms[0].blocks;
        (blocks[0].floor, blocks[1].floor) = (2, 1);
    }
    if edition.has_bars() {
        day.case.link_limit = 6;
        day.device().bar = 1;
        day.plan.flows[0] = -5;
    }
    day
}

/// The device of such a day, with as many most starts as the edition allows.
fn set_whole_device(day: &mut Draft) {
    let most_starts = day.edition.most_starts().most as i128;
    let device = day.device();
    device.zone_bits[0] = true;
    (device.minutes_already_so, device.initial_power) = (100, 1);
    (device.minimum_up, device.minimum_down) = (11, 12);
    device.ramps = Ramps {
        up: 101,
        down: 102,
        starting: 103,
        stopping: 104,
    };
    (device.on_cost, device.start_cost, device.stop_cost) = (13, 14, 15);
    device.reserve_limits = Reserves::from_order(LIMITS);
    device.startup_states.push(StartupState {
        longest_downtime: 200,
        cost: -16,
    });
    device.start_windows.push(StartWindow {
        start: 0,
        end: 10,
        most_starts,
    });
    device.energy_windows.push(EnergyWindow {
        kind: EnergyKind::Maximum,
        start: 1,
        end: 9,
        energy: 17,
    });
    let terms = &mut device.terms[0];
    (terms.pmin, terms.pmax) = (18, 90);
    terms.blocks = vec![Block::plain(50, 7), Block::plain(40, -8)];
    terms.reserve_prices = Reserves::from_order([1, 2, 3, 4, 5, 6, 7, 8]);
}

fn add_reactive_power(day: &mut Draft) {
    let zone = &mut day.case.zones[0];
    zone.shortfall_prices = [1, 2, 3, 4, 5, 6, 7, 8];
    zone.minima = vec![[5, 6, 7, 8]];
    let line = |offset, slope| LinkLine { offset, slope };
    day.device().link = Link::TwoLines {
        upper: line(30, 500),
        lower: line(-40, -600),
    };
    let terms = &mut day.device().terms[0];
    (terms.qmin, terms.qmax) = (-25, 26);
    terms.reactive_prices = ReactiveReserves { qru: 9, qrd: 10 };
    let setting = day.setting(1);
    setting.reactive_power = -7;
    setting.reactive_reserves = ReactiveReserves { qru: 1, qrd: 2 };
}

/// Whole messages of each edition.
fn whole_rows() -> Vec<Row> {
    Edition::ALL
        .into_iter()
        .map(|edition| {
            let about = format!("every field of edition {}", edition.figure());
            whole_day(edition).row(&about)
        })
        .collect()
}

/// An edition past the newest. Most starts one above the edition's: behind a header of 53 bits, in
/// edition 5 of 70, 8 of a duration, 188 of the zone, 352 of the device, 3 and 47 of its state, 3
/// and 32 of the window.
fn refused_rows() -> Vec<Row> {
    let of_edition_4 = whole_day(Edition::Four);
    let of_edition_5 = whole_day(Edition::Five);
    vec![
        with_fields(&of_edition_5, "edition 6", &[(4, 4, 6)]),
        with_fields(&of_edition_4, "edition 4: 97 starts", &[(686, 7, 97)]),
        with_fields(&of_edition_5, "edition 5: 97 starts", &[(703, 7, 97)]),
    ]
}

/// "Rule 27 [...] stands after an interval's devices": rules of a device and rule 27 in one
/// interval.
fn turn_rows() -> Vec<Row> {
    let mut alone = pair(1, 7);
    alone.setting(1).reserves.rgu = 21;
    let mut last = pair(1, -7);
    last.plan.intervals[0][1].reserves.rgd = 21;
    last.case.durations.push(10);
    for device in &mut last.case.devices {
        device.terms.push(device.terms[0].clone());
    }
    let mut settings = last.plan.intervals[0].clone();
    settings[0].reserves.rgu = 21;
    settings[1].reserves.rgd = 0;
    last.plan.intervals.push(settings);
    last.plan.flows.push(6);
    vec![
        alone.row("device 1 breaks rule 7 and its like, then rule 27"),
        last.row("device 2 breaks rule 8 and its like, then rule 27, then device 1 in interval 2"),
    ]
}
