//! The figures of the desk program's words, beside the reference: every field that is read, the
//! forced powers, and the rules that the figures break.

mod common;

use common::{each_case, each_pair};
use host::day::Day;
use host::explain::{explain, Breach};
use host::messages::{
    intervals_of, read_case, read_plan, Block, Case, Cell, Device, EnergyWindow, Line, Link, Plan,
    Reactive, Row, Setting, StartWindow, StartupState, Zone,
};
use reference::breaches::breaches_of;
use reference::case::{self, Reserves, Side, Status};
use reference::clock::spans;
use reference::edition::Edition;
use reference::forced::forced;
use reference::plan;

fn small(figure: i128) -> i64 {
    i64::try_from(figure).expect("a figure of a message")
}

fn eight(reserves: &Reserves) -> [i64; 8] {
    reserves.in_order().map(small)
}

/// The reference's case.
fn case_of(edition: Edition, case: &case::Case) -> Case {
    Case {
        edition: small(edition.figure()),
        zones: case.zones.iter().map(zone_of).collect(),
        mismatch_price: small(case.mismatch_price),
        overrun_price: small(case.overrun_price),
        link_limit: small(case.link_limit),
        intervals: intervals_of(&case.durations.iter().map(|&d| small(d)).collect::<Vec<_>>()),
        devices: case.devices.iter().map(device_of).collect(),
    }
}

fn zone_of(zone: &case::Zone) -> Zone {
    Zone {
        shares: zone.shares.map(small),
        prices: zone.shortfall_prices.map(small),
        minima: zone.minima.iter().map(|minima| minima.map(small)).collect(),
    }
}

fn link_of(link: &case::Link) -> Link {
    let line = |line: &case::LinkLine| Line {
        offset: small(line.offset),
        slope: small(line.slope),
    };
    match link {
        case::Link::None => Link::None,
        case::Link::TwoLines { upper, lower } => Link::TwoLines {
            upper: line(upper),
            lower: line(lower),
        },
        case::Link::Equality(equality) => Link::Equality(line(equality)),
    }
}

fn device_of(device: &case::Device) -> Device {
    Device {
        name: String::new(),
        consuming: device.side == Side::Consuming,
        in_zone: device.zone_bits,
        initially_on: device.initially_on,
        initial_power: small(device.initial_power),
        minutes_already_so: small(device.minutes_already_so),
        minimum_up: small(device.minimum_up),
        minimum_down: small(device.minimum_down),
        up_ramp: small(device.ramps.up),
        down_ramp: small(device.ramps.down),
        starting_ramp: small(device.ramps.starting),
        stopping_ramp: small(device.ramps.stopping),
        on_cost: small(device.on_cost),
        start_cost: small(device.start_cost),
        stop_cost: small(device.stop_cost),
        reserve_limits: eight(&device.reserve_limits),
        startup_states: device.startup_states.iter().map(state_of).collect(),
        start_windows: device.start_windows.iter().map(window_of).collect(),
        energy_windows: device.energy_windows.iter().map(energy_of).collect(),
        link: link_of(&device.link),
        bar: device.bar as i64,
        cells: device.terms.iter().map(cell_of).collect(),
    }
}

fn state_of(state: &case::StartupState) -> StartupState {
    StartupState {
        longest_downtime: small(state.longest_downtime),
        cost: small(state.cost),
    }
}

fn energy_of(window: &case::EnergyWindow) -> EnergyWindow {
    EnergyWindow {
        is_minimum: window.kind == case::EnergyKind::Minimum,
        start: small(window.start),
        end: small(window.end),
        energy: small(window.energy),
    }
}

fn window_of(window: &case::StartWindow) -> StartWindow {
    StartWindow {
        start: small(window.start),
        end: small(window.end),
        most_starts: small(window.most_starts),
    }
}

fn cell_of(terms: &case::Terms) -> Cell {
    Cell {
        fixed: match terms.status {
            Status::Free => None,
            Status::On => Some(true),
            Status::Off => Some(false),
        },
        pmin: small(terms.pmin),
        pmax: small(terms.pmax),
        blocks: terms.blocks.iter().map(block_of).collect(),
        prices: prices_of(terms),
        qmin: small(terms.qmin),
        qmax: small(terms.qmax),
    }
}

fn block_of(block: &case::Block) -> Block {
    Block {
        cap: small(block.cap),
        floor: small(block.floor),
        price: small(block.price),
    }
}

/// Those of the eight, then of the two reactive reserves.
fn prices_of(terms: &case::Terms) -> [i64; 10] {
    let reactive = terms.reactive_prices.in_order().map(small);
    let mut prices = eight(&terms.reserve_prices).to_vec();
    prices.extend(reactive);
    prices.try_into().expect("ten prices")
}

fn plan_of(edition: Edition, plan: &plan::Plan) -> Plan {
    let setting = |setting: &plan::Setting| Setting {
        on: setting.on,
        online: small(setting.online_power),
        reserves: eight(&setting.reserves),
        reactive: Reactive {
            q: small(setting.reactive_power),
            qru: small(setting.reactive_reserves.qru),
            qrd: small(setting.reactive_reserves.qrd),
        },
    };
    let row = |(settings, flow): (&Vec<plan::Setting>, &i128)| Row {
        settings: settings.iter().map(setting).collect(),
        flow: small(*flow),
    };
    Plan {
        edition: small(edition.figure()),
        rows: plan.intervals.iter().zip(&plan.flows).map(row).collect(),
    }
}

#[test]
fn messages_hold_the_references_figures() {
    // Of each edition.
    let (mut cases, mut plans) = ([0; Edition::ALL.len()], [0; Edition::ALL.len()]);
    each_case(|message, messages| {
        let Ok((edition, case)) = case::read_case(message) else {
            return;
        };
        let read = read_case(message).expect("the case passes reading");
        assert_eq!(read, case_of(edition, &case));
        let index = edition as usize;
        cases[index] += 1;
        for message in messages {
            if let Ok(plan) = plan::read_plan(edition, &case, message) {
                assert_eq!(read_plan(&read, message), Some(plan_of(edition, &plan)));
                plans[index] += 1;
            }
        }
    });
    assert!(cases.iter().all(|&count| count > 100), "{cases:?}");
    assert!(plans.iter().all(|&count| count > 500), "{plans:?}");
}

/// Calls `visit` with every pair of the corpus that passes reading, read by both sides.
fn each_day(mut visit: impl FnMut(&Day, &case::Case, &plan::Plan)) {
    each_pair(|case_message, plan_message| {
        let Ok((edition, case)) = case::read_case(case_message) else {
            return;
        };
        if let Ok(plan) = plan::read_plan(edition, &case, plan_message) {
            let day = Day::read(case_message, plan_message).expect("both pass reading");
            visit(&day, &case, &plan);
        }
    });
}

#[test]
fn forced_figures_are_the_references() {
    each_day(|day, case, plan| {
        let expected = forced(case, &spans(&case.durations), plan);
        for (j, forced) in expected.iter().enumerate() {
            for t in 0..case.intervals() {
                let point = day.point(t + 1, j + 1).expect("a place of the case");
                let commitment = &forced.commitment;
                assert_eq!(point.starts(), commitment.started[t]);
                assert_eq!(point.stops(), commitment.stopped[t]);
                assert_eq!(i128::from(point.startup_power()), commitment.psu[t]);
                assert_eq!(i128::from(point.shutdown_power()), commitment.psd[t]);
                assert_eq!(i128::from(point.power()), forced.power[t]);
                let n: i64 = point.counted().iter().sum();
                assert_eq!(i128::from(n), commitment.bracket[t]);
            }
        }
    });
}

/// Every place that a breach could have, in the order of a list.
fn places(day: &Day) -> impl Iterator<Item = Breach> {
    let byte = |count: usize| u8::try_from(count).expect("a count");
    let (intervals, devices) = (byte(day.case.intervals.len()), byte(day.case.devices.len()));
    let in_intervals = (1..=intervals).flat_map(move |interval| {
        let cells = (1..=devices).flat_map(move |device| {
            let rules = (1..=19).chain(21..=26);
            rules.map(move |rule| Breach::from([rule, interval, device, 0]))
        });
        cells.chain([Breach::from([27, interval, 0, 0])])
    });
    let windows = (1..=devices)
        .flat_map(|device| (1..=4).map(move |window| Breach::from([20, 0, device, window])));
    in_intervals.chain(windows)
}

/// Every rule that the reference lists is borne out, and no other.
#[test]
fn figures_break_the_rules_of_the_list_alone() {
    let mut listed = 0;
    each_day(|day, case, plan| {
        let borne_out = places(day).filter(|breach| explain(day, *breach).is_some());
        let expected = breaches_of(case, plan).into_iter().map(|place| {
            let byte = |number: usize| u8::try_from(number).expect("a place's number");
            let [interval, device, window] = [place.interval, place.device, place.window].map(byte);
            Breach::from([place.rule, interval, device, window])
        });
        assert!(borne_out.eq(expected.inspect(|_| listed += 1)));
    });
    assert!(listed > 50_000);
}

/// A breach that is not of the day, or that no rule has, is never told.
#[test]
fn places_outside_the_day_are_not_told() {
    each_day(|day, _, _| {
        let (intervals, devices) = (day.case.intervals.len() as u8, day.case.devices.len() as u8);
        for rule in 0..=255 {
            // Rule 27 alone is of no device.
            let of_no_device = (rule != 27).then_some([rule, 1, 0, 0]);
            let outside = [
                [rule, 0, 0, 0],
                [rule, 0, 1, 0],
                [rule, 1, 0, 1],
                [rule, intervals + 1, 0, 0],
                [rule, intervals + 1, 1, 0],
                [rule, 1, devices + 1, 0],
                [rule, 1, 1, 1],
                [rule, 0, 1, 5],
            ];
            for breach in outside.into_iter().chain(of_no_device) {
                assert_eq!(explain(day, Breach::from(breach)), None);
            }
        }
    });
}

/// A message that is cut, longer, of another kind or of an unknown edition has no figures here.
#[test]
fn what_does_not_pass_reading_has_no_figures() {
    let (mut cut, mut longer) = (0, 0);
    each_case(|message, _| {
        if case::read_case(message).is_err() {
            return;
        }
        assert_eq!(read_case(&message[..message.len() - 1]), None);
        cut += 1;
        assert_eq!(read_case(&[message, &[0]].concat()), None);
        longer += 1;
        for first in [0x10, 0x16, 0x1f, 0x21, 0x01] {
            assert_eq!(read_case(&[&[first], &message[1..]].concat()), None);
        }
    });
    assert!(cut > 300 && longer > 300);
}
