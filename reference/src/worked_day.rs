//! "A two-set day": the paper's worked case, its plan, the variations (a) to (m), and those of
//! editions 2, 3 and 5 that were worked by hand.
//!
//! Only what is given as input stands here; the figures given as results are in the tests.

use crate::batch::join;
use crate::case::{
    Block, Case, Device, EnergyKind, EnergyWindow, Link, LinkLine, Ramps, Side, StartWindow,
    StartupState, Terms, Zone,
};
use crate::edition::Edition;
use crate::encode::{encode_case, encode_plan};
use crate::plan::{Plan, Setting};

/// A case and a plan of it, and the edition of both.
#[derive(Clone, PartialEq, Eq, Debug)]
pub struct Day {
    pub edition: Edition,
    pub case: Case,
    pub plan: Plan,
}

impl Day {
    /// The messages of the case and of the plan.
    pub fn messages(&self) -> (Vec<u8>, Vec<u8>) {
        (
            encode_case(self.edition, &self.case).bytes,
            encode_plan(self.edition, &self.plan).bytes,
        )
    }
}

/// "Two 60-minute intervals, no zones or windows, mismatch price 1,000, overrun price 1; unnamed
/// figures 0, reserve limits 20." With the plan "1 off, then 150; 2 at 30, then 150; no reserves."
pub fn two_set_day() -> Day {
    let unit = |side, terms: Terms| Device {
        minutes_already_so: 600,
        ..Device::plain(side, vec![terms.clone(), terms])
    };
    let terms = |pmin, blocks: &[Block]| Terms {
        pmin,
        pmax: 200,
        blocks: blocks.to_vec(),
        ..Terms::default()
    };
    let block = Block::plain;
    let state = |longest_downtime, cost| StartupState {
        longest_downtime,
        cost,
    };
    let device_1 = Device {
        minimum_up: 60,
        minimum_down: 60,
        ramps: Ramps {
            up: 10,
            down: 10,
            starting: 2,
            stopping: 2,
        },
        on_cost: 4,
        start_cost: 10_000,
        startup_states: vec![state(480, -2_000), state(700, -500)],
        ..unit(Side::Producing, terms(150, &[block(100, 3), block(100, 5)]))
    };
    let device_2 = Device {
        initially_on: true,
        initial_power: 30,
        ..unit(Side::Consuming, terms(0, &[block(200, 20)]))
    };
    let off = Setting::default();
    let on = |online_power| Setting {
        on: true,
        online_power,
        ..Setting::default()
    };
    Day {
        edition: Edition::One,
        case: Case {
            mismatch_price: 1_000,
            overrun_price: 1,
            link_limit: 0,
            durations: vec![60, 60],
            zones: Vec::new(),
            devices: vec![device_1, device_2],
        },
        plan: Plan::plain(vec![vec![off, on(30)], vec![on(150), on(150)]]),
    }
}

/// The day of each letter, (a) to (m) in order.
pub fn lettered_days() -> Vec<(char, Day)> {
    ('a'..='m')
        .map(|letter| (letter, lettered_day(letter)))
        .collect()
}

fn lettered_day(letter: char) -> Day {
    let mut day = two_set_day();
    let device_1 = &mut day.case.devices[0];
    match letter {
        'a' => {}
        'b' => {
            day.plan.intervals[1][0].online_power = 151;
            day.plan.intervals[1][1].online_power = 151;
        }
        'c' => device_1.minutes_already_so = 640,
        'd' => device_1.minutes_already_so = 641,
        'e' => day.plan.intervals[1][1].online_power = 149,
        'f' => (device_1.minutes_already_so, device_1.minimum_down) = (10, 70),
        'g' => (device_1.minutes_already_so, device_1.minimum_down) = (10, 71),
        'h' => add_zone_of_both(&mut day.case),
        'i' => {
            add_zone_of_both(&mut day.case);
            day.plan.intervals[1][0].reserves.rgu = 5;
        }
        'j' => device_1.start_windows.push(no_start_in(60, 120)),
        'k' => device_1.start_windows.push(no_start_in(0, 60)),
        'l' => device_1.energy_windows.push(no_energy_in(60, 90)),
        'm' => device_1.energy_windows.push(no_energy_in(60, 89)),
        _ => panic!("the paper marks (a) to (m)"),
    }
    day
}

/// (h) "a zone of both, rgu share 50, shortfall prices 1".
fn add_zone_of_both(case: &mut Case) {
    case.zones.push(Zone {
        shares: [50, 0, 0, 0],
        ..Zone::plain(2)
    });
    for device in &mut case.devices {
        device.zone_bits[0] = true;
    }
}

fn no_start_in(start: i128, end: i128) -> StartWindow {
    StartWindow {
        start,
        end,
        most_starts: 0,
    }
}

fn no_energy_in(start: i128, end: i128) -> EnergyWindow {
    EnergyWindow {
        kind: EnergyKind::Maximum,
        start,
        end,
        energy: 0,
    }
}

/// What a day of a later edition is about, and the day.
pub type ToldDay = (&'static str, Day);

/// The two-set day of edition 2 after a change; "unnamed additions neutral".
fn reactive_day(change: impl Fn(&mut Day)) -> Day {
    let mut day = Day {
        edition: Edition::Two,
        ..two_set_day()
    };
    change(&mut day);
    day
}

/// The days of edition 2 that were worked by hand, in order.
pub fn reactive_days() -> Vec<ToldDay> {
    [plain_reactive_days(), linked_days()].concat()
}

/// The load of device 2 with 1 kvar in interval 1, alone and with what is held beside it.
fn plain_reactive_days() -> Vec<ToldDay> {
    let one_kvar = |day: &mut Day, j: usize| {
        day.case.devices[j].terms[0].qmax = 1;
        day.plan.intervals[0][j].reactive_power = 1;
    };
    let load = reactive_day(|day| one_kvar(day, 1));
    let mut balanced = load.clone();
    one_kvar(&mut balanced, 0);
    let mut with_qrd = load.clone();
    with_qrd.plan.intervals[0][1].reactive_reserves.qrd = 1;
    let mut with_qru = load.clone();
    with_qru.case.devices[1].terms[0].reactive_prices.qru = 7;
    with_qru.plan.intervals[0][1].reactive_reserves.qru = 1;
    let mut in_zone = with_qru.clone();
    add_reactive_zone(&mut in_zone.case);
    vec![
        ("1 kvar of load: a reactive mismatch", load),
        ("1 kvar of load and of the starting set", balanced),
        ("1 kvar of load and qrd 1, qmax 1", with_qrd),
        ("1 kvar of load and qru 1 at price 7", with_qru),
        ("the same in a zone: minima qru 2, then qrd 1", in_zone),
    ]
}

/// "minima qru 2 in interval 1, qrd 1 in interval 2, prices 3 and 5".
fn add_reactive_zone(case: &mut Case) {
    case.zones.push(Zone {
        shortfall_prices: [1, 1, 1, 1, 1, 1, 3, 5],
        minima: vec![[0, 0, 2, 0], [0, 0, 0, 1]],
        ..Zone::plain(2)
    });
    for device in &mut case.devices {
        device.zone_bits[0] = true;
    }
}

/// Device 1 with two lines, then with an equality; mismatch price 1.
fn linked_days() -> Vec<ToldDay> {
    let two_lines = |q, qru| {
        reactive_day(|day| {
            day.case.mismatch_price = 1;
            day.case.devices[0].link = Link::TwoLines {
                upper: line(0, 333),
                lower: line(-100, 0),
            };
            day.case.devices[0].terms[1].qmax = 100;
            day.plan.intervals[1][0].reactive_power = q;
            day.plan.intervals[1][0].reactive_reserves.qru = qru;
        })
    };
    let equality = |slope| {
        reactive_day(|day| {
            day.case.mismatch_price = 1;
            day.case.devices[0].link = Link::Equality(line(1, slope));
            for terms in &mut day.case.devices[0].terms {
                (terms.qmin, terms.qmax) = (-100, 100);
            }
            day.plan.intervals[0][0].reactive_power = 7;
            day.plan.intervals[1][0].reactive_power = 31;
        })
    };
    vec![
        ("49 kvar below a line at 49.95", two_lines(49, 0)),
        ("50 kvar above a line at 49.95", two_lines(50, 0)),
        ("49 kvar and qru 1 above a line at 49.95", two_lines(49, 1)),
        ("equality 1 and 200: 7, then 31 kvar", equality(200)),
        ("equality 1 and 201: 7.03 kvar", equality(201)),
    ]
}

fn line(offset: i128, slope: i128) -> LinkLine {
    LinkLine { offset, slope }
}

/// The days of edition 3 that were worked by hand, in order.
pub fn floor_days() -> Vec<ToldDay> {
    let with_floors = |floors: [i128; 2]| {
        let mut day = Day {
            edition: Edition::Three,
            ..two_set_day()
        };
        for terms in &mut day.case.devices[0].terms {
            for (block, floor) in terms.blocks.iter_mut().zip(floors) {
                block.floor = floor;
            }
        }
        day
    };
    vec![
        ("floors 0 and 80 of device 1", with_floors([0, 80])),
        (
            "floors 71 and 80 of device 1, above 150 kW",
            with_floors([71, 80]),
        ),
    ]
}

/// The days of edition 5 that were worked by hand, in order: device 2 on bar 1.
pub fn link_days() -> Vec<ToldDay> {
    let linked = |link_limit, flows: [i128; 2]| {
        let mut day = Day {
            edition: Edition::Five,
            ..two_set_day()
        };
        day.case.link_limit = link_limit;
        day.case.devices[1].bar = 1;
        day.plan.flows = flows.to_vec();
        day
    };
    vec![
        ("two bars in balance at the limit", linked(150, [30, 150])),
        ("150 kW above a limit of 149", linked(149, [30, 150])),
        ("30 kW the wrong way", linked(150, [-30, 150])),
    ]
}

/// The batch of the paper's example: "the case, plan (a), plan (b), and a plan of its first byte
/// only".
pub fn example_batch() -> Vec<u8> {
    let (case, plan_a) = lettered_day('a').messages();
    let (_, plan_b) = lettered_day('b').messages();
    let first_byte = plan_a[..1].to_vec();
    join(&[case, plan_a, plan_b, first_byte])
}
