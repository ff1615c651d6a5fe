//! Each rule at its edge: kept, and broken by one. The figures are worked out by hand from the
//! worked day: device 1 (producing) off, then 150 with psu 30; device 2 (consuming) 30, then 150.

use reference::case::{Reserves, StartWindow, Status};
use reference::judge::{find, Finding};
use reference::plan::Plan;
use reference::rules::Place;
use reference::worked_day::{two_set_day, Day};

/// What judging the worked day gives after a change: (rule, interval, device, window) if broken.
fn broken_after(change: impl Fn(&mut Day)) -> Option<(u8, usize, usize, usize)> {
    let mut day = two_set_day();
    change(&mut day);
    match find(day.edition, &day.case, &day.plan) {
        Finding::Accepted { .. } => None,
        Finding::Broken(Place {
            rule,
            interval,
            device,
            window,
        }) => Some((rule, interval, device, window)),
    }
}

/// Holds that a change keeps every rule at `kept` and breaks one, where stated, at `beyond`.
fn edge(
    kept: i128,
    beyond: i128,
    place: (u8, usize, usize, usize),
    change: impl Fn(&mut Day, i128),
) {
    assert_eq!(broken_after(|day| change(day, kept)), None, "{kept}");
    assert_eq!(
        broken_after(|day| change(day, beyond)),
        Some(place),
        "{beyond}"
    );
}

/// Device 2 off in interval 1, its ramps steep enough for that.
fn stop_device_2_at_first(day: &mut Day) {
    day.plan.intervals[0][1].on = false;
    day.plan.intervals[0][1].online_power = 0;
}

#[test]
fn rule_1_status() {
    let fix = |status, t: usize, j: usize| {
        broken_after(|day| day.case.devices[j].terms[t].status = status)
    };
    assert_eq!(fix(Status::Off, 0, 0), None);
    assert_eq!(fix(Status::On, 0, 0), Some((1, 1, 1, 0)));
    assert_eq!(fix(Status::On, 1, 0), None);
    assert_eq!(fix(Status::Off, 1, 0), Some((1, 2, 1, 0)));
    assert_eq!(fix(Status::Off, 0, 1), Some((1, 1, 2, 0)));
}

#[test]
fn rule_2_initial_state() {
    // Off: held while S + 10 < minimum down; S is 60 at the start.
    edge(70, 71, (2, 2, 1, 0), |day, minimum| {
        day.case.devices[0].minutes_already_so = 10;
        day.case.devices[0].minimum_down = minimum;
    });
    // On: the up minimum; 600 minutes at time 0.
    edge(600, 601, (2, 1, 2, 0), |day, minimum| {
        stop_device_2_at_first(day);
        day.case.devices[1].minimum_up = minimum;
    });
    // The other minimum is not meant.
    assert_eq!(
        broken_after(|day| day.case.devices[0].minimum_up = 60_000),
        None
    );
}

#[test]
fn rule_3_minimum_down() {
    edge(60, 61, (3, 2, 2, 0), |day, minimum| {
        stop_device_2_at_first(day);
        day.case.devices[1].minimum_down = minimum;
    });
}

#[test]
fn rule_4_minimum_up() {
    edge(60, 61, (4, 2, 2, 0), |day, minimum| {
        let device = &mut day.case.devices[1];
        device.initially_on = false;
        device.minimum_up = minimum;
        day.plan.intervals[1][1].on = false;
        day.plan.intervals[1][1].online_power = 0;
    });
}

#[test]
fn rule_5_rise() {
    // While on: up ramp 2 for 60 minutes from 30.
    edge(150, 151, (5, 2, 2, 0), |day, power| {
        day.case.devices[1].ramps.up = 2;
        day.plan.intervals[1][1].online_power = power;
    });
    // At a start: the starting ramp, from psu 30, though the up ramp is 10.
    edge(150, 151, (5, 2, 1, 0), |day, power| {
        day.plan.intervals[1][0].online_power = power;
    });
    // While off: the starting ramp. pmin 270 gives psu 150 in interval 1, 120 above 30.
    let steep = |day: &mut Day| {
        for terms in &mut day.case.devices[0].terms {
            terms.pmax = 300;
            terms.blocks[0].cap = 300;
        }
        day.case.devices[0].terms[1].pmin = 270;
        day.plan.intervals[1][0].online_power = 270;
    };
    edge(30, 29, (5, 1, 1, 0), |day, initial_power| {
        steep(day);
        day.case.devices[0].initial_power = initial_power;
    });
    // Online power while off counts in p, before rule 16 forbids it.
    edge(0, 1, (5, 1, 1, 0), |day, online_power| {
        steep(day);
        day.case.devices[0].initial_power = 30;
        day.plan.intervals[0][0].online_power = online_power;
    });
}

#[test]
fn rule_6_fall() {
    // While on: down ramp 2 for 60 minutes from 150.
    edge(30, 29, (6, 2, 2, 0), |day, power| {
        day.case.devices[1].ramps.down = 2;
        day.plan.intervals[0][1].online_power = 150;
        day.plan.intervals[1][1].online_power = power;
    });
    // At a stop: the stopping ramp 2 from 120; pmin 0 leaves no psd.
    edge(120, 121, (6, 2, 2, 0), |day, power| {
        day.case.devices[1].ramps.stopping = 2;
        day.plan.intervals[0][1].online_power = power;
        day.plan.intervals[1][1].on = false;
        day.plan.intervals[1][1].online_power = 0;
    });
    // Initial power while off only serves as previous p: 150 may fall to psu 30 at 2 a minute.
    edge(150, 151, (6, 1, 1, 0), |day, initial_power| {
        day.case.devices[0].initial_power = initial_power;
    });
}

#[test]
fn rules_7_to_11_limits_while_on() {
    edge(20, 21, (7, 2, 1, 0), |day, rgu| {
        day.plan.intervals[1][0].reserves.rgu = rgu;
    });
    edge(20, 21, (8, 2, 2, 0), |day, rgd| {
        day.plan.intervals[1][1].reserves.rgd = rgd;
    });
    edge(12, 13, (9, 2, 1, 0), |day, scr| {
        day.plan.intervals[1][0].reserves.rgu = 8;
        day.plan.intervals[1][0].reserves.scr = scr;
    });
    edge(7, 8, (10, 2, 1, 0), |day, rru_on| {
        day.plan.intervals[1][0].reserves.rgu = 8;
        day.plan.intervals[1][0].reserves.scr = 5;
        day.plan.intervals[1][0].reserves.rru_on = rru_on;
    });
    edge(12, 13, (11, 2, 2, 0), |day, rrd_on| {
        day.plan.intervals[1][1].reserves.rgd = 8;
        day.plan.intervals[1][1].reserves.rrd_on = rrd_on;
    });
}

#[test]
fn rules_12_to_14_limits_while_off() {
    edge(20, 21, (12, 1, 1, 0), |day, nsc| {
        day.plan.intervals[0][0].reserves.nsc = nsc;
    });
    edge(12, 13, (13, 1, 1, 0), |day, rru_off| {
        day.plan.intervals[0][0].reserves.nsc = 8;
        day.plan.intervals[0][0].reserves.rru_off = rru_off;
    });
    edge(20, 21, (14, 1, 2, 0), |day, rrd_off| {
        stop_device_2_at_first(day);
        day.plan.intervals[0][1].reserves.rrd_off = rrd_off;
    });
}

#[test]
fn rules_7_to_14_in_the_other_state() {
    let one = |t: usize, j: usize, k: usize| {
        broken_after(|day| {
            let mut eight = [0; 8];
            eight[k] = 1;
            day.plan.intervals[t][j].reserves = Reserves::from_order(eight);
        })
    };
    // Device 1 is off in interval 1: no rgu, rgd, scr, rru_on, rrd_on.
    for (k, rule) in [(0, 7), (1, 8), (2, 9), (4, 10), (6, 11)] {
        assert_eq!(one(0, 0, k), Some((rule, 1, 1, 0)));
    }
    // It is on in interval 2: no nsc, rru_off, rrd_off.
    for (k, rule) in [(3, 12), (5, 13), (7, 14)] {
        assert_eq!(one(1, 0, k), Some((rule, 2, 1, 0)));
    }
}

/// "Their limits are, in turn, those of rgu, rgd, scr, rru_on, rrd_on, nsc, rru_off, rrd_off."
#[test]
fn rules_7_to_14_each_have_their_own_limit() {
    let only = |limit: usize, t: usize, j: usize, k: usize| {
        broken_after(|day| {
            if (t, j) == (0, 1) {
                stop_device_2_at_first(day);
            }
            let mut limits = [20; 8];
            limits[limit] = 9;
            day.case.devices[j].reserve_limits = Reserves::from_order(limits);
            let mut eight = [0; 8];
            eight[k] = 10;
            day.plan.intervals[t][j].reserves = Reserves::from_order(eight);
        })
    };
    // Ten of a product, and a limit of nine in the place of each of the eight.
    let rgu = [7, 0, 9, 0, 10, 0, 0, 0];
    let rgd = [0, 8, 0, 0, 0, 0, 11, 0];
    let scr = [0, 0, 9, 0, 10, 0, 0, 0];
    let nsc = [0, 0, 0, 12, 0, 13, 0, 0];
    let rru_on = [0, 0, 0, 0, 10, 0, 0, 0];
    let rru_off = [0, 0, 0, 0, 0, 13, 0, 0];
    let rrd_on = [0, 0, 0, 0, 0, 0, 11, 0];
    let rrd_off = [0, 0, 0, 0, 0, 0, 0, 14];
    let spots = [
        (rgu, 1, 0, 0),
        (rgd, 1, 1, 1),
        (scr, 1, 0, 2),
        (nsc, 0, 0, 3),
        (rru_on, 1, 0, 4),
        (rru_off, 0, 0, 5),
        (rrd_on, 1, 1, 6),
        (rrd_off, 0, 1, 7),
    ];
    for (rules, t, j, k) in spots {
        for (limit, rule) in rules.into_iter().enumerate() {
            let expected = (rule > 0).then_some((rule, t + 1, j + 1, 0));
            assert_eq!(only(limit, t, j, k), expected, "product {k}, limit {limit}");
        }
    }
}

#[test]
fn rule_15_products_of_the_other_side() {
    edge(0, 1, (15, 1, 1, 0), |day, rrd_off| {
        day.plan.intervals[0][0].reserves.rrd_off = rrd_off;
    });
    edge(0, 1, (15, 1, 2, 0), |day, nsc| {
        stop_device_2_at_first(day);
        day.plan.intervals[0][1].reserves.nsc = nsc;
    });
    edge(0, 1, (15, 1, 2, 0), |day, rru_off| {
        stop_device_2_at_first(day);
        day.plan.intervals[0][1].reserves.rru_off = rru_off;
    });
}

#[test]
fn rule_16_pmax() {
    edge(2, 3, (16, 2, 1, 0), |day, rru_on| {
        day.case.devices[0].terms[1].pmax = 160;
        day.plan.intervals[1][0].reserves.rgu = 5;
        day.plan.intervals[1][0].reserves.scr = 3;
        day.plan.intervals[1][0].reserves.rru_on = rru_on;
    });
    edge(4, 5, (16, 2, 2, 0), |day, rrd_on| {
        day.case.devices[1].terms[1].pmax = 160;
        day.plan.intervals[1][1].reserves.rgd = 6;
        day.plan.intervals[1][1].reserves.rrd_on = rrd_on;
    });
    // Online power while off.
    edge(0, 1, (16, 1, 1, 0), |day, online_power| {
        day.plan.intervals[0][0].online_power = online_power;
    });
    // Consuming up reserves are not held against pmax.
    assert_eq!(
        broken_after(|day| {
            day.case.devices[1].terms[1].pmax = 150;
            day.plan.intervals[1][1].reserves.rgu = 20;
        }),
        None
    );
}

#[test]
fn rule_17_pmin() {
    edge(0, 1, (17, 2, 1, 0), |day, rgd| {
        day.plan.intervals[1][0].reserves.rgd = rgd;
    });
    edge(0, 1, (17, 2, 1, 0), |day, rrd_on| {
        day.plan.intervals[1][0].reserves.rrd_on = rrd_on;
    });
    edge(150, 149, (17, 2, 1, 0), |day, online_power| {
        day.plan.intervals[1][0].online_power = online_power;
    });
    edge(3, 4, (17, 2, 2, 0), |day, rru_on| {
        day.case.devices[1].terms[1].pmin = 140;
        day.plan.intervals[1][1].reserves.rgu = 4;
        day.plan.intervals[1][1].reserves.scr = 3;
        day.plan.intervals[1][1].reserves.rru_on = rru_on;
    });
    // Consuming down reserves are not held against pmin.
    assert_eq!(
        broken_after(|day| {
            day.case.devices[1].terms[1].pmin = 150;
            day.plan.intervals[1][1].reserves.rgd = 20;
        }),
        None
    );
}

#[test]
fn rule_18_pmax_while_off() {
    // psu 30 and reserves of 20.
    edge(50, 49, (18, 1, 1, 0), |day, pmax| {
        day.case.devices[0].terms[0].pmin = 0;
        day.case.devices[0].terms[0].pmax = pmax;
        day.plan.intervals[0][0].reserves.nsc = 11;
        day.plan.intervals[0][0].reserves.rru_off = 9;
    });
    edge(9, 8, (18, 1, 2, 0), |day, pmax| {
        stop_device_2_at_first(day);
        day.case.devices[1].terms[0].pmax = pmax;
        day.plan.intervals[0][1].reserves.rrd_off = 9;
    });
    // psu in an on interval: a start in interval 3 whose power reaches back over interval 2 (off)
    // into interval 1 (on): 150 − 2·(180 − 60) < 0 does not, 1·(180 − 60) leaves 30.
    let reach_back = |starting| {
        broken_after(|day| {
            day.case.durations.push(60);
            for device in &mut day.case.devices {
                device.terms.push(device.terms[1].clone());
                device.ramps.stopping = 100;
            }
            let device = &mut day.case.devices[0];
            device.initially_on = true;
            device.initial_power = 150;
            device.ramps.starting = starting;
            let off = day.plan.intervals[0][0];
            let on = day.plan.intervals[1][0];
            let load = day.plan.intervals[1][1];
            day.plan = Plan::plain(vec![vec![on, load], vec![off, load], vec![on, load]]);
        })
    };
    assert_eq!(reach_back(2), None);
    assert_eq!(reach_back(1), Some((18, 1, 1, 0)));
}

#[test]
fn rule_19_caps() {
    edge(150, 149, (19, 2, 2, 0), |day, cap| {
        day.case.devices[1].terms[1].blocks[0].cap = cap;
    });
    // Power while off needs blocks too.
    edge(20, 19, (19, 1, 1, 0), |day, cap| {
        day.case.devices[0].terms[0].blocks[0].cap = 10;
        day.case.devices[0].terms[0].blocks[1].cap = cap;
    });
    assert_eq!(
        broken_after(|day| day.case.devices[0].terms[0].blocks.clear()),
        Some((19, 1, 1, 0))
    );
}

#[test]
fn rule_20_starts_in_windows() {
    let window = |start, end, most_starts| StartWindow {
        start,
        end,
        most_starts,
    };
    let with = |windows: &[StartWindow]| {
        broken_after(|day| day.case.devices[0].start_windows = windows.to_vec())
    };
    // The start is at S = 60.
    assert_eq!(with(&[window(60, 61, 0)]), Some((20, 0, 1, 1)));
    assert_eq!(with(&[window(60, 60, 0)]), None);
    assert_eq!(with(&[window(61, 120, 0)]), None);
    assert_eq!(with(&[window(0, 60, 0)]), None);
    assert_eq!(with(&[window(0, 61, 0)]), Some((20, 0, 1, 1)));
    assert_eq!(with(&[window(0, 120, 1)]), None);
    assert_eq!(
        with(&[window(0, 120, 1), window(0, 60, 0), window(0, 120, 0)]),
        Some((20, 0, 1, 3))
    );
}

#[test]
fn rules_come_by_interval_then_device_then_number() {
    // Interval 1 before interval 2, though by a higher number and device.
    assert_eq!(
        broken_after(|day| {
            day.plan.intervals[0][1].reserves.rgd = 171;
            day.case.devices[1].reserve_limits = Reserves::from_order([1_000; 8]);
            day.case.devices[0].terms[1].status = Status::Off;
        }),
        Some((16, 1, 2, 0))
    );
    // Device 1 before device 2, though by a higher number.
    assert_eq!(
        broken_after(|day| {
            day.plan.intervals[1][0].online_power = 149;
            day.case.devices[1].terms[1].status = Status::Off;
        }),
        Some((17, 2, 1, 0))
    );
    // The lowest number of one place.
    assert_eq!(
        broken_after(|day| {
            day.plan.intervals[1][0].reserves.rgu = 21;
            day.plan.intervals[1][0].online_power = 151;
        }),
        Some((5, 2, 1, 0))
    );
    // Rule 20 after all intervals, by device.
    let no_start = StartWindow {
        start: 0,
        end: 120,
        most_starts: 0,
    };
    assert_eq!(
        broken_after(|day| {
            day.case.devices[0].start_windows.push(no_start);
            day.plan.intervals[1][1].online_power = 201;
        }),
        Some((16, 2, 2, 0))
    );
    assert_eq!(
        broken_after(|day| {
            stop_device_2_at_first(day);
            for device in &mut day.case.devices {
                device.start_windows.push(no_start);
            }
        }),
        Some((20, 0, 1, 1))
    );
}
