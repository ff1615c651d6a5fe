//! Reactive power (A.1): worked figures, rules 21 to 26 kept and broken by one on both sides, the
//! bracket, needs and costs, and the completion's bytes, all worked out by hand from the two-set
//! day.
//!
//! Device 1 (producing) is off with a startup power of 30 kW in interval 1 and on at 150 kW in
//! interval 2; device 2 (consuming) is on at 30, then 150 kW. The bracket is 1 everywhere.

use reference::breaches::breaches_of;
use reference::case::{Link, LinkLine, ReactiveReserves, Side, StartWindow, Zone};
use reference::clock::spans;
use reference::edition::Edition;
use reference::forced::{commit, forced};
use reference::form::Largest;
use reference::generate::extreme::{costly_reactive_reserves_day, very_low_surplus_day};
use reference::generate::plans::good_plan;
use reference::generate::sample::sample_in;
use reference::generate::shape::Size;
use reference::judge::{find, judge, Finding, Verdict};
use reference::meets::{broken_rules_at, keeps_every_rule, meets, surplus_of};
use reference::ours::complete;
use reference::plan::Plan;
use reference::reactive::ReactivePoint;
use reference::rng::Rng;
use reference::rules::Place;
use reference::worked_day::{reactive_days, two_set_day, Day};

const SEED: u64 = 29;

type Broken = (u8, usize, usize, usize);

fn day_after(change: impl Fn(&mut Day)) -> Day {
    let mut day = Day {
        edition: Edition::Two,
        ..two_set_day()
    };
    change(&mut day);
    day
}

/// The verdict of a day: its surplus, or the rule and place it breaks first. The second writing of
/// the rules must agree.
fn verdict_of(day: &Day) -> Result<i128, Broken> {
    let finding = find(day.edition, &day.case, &day.plan);
    let accepted = matches!(finding, Finding::Accepted { .. });
    assert_eq!(accepted, keeps_every_rule(&day.case, &day.plan));
    match finding {
        Finding::Accepted { surplus, .. } => {
            hold_surplus(day, surplus);
            Ok(surplus)
        }
        Finding::Broken(place) => {
            let Place {
                rule,
                interval,
                device,
                window,
            } = place;
            if interval > 0 {
                let broken = broken_rules_at(&day.case, &day.plan, interval, device);
                assert_eq!(broken.first(), Some(&rule));
            }
            Err((rule, interval, device, window))
        }
    }
}

fn hold_surplus(day: &Day, surplus: i128) {
    let spans = spans(&day.case.durations);
    let forced = forced(&day.case, &spans, &day.plan);
    let ours = complete(&day.case, &spans, &day.plan, &forced);
    assert!(meets(&day.case, &day.plan, &ours.completion));
    let again = surplus_of(&day.case, &day.plan, &ours.completion);
    assert_eq!((ours.surplus, again), (surplus, surplus));
}

fn verdict_after(change: impl Fn(&mut Day)) -> Result<i128, Broken> {
    verdict_of(&day_after(change))
}

/// Holds that a change keeps every rule at `kept` and breaks one, where stated, at `beyond`.
fn edge(kept: i128, beyond: i128, place: Broken, change: impl Fn(&mut Day, i128)) {
    let at_kept = verdict_after(|day| change(day, kept));
    assert!(at_kept.is_ok(), "{kept}: {at_kept:?}");
    let at_beyond = verdict_after(|day| change(day, beyond));
    assert_eq!(at_beyond, Err(place), "{beyond}");
}

fn line(offset: i128, slope: i128) -> LinkLine {
    LinkLine { offset, slope }
}

/// Sets q, qru and qrd of device `j` in interval `t`, both from 1.
fn set(day: &mut Day, (t, j): (usize, usize), [q, qru, qrd]: [i128; 3]) {
    let setting = &mut day.plan.intervals[t - 1][j - 1];
    setting.reactive_power = q;
    setting.reactive_reserves = ReactiveReserves { qru, qrd };
}

/// Sets the limits of device `j` in every interval.
fn limit(day: &mut Day, j: usize, (qmin, qmax): (i128, i128)) {
    for terms in &mut day.case.devices[j - 1].terms {
        (terms.qmin, terms.qmax) = (qmin, qmax);
    }
}

/// The figures worked by hand for the days of edition 2.
#[test]
fn worked_days_give_the_figures_worked_by_hand() {
    let figures = [
        Ok(107_860),
        Ok(167_860),
        Err((21, 1, 2, 0)),
        Ok(107_440),
        Ok(-372_560),
        Ok(164_920),
        Err((23, 2, 1, 0)),
        Err((23, 2, 1, 0)),
        Ok(165_580),
        Err((25, 1, 1, 0)),
    ];
    let days = reactive_days();
    assert_eq!(days.len(), figures.len());
    for ((about, day), figure) in days.iter().zip(figures) {
        assert_eq!(verdict_of(day), figure, "{about}");
        let (case, plan) = day.messages();
        let judged = match judge(&case, &plan, &mut [0; 300]) {
            Verdict::Accepted { surplus } => Ok(surplus),
            Verdict::Broken(p) => Err((p.rule, p.interval, p.device, p.window)),
            Verdict::Refused(refusal) => panic!("{about}: {refusal:?}"),
        };
        assert_eq!(judged, figure, "{about}");
    }
    // Without any reactive figure the day is that of edition 1.
    assert_eq!(verdict_after(|_| {}), Ok(167_860));
}

#[test]
fn rule_21_qmax() {
    // Producing: q + qru, on and on the trajectory.
    for (t, place) in [(1, (21, 1, 1, 0)), (2, (21, 2, 1, 0))] {
        edge(4, 5, place, |day, qru| {
            limit(day, 1, (-9, 11));
            set(day, (t, 1), [7, qru, 16]);
        });
        edge(11, 12, place, |day, q| {
            limit(day, 1, (-9, 11));
            set(day, (t, 1), [q, 0, 0]);
        });
    }
    // Consuming: q + qrd; qru is not held against qmax.
    edge(4, 5, (21, 2, 2, 0), |day, qrd| {
        limit(day, 2, (-9, 11));
        set(day, (2, 2), [7, 16, qrd]);
    });
    // A qmax below 0.
    edge(-3, -2, (21, 2, 2, 0), |day, q| {
        limit(day, 2, (-9, -3));
        set(day, (1, 2), [-9, 0, 0]);
        set(day, (2, 2), [q, 0, 0]);
    });
}

#[test]
fn rule_22_qmin() {
    // Producing: q − qrd, on and on the trajectory; qru is not held against qmin.
    for (t, place) in [(1, (22, 1, 1, 0)), (2, (22, 2, 1, 0))] {
        edge(16, 17, place, |day, qrd| {
            limit(day, 1, (-9, 11));
            set(day, (t, 1), [7, 4, qrd]);
        });
        edge(-9, -10, place, |day, q| {
            limit(day, 1, (-9, 11));
            set(day, (t, 1), [q, 0, 0]);
        });
    }
    // Consuming: q − qru.
    edge(16, 17, (22, 2, 2, 0), |day, qru| {
        limit(day, 2, (-9, 11));
        set(day, (2, 2), [7, qru, 4]);
    });
    // A qmin above 0 holds on a trajectory, and not where the bracket is 0.
    edge(3, 2, (22, 2, 2, 0), |day, q| {
        limit(day, 2, (3, 9));
        set(day, (1, 2), [9, 0, 0]);
        set(day, (2, 2), [q, 0, 0]);
    });
}

/// Rule 23 at 150 kW: 333 thousandths give 49,950 of 1,000 each, and 1,000 for an offset of 1.
#[test]
fn rule_23_upper_line() {
    let with_upper = |day: &mut Day, j: usize, upper: LinkLine| {
        limit(day, j, (-100, 100));
        day.case.devices[j - 1].link = Link::TwoLines {
            upper,
            lower: line(-100, 0),
        };
    };
    // Producing: q + qru; consuming: q + qrd.
    edge(3, 4, (23, 2, 1, 0), |day, qru| {
        with_upper(day, 1, line(0, 333));
        set(day, (2, 1), [46, qru, 46]);
    });
    edge(4, 5, (23, 2, 2, 0), |day, qrd| {
        with_upper(day, 2, line(1, 333));
        set(day, (2, 2), [46, 46, qrd]);
    });
    // On the trajectory of 30 kW: 2 + 9.99; and met exactly by 2 + 30.
    edge(11, 12, (23, 1, 1, 0), |day, q| {
        with_upper(day, 1, line(2, 333));
        set(day, (1, 1), [q, 0, 0]);
    });
    edge(32, 33, (23, 1, 1, 0), |day, q| {
        with_upper(day, 1, line(2, 1_000));
        set(day, (1, 1), [q, 0, 0]);
    });
    // A falling line, 10 − 150·0.1.
    edge(-5, -4, (23, 2, 1, 0), |day, q| {
        with_upper(day, 1, line(10, -100));
        set(day, (2, 1), [q, 0, 0]);
    });
    // A thousandth matters: 150·300 is 45,000, 150·299 is 44,850.
    edge(300, 299, (23, 2, 1, 0), |day, slope| {
        with_upper(day, 1, line(0, slope));
        set(day, (2, 1), [45, 0, 0]);
    });
}

/// Rule 24 at 150 kW: −333 thousandths give −49,950 of 1,000 each.
#[test]
fn rule_24_lower_line() {
    let with_lower = |day: &mut Day, j: usize, lower: LinkLine| {
        limit(day, j, (-100, 100));
        day.case.devices[j - 1].link = Link::TwoLines {
            upper: line(100, 0),
            lower,
        };
    };
    // Producing: q − qrd; consuming: q − qru.
    edge(3, 4, (24, 2, 1, 0), |day, qrd| {
        with_lower(day, 1, line(0, -333));
        set(day, (2, 1), [-46, 46, qrd]);
    });
    edge(4, 5, (24, 2, 2, 0), |day, qru| {
        with_lower(day, 2, line(-1, -333));
        set(day, (2, 2), [-46, qru, 46]);
    });
    edge(-11, -12, (24, 1, 1, 0), |day, q| {
        with_lower(day, 1, line(-2, -333));
        set(day, (1, 1), [q, 0, 0]);
    });
    // A rising line: 150 kW ask for at least 5 kvar, 30 kW for −7.
    edge(5, 4, (24, 2, 1, 0), |day, q| {
        with_lower(day, 1, line(-10, 100));
        set(day, (2, 1), [q, 0, 0]);
    });
    edge(-300, -299, (24, 2, 1, 0), |day, slope| {
        with_lower(day, 1, line(0, slope));
        set(day, (2, 1), [-45, 0, 0]);
    });
}

/// Rule 25: 1 + 0.2 of the power, 7 and 31 kvar. One kvar more or less, or a thousandth of the
/// slope.
#[test]
fn rule_25_equality() {
    let with_equality = |day: &mut Day, j: usize, link_line: LinkLine| {
        limit(day, j, (-100, 100));
        day.case.devices[j - 1].link = Link::Equality(link_line);
        set(day, (1, j), [7, 0, 0]);
        set(day, (2, j), [31, 0, 0]);
    };
    for j in [1, 2] {
        for (t, kept) in [(1, 7), (2, 31)] {
            for beyond in [kept - 1, kept + 1] {
                edge(kept, beyond, (25, t, j, 0), |day, q| {
                    with_equality(day, j, line(1, 200));
                    set(day, (t, j), [q, 0, 0]);
                });
            }
        }
        for slope in [199, 201] {
            edge(200, slope, (25, 1, j, 0), |day, slope| {
                with_equality(day, j, line(1, slope));
            });
        }
    }
    // A kW less breaks it in interval 2: 149·0.2 is no whole number.
    edge(150, 149, (25, 2, 2, 0), |day, power| {
        with_equality(day, 2, line(1, 200));
        day.plan.intervals[1][1].online_power = power;
    });
    // Limits hold of a linked device too, and come first.
    edge(31, 30, (21, 2, 1, 0), |day, qmax| {
        with_equality(day, 1, line(1, 200));
        day.case.devices[0].terms[1].qmax = qmax;
    });
    edge(7, 8, (22, 1, 1, 0), |day, qmin| {
        with_equality(day, 1, line(1, 200));
        day.case.devices[0].terms[0].qmin = qmin;
    });
}

#[test]
fn rule_26_no_reserves_with_an_equality() {
    for (side, j) in [(Side::Producing, 1), (Side::Consuming, 2)] {
        let with_reserves = |day: &mut Day, [qru, qrd]: [i128; 2]| {
            assert_eq!(day.case.devices[j - 1].side, side);
            limit(day, j, (-100, 100));
            day.case.devices[j - 1].link = Link::Equality(line(0, 0));
            set(day, (2, j), [0, qru, qrd]);
        };
        edge(0, 1, (26, 2, j, 0), |day, qru| with_reserves(day, [qru, 0]));
        edge(0, 1, (26, 2, j, 0), |day, qrd| with_reserves(day, [0, qrd]));
        // Both reserves: one breach. Without the link they may be held.
        let both = day_after(|day| with_reserves(day, [1, 1]));
        assert_eq!(breaches_of(&both.case, &both.plan).len(), 1);
        let unlinked = verdict_after(|day| {
            with_reserves(day, [1, 1]);
            day.case.devices[j - 1].link = Link::None;
        });
        assert_eq!(unlinked, Ok(167_860));
    }
}

/// "A rule of another link kind holds": two lines do not ask for equality, an equality is no line.
#[test]
fn rules_of_another_link_kind_hold() {
    let day = day_after(|day| limit(day, 1, (-100, 100)));
    let links = [
        (Link::None, [21, 22, 0, 0, 0, 0]),
        (
            Link::TwoLines {
                upper: line(0, 0),
                lower: line(0, 0),
            },
            [21, 22, 23, 24, 0, 0],
        ),
        (Link::Equality(line(0, 0)), [21, 22, 0, 0, 25, 26]),
    ];
    let mut setting = day.plan.intervals[1][0];
    setting.reactive_power = 50;
    setting.reactive_reserves = ReactiveReserves { qru: 51, qrd: 151 };
    for (link, rules) in links {
        let mut device = day.case.devices[0].clone();
        device.link = link;
        let point = ReactivePoint {
            device: &device,
            t: 1,
            setting: &setting,
            bracket: 1,
            power: 150,
        };
        for (rule, broken) in (21..=26).zip(rules) {
            assert_eq!(point.keeps(rule), broken != rule, "{link:?} {rule}");
        }
    }
}

/// No ramp and no limit but its range holds q and its reserves: from −100,000 to 100,000 at once.
#[test]
fn reactive_power_has_no_ramp_and_reserves_no_limit() {
    let turned = verdict_after(|day| {
        day.case.mismatch_price = 1;
        limit(day, 2, (-100_000, 100_000));
        set(day, (1, 2), [-100_000, 0, 100_000]);
        set(day, (2, 2), [100_000, 100_000, 0]);
    });
    assert_eq!(turned, Ok(167_860 - 2 * 60 * 100_000));
}

/// A device off without a trajectory has q 0 and no reactive reserves, whatever its limits.
#[test]
fn nothing_is_left_where_the_bracket_is_0() {
    let off = |change: &dyn Fn(&mut Day)| {
        verdict_after(|day| {
            day.case.devices[1].ramps.stopping = 100;
            day.plan.intervals[0][1].on = false;
            day.plan.intervals[0][1].online_power = 0;
            limit(day, 2, (2, 9));
            set(day, (2, 2), [2, 0, 0]);
            change(day);
        })
    };
    // The load of 30 kW is missing in interval 1: 30·(20 + 1,000)·60; and 2 kvar in interval 2.
    let missing = 30 * 1_020 * 60 + 2 * 1_000 * 60;
    assert_eq!(off(&|_| {}), Ok(167_860 - missing));
    assert_eq!(off(&|day| set(day, (1, 2), [1, 0, 0])), Err((21, 1, 2, 0)));
    assert_eq!(off(&|day| set(day, (1, 2), [-1, 0, 0])), Err((22, 1, 2, 0)));
    assert_eq!(off(&|day| set(day, (1, 2), [0, 0, 1])), Err((21, 1, 2, 0)));
    assert_eq!(off(&|day| set(day, (1, 2), [0, 1, 0])), Err((22, 1, 2, 0)));
}

/// The brackets of device 1 over six intervals of 60 minutes, with pmin 150 and one ramp for
/// starting and stopping.
fn brackets(initially_on: bool, initial_power: i128, on: [u8; 6], ramp: i128) -> Vec<i128> {
    let mut device = two_set_day().case.devices[0].clone();
    device.terms = vec![device.terms[0].clone(); 6];
    (device.initially_on, device.initial_power) = (initially_on, initial_power);
    (device.ramps.starting, device.ramps.stopping) = (ramp, ramp);
    let spans = spans(&[60; 6]);
    commit(&device, &spans, on.map(|u| u == 1).to_vec()).bracket
}

/// A start gives power in two intervals before it at 1 kW/min (90, 30), in none at 3 (150 − 180); a
/// stop in the interval of it and the next.
#[test]
fn the_bracket_counts_u_and_every_trajectory() {
    // Initially on, initial power, on per interval, ramp; and the brackets.
    let days = [
        // Steady, and steep ramps: u alone.
        ((false, 0, [0, 0, 0, 0, 0, 0], 1), [0, 0, 0, 0, 0, 0]),
        ((true, 150, [1, 1, 1, 1, 1, 1], 1), [1, 1, 1, 1, 1, 1]),
        ((true, 150, [1, 1, 0, 0, 1, 1], 3), [1, 1, 0, 0, 1, 1]),
        // One start, one stop.
        ((false, 0, [0, 0, 0, 0, 1, 1], 1), [0, 0, 1, 1, 1, 1]),
        ((true, 150, [1, 0, 0, 0, 0, 0], 1), [1, 1, 1, 0, 0, 0]),
        // They meet: two intervals of each, then one in common, then both.
        ((true, 150, [1, 0, 0, 0, 0, 1], 1), [1, 1, 1, 1, 1, 1]),
        ((true, 150, [1, 0, 0, 0, 1, 1], 1), [1, 1, 2, 1, 1, 1]),
        ((true, 150, [1, 0, 0, 1, 1, 1], 1), [1, 2, 2, 1, 1, 1]),
        // An outage of one interval: both reach into it and into an on interval beside it.
        ((true, 150, [1, 1, 0, 1, 1, 1], 1), [1, 2, 2, 2, 1, 1]),
        // Off at first from an initial power of 61, then of 60: 1 kW is left, then none.
        ((true, 61, [0, 0, 0, 0, 0, 0], 1), [1, 0, 0, 0, 0, 0]),
        ((true, 60, [0, 0, 0, 0, 0, 0], 1), [0, 0, 0, 0, 0, 0]),
        // Switched in every interval: into an on interval reach the next start and the last stop.
        ((true, 150, [0, 1, 0, 1, 0, 1], 1), [2, 3, 2, 3, 2, 2]),
    ];
    for ((initially_on, initial_power, on, ramp), expected) in days {
        let counted = brackets(initially_on, initial_power, on, ramp);
        assert_eq!(counted, expected, "{on:?}");
    }
}

/// Device 1 on from 150 kW, off, and on again, at ramps of 2 kW/min: 30 kW of the stop and 30 of
/// the start in interval 2. Limits of −5 and 5.
fn meeting(day: &mut Day) {
    day.case.durations.push(60);
    for device in &mut day.case.devices {
        device.terms.push(device.terms[1].clone());
    }
    day.case.devices[0].initially_on = true;
    day.case.devices[0].initial_power = 150;
    let (off, on) = (day.plan.intervals[0][0], day.plan.intervals[1][0]);
    let load = day.plan.intervals[1][1];
    day.plan = Plan::plain(vec![vec![on, load], vec![off, load], vec![on, load]]);
    limit(day, 1, (-5, 5));
}

/// Where trajectories meet, limits and offsets count as often as the bracket says.
#[test]
fn limits_and_offsets_count_as_often_as_the_bracket() {
    let with_q = |day: &mut Day, link: Link, q: i128| {
        meeting(day);
        day.case.devices[0].link = link;
        set(day, (2, 1), [q, 0, 0]);
    };
    edge(10, 11, (21, 2, 1, 0), |day, q| with_q(day, Link::None, q));
    edge(-10, -11, (22, 2, 1, 0), |day, q| with_q(day, Link::None, q));
    // 2·3 + 60·0.05 is 9, in the on intervals 3 + 7.5.
    let lines = |upper, lower| Link::TwoLines { upper, lower };
    let ceiling = lines(line(3, 50), line(-100, 0));
    edge(9, 10, (23, 2, 1, 0), |day, q| with_q(day, ceiling, q));
    let floor = lines(line(100, 0), line(-3, -50));
    edge(-9, -10, (24, 2, 1, 0), |day, q| with_q(day, floor, q));
    // Twice the offset of 2, in the on intervals once.
    edge(4, 2, (25, 2, 1, 0), |day, q| {
        with_q(day, Link::Equality(line(2, 0)), q);
        set(day, (1, 1), [2, 0, 0]);
        set(day, (3, 1), [2, 0, 0]);
    });
}

/// "come after 19 and before 20": by interval, device, number; rule 20 behind all.
#[test]
fn reactive_rules_come_after_19_and_before_20() {
    // Rule 21 of device 1 before rule 16 of device 2, and interval 1 before interval 2.
    let earlier_device = verdict_after(|day| {
        set(day, (2, 1), [1, 0, 0]);
        day.plan.intervals[1][1].online_power = 201;
    });
    assert_eq!(earlier_device, Err((21, 2, 1, 0)));
    let earlier_interval = verdict_after(|day| {
        set(day, (1, 2), [1, 0, 0]);
        day.plan.intervals[1][0].online_power = 151;
    });
    assert_eq!(earlier_interval, Err((21, 1, 2, 0)));
    // Rule 19 of one place before rule 21 of it.
    let same_place = verdict_after(|day| {
        set(day, (2, 2), [1, 0, 0]);
        day.case.devices[1].terms[1].blocks[0].cap = 149;
    });
    assert_eq!(same_place, Err((19, 2, 2, 0)));
    // Rule 21 in the last interval before rule 20.
    let day = day_after(|day| {
        let window = StartWindow {
            start: 0,
            end: 120,
            most_starts: 0,
        };
        day.case.devices[0].start_windows.push(window);
        set(day, (2, 2), [1, 0, 0]);
    });
    let list: Vec<[usize; 4]> = breaches_of(&day.case, &day.plan)
        .iter()
        .map(|p| [usize::from(p.rule), p.interval, p.device, p.window])
        .collect();
    assert_eq!(list, [[21, 2, 2, 0], [20, 0, 1, 1]]);
}

/// Needs in var at a price per var·min, over members of both sides: minimum less what they hold.
#[test]
fn reactive_needs_are_in_var() {
    let with_zone = |minima: [[i128; 2]; 2], members: [bool; 2], held: [[i128; 2]; 2]| {
        verdict_after(|day| {
            let [[qru_1, qrd_1], [qru_2, qrd_2]] = minima;
            day.case.zones.push(Zone {
                shortfall_prices: [1, 1, 1, 1, 1, 1, 3, 5],
                minima: vec![[0, 0, qru_1, qrd_1], [0, 0, qru_2, qrd_2]],
                ..Zone::plain(2)
            });
            for (j, [qru, qrd]) in (1..).zip(held) {
                day.case.devices[j - 1].zone_bits[0] = members[j - 1];
                limit(day, j, (-100, 100));
                set(day, (2, j), [0, qru, qrd]);
            }
        })
    };
    let base = 167_860;
    let none = [[0, 0]; 2];
    let both = [true; 2];
    assert_eq!(with_zone([[0, 0], [0, 0]], both, none), Ok(base));
    assert_eq!(with_zone([[1, 0], [0, 0]], both, none), Ok(base - 180_000));
    assert_eq!(with_zone([[0, 0], [0, 1]], both, none), Ok(base - 300_000));
    // 7 less 2 + 4, 9 less 1 + 3.
    let held = [[2, 1], [4, 3]];
    let short = 60 * 1_000 * (3 + 5 * 5);
    assert_eq!(with_zone([[0, 0], [7, 9]], both, held), Ok(base - short));
    // Of device 2 alone: 7 less 4, 9 less 3.
    let short = 60 * 1_000 * (3 * 3 + 5 * 6);
    assert_eq!(
        with_zone([[0, 0], [7, 9]], [false, true], held),
        Ok(base - short)
    );
    // Met exactly, and more than met: no shortfall, and none of the other product.
    assert_eq!(with_zone([[0, 0], [6, 4]], both, held), Ok(base));
    assert_eq!(with_zone([[0, 0], [5, 4]], both, held), Ok(base));
    let short = 60 * 1_000 * 5;
    assert_eq!(with_zone([[0, 0], [0, 5]], both, held), Ok(base - short));
}

/// "d·price·reserve", of either side, on and off.
#[test]
fn reactive_reserves_cost_their_price() {
    let with_prices = |held: [i128; 2]| {
        verdict_after(|day| {
            for device in &mut day.case.devices {
                for terms in &mut device.terms {
                    terms.reactive_prices = ReactiveReserves { qru: 7, qrd: 11 };
                }
            }
            for j in [1, 2] {
                limit(day, j, (-100, 100));
            }
            let [qru, qrd] = held;
            set(day, (1, 1), [0, qru, qrd]);
            set(day, (2, 2), [0, qru, qrd]);
        })
    };
    assert_eq!(with_prices([0, 0]), Ok(167_860));
    assert_eq!(with_prices([1, 0]), Ok(167_860 - 2 * 60 * 7));
    assert_eq!(with_prices([0, 1]), Ok(167_860 - 2 * 60 * 11));
    assert_eq!(with_prices([2, 3]), Ok(167_860 - 2 * 60 * (14 + 33)));
}

/// "|consuming q − producing q|" at the mismatch price, over all devices and in kvar.
#[test]
fn reactive_mismatch_is_priced_like_the_real_one() {
    let with_powers = |producing: i128, consuming: i128| {
        verdict_after(|day| {
            for j in [1, 2] {
                limit(day, j, (-100, 100));
            }
            set(day, (2, 1), [producing, 0, 0]);
            set(day, (2, 2), [consuming, 0, 0]);
        })
    };
    for (producing, consuming, mismatch) in [
        (5, 5, 0),
        (5, 3, 2),
        (3, 5, 2),
        (-3, -5, 2),
        (-4, 4, 8),
        (4, -4, 8),
        (-100, 100, 200),
    ] {
        let surplus = 167_860 - 60 * 1_000 * mismatch;
        assert_eq!(with_powers(producing, consuming), Ok(surplus));
    }
    // A real and a reactive mismatch do not offset each other: day (e) less 60,000.
    let both = verdict_after(|day| {
        day.plan.intervals[1][1].online_power = 149;
        limit(day, 1, (-100, 100));
        set(day, (2, 1), [-1, 0, 0]);
    });
    assert_eq!(both, Ok(106_660 - 60_000));
}

/// A message from its fields as (width, value), values not negative.
fn message(fields: &[(usize, u64)]) -> Vec<u8> {
    let bits: String = fields
        .iter()
        .map(|&(width, value)| format!("{value:0width$b}"))
        .collect();
    bits.as_bytes()
        .chunks(8)
        .map(|chunk| {
            let byte = format!("{:0<8}", String::from_utf8_lossy(chunk));
            u8::from_str_radix(&byte, 2).expect("eight binary digits")
        })
        .collect()
}

/// The completion of the worked day in a zone, −372,560: 1,000 var of qru short in interval 1 and
/// of qrd in interval 2, behind the zone's six; 1 kvar of mismatch behind the real one.
#[test]
fn completion_of_edition_2_has_these_bytes() {
    let device = |on: [u64; 3], blocks: [u64; 2]| {
        let [started, stopped, state] = on;
        let mut fields = vec![(1, started), (1, stopped), (3, state)];
        fields.extend([(17, blocks[0]), (17, blocks[1]), (17, 0), (17, 0)]);
        fields
    };
    let zone = |qru: u64, qrd: u64| [vec![(33, 0); 6], vec![(33, qru), (33, qrd)]].concat();
    let fields = [
        vec![(4, 3), (4, 2), (5, 2), (6, 2), (3, 1)],
        device([0, 0, 0], [30, 0]),
        device([0, 0, 0], [30, 0]),
        zone(1_000, 0),
        vec![(23, 0), (23, 1)],
        device([1, 0, 2], [100, 50]),
        device([0, 0, 0], [150, 0]),
        zone(0, 1_000),
        vec![(23, 0), (23, 0)],
        vec![(64, u64::MAX - 372_560 + 1)],
    ];
    let expected = message(&fields.concat());
    let (about, day) = &reactive_days()[4];
    let (case, plan) = day.messages();
    let mut buffer = vec![0xA5; expected.len() + 3];
    let surplus = -372_560;
    assert_eq!(
        judge(&case, &plan, &mut buffer),
        Verdict::Accepted { surplus },
        "{about}"
    );
    assert_eq!(buffer[..expected.len()], expected);
    assert_eq!(buffer[expected.len()..], [0xA5; 3]);
}

/// The greatest figures. Low: the day of edition 1 less 2 × 6.4·10^9 var in each of four zones at
/// 100 and 1.6·10^6 kvar at 10,000, for 17,280 minutes. High: less 2 × 100,000 kvar of each of 16
/// devices at 10,000.
#[test]
fn greatest_reactive_figures() {
    let minutes = 17_280;
    let shortfalls = 100 * 4 * 2 * 6_400_000_000 * minutes;
    let mismatch = 10_000 * 1_600_000 * minutes;
    let low = -135_823_403_648_000_000 - shortfalls - mismatch;
    assert_eq!(low, -224_573_483_648_000_000);
    assert_eq!(
        verdict_of(&very_low_surplus_day(Edition::Two, Largest::SMALL)),
        Ok(low)
    );
    let reserves = 16 * 2 * 100_000 * 10_000 * minutes;
    let high = 276_496_000_000_000 - reserves;
    assert_eq!(verdict_of(&costly_reactive_reserves_day()), Ok(high));
    let (case, plan) = very_low_surplus_day(Edition::Two, Largest::SMALL).messages();
    assert_eq!((case.len(), plan.len()), (37_203, 19_779));
    let mut buffer = vec![0; 13_887];
    let judged = judge(&case, &plan, &mut buffer);
    assert_eq!(judged, Verdict::Accepted { surplus: low });
}

/// Every accepted plan that was drawn stays accepted with the opposite of every reactive figure: q
/// and limits negated, lines exchanged, up and down reserves too.
#[test]
fn reactive_rules_are_the_same_upside_down() {
    let mut tried = 0;
    for index in 0..60 {
        let mut rng = Rng::numbered(SEED, index);
        let sample = sample_in(&mut rng, Edition::Two, Size::Small);
        let mut day = Day {
            edition: Edition::Two,
            plan: good_plan(&mut rng, &sample),
            case: sample.case,
        };
        let before = verdict_of(&day);
        assert!(before.is_ok());
        turn_upside_down(&mut day);
        assert_eq!(verdict_of(&day), before);
        tried += usize::from(day.plan.has_reactive_power());
    }
    assert!(tried > 40, "{tried}");
}

fn turn_upside_down(day: &mut Day) {
    let turned = |line: LinkLine| LinkLine {
        offset: -line.offset,
        slope: -line.slope,
    };
    let exchanged = |reserves: &mut ReactiveReserves| {
        std::mem::swap(&mut reserves.qru, &mut reserves.qrd);
    };
    for zone in &mut day.case.zones {
        zone.shortfall_prices.swap(6, 7);
        for minima in &mut zone.minima {
            minima.swap(2, 3);
        }
    }
    for device in &mut day.case.devices {
        device.link = match device.link {
            Link::None => Link::None,
            Link::TwoLines { upper, lower } => Link::TwoLines {
                upper: turned(lower),
                lower: turned(upper),
            },
            Link::Equality(line) => Link::Equality(turned(line)),
        };
        for terms in &mut device.terms {
            (terms.qmin, terms.qmax) = (-terms.qmax, -terms.qmin);
            exchanged(&mut terms.reactive_prices);
        }
    }
    for setting in day.plan.intervals.iter_mut().flatten() {
        setting.reactive_power = -setting.reactive_power;
        exchanged(&mut setting.reactive_reserves);
    }
}
