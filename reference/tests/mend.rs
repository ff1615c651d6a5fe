//! "The smallest power change that mends a plan" (A.13): figures by hand, trial against bounds, and
//! what the plans for mending reach.

use reference::bits::HIGHEST_POWER;
use reference::breaches::breaches_of;
use reference::case::{Case, Link, LinkLine};
use reference::edition::Edition;
use reference::encode::{encode_case, encode_plan};
use reference::fault::{Fault, Number};
use reference::generate::mends::Mendable;
use reference::generate::sample::sample_in;
use reference::generate::shape::Size;
use reference::judge::{our_completion, Refusal};
use reference::mend::{bounds, mend, mend_of, trial, Mend, Mending};
use reference::plan::Plan;
use reference::rng::Rng;
use reference::worked_day::{floor_days, lettered_days, link_days, two_set_day, Day};

const SEED: u64 = 13;

fn lettered(letter: char) -> Day {
    let mut days = lettered_days().into_iter();
    days.find(|day| day.0 == letter).expect("a letter").1
}

fn answer(day: &Day) -> Mending {
    let (case, plan) = day.messages();
    mend(&case, &plan)
}

fn mended(interval: usize, device: usize, power: i128) -> Mending {
    Mending::Mended(Mend {
        interval,
        device,
        power,
    })
}

/// The two-set day of an edition after a change.
fn day(edition: Edition, change: impl Fn(&mut Day)) -> Day {
    let mut day = Day {
        edition,
        ..two_set_day()
    };
    change(&mut day);
    day
}

#[test]
fn worked_days() {
    assert_eq!(
        answer(&lettered('a')),
        Mending::Accepted { surplus: 167_860 }
    );
    // Device 2 at 151 breaks nothing; device 1 may rise by 120 from 30.
    assert_eq!(answer(&lettered('b')), mended(2, 1, 150));
    // Rule 2 is not moved by a power, nor is rule 20.
    assert_eq!(answer(&lettered('g')), Mending::Nothing);
    assert_eq!(answer(&lettered('j')), Mending::Nothing);
    // 150 kW of floors 71 and 80: 151 would break rule 5.
    assert_eq!(answer(&floor_days()[1].1), Mending::Nothing);
    // Rule 27.
    assert_eq!(answer(&link_days()[1].1), Mending::Nothing);
}

/// Plan (b) with its load at 151: 1 kW more at 20 for 60 minutes, and 1 kW of mismatch at 1,000.
#[test]
fn surplus_of_the_mended_plan() {
    let Day { case, plan, .. } = lettered('b');
    let (_, surplus) = mend_of(&case, &plan).expect("150 kW mend it");
    assert_eq!(surplus, 167_860 + 20 * 60 - 1_000 * 60);
}

#[test]
fn refusals_come_first() {
    let (case, plan) = lettered('b').messages();
    let cut = Fault::new(Number::Cut, 8);
    assert_eq!(
        mend(&case[..1], &plan[..1]),
        Mending::Refused(Refusal::Case(cut))
    );
    assert_eq!(
        mend(&case, &plan[..1]),
        Mending::Refused(Refusal::Plan(cut))
    );
}

/// A set that is off has 0 only, whatever is set; where its neighbour is broken too, none mends.
#[test]
fn a_set_that_is_off() {
    for edition in Edition::ALL {
        for power in [1, 77, HIGHEST_POWER] {
            let of = day(edition, |day| day.plan.intervals[0][0].online_power = power);
            assert_eq!(answer(&of), mended(1, 1, 0));
        }
        let twice = day(edition, |day| {
            day.plan.intervals[0][0].online_power = 1;
            day.plan.intervals[1][1].online_power = 201;
        });
        assert_eq!(answer(&twice), Mending::Nothing);
    }
}

/// pmin 100,000 of the load, which ramps by 100 kW a minute from 94,000.
#[test]
fn the_highest_power() {
    for edition in Edition::ALL {
        let of = day(edition, |day| {
            let load = &mut day.case.devices[1];
            load.initial_power = 94_000;
            for terms in &mut load.terms {
                (terms.pmin, terms.pmax) = (HIGHEST_POWER, HIGHEST_POWER);
                terms.blocks[0].cap = HIGHEST_POWER;
            }
            day.plan.intervals[0][1].online_power = HIGHEST_POWER;
            day.plan.intervals[1][1].online_power = 99_990;
        });
        assert_eq!(answer(&of), mended(2, 2, HIGHEST_POWER));
        let mut higher = of.clone();
        higher.case.devices[1].initial_power = 93_999;
        assert_eq!(answer(&higher), Mending::Nothing);
    }
}

/// The load rises by 121 kW where it may rise by 120: either interval mends it by 1 kW, and the
/// earlier comes first; where the earlier is at its pmax, the later one does.
#[test]
fn ramps_from_either_side() {
    let rising = |first: i128, second: i128| {
        day(Edition::One, |day| {
            day.case.devices[1].ramps.up = 2;
            day.case.devices[1].ramps.down = 2;
            day.plan.intervals[0][1].online_power = first;
            day.plan.intervals[1][1].online_power = second;
        })
    };
    assert_eq!(answer(&rising(20, 141)), mended(1, 2, 21));
    let mut at_pmax = rising(20, 141);
    at_pmax.case.devices[1].terms[0].pmax = 20;
    assert_eq!(answer(&at_pmax), mended(2, 2, 140));
    // From 30 the first may be up to 150, the second down to 0.
    assert_eq!(answer(&rising(150, 29)), mended(1, 2, 149));
    let mut at_pmin = rising(150, 29);
    at_pmin.case.devices[1].terms[0].pmin = 150;
    assert_eq!(answer(&at_pmin), mended(2, 2, 30));
}

/// Rule 5 of interval 1 and rule 6 of interval 2, both by one power.
#[test]
fn two_breaches_that_one_power_mends() {
    let of = day(Edition::One, |day| {
        day.case.devices[1].ramps.up = 2;
        day.case.devices[1].ramps.down = 1;
        day.plan.intervals[0][1].online_power = 151;
        day.plan.intervals[1][1].online_power = 80;
    });
    assert_eq!(breaches_of(&of.case, &of.plan).len(), 2);
    // At most 150 by rule 5, at most 140 by the next rule 6.
    assert_eq!(answer(&of), mended(1, 2, 140));
}

/// Device 1 on the two-set day of edition 2 with a q of 49 in interval 2 and lines of either slope:
/// 49,000 var at 333 thousandths take 147.15 kW, at −333 from 98,900 var on 149.85 kW.
#[test]
fn lines_of_either_slope() {
    let linked = |upper: LinkLine, lower: LinkLine, q: i128, power: i128| {
        day(Edition::Two, |day| {
            let device = &mut day.case.devices[0];
            device.link = Link::TwoLines { upper, lower };
            for terms in &mut device.terms {
                (terms.pmin, terms.qmin, terms.qmax) = (0, -100, 100);
            }
            device.ramps.starting = 10;
            day.plan.intervals[1][0].reactive_power = q;
            day.plan.intervals[1][0].online_power = power;
        })
    };
    let line = |offset, slope| LinkLine { offset, slope };
    let flat = line(-100, 0);
    assert_eq!(
        answer(&linked(line(0, 333), flat, 49, 147)),
        mended(2, 1, 148)
    );
    assert_eq!(
        answer(&linked(line(99, -333), flat, 49, 151)),
        mended(2, 1, 150)
    );
    let high = line(100, 0);
    assert_eq!(
        answer(&linked(high, line(0, 333), 49, 150)),
        mended(2, 1, 147)
    );
    assert_eq!(
        answer(&linked(high, line(99, -333), 49, 150)),
        mended(2, 1, 151)
    );
    // No power up to pmax brings a slope of 1 to 49 kvar.
    assert_eq!(answer(&linked(line(0, 1), flat, 49, 150)), Mending::Nothing);
}

/// An equality of 1 kvar and 200 thousandths asks for 31 kvar at 150 kW and at no other power; 30
/// kvar at 145; none at a q that no whole power gives.
#[test]
fn an_equality() {
    let equal = |slope: i128, q: i128, power: i128| {
        day(Edition::Two, |day| {
            let device = &mut day.case.devices[0];
            device.link = Link::Equality(LinkLine { offset: 1, slope });
            for terms in &mut device.terms {
                (terms.pmin, terms.qmin, terms.qmax) = (0, -100, 100);
            }
            device.ramps.starting = 10;
            day.plan.intervals[1][0].reactive_power = q;
            day.plan.intervals[1][0].online_power = power;
        })
    };
    for power in [0, 1, 149, 151, 200, HIGHEST_POWER] {
        assert_eq!(answer(&equal(200, 31, power)), mended(2, 1, 150));
        assert_eq!(answer(&equal(-200, -29, power)), mended(2, 1, 150));
    }
    assert_eq!(answer(&equal(200, 30, 150)), mended(2, 1, 145));
    assert_eq!(answer(&equal(201, 31, 150)), Mending::Nothing);
    assert_eq!(answer(&equal(0, 31, 150)), Mending::Nothing);
}

/// Both ways on one plan that is broken, up to a most power; what they say of it.
fn hold_both(case: &Case, plan: &Plan, most: i128) -> Option<Mend> {
    let by_trial = trial::least_mend(case, plan, most);
    let by_bounds = bounds::least_mend(case, plan, most);
    assert_eq!(by_bounds, by_trial, "up to {most}: {case:?} {plan:?}");
    by_trial
}

fn is_broken(case: &Case, plan: &Plan) -> bool {
    our_completion(case, plan).is_err()
}

/// Small days of every edition: as many powers are tried as a plan has settings, each.
#[test]
fn bounds_are_what_trial_finds_in_small_ranges() {
    const MOST: i128 = 240;
    for edition in Edition::ALL {
        let mut rng = Rng::numbered(SEED, edition.figure() as u64);
        let (mut mends, mut none) = (0, 0);
        while mends < 100 || none < 30 {
            let sample = sample_in(&mut rng, edition, Size::Tiny);
            let mendable = Mendable::around(&mut rng, sample);
            for _ in 0..4 {
                let plan = mendable.plan(&mut rng);
                if is_broken(&mendable.case, &plan) {
                    match hold_both(&mendable.case, &plan, MOST) {
                        Some(_) => mends += 1,
                        None => none += 1,
                    }
                }
            }
        }
    }
}

/// Some of every edition with every power from 0 to 100,000.
#[test]
fn bounds_are_what_trial_finds_in_the_whole_range() {
    for edition in Edition::ALL {
        let mut rng = Rng::numbered(SEED, 100 + edition.figure() as u64);
        let (mut mends, mut none) = (0, 0);
        while mends < 8 || none < 1 {
            let sample = sample_in(&mut rng, edition, Size::Tiny);
            let mendable = Mendable::around(&mut rng, sample);
            let plan = mendable.plan(&mut rng);
            let cells = mendable.case.devices.len() * mendable.case.intervals();
            if !is_broken(&mendable.case, &plan) || cells > 3 {
                continue;
            }
            match bounds::least_mend(&mendable.case, &plan, HIGHEST_POWER) {
                Some(_) => mends += 1,
                None if none < 1 => none += 1,
                None => continue,
            }
            hold_both(&mendable.case, &plan, HIGHEST_POWER);
        }
    }
}

/// A plan with one power changed is mended, by no greater change than that; the mended plan keeps
/// every rule, and one kW nearer to the old power breaks one.
#[test]
fn one_change_is_mended() {
    let mut rng = Rng::new(SEED);
    let (mut one, mut several) = (0, 0);
    while one < 800 || several < 300 {
        let mendable = Mendable::random(&mut rng, Size::Small);
        for _ in 0..5 {
            let case = &mendable.case;
            let plan = mendable.plan_with_one_change(&mut rng);
            let breaches = breaches_of(case, &plan);
            match breaches.len() {
                0 => continue,
                1 => one += 1,
                _ => several += 1,
            }
            let (mend, _) = mend_of(case, &plan).expect("changing it back mends");
            assert!(!is_broken(case, &mend.applied(&plan)));
            let toward = (mend.old_power(&plan) - mend.power).signum();
            let nearer = Mend {
                power: mend.power + toward,
                ..mend
            };
            assert!(is_broken(case, &nearer.applied(&plan)));
        }
    }
}

/// Every plan to be mended is one that its case can be asked about, and a good plan keeps every rule.
#[test]
fn plans_for_mending_pass_reading() {
    let mut rng = Rng::new(SEED);
    for _ in 0..300 {
        let mendable = Mendable::random(&mut rng, Size::Small);
        let good = mendable.good_plan(&mut rng);
        assert!(
            !is_broken(&mendable.case, &good),
            "{:?} {good:?}",
            mendable.case
        );
        let case = encode_case(mendable.edition, &mendable.case).bytes;
        let plan = encode_plan(mendable.edition, &mendable.plan(&mut rng)).bytes;
        assert!(!matches!(mend(&case, &plan), Mending::Refused(_)));
    }
}
