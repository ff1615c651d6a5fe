//! "For our completion": no other completion that meets every rule has a greater surplus, and among
//! those with the same it is the one that the paper names.

use reference::case::{Block, Case, Side, StartupState};
use reference::clock::spans;
use reference::completion::{Completion, DeviceChoices};
use reference::forced::forced;
use reference::generate::plans::good_plan;
use reference::generate::sample::random_sample;
use reference::generate::shape::Size;
use reference::meets::{meets, surplus_of};
use reference::ours::{complete, Ours};
use reference::plan::Plan;
use reference::rivals::{random_misfit, random_rival};
use reference::rng::Rng;
use reference::worked_day::{reactive_days, two_set_day};

const SEED: u64 = 11;

fn ours(case: &Case, plan: &Plan) -> Ours {
    let spans = spans(&case.durations);
    complete(case, &spans, plan, &forced(case, &spans, plan))
}

#[test]
fn random_rivals_never_have_a_greater_surplus() {
    let (mut rivals, mut equals, mut unfit) = (0, 0, 0);
    for index in 0..400 {
        let mut rng = Rng::numbered(SEED, index);
        let size = rng.pick(&[Size::Tiny, Size::Small]);
        let sample = random_sample(&mut rng, size);
        let plan = good_plan(&mut rng, &sample);
        let ours = ours(&sample.case, &plan);
        for _ in 0..12 {
            let rival = random_rival(
                &mut rng,
                sample.edition,
                &sample.case,
                &plan,
                &ours.completion,
            );
            if !meets(&sample.case, &plan, &rival) {
                unfit += 1;
                continue;
            }
            let surplus = surplus_of(&sample.case, &plan, &rival);
            assert!(surplus <= ours.surplus);
            if rival != ours.completion {
                rivals += 1;
                equals += usize::from(surplus == ours.surplus);
            }
        }
    }
    println!("rivals {rivals}, of these with equal surplus {equals}; unfit {unfit}");
    assert!(rivals > 1_000 && equals > 10 && unfit > 10);
}

#[test]
fn misfits_do_not_meet_every_rule() {
    for index in 0..100 {
        let mut rng = Rng::numbered(SEED, 10_000 + index);
        let sample = random_sample(&mut rng, Size::Small);
        let plan = good_plan(&mut rng, &sample);
        let ours = ours(&sample.case, &plan);
        for _ in 0..12 {
            let misfit = random_misfit(
                &mut rng,
                sample.edition,
                &sample.case,
                &plan,
                &ours.completion,
            );
            assert!(!meets(&sample.case, &plan, &misfit), "{misfit:?}");
        }
    }
}

/// Completions of another shape are not of this case.
#[test]
fn completions_of_another_shape_do_not_meet() {
    let day = two_set_day();
    let ours = ours(&day.case, &day.plan).completion;
    assert!(meets(&day.case, &day.plan, &ours));
    let changes: [fn(&mut Completion); 5] = [
        |completion| completion.intervals.truncate(1),
        |completion| completion.intervals[0].devices.truncate(1),
        |completion| completion.intervals[0].shortfalls.push([0; 8]),
        |completion| completion.overruns.truncate(1),
        |completion| completion.overruns[0].push(0),
    ];
    for change in changes {
        let mut other = ours.clone();
        change(&mut other);
        assert!(!meets(&day.case, &day.plan, &other));
    }
}

/// A plan that breaks a rule has no completion that meets every rule.
#[test]
fn no_completion_of_a_broken_plan_meets() {
    let mut day = two_set_day();
    let ours = ours(&day.case, &day.plan).completion;
    day.case.devices[0].reserve_limits.nsc = 0;
    day.plan.intervals[0][0].reserves.nsc = 1;
    assert!(!meets(&day.case, &day.plan, &ours));
}

/// Every split of the starting device's 5 kW over its blocks and every state, exhaustively.
#[test]
fn ours_is_the_best_of_all_and_the_first_among_equals() {
    let prices = [-1, 2, 2];
    let costs = [-3, -3, 0, 2];
    let mut days = 0;
    for side in [Side::Producing, Side::Consuming] {
        for a in prices {
            for b in prices {
                for c in prices {
                    for (first, second) in costs.iter().flat_map(|f| costs.map(|s| (*f, s))) {
                        hold_to_all_rivals(side, [a, b, c], [first, second]);
                        days += 1;
                    }
                }
            }
        }
    }
    assert_eq!(days, 2 * 27 * 16);
}

/// One device starts in interval 2 of the worked day at 5 kW, with caps 3, 4 and 2.
fn hold_to_all_rivals(side: Side, prices: [i128; 3], state_costs: [i128; 2]) {
    let mut day = two_set_day();
    let device = &mut day.case.devices[0];
    device.side = side;
    device.startup_states = state_costs
        .map(|cost| StartupState {
            longest_downtime: 700,
            cost,
        })
        .to_vec();
    let caps = [3, 4, 2];
    for terms in &mut device.terms {
        terms.pmin = 0;
        terms.blocks = (0..3).map(|m| Block::plain(caps[m], prices[m])).collect();
    }
    day.plan.intervals[1][0].online_power = 5;
    let ours = ours(&day.case, &day.plan);
    let mut best: Option<(i128, DeviceChoices)> = None;
    // Lower-numbered blocks fuller first, lower-numbered states first, none before all.
    for first in (0..=caps[0]).rev() {
        for second in (0..=caps[1]).rev() {
            for startup_state in 0..=2 {
                let mut rival = ours.completion.clone();
                let choices = &mut rival.intervals[1].devices[0];
                choices.blocks = [first, second, 5 - first - second, 0];
                choices.startup_state = startup_state;
                let choices = *choices;
                if !meets(&day.case, &day.plan, &rival) {
                    continue;
                }
                let surplus = surplus_of(&day.case, &day.plan, &rival);
                if best.is_none_or(|(best, _)| surplus > best) {
                    best = Some((surplus, choices));
                }
            }
        }
    }
    let (surplus, choices) = best.expect("some split meets every rule");
    assert_eq!(surplus, ours.surplus);
    assert_eq!(choices, ours.completion.intervals[1].devices[0]);
}

/// "by its own choices": what `surplus_of` makes of choices that meet nothing.
#[test]
fn surplus_goes_by_the_choices_as_they_stand() {
    let day = two_set_day();
    let ours = ours(&day.case, &day.plan).completion;
    let surplus_with = |change: fn(&mut Completion)| {
        let mut other = ours.clone();
        change(&mut other);
        surplus_of(&day.case, &day.plan, &other) - 167_860
    };
    // A start more costs 10,000; none, a start less.
    assert_eq!(
        surplus_with(|c| c.intervals[0].devices[0].started = 1),
        -10_000
    );
    assert_eq!(
        surplus_with(|c| c.intervals[1].devices[0].started = -1),
        20_000
    );
    // State 1 instead of 2; a state that is none.
    assert_eq!(
        surplus_with(|c| c.intervals[1].devices[0].startup_state = 1),
        1_500
    );
    assert_eq!(
        surplus_with(|c| c.intervals[1].devices[0].startup_state = 3),
        -500
    );
    // A kW more at price 3 for 60 minutes; one in an absent block.
    assert_eq!(
        surplus_with(|c| c.intervals[0].devices[0].blocks[0] += 1),
        -180
    );
    assert_eq!(
        surplus_with(|c| c.intervals[0].devices[0].blocks[3] += 1),
        0
    );
    // A kW of consumption at 20; a kW of mismatch at 1,000.
    assert_eq!(
        surplus_with(|c| c.intervals[0].devices[1].blocks[0] += 1),
        1_200
    );
    assert_eq!(surplus_with(|c| c.intervals[0].mismatches[0] += 1), -60_000);
}

/// Of the worked day in a zone, −372,560: reactive shortfalls in var at 3 and 5, mismatch in kvar
/// at 1,000; each at its need or above it, never negative.
#[test]
fn reactive_choices_are_at_or_above_their_needs() {
    let (_, day) = &reactive_days()[4];
    let ours = ours(&day.case, &day.plan);
    let surplus_with = |change: &dyn Fn(&mut Completion)| {
        let mut other = ours.completion.clone();
        change(&mut other);
        meets(&day.case, &day.plan, &other)
            .then(|| surplus_of(&day.case, &day.plan, &other) - ours.surplus)
    };
    assert_eq!(ours.surplus, -372_560);
    let of_zone: Vec<[i128; 2]> = ours
        .completion
        .intervals
        .iter()
        .map(|interval| [interval.shortfalls[0][6], interval.shortfalls[0][7]])
        .collect();
    assert_eq!(of_zone, [[1_000, 0], [0, 1_000]]);
    for (t, k, price) in [(0, 6, 3), (0, 7, 5), (1, 6, 3), (1, 7, 5)] {
        let more = surplus_with(&|c| c.intervals[t].shortfalls[0][k] += 1);
        assert_eq!(more, Some(-60 * price));
        let less = surplus_with(&|c| c.intervals[t].shortfalls[0][k] -= 1);
        assert_eq!(less, None);
    }
    for t in [0, 1] {
        let more = surplus_with(&|c| c.intervals[t].reactive_mismatches[0] += 1);
        assert_eq!(more, Some(-60_000));
        let less = surplus_with(&|c| c.intervals[t].reactive_mismatches[0] -= 1);
        assert_eq!(less, None);
    }
}
