//! The cheapest dispatch of one interval (A.10): figures by hand, each refusal and their sequence; the
//! definition, by trying all block powers, against the method for days of every size and against a
//! table of the cheapest powers for each total; the bounds against the rules; the long run.

use std::cmp::Reverse;

use reference::breaches::breaches_of;
use reference::case::{read_case, Block, Case, Device, Ramps, Reserves, Side, Status, Terms};
use reference::compare::output_of_program;
use reference::dispatch::run::{compare, numbered_batch, stream, Settings, Tally};
use reference::dispatch::stream::{answers, output, questions};
use reference::dispatch::{
    bounds_of, dispatch, dispatch_in, exchange, exhaustive, offers_of, Answer, Offer, Question,
    Task, TaskBlock,
};
use reference::edition::Edition;
use reference::encode::encode_case;
use reference::fault::{Fault, Number};
use reference::generate::dispatches::{random_case, random_question, widest_batch, Arrangement};
use reference::packed::unpack;
use reference::plan::{Plan, Setting};
use reference::rewrite::newest_case;
use reference::rng::Rng;
use reference::worked_day::two_set_day;

const SEED: u64 = 10;

fn offer(set: u64, block: u64, cap: u64, floor: u64, price: i64) -> Offer {
    Offer {
        set,
        block,
        cap,
        floor,
        price,
    }
}

/// The two-set day's interval 2 with set 1 at 150 kW before, which has blocks of 100 at 3 and at 5.
fn asked(target: u64) -> Question {
    Question {
        interval: 2,
        sets: vec![1],
        powers: vec![150],
        offers: vec![offer(1, 2, 100, 0, 5), offer(1, 1, 100, 0, 3)],
        target,
    }
}

/// The answer on the two-set day of an edition, and the question as it is left.
fn told_in(edition: Edition, question: &Question) -> (Answer, Question) {
    let case = encode_case(edition, &two_set_day().case).bytes;
    let mut left = question.clone();
    (dispatch(&case, &mut left), left)
}

fn told(question: &Question) -> (Answer, Question) {
    told_in(Edition::One, question)
}

/// "interval 2, set 1, earlier 150, target 160: 160; target 149: 9, 149". From 150 (pmin) to 200
/// (pmax, caps), for the ramps reach 600 kW either way.
#[test]
fn the_two_set_day() {
    for edition in Edition::ALL {
        for target in [150, 160, 200] {
            let (answer, left) = told_in(edition, &asked(target));
            assert_eq!(answer, Answer::Dispatched);
            assert_eq!(left.powers, [target]);
            assert_eq!(
                left.offers,
                [offer(1, 1, 100, 0, 3), offer(1, 2, 100, 0, 5)]
            );
        }
        for target in [0, 149, 201, u64::MAX] {
            let question = asked(target);
            let refused = (Answer::NoSuchPowers { target }, question.clone());
            assert_eq!(told_in(edition, &question), refused);
        }
    }
}

/// The ramps of 10 kW/min go 600 kW in the hour, and those of starting are no part of it: from 800 kW
/// down to 200 alone; further and none is left. From 0 kW all of 150 to 200.
#[test]
fn ramps_by_hand() {
    for (earlier, least, most) in [(800, 200, 200), (799, 199, 200), (0, 150, 200)] {
        for (target, is_answered) in [
            (least - 1, false),
            (least, true),
            (most, true),
            (most + 1, false),
        ] {
            let mut question = asked(target);
            question.powers = vec![earlier];
            let expected = if is_answered {
                Answer::Dispatched
            } else {
                Answer::NoSuchPowers { target }
            };
            assert_eq!(told(&question).0, expected, "{earlier} to {target}");
        }
    }
    for earlier in [801, 1 << 32, 1 << 63, u64::MAX] {
        let mut question = asked(200);
        question.powers = vec![earlier];
        assert_eq!(told(&question).0, Answer::NoSuchPowers { target: 200 });
    }
}

/// A day of one interval of 60 minutes, whose sets have these limits and blocks (cap, floor, price),
/// and ramps of 100 kW/min.
fn day(sets: &[(i128, i128, &[(i128, i128, i128)])]) -> Case {
    let device = |&(pmin, pmax, blocks): &(i128, i128, &[(i128, i128, i128)])| {
        let block = |&(cap, floor, price): &(i128, i128, i128)| Block { cap, floor, price };
        let terms = Terms {
            pmin,
            pmax,
            blocks: blocks.iter().map(block).collect(),
            ..Terms::default()
        };
        Device::plain(Side::Producing, vec![terms])
    };
    Case {
        mismatch_price: 1,
        overrun_price: 1,
        link_limit: 0,
        durations: vec![60],
        zones: Vec::new(),
        devices: sets.iter().map(device).collect(),
    }
}

/// The powers of sets that were at 0 kW, in the order named, or none.
fn powers(case: &Case, sets: &[u64], target: u64) -> Option<Vec<u64>> {
    let mut question = Question {
        interval: 1,
        sets: sets.to_vec(),
        powers: vec![0; sets.len()],
        offers: offers_of(case, 0, sets),
        target,
    };
    match dispatch_in(case, &mut question) {
        Answer::Dispatched => Some(question.powers),
        Answer::NoSuchPowers { .. } => None,
        other => panic!("{other:?}"),
    }
}

/// "Merit order goes by set number, not by the order named": 10 at 4 of set 3 first, then of equal
/// prices set 1 before set 2.
#[test]
fn the_first_offer_in_merit_order_gets_the_most() {
    let ten: [(i128, i128, i128); 1] = [(10, 0, 5)];
    let case = day(&[(0, 99, &ten), (0, 99, &ten), (0, 99, &[(10, 0, 4)])]);
    for (target, first, second, third) in [
        (0, 0, 0, 0),
        (4, 0, 0, 4),
        (15, 5, 0, 10),
        (20, 10, 0, 10),
        (27, 10, 7, 10),
        (30, 10, 10, 10),
    ] {
        assert_eq!(
            powers(&case, &[1, 2, 3], target),
            Some(vec![first, second, third])
        );
        assert_eq!(
            powers(&case, &[2, 3, 1], target),
            Some(vec![second, third, first])
        );
    }
    assert_eq!(powers(&case, &[1, 2, 3], 31), None);
    // Both blocks of set 1 come before set 2's.
    let two: [(i128, i128, i128); 2] = [(10, 0, 5), (10, 0, 5)];
    let case = day(&[(0, 99, &two), (0, 99, &ten)]);
    assert_eq!(powers(&case, &[2, 1], 15), Some(vec![0, 15]));
}

/// A set's limit or need holds up the cheaper offer: pmax 5 of set 1 leaves 3 to the dear one; pmin 8
/// of the dear one leaves 2 to the cheap one; a floor of 4 on a dear block is taken first.
#[test]
fn limits_and_floors_come_before_prices() {
    let held_up = day(&[(0, 5, &[(10, 0, 1)]), (0, 99, &[(10, 0, 9)])]);
    assert_eq!(powers(&held_up, &[1, 2], 8), Some(vec![5, 3]));
    let needed = day(&[(8, 99, &[(10, 0, 9)]), (0, 99, &[(10, 0, 1)])]);
    assert_eq!(powers(&needed, &[1, 2], 10), Some(vec![8, 2]));
    assert_eq!(powers(&needed, &[1, 2], 7), None);
    let floors = day(&[(0, 99, &[(10, 4, 9), (10, 0, 1)]), (0, 99, &[(10, 0, 5)])]);
    assert_eq!(powers(&floors, &[1, 2], 3), None);
    assert_eq!(powers(&floors, &[1, 2], 4), Some(vec![4, 0]));
    assert_eq!(powers(&floors, &[1, 2], 14), Some(vec![14, 0]));
    assert_eq!(powers(&floors, &[1, 2], 20), Some(vec![14, 6]));
    assert_eq!(powers(&floors, &[1, 2], 25), Some(vec![15, 10]));
    let paid = day(&[(0, 99, &[(10, 0, -3)]), (0, 99, &[(10, 0, -10_000)])]);
    assert_eq!(powers(&paid, &[1, 2], 12), Some(vec![2, 10]));
}

/// A set that must have 3 kW takes them from its own cheapest block though another set is cheaper, and
/// what a set must have anyway leaves less of the total to the first in merit order.
#[test]
fn a_set_fills_its_own_need() {
    let case = day(&[(0, 99, &[(10, 0, 1)]), (3, 99, &[(2, 0, 7), (9, 0, 7)])]);
    assert_eq!(powers(&case, &[1, 2], 5), Some(vec![2, 3]));
    let equal = day(&[(3, 99, &[(10, 0, 7)]), (4, 99, &[(10, 0, 7)])]);
    assert_eq!(powers(&equal, &[2, 1], 9), Some(vec![4, 5]));
}

/// "No set named: target 0 is answered with no power, any other target is 9." A set without blocks has
/// 0 kW, if its pmin lets it.
#[test]
fn no_sets_and_no_blocks() {
    let case = day(&[(0, 99, &[]), (1, 99, &[])]);
    assert_eq!(powers(&case, &[], 0), Some(vec![]));
    assert_eq!(powers(&case, &[], 1), None);
    assert_eq!(powers(&case, &[1], 0), Some(vec![0]));
    assert_eq!(powers(&case, &[2], 0), None);
    assert_eq!(powers(&case, &[2], 1), None);
}

/// Each reason for 8 alone, with a target that would be answered and one that would be 9; the cut case
/// comes before both.
#[test]
fn not_of_the_case() {
    type Change = fn(&mut Question);
    let changes: [(&str, Change); 21] = [
        ("interval 0", |q| q.interval = 0),
        ("interval 3 of 2", |q| q.interval = 3),
        ("a great interval", |q| q.interval = u64::MAX),
        ("interval 2^32 + 2", |q| q.interval = (1 << 32) + 2),
        ("set 0", |q| q.sets = vec![0]),
        ("set 3 of 2", |q| q.sets = vec![3]),
        ("a great set", |q| q.sets = vec![(1 << 32) + 1]),
        ("a consuming set", |q| {
            q.sets = vec![2];
            q.offers = vec![offer(2, 1, 200, 0, 20)];
        }),
        ("a set twice", |q| {
            q.sets = vec![1, 1];
            q.powers = vec![150, 150];
        }),
        ("a set twice with its blocks twice", |q| {
            q.sets = vec![1, 1];
            q.powers = vec![150, 150];
            q.offers.extend(q.offers.clone());
        }),
        ("no earlier power", |q| q.powers = vec![]),
        ("an earlier power too many", |q| q.powers = vec![150, 0]),
        ("no offers", |q| q.offers = vec![]),
        ("an offer missing", |q| q.offers = q.offers[1..].to_vec()),
        ("an offer twice", |q| q.offers.push(q.offers[0])),
        ("an offer for another", |q| q.offers[1] = q.offers[0]),
        ("another set's offer", |q| q.offers[0].set = 2),
        ("another block", |q| q.offers[0].block = 3),
        ("another cap", |q| q.offers[0].cap = 99),
        ("another floor", |q| q.offers[0].floor = 1),
        ("another price", |q| q.offers[0].price = -5),
    ];
    let case = encode_case(Edition::One, &two_set_day().case).bytes;
    for (name, change) in changes {
        for target in [160, 149] {
            let mut question = asked(target);
            change(&mut question);
            assert_eq!(
                told(&question),
                (Answer::NotOfCase, question.clone()),
                "{name}"
            );
            let mut left = question.clone();
            let cut = dispatch(&case[..1], &mut left);
            let fault = Fault::new(Number::Cut, 8);
            assert_eq!((cut, left), (Answer::CaseRefused(fault), question));
        }
    }
}

/// A floor belongs to the offer from edition 3 on; before that it is 0.
#[test]
fn floors_are_the_cases() {
    let mut with_floor = two_set_day().case;
    with_floor.devices[0].terms[1].blocks[1].floor = 80;
    let case = encode_case(Edition::Three, &with_floor).bytes;
    let mut question = asked(160);
    assert_eq!(dispatch(&case, &mut question), Answer::NotOfCase);
    question.offers[0].floor = 80;
    assert_eq!(dispatch(&case, &mut question), Answer::Dispatched);
    let older = encode_case(Edition::Two, &two_set_day().case).bytes;
    assert_eq!(dispatch(&older, &mut question), Answer::NotOfCase);
}

/// A task of so many blocks of sets, with bounds that bind and now and then cannot be kept, prices that
/// are often equal, and a target from one below what the sets can do to one above.
fn random_task(rng: &mut Rng, sets: usize, blocks: usize, highest_cap: i128) -> Task {
    let highest_price = rng.pick(&[0, 1, 2, 9]);
    let mut blocks: Vec<TaskBlock> = (0..blocks)
        .map(|_| {
            let cap = rng.from_to(0, highest_cap);
            let floor = if rng.chance(70) {
                0
            } else {
                rng.from_to(0, cap)
            };
            TaskBlock {
                owner: rng.below(sets),
                cap,
                floor,
                price: rng.from_to(-highest_price, highest_price),
            }
        })
        .collect();
    blocks.sort_by_key(|block| block.price);
    let bounds = (0..sets).map(|owner| {
        let own = || blocks.iter().filter(|block| block.owner == owner);
        let floors: i128 = own().map(|block| block.floor).sum();
        let caps: i128 = own().map(|block| block.cap).sum();
        let low = rng.from_to(floors - 3, (floors + caps) / 2);
        let gap = i128::from(rng.chance(5));
        (low, rng.from_to(low.max(floors) - gap, caps + 2))
    });
    let mut task = Task {
        bounds: bounds.collect(),
        blocks,
        target: 0,
    };
    let (low, high) = sums(&task);
    task.target = rng.from_to(low.max(1) - 1, high.max(low.max(1)) + 1);
    task
}

/// How many choices of block powers a task allows at its least cost.
fn equals(task: &Task, best: &[i128]) -> usize {
    let mut others = vec![vec![]];
    for block in &task.blocks {
        let longer = |start: &Vec<i128>| {
            let start = start.clone();
            (block.floor..=block.cap).map(move |power| [start.clone(), vec![power]].concat())
        };
        others = others.iter().flat_map(longer).collect();
    }
    let is_equal = |other: &&Vec<i128>| task.allows(other) && task.cost(other) == task.cost(best);
    others.iter().filter(is_equal).count()
}

/// The definition and the method for days of every size agree, ties included.
#[test]
fn every_small_task_by_the_definition() {
    let mut rng = Rng::new(SEED);
    let (mut answered, mut tied) = (0, 0);
    for _ in 0..6_000 {
        let (sets, blocks) = (1 + rng.below(3), rng.below(6));
        let task = random_task(&mut rng, sets, blocks, 4);
        assert!(exhaustive::choices(&task).is_some_and(|choices| choices <= 3_125));
        let best = exhaustive::cheapest(&task);
        assert_eq!(exchange::cheapest(&task), best, "{task:?}");
        if let Some(best) = best {
            answered += 1;
            tied += usize::from(equals(&task, &best) > 1);
        }
    }
    assert!(answered > 2_500 && tied > 500, "{answered}, {tied}");
}

/// A total with its cost and its block powers in merit order, those of no block of the sets so far 0.
type Best = Option<(i128, Reverse<Vec<i128>>)>;

/// The cheapest block powers for every total from 0 to the target, set by set: of two choices for the
/// same sets and the same total the better one stays the better whatever the other sets have.
fn by_table(task: &Task) -> Option<Vec<i128>> {
    let target = usize::try_from(task.target).ok()?;
    let mut best: Vec<Best> = vec![None; target + 1];
    best[0] = Some((0, Reverse(vec![0; task.blocks.len()])));
    for (owner, &(low, high)) in task.bounds.iter().enumerate() {
        let alone = set_table(task, owner, target);
        let is_within = |power: &usize| (low..=high).contains(&(*power as i128));
        let mut next: Vec<Best> = vec![None; target + 1];
        for (power, of_set) in alone.iter().enumerate().filter(|(p, _)| is_within(p)) {
            for total in power..=target {
                better(&mut next[total], &joined(&best[total - power], of_set));
            }
        }
        best = next;
    }
    best.pop().flatten().map(|(_, Reverse(powers))| powers)
}

/// The same for the blocks of one set, without its bounds.
fn set_table(task: &Task, owner: usize, target: usize) -> Vec<Best> {
    let mut best: Vec<Best> = vec![None; target + 1];
    best[0] = Some((0, Reverse(vec![0; task.blocks.len()])));
    for (place, block) in task.blocks.iter().enumerate() {
        if block.owner != owner {
            continue;
        }
        let mut next: Vec<Best> = vec![None; target + 1];
        for power in block.floor as usize..=(block.cap as usize).min(target) {
            let mut alone = vec![0; task.blocks.len()];
            alone[place] = power as i128;
            let alone = Some((block.price * power as i128, Reverse(alone)));
            for total in power..=target {
                better(&mut next[total], &joined(&best[total - power], &alone));
            }
        }
        best = next;
    }
    best
}

/// Two choices of different blocks together.
fn joined(one: &Best, other: &Best) -> Best {
    let (cost, Reverse(powers)) = one.as_ref()?;
    let (more, Reverse(others)) = other.as_ref()?;
    let sum = powers.iter().zip(others).map(|(a, b)| a + b);
    Some((cost + more, Reverse(sum.collect())))
}

/// Keeps the cheaper, of equals the greater in merit order.
fn better(kept: &mut Best, other: &Best) {
    if other.is_some() && (kept.is_none() || other < kept) {
        kept.clone_from(other);
    }
}

/// Greater tasks than can be tried out, against the table.
#[test]
fn every_middle_task_by_a_table() {
    let mut rng = Rng::new(SEED + 1);
    let mut answered = 0;
    for _ in 0..500 {
        let sets = 1 + rng.below(5);
        let blocks = rng.below(4 * sets + 1);
        let task = random_task(&mut rng, sets, blocks, 9);
        let found = exchange::cheapest(&task);
        assert_eq!(found, by_table(&task), "{task:?}");
        answered += usize::from(found.is_some());
    }
    assert!(answered > 250, "{answered}");
}

/// A set of few kW and small ramps, the same in two intervals of two minutes.
fn narrow_case(rng: &mut Rng) -> Case {
    let floor = rng.from_to(0, 3);
    let dear = Block {
        cap: floor + rng.from_to(0, 9),
        floor,
        price: 0,
    };
    let terms = Terms {
        pmin: rng.from_to(0, 8),
        pmax: 8 + rng.from_to(0, 8),
        blocks: vec![Block::plain(rng.from_to(0, 12), 1), dear],
        ..Terms::default()
    };
    let device = Device {
        initially_on: true,
        ramps: Ramps {
            up: rng.from_to(1, 3),
            down: rng.from_to(1, 3),
            starting: 1,
            stopping: 1,
        },
        ..Device::plain(Side::Producing, vec![terms.clone(), terms])
    };
    Case {
        durations: vec![2, 2],
        devices: vec![device],
        ..day(&[])
    }
}

/// The bounds are those of rules 5, 6, 16, 17 and 19 for a set that is on in both intervals.
#[test]
fn bounds_are_the_rules() {
    let mut rng = Rng::new(SEED + 2);
    let (mut kept, mut broken) = (0, 0);
    for _ in 0..600 {
        let case = narrow_case(&mut rng);
        let earlier = rng.from_to(0, 24);
        let (low, high) = bounds_of(&case, &case.devices[0], 1, earlier);
        for power in 0..26 {
            let on = |online_power| Setting {
                on: true,
                online_power,
                ..Setting::default()
            };
            let plan = Plan::plain(vec![vec![on(earlier)], vec![on(power)]]);
            let names_it = |rule| [5, 6, 16, 17, 19].contains(&rule);
            let list = breaches_of(&case, &plan);
            let holds = !list.iter().any(|at| at.interval == 2 && names_it(at.rule));
            assert_eq!((low..=high).contains(&power), holds, "{case:?} {earlier}");
            kept += usize::from(holds);
            broken += usize::from(!holds);
        }
    }
    assert!(kept > 500 && broken > 5_000, "{kept}, {broken}");
}

/// "Status, reserves, minimum times, initial state and reactive power are not looked at", nor is the
/// edition: written in the newest the case gives the same answers.
#[test]
fn nothing_else_is_looked_at() {
    for number in 0..40 {
        let mut rng = Rng::numbered(SEED + 3, number);
        let (_, case) = random_case(&mut rng);
        let mut other = case.clone();
        for device in &mut other.devices {
            device.initially_on = !device.initially_on;
            device.initial_power = rng.from_to(0, 100_000);
            device.minimum_up = rng.from_to(0, 60_000);
            device.ramps.starting = rng.from_to(1, 100_000);
            device.ramps.stopping = rng.from_to(1, 100_000);
            device.reserve_limits = Reserves::default();
            device.bar = 1 - device.bar;
            for terms in &mut device.terms {
                terms.status = rng.pick(&[Status::Off, Status::On, Status::Free]);
                (terms.qmin, terms.qmax) = (-1, 1);
            }
        }
        let newest = newest_case(&case);
        for _ in 0..20 {
            let question = random_question(&mut rng, &case);
            let [mut one, mut two, mut three] = [(); 3].map(|_| question.clone());
            let answer = dispatch_in(&case, &mut one);
            assert_eq!(dispatch_in(&other, &mut two), answer);
            assert_eq!(dispatch(&newest, &mut three), answer);
            assert_eq!((&two, &three), (&one, &one));
        }
    }
}

/// What holds of every answer: a refusal leaves both lists, an answer sums to the target, within the
/// bounds, with the list sorted and nothing lost.
#[test]
fn what_holds_of_every_answer() {
    let mut counts = [0; 4];
    for number in 0..300 {
        let mut rng = Rng::numbered(SEED + 4, number);
        let (_, case) = random_case(&mut rng);
        for _ in 0..10 {
            let question = random_question(&mut rng, &case);
            let mut left = question.clone();
            let answer = dispatch_in(&case, &mut left);
            let task = Task::of(&case, &question);
            match answer {
                Answer::Dispatched => {
                    let task = task.expect("a task");
                    counts[0] += 1;
                    counts[3] += usize::from(question.sets.len() > 16);
                    hold_answer(&task, &question, &left);
                }
                Answer::NotOfCase => {
                    counts[1] += 1;
                    assert_eq!((task, left), (None, question));
                }
                Answer::NoSuchPowers { target } => {
                    counts[2] += 1;
                    let (low, high) = sums(&task.expect("a task"));
                    let target = i128::from(target);
                    let is_empty = target < low || high < target;
                    assert!(is_empty || has_no_power(&case, &question));
                    assert_eq!(left, question);
                }
                Answer::CaseRefused(fault) => panic!("{fault:?}"),
            }
        }
    }
    let [dispatched, not_of_case, no_such_powers, large] = counts;
    assert!(dispatched > 1_000 && not_of_case > 300, "{counts:?}");
    assert!(no_such_powers > 300 && large > 50, "{counts:?}");
}

fn sums(task: &Task) -> (i128, i128) {
    let low = task.bounds.iter().map(|bounds| bounds.0).sum();
    (low, task.bounds.iter().map(|bounds| bounds.1).sum())
}

/// Whether some named set has no power within its bounds.
fn has_no_power(case: &Case, question: &Question) -> bool {
    let task = Task::of(case, question).expect("a task");
    task.bounds.iter().any(|(low, high)| low > high)
}

fn hold_answer(task: &Task, question: &Question, left: &Question) {
    let wide: Vec<i128> = left.powers.iter().map(|&power| power.into()).collect();
    assert_eq!(wide.iter().sum::<i128>(), task.target);
    for (power, (low, high)) in wide.iter().zip(&task.bounds) {
        assert!(low <= power && power <= high);
    }
    let merit = |offer: &Offer| (offer.price, offer.set, offer.block);
    assert!(left.offers.is_sorted_by_key(merit));
    let sorted = |offers: &[Offer]| {
        let mut offers = offers.to_vec();
        offers.sort();
        offers
    };
    assert_eq!(sorted(&left.offers), sorted(&question.offers));
    let others = (left.interval, &left.sets, left.target);
    assert_eq!(others, (question.interval, &question.sets, question.target));
}

/// The widest question, at both ends, between and one beyond, however its offers come.
#[test]
fn the_widest_question() {
    for thousandths in [0, 1, 500, 999, 1_000] {
        let powers = Arrangement::ALL.map(|arrangement| {
            let batch = widest_batch(&mut Rng::new(1), thousandths, arrangement);
            let (_, asked) = questions(&batch).expect("a question");
            assert_eq!((asked[0].sets.len(), asked[0].offers.len()), (64, 256));
            let (answer, left) = answers(&batch).expect("an answer").remove(0);
            assert_eq!(answer, Answer::Dispatched);
            assert_eq!(left.powers.iter().sum::<u64>(), asked[0].target);
            left.powers
        });
        assert!(powers.iter().all(|other| *other == powers[0]));
    }
    let batch = widest_batch(&mut Rng::new(1), 1_001, Arrangement::ByMerit);
    let answers = answers(&batch).expect("an answer");
    assert!(matches!(answers[0].0, Answer::NoSuchPowers { .. }));
}

/// A question's bytes are read back, and bytes that are none are not.
#[test]
fn questions_in_bytes() {
    let bytes = asked(160).to_bytes();
    assert_eq!(bytes.len(), 8 * (5 + 1 + 1 + 2 * 5));
    assert_eq!(
        bytes[..16],
        [0, 0, 0, 0, 0, 0, 0, 2, 0, 0, 0, 0, 0, 0, 0, 160]
    );
    assert_eq!(Question::from_bytes(&bytes), Some(asked(160)));
    assert_eq!(Question::from_bytes(&bytes[..bytes.len() - 1]), None);
    assert_eq!(Question::from_bytes(&bytes[8..]), None);
    assert_eq!(Question::from_bytes(&[&bytes[..], &[0; 8]].concat()), None);
    let batch = numbered_batch(SEED, 1);
    for question in questions(&batch).expect("questions").1 {
        let again = Question::from_bytes(&question.to_bytes());
        assert_eq!(again, Some(question));
    }
}

fn settings(questions: u64) -> Settings {
    Settings {
        seed: SEED,
        first_case: 0,
        questions,
    }
}

fn reference_output(packed: &[u8]) -> String {
    let batches = unpack(packed).expect("a packed stream");
    let told = |(k, batch): (usize, &&[u8])| output(k, &answers(batch).expect("questions"));
    batches.iter().enumerate().map(told).collect()
}

/// The long run reaches every answer in every edition, and the program of its own agrees.
#[test]
fn the_long_run_reaches_every_answer() {
    let mut product = |packed: &[u8]| Ok(reference_output(packed).into_bytes());
    let (tally, difference) = compare(&settings(8_000), &mut product, |_| {}).expect("it runs");
    assert_eq!(difference, None);
    assert!(tally.questions() >= 8_000);
    let Tally {
        by_edition,
        large,
        equal_prices,
        ..
    } = tally;
    assert!(by_edition.iter().all(|&count| count > 300), "{tally}");
    assert!(large > 100 && equal_prices > 1_500, "{tally}");
    assert!(tally.tried_out > 1_000, "{tally}");
    assert!(
        tally.cases_refused > 100 && tally.without_sets > 50,
        "{tally}"
    );
    assert!(
        tally.not_of_case > 900 && tally.no_such_powers > 1_000,
        "{tally}"
    );
}

/// A changed answer, a changed list and a missing line are told.
#[test]
fn a_difference_is_told() {
    type Change = fn(String) -> String;
    let changes: [Change; 4] = [
        |output| output.replacen(" dispatched", " not dispatched 9 1", 1),
        |output| output.replacen("not dispatched 8 0", "not dispatched 9 0", 1),
        |output| output[..output.len() - 2].to_string() + "x\n",
        |output| output.lines().skip(1).map(|l| format!("{l}\n")).collect(),
    ];
    for change in changes {
        let mut product = |packed: &[u8]| Ok(change(reference_output(packed)).into_bytes());
        let (_, difference) = compare(&settings(2_600), &mut product, |_| {}).expect("it runs");
        let difference = difference.expect("a difference");
        assert!(difference.shows_alone && difference.line > 0);
        let stored = unpack(&difference.packed).expect("a packed stream");
        assert_eq!(stored, [numbered_batch(SEED, difference.batch)]);
    }
}

#[test]
fn a_stream_is_what_the_long_run_asks() {
    let mut asked = Vec::new();
    let mut product = |packed: &[u8]| {
        asked.push(packed.to_vec());
        Ok(Vec::new())
    };
    let (tally, _) = compare(&settings(1), &mut product, |_| {}).expect("it runs");
    assert_eq!(tally.cases, 1);
    let batches = unpack(&asked[0]).expect("a packed stream");
    let questions = 40 * batches.len() as u64;
    assert_eq!(stream(&settings(questions)), asked[0]);
    assert_eq!(stream(&settings(1)), asked[1]);
}

/// A program that reads a stream and answers it, as the long run asks.
#[test]
fn a_program_of_its_own_answers() {
    let program = std::path::Path::new(env!("CARGO_TARGET_TMPDIR")).join("dispatches.sh");
    let line = format!(
        "#!/bin/sh\nexec {} --answer\n",
        env!("CARGO_BIN_EXE_dispatches")
    );
    std::fs::write(&program, line).expect("a script");
    let made = std::process::Command::new("chmod")
        .arg("+x")
        .arg(&program)
        .status();
    assert!(made.is_ok_and(|status| status.success()));
    let program = program.to_str().expect("a path");
    let mut product = |packed: &[u8]| output_of_program(program, packed);
    let (_, difference) = compare(&settings(1_000), &mut product, |_| {}).expect("it runs");
    assert_eq!(difference, None);
}

/// Of a case that is refused every question is told so, with its lists as they came.
#[test]
fn a_refused_case_comes_first() {
    let case = encode_case(Edition::One, &two_set_day().case).bytes;
    let question = asked(149);
    let batch = reference::batch::join(&[case[..1].to_vec(), question.to_bytes()]);
    assert!(read_case(&case[..1]).is_err());
    let told = output(7, &answers(&batch).expect("questions"));
    let crc = question.lent_crc();
    assert_eq!(told, format!("batch 7\n1 case refused 1 8 {crc}\n"));
    let batch = reference::batch::join(&[case, question.to_bytes()]);
    let told = output(0, &answers(&batch).expect("questions"));
    assert_eq!(told, format!("batch 0\n1 not dispatched 9 149 {crc}\n"));
}
