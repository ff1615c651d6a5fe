//! Renumbering sets (A.11, with A.12's sentence on bars): the worked day with its sets swapped, and
//! random pairs with their devices in another order: surplus, needs, parts and lists go along.

use reference::breaches::breaches_of;
use reference::case::{read_case, Case, EnergyKind, EnergyWindow};
use reference::clock::spans;
use reference::completion::{completion_bits, completion_bytes, Completion};
use reference::edition::Edition;
use reference::encode::{encode_case, encode_plan};
use reference::forced::forced;
use reference::generate::batches::random_plan_message;
use reference::generate::order::random_order;
use reference::generate::sample::sample_in;
use reference::generate::shape::Size;
use reference::judge::{judge, Verdict};
use reference::meets::{meets, surplus_of};
use reference::ours::complete;
use reference::plan::{read_plan, Plan};
use reference::renumber::Order;
use reference::rng::Rng;
use reference::rules::Place;
use reference::worked_day::{lettered_days, link_days, two_set_day, Day};

const SEED: u64 = 32;

fn swap() -> Order {
    Order::new(vec![1, 0]).expect("both places")
}

fn renumbered(order: &Order, day: &Day) -> Day {
    Day {
        edition: day.edition,
        case: order.case(&day.case),
        plan: order.plan(&day.plan),
    }
}

fn figures(place: &Place) -> [usize; 4] {
    let rule = usize::from(place.rule);
    [rule, place.interval, place.device, place.window]
}

/// The surplus, or the first broken rule and its place; and every broken rule.
fn told(day: &Day) -> (Result<i128, [usize; 4]>, Vec<[usize; 4]>) {
    let (case, plan) = day.messages();
    let verdict = match judge(&case, &plan, &mut [0; 300]) {
        Verdict::Accepted { surplus } => Ok(surplus),
        Verdict::Broken(place) => Err(figures(&place)),
        Verdict::Refused(refusal) => panic!("{refusal:?}"),
    };
    let list = breaches_of(&day.case, &day.plan);
    (verdict, list.iter().map(figures).collect())
}

/// What the paper prints of (a) to (m), with device 1 of a breach as device 2.
#[test]
fn the_worked_days_swapped() {
    let swapped: [Result<i128, [usize; 4]>; 13] = [
        Ok(167_860),
        Err([5, 2, 2, 0]),
        Ok(167_860),
        Ok(167_360),
        Ok(106_660),
        Ok(169_360),
        Err([2, 2, 2, 0]),
        Ok(-1_452_140),
        Ok(-552_140),
        Err([20, 0, 2, 1]),
        Ok(167_860),
        Ok(163_360),
        Ok(163_510),
    ];
    for ((letter, day), verdict) in lettered_days().iter().zip(swapped) {
        assert_eq!(told(&renumbered(&swap(), day)).0, verdict, "({letter})");
    }
}

/// "Renumbering carries the bars along"; "Device 0 of rule 27 stays 0; flow, limit, zones and
/// durations stay."
#[test]
fn the_days_of_two_bars_swapped() {
    let verdicts = [Ok(167_860), Err([27, 2, 0, 0]), Ok(-7_032_140)];
    for ((about, day), verdict) in link_days().iter().zip(verdicts) {
        let swapped = renumbered(&swap(), day);
        let bars: Vec<usize> = swapped.case.devices.iter().map(|d| d.bar).collect();
        assert_eq!((bars, &swapped.plan.flows), (vec![1, 0], &day.plan.flows));
        assert_eq!(told(&swapped).0, verdict, "{about}");
    }
    // Left at their places, the bars would tell.
    let mut kept = renumbered(&swap(), &link_days()[0].1);
    for (bar, device) in kept.case.devices.iter_mut().enumerate() {
        device.bar = bar;
    }
    assert_ne!(told(&kept).0, Ok(167_860));
}

/// "The named first breach may differ": both sets break rules in interval 2.
#[test]
fn the_first_breach_may_differ() {
    let mut day = two_set_day();
    day.plan.intervals[1][0].online_power = 151;
    day.plan.intervals[1][1].online_power = 201;
    let (first, list) = told(&day);
    assert_eq!(first, Err([5, 2, 1, 0]));
    assert_eq!(list, [[5, 2, 1, 0], [16, 2, 2, 0], [19, 2, 2, 0]]);
    let (first, list) = told(&renumbered(&swap(), &day));
    assert_eq!(first, Err([16, 2, 1, 0]));
    assert_eq!(list, [[16, 2, 1, 0], [19, 2, 1, 0], [5, 2, 2, 0]]);
}

/// Of edition 1 with energy windows on both sets: 22 bits, two intervals of two devices of 73
/// bits and a mismatch of 23, one overrun of set 1 and two of set 2, the surplus.
#[test]
fn the_worked_completion_swapped_by_its_bits() {
    let window = |energy| EnergyWindow {
        kind: EnergyKind::Maximum,
        start: 60,
        end: 120,
        energy,
    };
    let mut day = two_set_day();
    day.case.devices[0].energy_windows = vec![window(8_000)];
    day.case.devices[1].energy_windows = vec![window(8_990), window(9_000)];
    let accepted = |day: &Day| {
        let (case, plan) = day.messages();
        let mut result = vec![0; completion_bits(day.edition, &day.case).div_ceil(8)];
        let verdict = judge(&case, &plan, &mut result);
        assert_eq!(verdict, Verdict::Accepted { surplus: 166_850 });
        result
    };
    let bits = |bytes: &[u8], from: usize, count: usize| -> u128 {
        let bit = |at: usize| u128::from(bytes[at / 8] >> (7 - at % 8) & 1);
        (from..from + count).fold(0, |value, at| 2 * value + bit(at))
    };
    let (old, new) = (accepted(&day), accepted(&renumbered(&swap(), &day)));
    assert_eq!(old.len(), new.len());
    assert_eq!(bits(&old, 0, 22), bits(&new, 0, 22));
    for interval in [22, 22 + 2 * 73 + 23] {
        assert_eq!(bits(&old, interval, 73), bits(&new, interval + 73, 73));
        assert_eq!(bits(&old, interval + 73, 73), bits(&new, interval, 73));
        assert_eq!(
            bits(&old, interval + 146, 23),
            bits(&new, interval + 146, 23)
        );
    }
    // In interval 1 both sets have 30 kW in their first block; in interval 2 set 1 starts.
    assert_ne!(bits(&old, 191, 73), bits(&new, 191, 73));
    let overruns = |bytes: &[u8]| [0, 1, 2].map(|k| bits(bytes, 360 + 32 * k, 32));
    assert_eq!(overruns(&old), [1_000, 10, 0]);
    assert_eq!(overruns(&new), [10, 0, 1_000]);
    assert_eq!(bits(&old, 456, 64), bits(&new, 456, 64));
    assert_eq!(swap().message(day.edition, &day.case, &old), new);
}

/// A place missing, named twice or past the end is no order.
#[test]
fn orders_name_each_place_once() {
    for wrong in [vec![0, 0], vec![1, 2], vec![0, 2, 3], vec![1]] {
        assert_eq!(Order::new(wrong), None);
    }
    let order = Order::new(vec![2, 0, 1]).expect("each place");
    assert_eq!(order.of(&['a', 'b', 'c']), ['c', 'a', 'b']);
    assert_eq!([0, 1, 2, 3].map(|old| order.new_number(old)), [0, 2, 3, 1]);
}

/// Every order of three devices comes but the old one, about as often as the others.
#[test]
fn random_orders_are_even() {
    let mut rng = Rng::new(SEED);
    let mut counts = std::collections::BTreeMap::new();
    for _ in 0..5_000 {
        let order = random_order(&mut rng, 3);
        *counts.entry(order.of(&[0, 1, 2])).or_insert(0) += 1;
    }
    assert_eq!(counts.len(), 5);
    assert!(counts.values().all(|&count| (900..1_100).contains(&count)));
    assert!(!counts.contains_key(&vec![0, 1, 2]));
}

/// Pairs of an edition that pass reading, each with another order of its devices.
fn pairs(edition: Edition) -> Vec<(Case, Plan, Order)> {
    let mut pairs = Vec::new();
    for index in 0..60 {
        let mut rng = Rng::numbered(SEED, index);
        let size = rng.pick(&[Size::Tiny, Size::Small, Size::Medium]);
        let sample = sample_in(&mut rng, edition, size);
        for _ in 0..6 {
            let message = random_plan_message(&mut rng, &sample);
            if let Ok(plan) = read_plan(edition, &sample.case, &message) {
                let order = random_order(&mut rng, sample.case.devices.len());
                pairs.push((sample.case.clone(), plan, order));
            }
        }
    }
    pairs
}

fn completed(case: &Case, plan: &Plan) -> (Completion, i128) {
    let spans = spans(&case.durations);
    let ours = complete(case, &spans, plan, &forced(case, &spans, plan));
    (ours.completion, ours.surplus)
}

/// "the plan is accepted exactly when it was, the surplus is equal, zone shortfalls and mismatches
/// are equal, and each device's part of the completion goes with it"; "the set of breaches from A.5,
/// with device numbers carried along, may not" differ.
#[test]
fn shuffled_pairs_go_along() {
    let (mut accepted, mut broken, mut other_first, mut moved_overruns) = (0, 0, 0, 0);
    for edition in Edition::ALL {
        for (case, plan, order) in pairs(edition) {
            let (new_case, new_plan) = (order.case(&case), order.plan(&plan));
            let old_list = breaches_of(&case, &plan);
            let new_list = breaches_of(&new_case, &new_plan);
            assert_eq!(new_list, order.breaches(&old_list));
            if !old_list.is_empty() {
                broken += 1;
                let carried = order.new_number(old_list[0].device);
                other_first += usize::from(new_list[0].device != carried);
                continue;
            }
            accepted += 1;
            let (old, surplus) = completed(&case, &plan);
            let (new, new_surplus) = completed(&new_case, &new_plan);
            assert_eq!((&new, new_surplus), (&order.completion(&old), surplus));
            moved_overruns += usize::from(new.overruns.concat() != old.overruns.concat());
            // The rules and the surplus, written a second time, of what was carried along.
            assert!(meets(&new_case, &new_plan, &order.completion(&old)));
            let stated_again = surplus_of(&new_case, &new_plan, &order.completion(&old));
            assert_eq!(stated_again, surplus);
            let message = completion_bytes(edition, &case, &old, surplus);
            assert_eq!(
                order.message(edition, &case, &message),
                completion_bytes(edition, &new_case, &new, surplus)
            );
        }
    }
    println!(
        "{accepted} accepted, {moved_overruns} with overruns elsewhere; {broken} broken, \
         {other_first} with another first breach"
    );
    assert!(accepted > 400 && moved_overruns > 50 && broken > 400 && other_first > 50);
}

/// The rearranged messages are there, pass reading and are of the same lengths.
#[test]
fn shuffled_messages_pass_reading() {
    for edition in Edition::ALL {
        for (case, plan, order) in pairs(edition) {
            let (new_case, new_plan) = (order.case(&case), order.plan(&plan));
            let case_bytes = encode_case(edition, &new_case).bytes;
            let plan_bytes = encode_plan(edition, &new_plan).bytes;
            assert_eq!(case_bytes.len(), encode_case(edition, &case).bytes.len());
            assert_eq!(plan_bytes.len(), encode_plan(edition, &plan).bytes.len());
            let read = read_case(&case_bytes).expect("it passes reading");
            assert_eq!(read_plan(edition, &read.1, &plan_bytes), Ok(new_plan));
            assert_eq!(read, (edition, new_case));
        }
    }
}
