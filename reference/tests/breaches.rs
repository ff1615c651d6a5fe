//! Every broken rule of a plan (A.5): lists worked out by hand, the lent buffer, and drawn plans
//! against the rules written a second time.

use reference::breaches::{breaches, breaches_of, bytes_of};
use reference::case::{Case, Reserves, StartWindow, Status};
use reference::edition::Edition;
use reference::fault::{Fault, Number};
use reference::form::Largest;
use reference::generate::batches::random_plan_message;
use reference::generate::breaks::metered_plan;
use reference::generate::extreme::most_breaches_day;
use reference::generate::plans::{good_plan, wild_plan};
use reference::generate::sample::{random_sample, wild_case, Sample};
use reference::generate::shape::Size;
use reference::judge::{find, judge, Finding, Refusal, Verdict};
use reference::meets::{broken_rules_at, keeps_rule_27, windows_broken};
use reference::plan::{read_plan, Plan, Setting};
use reference::rng::Rng;
use reference::rules::Place;
use reference::worked_day::{lettered_days, two_set_day, Day};

const SEED: u64 = 17;

type Entry = [u8; 4];

/// The list of a day, out of a buffer with room to spare, which stays as it was.
fn list_of(day: &Day) -> Vec<Entry> {
    const ROOM: usize = 1_000;
    let (case, plan) = day.messages();
    let mut buffer = [0xA5; ROOM];
    let count = breaches(&case, &plan, &mut buffer).expect("both messages pass reading");
    assert!(buffer[4 * count..].iter().all(|&byte| byte == 0xA5));
    let entries = buffer[..4 * count].chunks_exact(4);
    entries
        .map(|entry| entry.try_into().expect("four bytes"))
        .collect()
}

/// The list of the worked day after a change.
fn list_after(change: impl Fn(&mut Day)) -> Vec<Entry> {
    let mut day = two_set_day();
    change(&mut day);
    list_of(&day)
}

#[test]
fn letters_break_one_rule_or_none() {
    for (letter, day) in lettered_days() {
        let expected: &[Entry] = match letter {
            'b' => &[[5, 2, 1, 0]],
            'g' => &[[2, 2, 1, 0]],
            'j' => &[[20, 0, 1, 1]],
            _ => &[],
        };
        assert_eq!(list_of(&day), expected, "({letter})");
    }
}

/// "in document 01's order": by interval, then device, then number; rule 20 last, by device, then
/// window.
#[test]
fn lists_come_in_the_papers_order() {
    let window = |most_starts| StartWindow {
        start: 60,
        end: 120,
        most_starts,
    };
    let list = list_after(|day| {
        day.case.devices[1].terms[0].status = Status::Off;
        day.plan.intervals[1][0].online_power = 151;
        day.plan.intervals[1][0].reserves.rgu = 21;
        day.plan.intervals[1][1].online_power = 201;
        day.case.devices[0].start_windows = vec![window(0), window(1), window(0)];
    });
    let expected = [
        [1, 1, 2, 0],
        [5, 2, 1, 0],
        [7, 2, 1, 0],
        [9, 2, 1, 0],
        [10, 2, 1, 0],
        [16, 2, 2, 0],
        [19, 2, 2, 0],
        [20, 0, 1, 1],
        [20, 0, 1, 3],
    ];
    assert_eq!(list, expected);
}

/// Device 1 with 100 of each reserve in interval 2.
#[test]
fn one_place_can_break_many_rules() {
    let list = list_after(|day| {
        day.plan.intervals[1][0].reserves = Reserves::from_order([100; 8]);
    });
    // Device 1 is on: 7 to 11 by limits of 20, 12 to 14 by the state, 15 by rrd_off, 16 by
    // 150 + 300, 17 by 150 − 200, 18 by 200 of an on device.
    let expected: Vec<Entry> = (7..=18).map(|rule| [rule, 2, 1, 0]).collect();
    assert_eq!(list, expected);
}

/// "each breach exactly once": rule 15 by both reserves, rules 3 and 4 by several earlier switches.
#[test]
fn a_rule_broken_in_two_ways_is_one_breach() {
    let both = list_after(|day| {
        day.plan.intervals[0][1].on = false;
        day.plan.intervals[0][1].online_power = 0;
        day.plan.intervals[0][1].reserves.nsc = 1;
        day.plan.intervals[0][1].reserves.rru_off = 1;
    });
    assert_eq!(both, [[15, 1, 2, 0]]);
    // Device 2, initially on: off, on, off, on, off; minima of 200 minutes, 600 already so.
    let switched = list_after(|day| {
        day.case.durations = vec![60; 5];
        for device in &mut day.case.devices {
            device.terms = vec![device.terms[0].clone(); 5];
        }
        let device_2 = &mut day.case.devices[1];
        (device_2.minimum_up, device_2.minimum_down) = (200, 200);
        let idle = Setting::default();
        let settings =
            [false, true, false, true, false].map(|on| vec![idle, Setting { on, ..idle }]);
        day.plan = Plan::plain(settings.to_vec());
    });
    let expected = [[3, 2, 2, 0], [4, 3, 2, 0], [3, 4, 2, 0], [4, 5, 2, 0]];
    assert_eq!(switched, expected);
}

/// The last device in the last interval, and its last window.
#[test]
fn lists_at_the_largest_counts() {
    let mut day = most_breaches_day(Edition::One, Largest::SMALL);
    for device in &mut day.case.devices {
        device.start_windows.clear();
        device.reserve_limits = Reserves::from_order([100_000; 8]);
        (device.minimum_up, device.minimum_down) = (0, 0);
        for terms in &mut device.terms {
            terms.status = Status::Free;
        }
    }
    for setting in day.plan.intervals.iter_mut().flatten() {
        *setting = Default::default();
    }
    assert_eq!(list_of(&day), [[0; 4]; 0]);
    let no_start = StartWindow {
        start: 94,
        end: 96,
        most_starts: 0,
    };
    day.case.devices[15].start_windows = vec![
        StartWindow {
            most_starts: 1,
            ..no_start
        };
        3
    ];
    day.case.devices[15].start_windows.push(no_start);
    day.case.devices[15].terms[47].status = Status::Off;
    day.plan.intervals[47][15].on = true;
    assert_eq!(list_of(&day), [[1, 48, 16, 0], [20, 0, 16, 4]]);
}

/// 16 devices: 15 rules in each of 48 intervals, from edition 2 on four more, rule 2 in 24, rule 3
/// or 4 in 47, rule 20 in four windows; in all 12,720 breaches, 50,880 bytes, or 15,792 and 63,168.
/// 64 devices: 19 rules in each of 96 intervals, rule 2 in 48, rule 3 or 4 in 95, rule 20 in four
/// windows; 126,144 breaches, 504,576 bytes. In edition 5 rule 27 in each interval: 15,840 and
/// 126,240 breaches.
#[test]
fn the_longest_list() {
    let longest = [
        (Edition::One, Largest::SMALL, 12_720),
        (Edition::Two, Largest::SMALL, 15_792),
        (Edition::Three, Largest::SMALL, 15_792),
        (Edition::Four, Largest::SMALL, 15_792),
        (Edition::Four, Largest::LARGE, 126_144),
        (Edition::Five, Largest::SMALL, 15_840),
        (Edition::Five, Largest::LARGE, 126_240),
    ];
    for (edition, largest, count) in longest {
        let day = most_breaches_day(edition, largest);
        let (case, plan) = day.messages();
        let bytes_needed = 4 * count;
        let mut buffer = vec![0xA5; bytes_needed + 1];
        assert_eq!(breaches(&case, &plan, &mut buffer), Ok(count));
        assert_eq!(buffer[bytes_needed], 0xA5);
        let list = breaches_of(&day.case, &day.plan);
        assert_eq!(buffer[..bytes_needed], bytes_of(&list));
        hold_to_second_writing(&day.case, &day.plan);
        let refused = breaches(&case, &plan, &mut buffer[..bytes_needed - 1]);
        assert_eq!(refused, Err(Refusal::BufferTooShort { bytes_needed }));
    }
}

/// "It then refuses with 7 when the buffer can't hold the list, and writes nothing."
#[test]
fn number_7_only_when_too_short_and_nothing_written_then() {
    let mut day = two_set_day();
    day.plan.intervals[1][0].reserves.rgu = 21;
    let (case, plan) = day.messages();
    let list = [7, 2, 1, 0, 9, 2, 1, 0, 10, 2, 1, 0];
    for length in 0..12 {
        let mut buffer = vec![0xA5; length];
        assert_eq!(
            breaches(&case, &plan, &mut buffer),
            Err(Refusal::BufferTooShort { bytes_needed: 12 })
        );
        assert_eq!(buffer, vec![0xA5; length]);
    }
    for spare in 0..9 {
        let mut buffer = vec![0xA5; 12 + spare];
        assert_eq!(breaches(&case, &plan, &mut buffer), Ok(3));
        assert_eq!(buffer[..12], list);
        assert_eq!(buffer[12..], vec![0xA5; spare]);
    }
}

/// "An accepted plan gives none", in a buffer of no bytes too, where judging would ask for 53.
#[test]
fn an_accepted_plan_gives_none() {
    let (case, plan) = two_set_day().messages();
    for length in [0, 3, 60] {
        let mut buffer = vec![0xA5; length];
        assert_eq!(breaches(&case, &plan, &mut buffer), Ok(0));
        assert_eq!(buffer, vec![0xA5; length]);
    }
}

/// "Reading refusals come first", the case's before the plan's, as judging gives them.
#[test]
fn refused_messages_give_their_refusal() {
    let (case, broken) = lettered_days()[1].1.messages();
    let cut = Fault::new(Number::Cut, 8);
    let long = Fault::new(Number::Fill, 640);
    let long_plan = [&broken[..], &[0]].concat();
    for length in [0, 100] {
        let mut buffer = vec![0xA5; length];
        let mut refusal = |case: &[u8], plan: &[u8]| {
            let refused = breaches(case, plan, &mut buffer);
            let judged = judge(case, plan, &mut buffer);
            assert_eq!(Verdict::Refused(refused.unwrap_err()), judged);
            refused
        };
        assert_eq!(refusal(&case[..1], &broken), Err(Refusal::Case(cut)));
        assert_eq!(refusal(&case[..1], &broken[..1]), Err(Refusal::Case(cut)));
        assert_eq!(refusal(&case, &broken[..1]), Err(Refusal::Plan(cut)));
        assert_eq!(refusal(&case, &long_plan), Err(Refusal::Plan(long)));
        assert_eq!(buffer, vec![0xA5; length]);
    }
}

/// The list by the rules written a second time: every place in the paper's order, those that fail.
fn second_list(case: &Case, plan: &Plan) -> Vec<Place> {
    let mut list = Vec::new();
    for interval in 1..=case.intervals() {
        for device in 1..=case.devices.len() {
            let broken = broken_rules_at(case, plan, interval, device);
            list.extend(broken.into_iter().map(|rule| Place {
                rule,
                interval,
                device,
                window: 0,
            }));
        }
        if !keeps_rule_27(case, plan, interval) {
            list.push(Place {
                rule: 27,
                interval,
                device: 0,
                window: 0,
            });
        }
    }
    for device in 1..=case.devices.len() {
        let broken = windows_broken(case, plan, device);
        list.extend(broken.into_iter().map(|window| Place {
            rule: 20,
            interval: 0,
            device,
            window,
        }));
    }
    list
}

/// Holds the list to the second writing, its first entry to the verdict, and its entries to their
/// order; gives back how many they are.
fn hold_to_second_writing(case: &Case, plan: &Plan) -> usize {
    let list = breaches_of(case, plan);
    assert_eq!(list, second_list(case, plan));
    match find(Edition::NEWEST, case, plan) {
        Finding::Accepted { .. } => assert!(list.is_empty()),
        Finding::Broken(place) => assert_eq!(list.first(), Some(&place)),
    }
    // Rule 20 has interval 0 in its place, and comes after all intervals; rule 27 has device 0, and
    // comes after all devices of its interval.
    let rank = |place: &Place| {
        let after_all = place.interval == 0;
        let after_devices = place.device == 0;
        let Place {
            rule,
            interval,
            device,
            window,
        } = *place;
        (after_all, interval, after_devices, device, rule, window)
    };
    assert!(list.windows(2).all(|pair| rank(&pair[0]) < rank(&pair[1])));
    list.len()
}

fn samples(count: u64) -> impl Iterator<Item = (Rng, Sample)> {
    (0..count).map(|index| {
        let mut rng = Rng::numbered(SEED, index);
        let size = rng.pick(&[Size::Tiny, Size::Small, Size::Small, Size::Medium]);
        let sample = random_sample(&mut rng, size);
        (rng, sample)
    })
}

#[test]
fn lists_and_second_writing_agree() {
    let (mut none, mut one, mut several, mut many) = (0, 0, 0, 0);
    let mut hold = |case: &Case, plan: &Plan| match hold_to_second_writing(case, plan) {
        0 => none += 1,
        1 => one += 1,
        2..=20 => several += 1,
        _ => many += 1,
    };
    for (mut rng, sample) in samples(100) {
        for _ in 0..8 {
            let message = random_plan_message(&mut rng, &sample);
            if let Ok(plan) = read_plan(sample.edition, &sample.case, &message) {
                hold(&sample.case, &plan);
            }
        }
        hold(&sample.case, &metered_plan(&mut rng, &sample));
        let (edition, case) = wild_case(&mut rng, Size::Small);
        hold(&case, &wild_plan(&mut rng, edition, &case));
    }
    println!("no breach {none}, one {one}, up to 20 {several}, more {many}");
    assert!(none > 200 && one > 50 && several > 100 && many > 100);
}

#[test]
fn lists_and_second_writing_agree_at_full_size() {
    let mut rng = Rng::numbered(SEED, 1_000_000);
    let sample = random_sample(&mut rng, Size::Full);
    assert_eq!(
        hold_to_second_writing(&sample.case, &good_plan(&mut rng, &sample)),
        0
    );
    let wild = wild_plan(&mut rng, sample.edition, &sample.case);
    assert!(hold_to_second_writing(&sample.case, &wild) > 1_000);
}
