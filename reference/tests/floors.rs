//! Take-or-pay blocks (A.6): worked figures, both bounds of rule 19 on both sides, filling, floors
//! while off, the new field and its refusals at bits counted by hand, and the completion's bytes.
//!
//! In edition 3 the worked case without zones has device 1 at 66, its link kind at 521 and its
//! intervals from 523 on, 313 bits each: 279 of edition 2 and a floor of 17 in each of two blocks.
//! Block 1 of interval 1 has its cap at 562, its floor at 579 and its price at 596; the floor of
//! block 2 is at 628, qmin at 772, qmax at 790. Interval 2 starts at 836. Device 2 starts at 1149,
//! its link kind is at 1510, its intervals start at 1512, 264 bits each, the floor of its one block
//! at 1568 and 1832. The message ends at bit 2040: 255 bytes, no fill bits.

use reference::bits::overwrite;
use reference::breaches::breaches_of;
use reference::case::{read_case, Block, Case, Side, StartupState};
use reference::clock::spans;
use reference::completion::DeviceChoices;
use reference::edition::Edition;
use reference::encode::encode_case;
use reference::forced::forced;
use reference::form::Largest;
use reference::generate::breaks::plan_breaking;
use reference::generate::extreme::very_low_surplus_day;
use reference::generate::plans::good_plan;
use reference::generate::sample::sample_in;
use reference::generate::shape::Size;
use reference::judge::{find, judge, Finding, Verdict};
use reference::meets::{broken_rules_at, keeps_every_rule, meets, surplus_of};
use reference::ours::{complete, fill_blocks, Ours};
use reference::plan::{read_plan, Plan};
use reference::rivals::take_below_floor;
use reference::rng::Rng;
use reference::rules::Place;
use reference::worked_day::{floor_days, two_set_day, Day};

const SEED: u64 = 31;

type Broken = (u8, usize, usize, usize);

/// The worked day in edition 3 after a change.
fn day_after(change: impl Fn(&mut Day)) -> Day {
    let mut day = Day {
        edition: Edition::Three,
        ..two_set_day()
    };
    change(&mut day);
    day
}

fn ours(case: &Case, plan: &Plan) -> Ours {
    let spans = spans(&case.durations);
    complete(case, &spans, plan, &forced(case, &spans, plan))
}

/// The verdict of a day: its surplus, or the rule and place it breaks first. The second writing of
/// the rules must agree.
fn verdict_of(day: &Day) -> Result<i128, Broken> {
    let finding = find(day.edition, &day.case, &day.plan);
    let accepted = matches!(finding, Finding::Accepted { .. });
    assert_eq!(accepted, keeps_every_rule(&day.case, &day.plan));
    match finding {
        Finding::Accepted { surplus, .. } => {
            let ours = ours(&day.case, &day.plan);
            assert!(meets(&day.case, &day.plan, &ours.completion));
            let again = surplus_of(&day.case, &day.plan, &ours.completion);
            assert_eq!((ours.surplus, again), (surplus, surplus));
            Ok(surplus)
        }
        Finding::Broken(place) => {
            let Place {
                rule,
                interval,
                device,
                window,
            } = place;
            if interval > 0 {
                let broken = broken_rules_at(&day.case, &day.plan, interval, device);
                assert_eq!(broken.first(), Some(&rule));
            }
            Err((rule, interval, device, window))
        }
    }
}

fn verdict_after(change: impl Fn(&mut Day)) -> Result<i128, Broken> {
    verdict_of(&day_after(change))
}

/// Sets the floors of device `j`, from 1, in every interval.
fn floor(day: &mut Day, j: usize, floors: &[i128]) {
    for terms in &mut day.case.devices[j - 1].terms {
        for (block, &floor) in terms.blocks.iter_mut().zip(floors) {
            block.floor = floor;
        }
    }
}

/// The figures worked by hand: of 150 kW 70 at 3 and 80 at 5 instead of 100 and 50, 60 minutes
/// long, 3,600 less; and 151 kW of floors.
#[test]
fn worked_days_give_the_figures_worked_by_hand() {
    let figures = [Ok(164_260), Err((19, 2, 1, 0))];
    let days = floor_days();
    assert_eq!(days.len(), figures.len());
    for ((about, day), figure) in days.iter().zip(figures) {
        assert_eq!(verdict_of(day), figure, "{about}");
        let (case, plan) = day.messages();
        let judged = match judge(&case, &plan, &mut [0; 300]) {
            Verdict::Accepted { surplus } => Ok(surplus),
            Verdict::Broken(p) => Err((p.rule, p.interval, p.device, p.window)),
            Verdict::Refused(refusal) => panic!("{about}: {refusal:?}"),
        };
        assert_eq!(judged, figure, "{about}");
    }
    // Without any floor the day is that of edition 1.
    assert_eq!(verdict_after(|_| {}), Ok(167_860));
}

/// "u·(sum of floors) ≤ p ≤ sum of caps", of a producing and of a consuming device.
#[test]
fn rule_19_has_both_bounds() {
    // Device 1 at 150 kW in interval 2; while off at 30 kW its floors do not bind.
    let with_floors = |a, b| verdict_after(|day| floor(day, 1, &[a, b]));
    assert_eq!(with_floors(70, 80), Ok(164_260));
    assert_eq!(with_floors(71, 80), Err((19, 2, 1, 0)));
    assert_eq!(with_floors(70, 81), Err((19, 2, 1, 0)));
    assert_eq!(with_floors(100, 50), Ok(167_860));
    assert_eq!(with_floors(50, 100), Ok(167_860 - 60 * 100));
    assert_eq!(with_floors(100, 100), Err((19, 2, 1, 0)));
    // Device 2 at 30, then 150 kW: interval 1 decides.
    let with_floor = |floor_2| verdict_after(|day| floor(day, 2, &[floor_2]));
    assert_eq!(with_floor(30), Ok(167_860));
    assert_eq!(with_floor(31), Err((19, 1, 2, 0)));
    let in_interval_2 =
        |floor_2: i128| verdict_after(|day| day.case.devices[1].terms[1].blocks[0].floor = floor_2);
    assert_eq!(in_interval_2(150), Ok(167_860));
    assert_eq!(in_interval_2(151), Err((19, 2, 2, 0)));
    // The upper bound stays, with a floor as great as the cap.
    let capped = |cap: i128| {
        verdict_after(|day| {
            let block = &mut day.case.devices[1].terms[1].blocks[0];
            (block.cap, block.floor) = (cap, cap);
        })
    };
    assert_eq!(capped(149), Err((19, 2, 2, 0)));
    assert_eq!(capped(150), Ok(167_860));
    assert_eq!(capped(151), Err((19, 2, 2, 0)));
}

/// Rule 19 is one number: below the floors it comes after rule 17 of its place and before the next
/// place, once.
#[test]
fn rule_19_is_one_entry() {
    let day = day_after(|day| {
        floor(day, 1, &[100, 100]);
        floor(day, 2, &[200]);
        day.case.devices[1].terms[1].pmin = 151;
        day.plan.intervals[1][1].reactive_power = 1;
    });
    let list: Vec<[usize; 4]> = breaches_of(&day.case, &day.plan)
        .iter()
        .map(|p| [usize::from(p.rule), p.interval, p.device, p.window])
        .collect();
    let expected = [
        [19, 1, 2, 0],
        [19, 2, 1, 0],
        [17, 2, 2, 0],
        [19, 2, 2, 0],
        [21, 2, 2, 0],
    ];
    assert_eq!(list, expected);
}

/// "while u = 0 floors don't bind": 30 kW of startup power, in price order.
#[test]
fn floors_do_not_bind_while_off() {
    let day = day_after(|day| {
        let blocks = &mut day.case.devices[0].terms[0].blocks;
        (blocks[0].floor, blocks[1].floor) = (100, 100);
    });
    assert_eq!(verdict_of(&day), Ok(167_860));
    let completion = ours(&day.case, &day.plan).completion;
    assert_eq!(completion.intervals[0].devices[0].blocks, [30, 0, 0, 0]);
    // Any split of 30 kW will do, as without floors.
    let mut other = completion.clone();
    other.intervals[0].devices[0].blocks = [0, 30, 0, 0];
    assert!(meets(&day.case, &day.plan, &other));
    other.intervals[0].devices[0].blocks = [0, 31, -1, 0];
    assert!(!meets(&day.case, &day.plan, &other));
}

/// Three hours: set 1 comes in on, is on, off with 30 kW of shutdown and 30 kW of startup power,
/// and on again, with a state that serves up to 60 minutes; the load follows. Two blocks of one
/// floor in each hour.
#[test]
fn floors_do_not_bind_where_trajectories_meet() {
    let with_floors = |floors: [i128; 3]| {
        verdict_after(|day| {
            day.case.durations = vec![60; 3];
            for device in &mut day.case.devices {
                device.terms = vec![device.terms[0].clone(); 3];
            }
            let device = &mut day.case.devices[0];
            (device.initially_on, device.initial_power) = (true, 150);
            device.startup_states[0].longest_downtime = 60;
            for (terms, floor) in device.terms.iter_mut().zip(floors) {
                (terms.blocks[0].floor, terms.blocks[1].floor) = (floor, floor);
            }
            let (off, on) = (day.plan.intervals[0][0], day.plan.intervals[1][0]);
            let load = day.plan.intervals[1][1];
            let mut low = load;
            low.online_power = 60;
            day.plan = Plan::plain(vec![vec![on, load], vec![off, low], vec![on, load]]);
        })
    };
    assert_eq!(with_floors([0, 0, 0]), Ok(346_720));
    assert_eq!(with_floors([0, 100, 0]), Ok(346_720));
    assert_eq!(with_floors([75, 100, 0]), Ok(346_720 - 60 * 50));
    assert_eq!(with_floors([76, 100, 0]), Err((19, 1, 1, 0)));
    assert_eq!(with_floors([0, 100, 100]), Err((19, 3, 1, 0)));
}

/// Other splits of 150 kW with floors of 0 and 80: 60 and 90 kW are allowed, 100 and 50 are not.
#[test]
fn rivals_of_the_worked_day() {
    let (_, day) = &floor_days()[0];
    let ours = ours(&day.case, &day.plan).completion;
    let with_blocks = |blocks: [i128; 2]| {
        let mut other = ours.clone();
        other.intervals[1].devices[0].blocks = [blocks[0], blocks[1], 0, 0];
        let surplus = surplus_of(&day.case, &day.plan, &other);
        (meets(&day.case, &day.plan, &other), surplus)
    };
    assert_eq!(with_blocks([70, 80]), (true, 164_260));
    assert_eq!(with_blocks([60, 90]), (true, 163_060));
    assert_eq!(with_blocks([71, 79]), (false, 164_380));
    assert_eq!(with_blocks([100, 50]), (false, 167_860));
}

/// Blocks as cap, floor and price; on, power, and how it is filled.
type Filling<'a> = (Side, &'a [[i128; 3]], bool, i128, [i128; 4]);

/// "Floors first, then price order", lower number first among equals.
#[test]
fn blocks_are_filled_floors_first() {
    use Side::{Consuming, Producing};
    let steps = [[50, 5, 9], [50, 10, 2], [50, 20, 4]];
    let tied = [[40, 0, 7], [40, 20, 7], [40, 5, 7]];
    let negative = [[30, 10, 3], [30, 0, 0], [30, 30, -8]];
    let fillings: [Filling; 16] = [
        (Producing, &steps, true, 35, [5, 10, 20, 0]),
        (Producing, &steps, true, 36, [5, 11, 20, 0]),
        (Producing, &steps, true, 75, [5, 50, 20, 0]),
        (Producing, &steps, true, 76, [5, 50, 21, 0]),
        (Producing, &steps, true, 106, [6, 50, 50, 0]),
        (Producing, &steps, true, 150, [50, 50, 50, 0]),
        (Consuming, &steps, true, 36, [6, 10, 20, 0]),
        (Consuming, &steps, true, 81, [50, 10, 21, 0]),
        (Consuming, &steps, true, 111, [50, 11, 50, 0]),
        (Producing, &steps, false, 36, [0, 36, 0, 0]),
        (Consuming, &steps, false, 36, [36, 0, 0, 0]),
        (Producing, &tied, true, 50, [25, 20, 5, 0]),
        (Consuming, &tied, true, 66, [40, 21, 5, 0]),
        (Producing, &negative, true, 41, [10, 1, 30, 0]),
        (Consuming, &negative, true, 41, [11, 0, 30, 0]),
        (Consuming, &negative, false, 41, [30, 11, 0, 0]),
    ];
    for (side, figures, on, power, filled) in fillings {
        let blocks: Vec<Block> = figures
            .iter()
            .map(|&[cap, floor, price]| Block { cap, floor, price })
            .collect();
        assert_eq!(
            fill_blocks(side, &blocks, on, power),
            filled,
            "{side:?} {figures:?} {on} {power}"
        );
    }
}

/// Every split of the starting device's power over its blocks, exhaustively: "Among completions
/// that honour the floors, ours is still the best", and the first among equals.
#[test]
fn ours_is_the_best_of_all_that_honour_the_floors() {
    let prices = [-1, 0, 2];
    let floors = [0, 1, 2];
    let mut days = 0;
    for side in [Side::Producing, Side::Consuming] {
        for [a, b, c] in triples(prices) {
            for of_floors in triples(floors) {
                for power in of_floors.iter().sum::<i128>()..=7 {
                    hold_to_all_splits(side, [a, b, c], of_floors, power);
                    days += 1;
                }
            }
        }
    }
    println!("{days} days");
    assert!(days > 6_000);
}

fn triples(figures: [i128; 3]) -> impl Iterator<Item = [i128; 3]> {
    let pairs = figures
        .into_iter()
        .flat_map(move |a| figures.map(|b| (a, b)));
    pairs.flat_map(move |(a, b)| figures.map(|c| [a, b, c]))
}

/// Device 1 starts in interval 2 of the worked day, with caps 3, 4 and 2.
fn hold_to_all_splits(side: Side, prices: [i128; 3], floors: [i128; 3], power: i128) {
    let caps = [3, 4, 2];
    let day = day_after(|day| {
        let device = &mut day.case.devices[0];
        device.side = side;
        device.startup_states = vec![StartupState {
            longest_downtime: 700,
            cost: -3,
        }];
        for terms in &mut device.terms {
            terms.pmin = 0;
            terms.blocks = (0..3)
                .map(|m| Block {
                    cap: caps[m],
                    floor: floors[m],
                    price: prices[m],
                })
                .collect();
        }
        day.plan.intervals[1][0].online_power = power;
    });
    let ours = ours(&day.case, &day.plan);
    let mut best: Option<(i128, DeviceChoices)> = None;
    // Lower-numbered blocks fuller first.
    for first in (0..=caps[0]).rev() {
        for second in (0..=caps[1]).rev() {
            let mut rival = ours.completion.clone();
            let choices = &mut rival.intervals[1].devices[0];
            choices.blocks = [first, second, power - first - second, 0];
            let choices = *choices;
            let honours = (0..3).all(|m| choices.blocks[m] >= floors[m]);
            let fits = (0..3).all(|m| (0..=caps[m]).contains(&choices.blocks[m]));
            assert_eq!(meets(&day.case, &day.plan, &rival), honours && fits);
            if !(honours && fits) {
                continue;
            }
            let surplus = surplus_of(&day.case, &day.plan, &rival);
            if best.is_none_or(|(best, _)| surplus > best) {
                best = Some((surplus, choices));
            }
        }
    }
    let (surplus, choices) = best.expect("some split honours the floors");
    assert_eq!(surplus, ours.surplus);
    assert_eq!(choices, ours.completion.intervals[1].devices[0]);
}

/// A block below its floor is no completion, though the sum is kept and every cap is.
#[test]
fn blocks_below_their_floors_do_not_meet() {
    let mut tried = 0;
    for index in 0..300 {
        let mut rng = Rng::numbered(SEED, index);
        let sample = sample_in(&mut rng, Edition::Three, Size::Small);
        let plan = good_plan(&mut rng, &sample);
        let ours = ours(&sample.case, &plan).completion;
        for (t, settings) in plan.intervals.iter().enumerate() {
            for j in (0..settings.len()).filter(|&j| settings[j].on) {
                let blocks = &sample.case.devices[j].terms[t].blocks;
                let mut rival = ours.clone();
                if take_below_floor(blocks, &mut rival.intervals[t].devices[j].blocks) {
                    assert!(!meets(&sample.case, &plan, &rival));
                    tried += 1;
                }
            }
        }
    }
    println!("{tried} rivals");
    assert!(tried > 100, "{tried}");
}

fn case_fault(message: &[u8]) -> (u8, usize) {
    let fault = read_case(message).expect_err("the case is refused");
    (fault.number.figure(), fault.bit)
}

fn with(message: &[u8], fields: &[(usize, usize, i128)]) -> Vec<u8> {
    let mut message = message.to_vec();
    for &(place, width, value) in fields {
        overwrite(&mut message, place, width, value);
    }
    message
}

/// The first bits of the floors of the worked case, by device, interval and block.
const FLOORS: [(usize, [usize; 3]); 6] = [
    (579, [0, 0, 0]),
    (628, [0, 0, 1]),
    (892, [0, 1, 0]),
    (941, [0, 1, 1]),
    (1_568, [1, 0, 0]),
    (1_832, [1, 1, 0]),
];

#[test]
fn floors_stand_between_cap_and_price() {
    let (message, _) = day_after(|_| {}).messages();
    assert_eq!(message.len(), 255);
    for (place, [j, t, m]) in FLOORS {
        // The cap, 17 bits before the floor, as great as can be.
        for value in [0, 1, 99_999, 100_000] {
            let changed = with(&message, &[(place - 17, 17, 100_000), (place, 17, value)]);
            let (edition, case) = read_case(&changed).expect("the case passes reading");
            assert_eq!(edition, Edition::Three);
            let before = two_set_day().case.devices[j].terms[t].blocks[m];
            let expected = Block {
                cap: 100_000,
                floor: value,
                price: before.price,
            };
            assert_eq!(case.devices[j].terms[t].blocks[m], expected);
            assert_eq!(encode_case(edition, &case).bytes, changed);
        }
        for value in [100_001, 131_071] {
            assert_eq!(
                case_fault(&with(&message, &[(place, 17, value)])),
                (4, place)
            );
        }
    }
}

/// "A floor above its cap is a contradiction at the floor", in message order among the others.
#[test]
fn a_floor_above_its_cap_is_number_5_at_the_floor() {
    let (message, _) = day_after(|_| {}).messages();
    let parted = |fields: &[(usize, usize, i128)]| case_fault(&with(&message, fields));
    for (place, _) in FLOORS {
        let cap = if place < 1_149 { 100 } else { 200 };
        assert_eq!(parted(&[(place, 17, cap + 1)]), (5, place));
        assert!(read_case(&with(&message, &[(place, 17, cap)])).is_ok());
        // By the cap as well.
        assert_eq!(
            parted(&[(place, 17, 100), (place - 17, 17, 99)]),
            (5, place)
        );
    }
    // pmax of the interval, at 542, first; then the floors, then qmax at 790.
    let (pmin, floor_1, floor_2, qmin) =
        ((525, 17, 201), (579, 17, 101), (628, 17, 101), (772, 18, 1));
    assert_eq!(parted(&[pmin, floor_1, floor_2, qmin]), (5, 542));
    assert_eq!(parted(&[floor_1, floor_2, qmin]), (5, 579));
    assert_eq!(parted(&[floor_2, qmin]), (5, 628));
    assert_eq!(parted(&[qmin]), (5, 790));
    // pmax of the next interval, at 855, comes behind.
    assert_eq!(parted(&[(838, 17, 201), floor_2]), (5, 628));
    // A range is tested before, and so are all that come later.
    assert_eq!(parted(&[floor_1, (1_832, 17, 100_001)]), (4, 1_832));
    let long = [&with(&message, &[floor_1])[..], &[0]].concat();
    assert_eq!(case_fault(&long), (6, 2_040));
}

/// Lengths in bytes, and the first bit of the first field that is not whole.
#[test]
fn floors_cut_are_number_1() {
    let (message, _) = day_after(|_| {}).messages();
    for (length, bit) in [
        (72, 562),
        (73, 579),
        (74, 579),
        (75, 596),
        (79, 628),
        (80, 628),
        (112, 892),
        (118, 941),
        (196, 1_568),
        (229, 1_832),
        (230, 1_832),
        (231, 1_832),
        (232, 1_849),
    ] {
        assert_eq!(case_fault(&message[..length]), (1, bit), "{length} bytes");
    }
}

/// Plans of edition 3 are those of edition 2 but for their edition.
#[test]
fn plans_of_edition_3_have_no_new_field() {
    let (_, plan) = day_after(|_| {}).messages();
    let (_, older) = Day {
        edition: Edition::Two,
        ..two_set_day()
    }
    .messages();
    assert_eq!((older[0], plan[0]), (0x22, 0x23));
    assert_eq!(older[1..], plan[1..]);
    let case = two_set_day().case;
    assert!(read_plan(Edition::Three, &case, &plan).is_ok());
    assert!(read_plan(Edition::Three, &case, &older).is_err());
    assert!(read_plan(Edition::Two, &case, &plan).is_err());
}

/// A floor that an edition cannot say is not left out unseen.
#[test]
#[should_panic(expected = "editions 1 and 2 cannot say a floor")]
fn floors_are_not_written_in_edition_2() {
    let mut case = two_set_day().case;
    case.devices[1].terms[1].blocks[0].floor = 1;
    encode_case(Edition::Two, &case);
}

/// A message from its fields as (width, value).
fn message(fields: &[(usize, u64)]) -> Vec<u8> {
    let bits: String = fields
        .iter()
        .map(|&(width, value)| format!("{value:0width$b}"))
        .collect();
    bits.as_bytes()
        .chunks(8)
        .map(|chunk| {
            let byte = format!("{:0<8}", String::from_utf8_lossy(chunk));
            u8::from_str_radix(&byte, 2).expect("eight binary digits")
        })
        .collect()
}

/// The completion of the worked day with floors 0 and 80: 70 and 80 kW in interval 2.
#[test]
fn completion_of_edition_3_has_these_bytes() {
    let device = |on: [u64; 3], blocks: [u64; 2]| {
        let [started, stopped, state] = on;
        let mut fields = vec![(1, started), (1, stopped), (3, state)];
        fields.extend([(17, blocks[0]), (17, blocks[1]), (17, 0), (17, 0)]);
        fields
    };
    let fields = [
        vec![(4, 3), (4, 3), (5, 2), (6, 2), (3, 0)],
        device([0, 0, 0], [30, 0]),
        device([0, 0, 0], [30, 0]),
        vec![(23, 0), (23, 0)],
        device([1, 0, 2], [70, 80]),
        device([0, 0, 0], [150, 0]),
        vec![(23, 0), (23, 0)],
        vec![(64, 164_260)],
    ];
    let expected = message(&fields.concat());
    let (case, plan) = floor_days()[0].1.messages();
    let mut buffer = vec![0xA5; expected.len() + 3];
    let surplus = 164_260;
    assert_eq!(
        judge(&case, &plan, &mut buffer),
        Verdict::Accepted { surplus }
    );
    assert_eq!(buffer[..expected.len()], expected);
    assert_eq!(buffer[expected.len()..], [0xA5; 3]);
}

/// The greatest figures: all power in the last block, by its floor, at the price of the others, so
/// with the surplus of edition 2.
#[test]
fn greatest_floors() {
    let day = very_low_surplus_day(Edition::Three, Largest::SMALL);
    assert_eq!(verdict_of(&day), Ok(-224_573_483_648_000_000));
    let (case, plan) = day.messages();
    assert_eq!((case.len(), plan.len()), (43_731, 19_779));
    let completion = ours(&day.case, &day.plan).completion;
    let filled = completion.intervals[47].devices[15].blocks;
    assert_eq!(filled, [0, 0, 0, 100_000]);
    let mut buffer = vec![0; 13_887];
    let surplus = -224_573_483_648_000_000;
    let judged = judge(&case, &plan, &mut buffer);
    assert_eq!(judged, Verdict::Accepted { surplus });
}

/// Every drawn plan of a case with floors has the verdict of the case without them, unless its
/// power lies below them; with none a surplus at least as great.
#[test]
fn floors_only_take_away() {
    let (mut alike, mut dearer, mut broken) = (0, 0, 0);
    for index in 0..200 {
        let mut rng = Rng::numbered(SEED, 1_000 + index);
        let sample = sample_in(&mut rng, Edition::Three, Size::Small);
        let breaking = plan_breaking(&mut rng, &sample, 19);
        let plans = [Some(good_plan(&mut rng, &sample)), breaking];
        let mut without = sample.case.clone();
        let terms = without.devices.iter_mut().flat_map(|d| &mut d.terms);
        for block in terms.flat_map(|terms| &mut terms.blocks) {
            block.floor = 0;
        }
        for plan in plans.into_iter().flatten() {
            let floored = find(Edition::Three, &sample.case, &plan);
            match (floored, find(Edition::Three, &without, &plan)) {
                (
                    Finding::Accepted { surplus, .. },
                    Finding::Accepted {
                        surplus: greatest, ..
                    },
                ) => {
                    assert!(surplus <= greatest);
                    alike += usize::from(surplus == greatest);
                    dearer += usize::from(surplus < greatest);
                }
                (Finding::Broken(place), Finding::Accepted { .. }) => {
                    assert_eq!(place.rule, 19);
                    broken += 1;
                }
                (Finding::Broken(place), Finding::Broken(other)) => {
                    assert!(place == other || place.rule == 19);
                }
                (Finding::Accepted { .. }, Finding::Broken(_)) => panic!("floors give nothing"),
            }
        }
    }
    println!("alike {alike}, dearer {dearer}, broken by floors {broken}");
    assert!(alike > 50 && dearer > 30 && broken > 10);
}
