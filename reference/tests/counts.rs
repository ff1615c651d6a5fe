//! Edition 4 (A.8): wider counts and most starts, larger days, and the two forms that read them, at
//! bits counted by hand from the widths.
//!
//! A case's header has its device count at bit 8, its interval count at 15, its zone count at 22,
//! its prices at 25 and 39, and the worked day's two durations at 53 and 61. Device 1 starts at 69
//! and has its start windows' count at 518, behind 352 bits and two states; its one window is at
//! 521, with its most starts at 553. Without windows its link kind is at 524 and its intervals start
//! at 526, 313 bits each. The worked case ends at bit 2,043: 256 bytes with 5 fill bits.

use reference::batch::{join, run};
use reference::bits::overwrite;
use reference::breaches::breaches_of;
use reference::case::{read_case, read_case_in, EnergyKind, EnergyWindow, StartWindow, Zone};
use reference::clock::spans;
use reference::completion::Completion;
use reference::edition::Edition;
use reference::fault::Fault;
use reference::forced::forced;
use reference::form::{Form, Largest};
use reference::generate::batches::{overgrown_batch, random_plan_message};
use reference::generate::damage::{give_devices, give_intervals};
use reference::generate::extreme::{very_high_surplus_day, very_low_surplus_day};
use reference::generate::plans::{good_plan, wild_plan};
use reference::generate::sample::{random_sample, wild_case};
use reference::generate::shape::Size;
use reference::judge::{find, judge, Finding, Verdict};
use reference::meets::{keeps_every_rule, meets, surplus_of};
use reference::ours::complete;
use reference::plan::read_plan;
use reference::rng::Rng;
use reference::worked_day::{two_set_day, Day};

const SEED: u64 = 64;

/// The worked day in an edition, every new figure neutral.
fn day(edition: Edition) -> Day {
    Day {
        edition,
        ..two_set_day()
    }
}

fn case_of(edition: Edition) -> Vec<u8> {
    day(edition).messages().0
}

fn with(message: &[u8], fields: &[(usize, usize, i128)]) -> Vec<u8> {
    let mut message = message.to_vec();
    for &(place, width, value) in fields {
        overwrite(&mut message, place, width, value);
    }
    message
}

fn figures(fault: Fault) -> (u8, usize) {
    (fault.number.figure(), fault.bit)
}

fn fault_in(form: Form, message: &[u8]) -> (u8, usize) {
    figures(read_case_in(form, message).expect_err("the case is refused"))
}

/// Holds that both forms refuse a case alike.
fn hold_fault(message: &[u8], fault: (u8, usize)) {
    assert_eq!(fault_in(Form::BATCH, message), fault);
    assert_eq!(fault_in(Form::HOST, message), fault);
}

#[test]
fn counts_have_seven_bits() {
    let message = case_of(Edition::Four);
    assert_eq!(message.len(), 256);
    // Kind 1, edition 4, 2 devices, 2 intervals, no zone, then the mismatch price of 1,000.
    assert_eq!(
        message[..5],
        [0x14, 0b0000_0100, 0b0000_1000, 0b0000_0111, 0b1101_0000]
    );
    assert_eq!(read_case(&message), Ok((Edition::Four, two_set_day().case)));
    hold_fault(&with(&message, &[(2_043, 1, 1)]), (6, 2_043));
    hold_fault(&[&message[..], &[0]].concat(), (6, 2_048));
}

/// The editions that have counts of seven bits.
const WIDE: [Edition; 2] = [Edition::Four, Edition::Five];

#[test]
fn counts_out_of_range_are_number_3() {
    for message in WIDE.map(case_of) {
        for devices in [0, 65, 96, 127] {
            hold_fault(&with(&message, &[(8, 7, devices)]), (3, 8));
        }
        for intervals in [0, 97, 127] {
            hold_fault(&with(&message, &[(15, 7, intervals)]), (3, 15));
        }
        for zones in [5, 6, 7] {
            hold_fault(&with(&message, &[(22, 3, zones)]), (3, 22));
        }
        // In field order.
        hold_fault(&with(&message, &[(8, 7, 65), (15, 7, 97)]), (3, 8));
        hold_fault(&with(&message, &[(15, 7, 97), (22, 3, 5)]), (3, 15));
        hold_fault(&with(&message, &[(8, 7, 65), (4, 4, 9)]), (2, 4));
    }
}

/// "The batch program stays at 16 and 48 and refuses larger counts with 3", in field order.
#[test]
fn the_batch_form_refuses_larger_counts() {
    for message in WIDE.map(case_of) {
        let in_batch =
            |fields: &[(usize, usize, i128)]| fault_in(Form::BATCH, &with(&message, fields));
        for devices in [17, 31, 32, 63, 64] {
            assert_eq!(in_batch(&[(8, 7, devices)]), (3, 8));
        }
        for intervals in [49, 63, 64, 95, 96] {
            assert_eq!(in_batch(&[(15, 7, intervals)]), (3, 15));
        }
        assert_eq!(in_batch(&[(8, 7, 17), (15, 7, 49)]), (3, 8));
        assert_eq!(in_batch(&[(8, 7, 16), (15, 7, 49)]), (3, 15));
        assert_eq!(in_batch(&[(15, 7, 49), (22, 3, 5)]), (3, 15));
    }
}

/// Cut behind its header, a case of counts that a form takes is refused where it is cut: with 9
/// bytes at 70, in the zone bits of device 1, or at 69, in the duration of a third interval.
#[test]
fn the_host_form_takes_64_and_96() {
    let header = &case_of(Edition::Four)[..9];
    let in_host = |fields: &[(usize, usize, i128)]| fault_in(Form::HOST, &with(header, fields));
    for devices in [1, 16, 17, 63, 64] {
        assert_eq!(in_host(&[(8, 7, devices)]), (1, 70));
    }
    for intervals in [3, 48, 49, 95, 96] {
        assert_eq!(in_host(&[(15, 7, intervals)]), (1, 69));
    }
    assert_eq!(in_host(&[(8, 7, 64), (15, 7, 96)]), (1, 69));
}

/// Editions 1 to 3 "keep their widths and limits": devices at 8 in 5 bits, intervals at 13 in 6,
/// zones at 19.
#[test]
fn older_editions_keep_16_and_48_in_either_form() {
    for edition in Edition::Four.older() {
        let message = case_of(edition);
        for devices in [0, 17, 24, 31] {
            hold_fault(&with(&message, &[(8, 5, devices)]), (3, 8));
        }
        for intervals in [0, 49, 60, 63] {
            hold_fault(&with(&message, &[(13, 6, intervals)]), (3, 13));
        }
        hold_fault(&with(&message, &[(19, 3, 5)]), (3, 19));
        hold_fault(&with(&message, &[(8, 5, 17), (13, 6, 49)]), (3, 8));
        // 16 and 48 are taken: cut behind two durations, inside device 1 or the third duration.
        for form in [Form::BATCH, Form::HOST] {
            assert_eq!(fault_in(form, &with(&message[..9], &[(8, 5, 16)])), (1, 72));
            assert_eq!(
                fault_in(form, &with(&message[..9], &[(13, 6, 48)])),
                (1, 66)
            );
        }
    }
}

#[test]
fn headers_cut_are_number_1() {
    let (case, plan) = day(Edition::Four).messages();
    for (bytes, bit) in [
        (0, 0),
        (1, 8),
        (2, 15),
        (3, 22),
        (4, 25),
        (5, 39),
        (7, 53),
        (8, 61),
    ] {
        hold_fault(&case[..bytes], (1, bit));
    }
    for (bytes, bit) in [(0, 0), (1, 8), (2, 15), (3, 23)] {
        let read = read_plan(Edition::Four, &two_set_day().case, &plan[..bytes]);
        assert_eq!(read.map_err(figures), Err((1, bit)));
    }
}

/// A plan of 2 devices and 2 intervals: header to bit 21, then 206 bits per device and interval; in
/// all 846 bits, 106 bytes with 2 fill bits.
#[test]
fn plans_have_seven_bit_counts() {
    let Day { case, plan, .. } = two_set_day();
    let message = day(Edition::Four).messages().1;
    assert_eq!(message.len(), 106);
    assert_eq!(message[..3], [0x24, 0b0000_0100, 0b0000_1000]);
    let read = |message: &[u8]| read_plan(Edition::Four, &case, message).map_err(figures);
    assert_eq!(read(&message), Ok(plan));
    for count in [0, 1, 3, 16, 64, 127] {
        assert_eq!(read(&with(&message, &[(8, 7, count)])), Err((3, 8)));
        assert_eq!(read(&with(&message, &[(15, 7, count)])), Err((3, 15)));
    }
    assert_eq!(read(&with(&message, &[(8, 7, 3), (15, 7, 3)])), Err((3, 8)));
    // q of device 1 in interval 1, the last reserve of device 2 in interval 2, the fill bits.
    assert_eq!(read(&with(&message, &[(176, 18, 100_001)])), Err((4, 176)));
    assert_eq!(read(&with(&message, &[(829, 17, 100_001)])), Err((4, 829)));
    assert_eq!(read(&with(&message, &[(846, 1, 1)])), Err((6, 846)));
    assert_eq!(read(&[&message[..], &[0]].concat()), Err((6, 848)));
}

/// "7-bit most starts (0..96)", in either form; "most starts 6 (0..48)" before.
#[test]
fn most_starts_are_up_to_96() {
    let windowed = |edition| {
        let mut day = day(edition);
        day.case.devices[0].start_windows.push(StartWindow {
            start: 0,
            end: 120,
            most_starts: 1,
        });
        day
    };
    let (message, plan) = windowed(Edition::Four).messages();
    for most in [0, 48, 49, 95, 96] {
        let message = with(&message, &[(553, 7, most)]);
        for form in [Form::BATCH, Form::HOST] {
            let (_, case) = read_case_in(form, &message).expect("it is in range");
            assert_eq!(case.devices[0].start_windows[0].most_starts, most);
        }
        let printed: Vec<String> = run(Form::BATCH, &join(&[&message, &plan]))
            .iter()
            .map(|line| line.to_string())
            .collect();
        let verdict = if most == 0 {
            "1 broken 20 0 1 1"
        } else {
            "1 accepted 167860"
        };
        assert_eq!(printed, ["0 case 2 2 0", verdict]);
    }
    for most in 97..=127 {
        hold_fault(&with(&message, &[(553, 7, most)]), (4, 553));
    }
    for edition in Edition::Four.older() {
        let message = windowed(edition).messages().0;
        assert!(read_case(&with(&message, &[(550, 6, 48)])).is_ok());
        for most in [49, 63] {
            hold_fault(&with(&message, &[(550, 6, most)]), (4, 550));
        }
    }
}

/// A message from its fields as (width, value).
fn message(fields: &[(usize, u64)]) -> Vec<u8> {
    let width: usize = fields.iter().map(|(width, _)| width).sum();
    let mut message = vec![0; width.div_ceil(8)];
    let mut place = 0;
    for &(width, value) in fields {
        overwrite(&mut message, place, width, i128::from(value));
        place += width;
    }
    message
}

/// The completion of day (a) in edition 4: counts of seven bits, two mismatches in each interval.
#[test]
fn completions_have_seven_bit_counts() {
    let device = |started: u64, state: u64, blocks: [u64; 2]| {
        let [first, second] = blocks;
        let choices = [(1, started), (1, 0), (3, state), (17, first), (17, second)];
        [&choices[..], &[(17, 0), (17, 0)]].concat()
    };
    let fields = [
        vec![(4, 3), (4, 4), (7, 2), (7, 2), (3, 0)],
        device(0, 0, [30, 0]),
        device(0, 0, [30, 0]),
        vec![(23, 0), (23, 0)],
        device(1, 2, [100, 50]),
        device(0, 0, [150, 0]),
        vec![(23, 0), (23, 0), (64, 167_860)],
    ];
    let expected = message(&fields.concat());
    let (case, plan) = day(Edition::Four).messages();
    let mut buffer = vec![0xA5; expected.len() + 1];
    let accepted = Verdict::Accepted { surplus: 167_860 };
    assert_eq!(judge(&case, &plan, &mut buffer), accepted);
    assert_eq!(buffer[..expected.len()], expected);
    assert_eq!(buffer[expected.len()], 0xA5);
}

fn completion_of(day: &Day) -> Completion {
    let spans = spans(&day.case.durations);
    let forced = forced(&day.case, &spans, &day.plan);
    complete(&day.case, &spans, &day.plan, &forced).completion
}

fn surplus_of_day(day: &Day) -> i128 {
    match find(day.edition, &day.case, &day.plan) {
        Finding::Accepted { surplus, .. } => surplus,
        Finding::Broken(place) => panic!("{place:?}"),
    }
}

const MINUTES: i128 = 96 * 360;

/// "Show that our surplus stays below 10^18 in size": 64 consuming devices at 100,000 kW for 34,560
/// minutes, in four zones. Of each zone rgu, rgd, scr and nsc ask for 6.4·10^9 W, rru, rrd, qru and
/// qrd too; the mismatches are 6.4·10^6 kW and kvar; 256 minima of 4·10^9 kW·min are missed whole.
#[test]
fn surpluses_stay_below_10_to_the_18() {
    let low = very_low_surplus_day(Edition::Four, Largest::LARGE);
    let shortfalls = 100 * 4 * 8 * 6_400_000_000 * MINUTES;
    let mismatches = 2 * 10_000 * 6_400_000 * MINUTES;
    let blocks = 10_000 * 6_400_000 * MINUTES;
    let running = 64 * 100_000 * MINUTES + 64 * 1_000_000_000;
    let overruns = 256 * 4_000_000_000 * 10_000;
    let lowest = -(shortfalls + mismatches + blocks + running + overruns);
    assert_eq!(lowest, -724_664_605_184_000_000);
    assert_eq!(surplus_of_day(&low), lowest);
    // 64 devices that bring 10,000 for a kW·min, and 64 states that do 10^9 each.
    let high = very_high_surplus_day(Edition::Four, Largest::LARGE);
    let highest = 64 * 100_000 * 10_000 * MINUTES + 64 * 1_000_000_000;
    assert_eq!(highest, 2_211_904_000_000_000);
    assert_eq!(surplus_of_day(&high), highest);
    for surplus in [lowest, highest] {
        assert!(surplus.abs() < 10_i128.pow(18));
    }
}

/// Mismatches have 23 bits, shortfalls 33, overruns 32.
#[test]
fn greatest_figures_fit_their_fields() {
    let low = very_low_surplus_day(Edition::Four, Largest::LARGE);
    let choices = &completion_of(&low).intervals[95];
    assert_eq!(
        (choices.mismatches, choices.reactive_mismatches),
        ([6_400_000, 0], [6_400_000, 0])
    );
    assert!(choices.mismatches[0] < 1 << 23);
    assert_eq!(choices.shortfalls, [[6_400_000_000; 8]; 4]);
    // With one producing device, rgu + scr and rgu + scr + nsc ask for 6.3, 0.1 and 0.1·10^9 W.
    let mut mixed = low.clone();
    mixed.case.devices[63].side = reference::case::Side::Producing;
    let choices = &completion_of(&mixed).intervals[95];
    let [_, _, scr, nsc, ..] = choices.shortfalls[3];
    assert_eq!((scr, nsc), (6_400_000_000, 6_500_000_000));
    assert!(nsc < 1 << 33);
    // A whole day at 100,000 kW above a maximum of 0.
    let mut high = very_high_surplus_day(Edition::Four, Largest::LARGE);
    high.case.devices[63].energy_windows = vec![EnergyWindow {
        kind: EnergyKind::Maximum,
        start: 0,
        end: MINUTES,
        energy: 0,
    }];
    let overruns = completion_of(&high).overruns;
    assert_eq!(overruns[63], [3_456_000_000]);
    assert!(overruns[63][0] < 1 << 32);
    surplus_of_day(&high);
}

/// Places behind device 16 and interval 48.
#[test]
fn places_go_up_to_64_and_96() {
    let mut day = very_high_surplus_day(Edition::Four, Largest::LARGE);
    day.plan.intervals[95][63].reserves.rgu = 1;
    let place = |rule| (rule, 96, 64, 0);
    let found: Vec<_> = breaches_of(&day.case, &day.plan)
        .iter()
        .map(|p| (p.rule, p.interval, p.device, p.window))
        .collect();
    // 100,000 kW is pmin: a consuming device has no room for up reserves.
    assert_eq!(found, [place(17)]);
    day.case.devices[63].start_windows[3].most_starts = 0;
    let found = breaches_of(&day.case, &day.plan);
    let last = found.last().expect("its start is not allowed");
    assert_eq!(
        (last.rule, last.interval, last.device, last.window),
        (20, 0, 64, 4)
    );
}

/// Sixty-four times the same producing device beside as many loads: each verdict is that of one pair,
/// its surplus times 32.
#[test]
fn a_day_over_and_over_has_its_surplus_as_often() {
    let mut day = day(Edition::Four);
    give_devices(&mut day, 64);
    assert_eq!(surplus_of_day(&day), 32 * 167_860);
    let (case, plan) = day.messages();
    let lines = run(Form::HOST, &join(&[&case, &plan]));
    let printed: Vec<String> = lines.iter().map(|line| line.to_string()).collect();
    assert_eq!(printed, ["0 case 64 2 0", "1 accepted 5371520"]);
    assert_eq!(fault_in(Form::BATCH, &case), (3, 8));
    give_devices(&mut day, 65);
    hold_fault(&day.messages().0, (3, 8));
}

/// One device, on at 7 kW all day in 96 intervals of 60 minutes: 7 kW·min at 20, a mismatch of 7 at
/// 1,000, in a zone that asks for 1 kW of rru in each interval.
#[test]
fn a_day_of_96_intervals() {
    let mut day = day(Edition::Four);
    day.case.devices.remove(0);
    day.plan.intervals.iter_mut().for_each(|row| {
        row.remove(0);
        row[0].online_power = 7;
    });
    let mut zone = Zone::plain(2);
    zone.minima.fill([1, 0, 0, 0]);
    day.case.zones.push(zone);
    day.case.devices[0].zone_bits[0] = true;
    give_intervals(&mut day, 96);
    let each = 60 * (7 * 20 - 7 * 1_000 - 1_000);
    assert_eq!(surplus_of_day(&day), 96 * each);
    assert_eq!(fault_in(Form::BATCH, &day.messages().0), (3, 15));
    give_intervals(&mut day, 97);
    hold_fault(&day.messages().0, (3, 15));
}

/// Days that were grown, and what the two forms make of them.
#[test]
fn overgrown_days_are_refused_where_a_form_ends() {
    let (mut read, mut refused) = (0, 0);
    for index in 0..200 {
        let mut rng = Rng::numbered(SEED, index);
        let batch = overgrown_batch(&mut rng);
        let in_batch = run(Form::BATCH, &batch)[0].to_string();
        let counts_end = [
            "0 refused 3 8",
            "0 refused 3 13",
            "0 refused 3 15",
            "framing 4",
        ];
        assert!(counts_end.contains(&in_batch.as_str()), "{in_batch}");
        let in_host = run(Form::HOST, &batch)[0].to_string();
        if in_host.starts_with("0 case ") {
            read += 1;
        } else {
            assert!(counts_end.contains(&in_host.as_str()), "{in_host}");
            refused += 1;
        }
    }
    println!("read in the host form {read}, refused {refused}");
    assert!(read > 10 && refused > 50);
}

/// Large days against the rules and the surplus written a second time.
#[test]
fn judgement_and_second_writing_agree_on_large_days() {
    let (mut accepted, mut broken) = (0, 0);
    for index in 0..12 {
        let mut rng = Rng::numbered(SEED, 1_000 + index);
        let sample = random_sample(&mut rng, Size::Beyond);
        let mut plans = vec![good_plan(&mut rng, &sample)];
        let message = random_plan_message(&mut rng, &sample);
        plans.extend(read_plan(sample.edition, &sample.case, &message));
        for plan in plans {
            match find(sample.edition, &sample.case, &plan) {
                Finding::Accepted { surplus, .. } => {
                    let day = Day {
                        edition: sample.edition,
                        case: sample.case.clone(),
                        plan,
                    };
                    let ours = completion_of(&day);
                    assert!(meets(&day.case, &day.plan, &ours));
                    assert_eq!(surplus_of(&day.case, &day.plan, &ours), surplus);
                    accepted += 1;
                }
                Finding::Broken(_) => {
                    assert!(!keeps_every_rule(&sample.case, &plan));
                    broken += 1;
                }
            }
        }
        let (edition, case) = wild_case(&mut rng, Size::Beyond);
        let plan = wild_plan(&mut rng, edition, &case);
        let is_broken = matches!(find(edition, &case, &plan), Finding::Broken(_));
        assert_eq!(is_broken, !keeps_every_rule(&case, &plan));
    }
    println!("accepted {accepted}, broken {broken}");
    assert!(accepted >= 12 && broken >= 2);
}
