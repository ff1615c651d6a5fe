//! Editions beside one another: edition 2's fields (A.1) and their refusals, at bits counted by hand
//! from the widths, and what stays the same where every new figure is neutral.
//!
//! The worked case without zones has its header in bits 0 to 49 and its two durations in 50 to 65.
//! Device 1 starts at 66; its link kind is at 521, behind two states and two window counts, and its
//! intervals start at 523 and take 279 bits each: 215 of edition 1 and 64 for qmin, qmax and two
//! prices. Device 2 starts at 1081, its link kind is at 1442, its intervals start at 1444, 247 bits
//! each. The message ends at bit 1938: 243 bytes with 6 fill bits.

use reference::batch;
use reference::bits::overwrite;
use reference::breaches::breaches_of;
use reference::busiest::busiest_batch;
use reference::case::{read_case, Case, Link, LinkLine, ReactiveReserves, Zone};
use reference::completion::completion_bits;
use reference::edition::Edition;
use reference::encode::{encode_case, encode_plan};
use reference::fault::{Fault, Number};
use reference::form::Largest;
use reference::generate::batches::{plan_of_another_edition, random_plan_message};
use reference::generate::damage::give_states;
use reference::generate::plans::good_plan;
use reference::generate::sample::{random_sample, sample_in, Sample};
use reference::generate::shape::Size;
use reference::judge::{find, judge, Finding, Refusal, Verdict};
use reference::plan::{read_plan, Plan};
use reference::rng::Rng;
use reference::worked_day::{lettered_days, two_set_day, Day};

const SEED: u64 = 23;

/// The worked day in edition 2, every new figure neutral.
fn day() -> Day {
    Day {
        edition: Edition::Two,
        ..two_set_day()
    }
}

fn line(offset: i128, slope: i128) -> LinkLine {
    LinkLine { offset, slope }
}

/// The worked case in edition 2 with a link on device 1.
fn case_with(link: Link) -> Vec<u8> {
    let mut day = day();
    day.case.devices[0].link = link;
    day.messages().0
}

fn case_with_lines() -> Vec<u8> {
    case_with(Link::TwoLines {
        upper: line(0, 0),
        lower: line(0, 0),
    })
}

/// The worked case in edition 2 with a zone: at 66, four shares, eight prices, then four minima in
/// each interval. Device 1 starts at 346.
fn case_with_zone() -> Vec<u8> {
    let mut day = day();
    day.case.zones.push(Zone::plain(2));
    day.messages().0
}

fn figures(fault: Fault) -> (u8, usize) {
    (fault.number.figure(), fault.bit)
}

fn case_fault(message: &[u8]) -> (u8, usize) {
    figures(read_case(message).expect_err("the case is refused"))
}

/// The content of a case of edition 2.
fn content(message: &[u8]) -> Case {
    let (edition, case) = read_case(message).expect("the case passes reading");
    assert_eq!(edition, Edition::Two);
    case
}

fn with(message: &[u8], fields: &[(usize, usize, i128)]) -> Vec<u8> {
    let mut message = message.to_vec();
    for &(place, width, value) in fields {
        overwrite(&mut message, place, width, value);
    }
    message
}

/// A field as first bit and width, and where its figure stands in the content.
type NewField = (usize, usize, fn(&Case) -> i128);

/// The fields of device 1 in interval 1 and of device 2 in interval 2, without links.
const TERMS: [NewField; 8] = [
    (738, 18, |case| case.devices[0].terms[0].qmin),
    (756, 18, |case| case.devices[0].terms[0].qmax),
    (774, 14, |case| case.devices[0].terms[0].reactive_prices.qru),
    (788, 14, |case| case.devices[0].terms[0].reactive_prices.qrd),
    (1_874, 18, |case| case.devices[1].terms[1].qmin),
    (1_892, 18, |case| case.devices[1].terms[1].qmax),
    (1_910, 14, |case| {
        case.devices[1].terms[1].reactive_prices.qru
    }),
    (1_924, 14, |case| {
        case.devices[1].terms[1].reactive_prices.qrd
    }),
];

/// The fields of two lines: upper before lower, each offset before slope.
const LINES: [NewField; 4] = [
    (523, 18, |case| lines_of(case)[0].offset),
    (541, 15, |case| lines_of(case)[0].slope),
    (556, 18, |case| lines_of(case)[1].offset),
    (574, 15, |case| lines_of(case)[1].slope),
];

/// The fields of an equality.
const EQUALITY: [NewField; 2] = [
    (523, 18, |case| equality_of(case).offset),
    (541, 15, |case| equality_of(case).slope),
];

/// The fields of a zone: two prices behind the six, two minima in each interval behind two.
const ZONE: [NewField; 6] = [
    (148, 7, |case| case.zones[0].shortfall_prices[6]),
    (155, 7, |case| case.zones[0].shortfall_prices[7]),
    (208, 23, |case| case.zones[0].minima[0][2]),
    (231, 23, |case| case.zones[0].minima[0][3]),
    (300, 23, |case| case.zones[0].minima[1][2]),
    (323, 23, |case| case.zones[0].minima[1][3]),
];

fn lines_of(case: &Case) -> [LinkLine; 2] {
    match case.devices[0].link {
        Link::TwoLines { upper, lower } => [upper, lower],
        _ => panic!("device 1 has two lines"),
    }
}

fn equality_of(case: &Case) -> LinkLine {
    match case.devices[0].link {
        Link::Equality(line) => line,
        _ => panic!("device 1 has an equality"),
    }
}

/// Every message with its new fields.
fn messages_and_fields() -> [(Vec<u8>, &'static [NewField]); 4] {
    [
        (day().messages().0, &TERMS),
        (case_with_lines(), &LINES),
        (case_with(Link::Equality(line(0, 0))), &EQUALITY),
        (case_with_zone(), &ZONE),
    ]
}

/// The least and the greatest value of a new field, by its width.
fn range_of(width: usize) -> (i128, i128) {
    match width {
        18 => (-100_000, 100_000),
        15 => (-10_000, 10_000),
        14 => (0, 10_000),
        7 => (1, 100),
        23 => (0, 6_400_000),
        _ => panic!("no new field has this width"),
    }
}

/// Whether a field is the qmin or the qmax of a device: both are set, so that they do not
/// contradict.
fn partner_of(place: usize) -> Option<usize> {
    match place {
        738 | 1_874 => Some(place + 18),
        756 | 1_892 => Some(place - 18),
        _ => None,
    }
}

#[test]
fn new_fields_stand_where_the_widths_put_them() {
    for (message, fields) in messages_and_fields() {
        for &(place, width, figure) in fields {
            let (low, high) = range_of(width);
            for value in [low, low + 1, 1, 37, high - 1, high] {
                let partner = partner_of(place).map(|other| (other, width, value));
                let mut changes: Vec<_> = partner.into_iter().collect();
                changes.push((place, width, value));
                assert_eq!(
                    figure(&content(&with(&message, &changes))),
                    value,
                    "{place}"
                );
            }
        }
    }
}

#[test]
fn new_fields_out_of_range_are_number_4() {
    for (message, fields) in messages_and_fields() {
        for &(place, width, _) in fields {
            let (low, high) = range_of(width);
            let mut values = vec![high + 1];
            match low {
                0 => values.push((1 << width) - 1),
                1 => values.extend([0, (1 << width) - 1]),
                _ => values.extend([low - 1, -(1 << (width - 1)), (1 << (width - 1)) - 1]),
            }
            for value in values {
                let message = with(&message, &[(place, width, value)]);
                assert_eq!(case_fault(&message), (4, place), "{value}");
            }
        }
    }
}

/// Link kind 3 "is neither a message's kind nor a count": 4 at that field, of either device.
#[test]
fn link_kinds_are_none_two_lines_and_equality() {
    let (message, _) = day().messages();
    assert_eq!(content(&message).devices[0].link, Link::None);
    assert_eq!(case_fault(&with(&message, &[(521, 2, 3)])), (4, 521));
    assert_eq!(case_fault(&with(&message, &[(1_442, 2, 3)])), (4, 1_442));
    let lines = Link::TwoLines {
        upper: line(-7, 333),
        lower: line(-100_000, -10_000),
    };
    assert_eq!(content(&case_with(lines)).devices[0].link, lines);
    assert_eq!(
        case_fault(&with(&case_with(lines), &[(521, 2, 3)])),
        (4, 521)
    );
    let equality = Link::Equality(line(100_000, 10_000));
    assert_eq!(content(&case_with(equality)).devices[0].link, equality);
    // 33 bits for each line.
    let lengths = [Link::None, equality, lines].map(|link| case_with(link).len());
    assert_eq!(lengths, [243, 247, 251]);
}

/// "A qmin above qmax is a contradiction at qmax", in message order among the others.
#[test]
fn qmin_above_qmax_is_number_5_at_qmax() {
    let (message, _) = day().messages();
    let parted = |fields: &[(usize, usize, i128)]| case_fault(&with(&message, fields));
    assert_eq!(parted(&[(738, 18, 1)]), (5, 756));
    assert_eq!(parted(&[(756, 18, -1)]), (5, 756));
    assert_eq!(parted(&[(738, 18, 100_000), (756, 18, -100_000)]), (5, 756));
    assert_eq!(parted(&[(1_874, 18, 1)]), (5, 1_892));
    assert!(read_case(&with(&message, &[(738, 18, -1)])).is_ok());
    assert!(read_case(&with(&message, &[(738, 18, -5), (756, 18, -5)])).is_ok());
    // pmax of the same interval, at 542, comes first; that of the next interval, at 821, does not.
    assert_eq!(parted(&[(738, 18, 1), (525, 17, 201)]), (5, 542));
    assert_eq!(parted(&[(738, 18, 1), (804, 17, 201)]), (5, 756));
    assert_eq!(parted(&[(1_874, 18, 1), (738, 18, 1)]), (5, 756));
    // A range is tested before, and fill bits and surplus bytes come before.
    assert_eq!(parted(&[(738, 18, 100_001)]), (4, 738));
    assert_eq!(parted(&[(738, 18, 1), (1_924, 14, 10_001)]), (4, 1_924));
    assert_eq!(parted(&[(738, 18, 1), (1_943, 1, 1)]), (6, 1_943));
    let long = [&with(&message, &[(738, 18, 1)])[..], &[0]].concat();
    assert_eq!(case_fault(&long), (6, 1_944));
    // After two lines of device 1, and behind a zone.
    let lined = with(&case_with_lines(), &[(738 + 66, 18, 1)]);
    assert_eq!(case_fault(&lined), (5, 756 + 66));
    let zoned = with(&case_with_zone(), &[(738 + 280, 18, 1)]);
    assert_eq!(case_fault(&zoned), (5, 756 + 280));
}

/// Lines that cross, or meet no limit, are no contradiction.
#[test]
fn lines_are_not_held_against_one_another() {
    let crossing = Link::TwoLines {
        upper: line(-5, -10_000),
        lower: line(5, 10_000),
    };
    assert!(read_case(&case_with(crossing)).is_ok());
}

/// Lengths in bytes, and the first bit of the first field that is not whole.
#[test]
fn new_fields_cut_are_number_1() {
    let hold = |message: &[u8], cuts: &[(usize, usize)]| {
        for &(length, bit) in cuts {
            assert_eq!(case_fault(&message[..length]), (1, bit), "{length} bytes");
        }
    };
    let (message, _) = day().messages();
    hold(&message, &[(93, 738), (95, 756), (97, 774), (99, 788)]);
    hold(
        &message,
        &[(235, 1_874), (237, 1_892), (239, 1_910), (242, 1_924)],
    );
    hold(
        &case_with_lines(),
        &[(66, 523), (68, 541), (70, 556), (72, 574)],
    );
    let equality = case_with(Link::Equality(line(0, 0)));
    hold(&equality, &[(66, 523), (68, 541)]);
    hold(
        &case_with_zone(),
        &[
            (19, 148),
            (20, 155),
            (26, 208),
            (29, 231),
            (38, 300),
            (41, 323),
        ],
    );
    // A third state puts the link kind at 568, where a byte ends.
    let mut day = day();
    give_states(&mut day.case, 0, 3);
    hold(&day.messages().0, &[(71, 568), (72, 572)]);
}

#[test]
fn editions_are_1_to_5_else_number_2() {
    for edition in Edition::ALL {
        let (message, plan) = Day { edition, ..day() }.messages();
        assert_eq!(message[0], 0x10 + edition.figure() as u8);
        assert_eq!(plan[0], 0x20 + edition.figure() as u8);
        assert_eq!(read_case(&message).map(|(read, _)| read), Ok(edition));
        for other in [0, 6, 7, 15] {
            assert_eq!(case_fault(&with(&message, &[(4, 4, other)])), (2, 4));
            assert_eq!(case_fault(&[0x10 + other as u8]), (2, 4));
        }
        assert_eq!(case_fault(&with(&message, &[(0, 4, 2), (4, 4, 6)])), (2, 0));
    }
}

fn plan_fault(message: &[u8]) -> (u8, usize) {
    let Day { edition, case, .. } = day();
    figures(read_plan(edition, &case, message).expect_err("the plan is refused"))
}

/// A plan of 2 devices and 2 intervals: header to bit 18, then 206 bits per device and interval,
/// the last 52 of them new; in all 843 bits, 106 bytes with 5 fill bits.
#[test]
fn plans_of_edition_2_have_q_and_two_reserves() {
    let Day {
        edition,
        case,
        plan,
    } = day();
    let message = encode_plan(edition, &plan).bytes;
    assert_eq!(message.len(), 106);
    // First bits of device 1 and 2 in interval 1, then in interval 2.
    for (place, t, j) in [(19, 0, 0), (225, 0, 1), (431, 1, 0), (637, 1, 1)] {
        let fields = [
            (place + 154, 18, -100_000),
            (place + 172, 17, 100_000),
            (place + 189, 17, 7),
        ];
        let read = read_plan(edition, &case, &with(&message, &fields)).expect("it passes");
        let mut expected = plan.clone();
        expected.intervals[t][j].reactive_power = -100_000;
        expected.intervals[t][j].reactive_reserves = ReactiveReserves {
            qru: 100_000,
            qrd: 7,
        };
        assert_eq!(read, expected);
        let wrong = [
            (place + 154, 18, -100_001),
            (place + 154, 18, 100_001),
            (place + 154, 18, -131_072),
            (place + 172, 17, 100_001),
            (place + 189, 17, 100_001),
            (place + 189, 17, 131_071),
        ];
        for field in wrong {
            assert_eq!(plan_fault(&with(&message, &[field])), (4, field.0));
        }
    }
}

#[test]
fn plans_of_edition_2_are_refused_alike() {
    let (_, message) = day().messages();
    for (length, bit) in [
        (22, 173),
        (24, 191),
        (26, 208),
        (48, 379),
        (50, 397),
        (105, 826),
    ] {
        assert_eq!(plan_fault(&message[..length]), (1, bit), "{length} bytes");
    }
    assert_eq!(plan_fault(&with(&message, &[(843, 1, 1)])), (6, 843));
    assert_eq!(plan_fault(&[&message[..], &[0]].concat()), (6, 848));
}

/// "A plan's edition equals its case's, else 2", whatever else it holds, and only behind its kind.
#[test]
fn plans_of_another_edition_are_number_2() {
    let days = Edition::ALL.map(|edition| Day { edition, ..day() });
    let pairs = days
        .iter()
        .flat_map(|case| days.iter().map(move |plan| (case, plan)));
    for (case, plan) in pairs.filter(|(case, plan)| case.edition != plan.edition) {
        let (case_message, _) = case.messages();
        let (_, plan_message) = plan.messages();
        let refused = |bit| {
            let fault = Fault::new(Number::Kind, bit);
            Verdict::Refused(Refusal::Plan(fault))
        };
        let judged = |plan: &[u8]| judge(&case_message, plan, &mut [0; 200]);
        assert_eq!(judged(&plan_message), refused(4));
        assert_eq!(judged(&plan_message[..1]), refused(4));
        assert_eq!(judged(&with(&plan_message, &[(8, 5, 31)])), refused(4));
        assert_eq!(judged(&with(&plan_message, &[(0, 4, 1)])), refused(0));
        for edition in [0, 6, 15] {
            assert_eq!(judged(&with(&plan_message, &[(4, 4, edition)])), refused(4));
        }
    }
}

/// From the widths, every count at its most, three states and two lines on each device: 64 bits
/// more of each device in each interval and 68 of each device, 14 of each zone and 46 in each
/// interval; 52 bits more in a plan; 66 of each zone and 23 more of each interval in a completion.
/// In edition 3 a floor of 17 bits in each of four blocks of each device in each interval of a case.
/// In edition 4 three bits more in each header and one in each start window. In edition 5 17 bits of
/// the limit and one of each device in a case, 18 in each interval of a plan and 46 of a completion.
#[test]
fn largest_messages_of_every_edition() {
    let lengths = |edition: Edition, largest: Largest| {
        let batch = busiest_batch(edition, 1, largest.devices, largest.intervals);
        let messages = batch::messages(&batch);
        let (_, case) = read_case(messages[0]).expect("the case passes reading");
        let completion = completion_bits(edition, &case).div_ceil(8);
        [messages[0].len(), messages[1].len(), completion]
    };
    let small = |edition| lengths(edition, Largest::SMALL);
    assert_eq!(small(Edition::One), [29_812, 14_787, 12_165]);
    assert_eq!(small(Edition::Two), [37_203, 19_779, 13_887]);
    assert_eq!(small(Edition::Three), [43_731, 19_779, 13_887]);
    assert_eq!(small(Edition::Four), [43_739, 19_779, 13_888]);
    assert_eq!(small(Edition::Five), [43_743, 19_887, 14_164]);
    let large = |edition| lengths(edition, Largest::LARGE);
    assert_eq!(large(Edition::Four), [328_103, 158_211, 70_324]);
    assert_eq!(large(Edition::Five), [328_113, 158_427, 70_876]);
    let bits = large_bits_of_edition_4();
    let of_edition_5 = [17 + 64, 96 * 18, 96 * 46];
    let bytes_with = |more: [usize; 3]| [0, 1, 2].map(|k| (bits[k] + more[k]).div_ceil(8));
    assert_eq!(large(Edition::Four), bytes_with([0; 3]));
    assert_eq!(large(Edition::Five), bytes_with(of_edition_5));
    assert_eq!(16 * 48 * 4 * 17, 8 * (43_731 - 37_203));
    let more_of_case = 16 * (48 * 64 + 68) + 4 * (14 + 48 * 46);
    assert_eq!(more_of_case, 8 * (37_203 - 29_812));
    assert_eq!(16 * 48 * 52, 8 * (19_779 - 14_787));
    assert_eq!(48 * (4 * 66 + 23), 8 * (13_887 - 12_165));
}

/// The largest messages of edition 4 in bits, field by field: case, plan and completion.
fn large_bits_of_edition_4() -> [usize; 3] {
    let counts = 4 + 4 + 7 + 7;
    let zone = 4 * 10 + 8 * 7 + 96 * 4 * 23;
    let lists = (3 + 3 * (16 + 31)) + (3 + 4 * (16 + 16 + 7)) + (3 + 4 * (1 + 16 + 16 + 32));
    let powers = 17 + 4 * 17 + 8 * 17;
    let device = 1 + 4 + 1 + powers + 3 * 16 + 17 + 2 * 30 + lists + 2 + 2 * (18 + 15);
    let cell = 2 + 2 * 17 + 3 + 4 * (17 + 17 + 15) + 8 * 14 + 2 * 18 + 2 * 14;
    let case = counts + 3 + 2 * 14 + 96 * 8 + 4 * zone + 64 * (device + 96 * cell);
    let plan = counts + 96 * 64 * (1 + 17 + 8 * 17 + 18 + 2 * 17);
    let interval = 64 * (1 + 1 + 3 + 4 * 17) + 4 * 8 * 33 + 2 * 23;
    let completion = counts + 3 + 96 * interval + 64 * 4 * 32 + 64;
    [case, plan, completion]
}

/// What a finding says, its message left out.
fn told(finding: &Finding) -> String {
    match finding {
        Finding::Accepted { surplus, .. } => format!("accepted {surplus}"),
        Finding::Broken(place) => format!("{place:?}"),
    }
}

/// Holds that a pair of edition 1, written in every later edition with every new figure neutral,
/// reads back as the same content and gets the same verdict and the same breaches. Gives back
/// whether it is accepted.
fn hold_neutral(case: &Case, plan: &Plan) -> bool {
    assert!(!case.has_reactive_power() && !plan.has_reactive_power() && !case.has_floors());
    assert!(!case.has_bars() && !plan.has_flows());
    let findings = Edition::ALL.map(|edition| {
        let message = encode_case(edition, case).bytes;
        assert_eq!(read_case(&message), Ok((edition, case.clone())));
        let plan_message = encode_plan(edition, plan).bytes;
        assert_eq!(read_plan(edition, case, &plan_message), Ok(plan.clone()));
        find(edition, case, plan)
    });
    for finding in &findings[1..] {
        assert_eq!(told(&findings[0]), told(finding));
    }
    let has_reactive_breach = breaches_of(case, plan).iter().any(|place| place.rule > 20);
    assert!(!has_reactive_breach);
    let completions = findings.map(|finding| match finding {
        Finding::Accepted { message, .. } => Some(message),
        Finding::Broken(_) => None,
    });
    match completions {
        [Some(one), Some(two), Some(three), Some(four), Some(_)] => {
            hold_neutral_completions(case, [&one, &two]);
            // That of edition 3 is that of edition 2 but for its edition.
            assert_eq!((two[0], three[0]), (0x32, 0x33));
            assert_eq!(two[1..], three[1..]);
            hold_wide_completion(&three, &four);
            true
        }
        _ => false,
    }
}

fn bits(message: &[u8]) -> Vec<bool> {
    let bit = |k: usize| message[k / 8] & (128 >> (k % 8)) != 0;
    (0..8 * message.len()).map(bit).collect()
}

/// The completion of edition 4 is that of edition 3 but for its edition and bits of 0: two ahead of
/// the device count, one ahead of the interval count; and up to seven at the end.
fn hold_wide_completion(of_three: &[u8], of_four: &[u8]) {
    let (three, four) = (bits(of_three), bits(of_four));
    assert_eq!((of_three[0], of_four[0]), (0x33, 0x34));
    assert_eq!(four[8..10], [false; 2]);
    assert_eq!(four[10..15], three[8..13]);
    assert!(!four[15]);
    let (rest, of_rest) = (&three[13..], &four[16..]);
    let both = rest.len().min(of_rest.len());
    assert_eq!(rest[..both], of_rest[..both]);
    let fill = [&rest[both..], &of_rest[both..]].concat();
    assert!(fill.len() < 8 && fill.iter().all(|&bit| !bit));
}

/// The completion of edition 2 is that of edition 1 but for its edition and bits of 0: 66 behind
/// each zone's six shortfalls, 23 behind each mismatch.
fn hold_neutral_completions(case: &Case, [of_one, of_two]: [&[u8]; 2]) {
    let (of_one, of_two) = (bits(of_one), bits(of_two));
    let mut rest = &of_two[..];
    let mut kept = Vec::new();
    let mut take = |count: usize, is_kept: bool| {
        let (taken, behind) = rest.split_at(count);
        rest = behind;
        if is_kept {
            kept.extend_from_slice(taken);
        } else {
            assert!(taken.iter().all(|&bit| !bit));
        }
    };
    take(22, true);
    for _ in 0..case.intervals() {
        take(73 * case.devices.len(), true);
        for _ in &case.zones {
            take(6 * 33, true);
            take(2 * 33, false);
        }
        take(23, true);
        take(23, false);
    }
    let windows: usize = case.devices.iter().map(|d| d.energy_windows.len()).sum();
    take(32 * windows + 64, true);
    // The editions, 1 and 2, in bits 4 to 7.
    assert_eq!(of_one[4..8], [false, false, false, true]);
    assert_eq!(kept[4..8], [false, false, true, false]);
    assert_eq!(of_one[8..kept.len()], kept[8..]);
}

#[test]
fn neutral_figures_change_no_verdict() {
    for (_, day) in lettered_days() {
        hold_neutral(&day.case, &day.plan);
    }
    let (mut accepted, mut broken) = (0, 0);
    for index in 0..150 {
        let mut rng = Rng::numbered(SEED, index);
        let size = rng.pick(&[Size::Tiny, Size::Small, Size::Small, Size::Medium]);
        let sample = sample_in(&mut rng, Edition::One, size);
        for _ in 0..6 {
            let message = random_plan_message(&mut rng, &sample);
            if let Ok(plan) = read_plan(Edition::One, &sample.case, &message) {
                if hold_neutral(&sample.case, &plan) {
                    accepted += 1;
                } else {
                    broken += 1;
                }
            }
        }
    }
    println!("accepted {accepted}, broken {broken}");
    assert!(accepted > 200 && broken > 200);
}

/// Holds that a plan of edition 2 or 3 gets the same verdict in edition 4, and gives back whether it
/// is accepted.
fn hold_in_edition_4(edition: Edition, case: &Case, plan: &Plan) -> bool {
    let message = encode_plan(Edition::Four, plan).bytes;
    assert_eq!(read_plan(Edition::Four, case, &message), Ok(plan.clone()));
    let [older, newer] = [edition, Edition::Four].map(|edition| find(edition, case, plan));
    assert_eq!(told(&older), told(&newer));
    let completion = |finding| match finding {
        Finding::Accepted { message, .. } => Some(message),
        Finding::Broken(_) => None,
    };
    let (Some(mut of_older), Some(of_four)) = (completion(older), completion(newer)) else {
        return false;
    };
    of_older[0] = 0x33;
    hold_wide_completion(&of_older, &of_four);
    true
}

/// Pairs of editions 2 and 3 get the same verdict in edition 4.
#[test]
fn verdicts_of_editions_2_and_3_are_those_of_edition_4() {
    let mut verdicts = [0, 0];
    for index in 0..120 {
        let mut rng = Rng::numbered(SEED, 2_000 + index);
        let edition = rng.pick(&[Edition::Two, Edition::Three]);
        let size = rng.pick(&[Size::Tiny, Size::Small, Size::Small, Size::Medium]);
        let sample = sample_in(&mut rng, edition, size);
        let Sample { case, .. } = &sample;
        let message = encode_case(Edition::Four, case).bytes;
        assert_eq!(read_case(&message), Ok((Edition::Four, case.clone())));
        for _ in 0..6 {
            let message = random_plan_message(&mut rng, &sample);
            if let Ok(plan) = read_plan(edition, case, &message) {
                let is_accepted = hold_in_edition_4(edition, case, &plan);
                verdicts[usize::from(is_accepted)] += 1;
            }
        }
    }
    println!("broken and accepted: {verdicts:?}");
    assert!(verdicts.iter().all(|&count| count > 150));
}

/// About as many random cases are of each edition, and each edition's plans are refused for cases of
/// another.
#[test]
fn random_cases_are_of_every_edition() {
    let mut cases = [0; Edition::ALL.len()];
    for index in 0..200 {
        let mut rng = Rng::numbered(SEED, 1_000 + index);
        let size = rng.pick(&[Size::Tiny, Size::Small]);
        let sample = random_sample(&mut rng, size);
        cases[sample.edition.figure() as usize - 1] += 1;
        let good = encode_plan(sample.edition, &good_plan(&mut rng, &sample)).bytes;
        assert!(read_plan(sample.edition, &sample.case, &good).is_ok());
        let other = plan_of_another_edition(&mut rng, &sample);
        let fault = read_plan(sample.edition, &sample.case, &other).expect_err("it is refused");
        assert_eq!(figures(fault), (2, 4));
    }
    assert!(
        cases.iter().all(|count| (25..=65).contains(count)),
        "{cases:?}"
    );
}

/// A figure that edition 1 cannot say is not left out unseen.
#[test]
#[should_panic(expected = "edition 1 cannot say a reactive figure")]
fn reactive_cases_are_not_written_in_edition_1() {
    let mut case = two_set_day().case;
    case.devices[1].terms[1].reactive_prices.qrd = 1;
    encode_case(Edition::One, &case);
}

#[test]
#[should_panic(expected = "edition 1 cannot say a reactive figure")]
fn reactive_plans_are_not_written_in_edition_1() {
    let mut plan = two_set_day().plan;
    plan.intervals[1][1].reactive_reserves.qru = 1;
    encode_plan(Edition::One, &plan);
}
