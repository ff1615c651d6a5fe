//! Refusals 1 to 6, at bits counted by hand from the widths in the paper.
//!
//! The worked case has 2 devices, 2 intervals and no zones. Its header takes bits 0 to 49, its two
//! durations 50 to 65; device 1 starts at 66 and takes 352 bits up to its state count at 418, two
//! states of 47 bits, and two window counts, so that its intervals start at 521 and take 215 bits
//! each (two blocks); device 2 starts at 951, its intervals at 1312, 183 bits each (one block). The
//! message ends at bit 1678: 210 bytes with 2 fill bits.

use reference::bits::overwrite;
use reference::case::{read_case, Case};
use reference::edition::Edition;
use reference::encode::{encode_case, encode_plan};
use reference::fault::Fault;
use reference::generate::damage::give_states;
use reference::plan::read_plan;
use reference::worked_day::{lettered_days, two_set_day, Day};

fn lettered(letter: char) -> Day {
    let found = lettered_days()
        .into_iter()
        .find(|(name, _)| *name == letter);
    found.expect("the paper marks it").1
}

fn figures(fault: Fault) -> (u8, usize) {
    (fault.number.figure(), fault.bit)
}

/// Number and bit of a case's fault.
fn case_fault(message: &[u8]) -> (u8, usize) {
    figures(read_case(message).expect_err("the case is refused"))
}

/// Number and bit of a plan's fault, for the worked case.
fn plan_fault(message: &[u8]) -> (u8, usize) {
    let case = two_set_day().case;
    figures(read_plan(Edition::One, &case, message).expect_err("the plan is refused"))
}

/// A message with some fields, as (first bit, width, value), overwritten.
fn with(message: &[u8], fields: &[(usize, usize, i128)]) -> Vec<u8> {
    let mut message = message.to_vec();
    for &(place, width, value) in fields {
        overwrite(&mut message, place, width, value);
    }
    message
}

fn bytes(case: &Case) -> Vec<u8> {
    encode_case(Edition::One, case).bytes
}

/// Holds that each (first bit, width, value) is refused with `number` at that bit, and that the
/// message is not refused with the field as it stands.
fn each_is_refused(message: &[u8], number: u8, fields: &[(usize, usize, i128)]) {
    assert!(read_case(message).is_ok());
    for &field in fields {
        let place = field.0;
        assert_eq!(case_fault(&with(message, &[field])), (number, place));
    }
}

#[test]
fn kind_and_edition_are_number_2() {
    let case = bytes(&two_set_day().case);
    each_is_refused(
        &case,
        2,
        &[(0, 4, 0), (0, 4, 2), (0, 4, 15), (4, 4, 0), (4, 4, 15)],
    );
}

#[test]
fn counts_are_number_3() {
    let case = bytes(&two_set_day().case);
    let counts = [
        (8, 5, 0),
        (8, 5, 17),
        (8, 5, 31),
        (13, 6, 0),
        (13, 6, 49),
        (13, 6, 63),
        (19, 3, 5),
        (19, 3, 7),
        (418, 3, 4), // startup states of device 1
        (418, 3, 7),
        (515, 3, 5), // its start windows
        (518, 3, 7), // its energy windows
        (557, 3, 5), // its blocks in interval 1
        (557 + 215, 3, 6),
    ];
    each_is_refused(&case, 3, &counts);
}

/// "Three becomes the limit in every edition. It refuses a count of four with the existing 3 at
/// that field." All states are there, each whole. Device 2 has its count 352 bits behind its start
/// at 951, or 47 bits later for each state of device 1 above two.
#[test]
fn three_startup_states_are_taken_and_four_refused_at_their_count() {
    let with_states = |counts: [usize; 2]| {
        let mut case = two_set_day().case;
        for (j, count) in counts.into_iter().enumerate() {
            give_states(&mut case, j, count);
        }
        case
    };
    for count in 0..=3 {
        for counts in [[count, 0], [0, count], [count, count]] {
            let case = with_states(counts);
            assert_eq!(
                read_case(&bytes(&case)),
                Ok((Edition::One, case)),
                "{counts:?}"
            );
        }
    }
    for count in 4..=7 {
        assert_eq!(case_fault(&bytes(&with_states([count, 0]))), (3, 418));
        assert_eq!(case_fault(&bytes(&with_states([count, 5]))), (3, 418));
        assert_eq!(case_fault(&bytes(&with_states([2, count]))), (3, 1_303));
        assert_eq!(case_fault(&bytes(&with_states([3, count]))), (3, 1_350));
    }
}

/// The count is a field like others: nothing is read behind it, and nothing but numbers 1 to 4 of
/// earlier fields comes ahead of it. Bit 416 lies in the limit at 401, bit 424 behind the count.
#[test]
fn a_count_of_four_states_has_its_place_among_the_faults() {
    let mut case = two_set_day().case;
    give_states(&mut case, 0, 4);
    let four = bytes(&case);
    assert_eq!(case_fault(&four[..52]), (1, 401));
    assert_eq!(case_fault(&four[..53]), (3, 418));
    assert_eq!(case_fault(&with(&four, &[(421, 16, 65_535)])), (3, 418));
    assert_eq!(case_fault(&with(&four, &[(401, 17, 100_001)])), (4, 401));
    assert_eq!(case_fault(&with(&four, &[(67, 4, 1)])), (3, 418));
    assert_eq!(case_fault(&[&four[..], &[0]].concat()), (3, 418));
}

#[test]
fn other_figures_are_number_4() {
    let case = bytes(&two_set_day().case);
    let header = [
        (22, 14, 0),
        (22, 14, 10_001),
        (36, 14, 0),
        (36, 14, 10_001),
        (50, 8, 0),
        (50, 8, 181),
        (58, 8, 255),
    ];
    let device_1 = [
        (72, 17, 100_001),           // initial power
        (89, 16, 60_001),            // minutes already so
        (105, 16, 60_001),           // minimum up
        (121, 16, 65_535),           // minimum down
        (137, 17, 0),                // ramp up
        (154, 17, 0),                // ramp down
        (171, 17, 100_001),          // ramp starting
        (188, 17, 131_071),          // ramp stopping
        (205, 17, 100_001),          // on cost
        (222, 30, 1_000_000_001),    // start cost
        (252, 30, 1_000_000_001),    // stop cost
        (282, 17, 100_001),          // rgu limit
        (282 + 7 * 17, 17, 100_001), // rrd_off limit
        (421, 16, 60_001),           // longest downtime of state 1
        (437, 31, 1_000_000_001),    // its cost
        (437, 31, -1_000_000_001),
        (484, 31, -1_073_741_824), // the cost of state 2: the least that 31 bits say
    ];
    let interval_1 = [
        (521, 2, 3),        // status
        (523, 17, 100_001), // pmin
        (540, 17, 100_001), // pmax
        (560, 17, 100_001), // cap of block 1
        (577, 15, 10_001),  // its price
        (577, 15, -10_001),
        (609, 15, -16_384),         // price of block 2: the least that 15 bits say
        (624, 14, 10_001),          // rgu price
        (624 + 7 * 14, 14, 16_383), // rrd_off price
    ];
    each_is_refused(&case, 4, &header);
    each_is_refused(&case, 4, &device_1);
    each_is_refused(&case, 4, &interval_1);
}

/// In day (h) the zone comes first, at bit 66: four shares, six prices, two minima per interval.
#[test]
fn zone_figures_are_number_4() {
    let case = bytes(&lettered('h').case);
    let zone = [
        (66, 10, 1_001),
        (96, 10, 1_023),
        (106, 7, 0),
        (106, 7, 101),
        (141, 7, 0),
        (148, 23, 6_400_001),
        (171, 23, 6_400_001),
        (217, 23, 8_388_607),
    ];
    each_is_refused(&case, 4, &zone);
}

/// Day (j): start window at 518, end 534, number 550. Day (l): energy window's kind at 521, start
/// 522, end 538, energy 554.
#[test]
fn window_figures_are_number_4() {
    let start_window = bytes(&lettered('j').case);
    each_is_refused(&start_window, 4, &[(550, 6, 49), (550, 6, 63)]);
    let energy_window = bytes(&lettered('l').case);
    each_is_refused(
        &energy_window,
        4,
        &[(554, 32, 4_000_000_001), (554, 32, 4_294_967_295)],
    );
}

#[test]
fn ends_of_ranges_are_in_range() {
    let case = bytes(&two_set_day().case);
    let in_range = [
        (22, 14, 10_000),
        (36, 14, 10_000),
        (50, 8, 180),
        (50, 8, 1),
        (72, 17, 100_000),
        (89, 16, 60_000),
        (137, 17, 100_000),
        (205, 17, 100_000),
        (222, 30, 1_000_000_000),
        (437, 31, 1_000_000_000),
        (437, 31, -1_000_000_000),
        (521, 2, 2),
        (577, 15, 10_000),
        (577, 15, -10_000),
        (624, 14, 10_000),
    ];
    for field in in_range {
        assert!(read_case(&with(&case, &[field])).is_ok(), "{field:?}");
    }
}

#[test]
fn contradictions_are_number_5_at_the_later_field() {
    let day = bytes(&two_set_day().case);
    // pmax below pmin 150, and pmin above pmax 200: at pmax.
    assert_eq!(case_fault(&with(&day, &[(540, 17, 149)])), (5, 540));
    assert_eq!(case_fault(&with(&day, &[(523, 17, 201)])), (5, 540));
    assert!(read_case(&with(&day, &[(540, 17, 150)])).is_ok());
    // No zones: any zone bit is above the count, at the field of four bits.
    for bits in [8, 4, 2, 1, 15] {
        assert_eq!(case_fault(&with(&day, &[(67, 4, bits)])), (5, 67));
    }
    // One zone: zone 1, the first bit, is no contradiction; the device starts at 240.
    let zone = bytes(&lettered('h').case);
    for bits in [4, 2, 1, 12] {
        assert_eq!(case_fault(&with(&zone, &[(241, 4, bits)])), (5, 241));
    }
    assert!(read_case(&with(&zone, &[(241, 4, 8)])).is_ok());
}

#[test]
fn windows_contradict_at_their_end() {
    // Day (j), 60..120; the last E is 120.
    let day = bytes(&lettered('j').case);
    assert_eq!(case_fault(&with(&day, &[(534, 16, 121)])), (5, 534));
    assert_eq!(case_fault(&with(&day, &[(534, 16, 65_535)])), (5, 534));
    assert_eq!(case_fault(&with(&day, &[(534, 16, 59)])), (5, 534));
    assert_eq!(case_fault(&with(&day, &[(518, 16, 121)])), (5, 534));
    assert_eq!(case_fault(&with(&day, &[(518, 16, 65_535)])), (5, 534));
    assert!(read_case(&with(&day, &[(518, 16, 120)])).is_ok());
    // Day (l), 60..90.
    let day = bytes(&lettered('l').case);
    assert_eq!(case_fault(&with(&day, &[(538, 16, 121)])), (5, 538));
    assert_eq!(case_fault(&with(&day, &[(538, 16, 59)])), (5, 538));
    assert_eq!(case_fault(&with(&day, &[(522, 16, 91)])), (5, 538));
    assert!(read_case(&with(&day, &[(538, 16, 60)])).is_ok());
    assert!(read_case(&with(&day, &[(538, 16, 120)])).is_ok());
}

#[test]
fn fill_and_surplus_are_number_6() {
    let case = bytes(&two_set_day().case);
    assert_eq!(case.len(), 210);
    assert_eq!(case_fault(&with(&case, &[(1678, 2, 2)])), (6, 1678));
    assert_eq!(case_fault(&with(&case, &[(1678, 2, 1)])), (6, 1679));
    assert_eq!(case_fault(&with(&case, &[(1678, 2, 3)])), (6, 1678));
    assert_eq!(case_fault(&[&case[..], &[0]].concat()), (6, 1680));
    assert_eq!(case_fault(&[&case[..], &[0, 1]].concat()), (6, 1680));
    let filled = with(&case, &[(1678, 2, 1)]);
    assert_eq!(case_fault(&[&filled[..], &[0]].concat()), (6, 1679));
}

#[test]
fn cut_messages_are_number_1_at_the_field_that_is_not_whole() {
    let case = bytes(&two_set_day().case);
    // Length in bytes, first bit of the first field that is not whole.
    let cuts = [
        (0, 0),
        (1, 8),
        (2, 13),
        (3, 22),
        (4, 22),
        (5, 36),
        (6, 36),
        (7, 50),
        (8, 58),
        (9, 72),
        (11, 72),
        (12, 89),
        (65, 518), // bit 520 lies in the energy window count
        (209, 1_664),
    ];
    for (length, bit) in cuts {
        assert_eq!(case_fault(&case[..length]), (1, bit), "{length} bytes");
    }
}

/// "A field that is cut is 1 even if the bits present already exceed the range."
#[test]
fn a_cut_field_is_number_1_whatever_its_bits() {
    let case = bytes(&two_set_day().case);
    // The mismatch price, 22 to 35, all ones, cut at bit 32.
    let high = with(&case, &[(22, 14, 16_383)]);
    assert_eq!(case_fault(&high), (4, 22));
    assert_eq!(case_fault(&high[..4]), (1, 22));
}

#[test]
fn fields_come_before_6_and_6_before_5() {
    let case = bytes(&two_set_day().case);
    let contradiction = (67, 4, 1);
    let later_contradiction = (540, 17, 0);
    let later_figure = (1_664, 14, 10_001);
    let fill = (1_678, 2, 1);
    assert_eq!(
        case_fault(&with(&case, &[contradiction, later_contradiction])),
        (5, 67)
    );
    assert_eq!(case_fault(&with(&case, &[later_contradiction])), (5, 540));
    assert_eq!(case_fault(&with(&case, &[contradiction, fill])), (6, 1_679));
    assert_eq!(
        case_fault(&with(&case, &[contradiction, fill, later_figure])),
        (4, 1_664)
    );
    let cut = with(&case, &[contradiction]);
    assert_eq!(case_fault(&cut[..209]), (1, 1_664));
    let surplus = [&with(&case, &[contradiction])[..], &[0]].concat();
    assert_eq!(case_fault(&surplus), (6, 1_680));
}

/// A plan of 2 devices and 2 intervals: header to bit 18, then 154 bits per device and interval, in
/// all 635 bits, 80 bytes with 5 fill bits.
#[test]
fn plans_are_refused_alike() {
    let plan = encode_plan(Edition::One, &two_set_day().plan).bytes;
    assert_eq!(plan.len(), 80);
    assert!(read_plan(Edition::One, &two_set_day().case, &plan).is_ok());
    let faults = [
        ((0, 4, 1), 2),
        ((4, 4, 2), 2),
        ((8, 5, 1), 3),
        ((8, 5, 3), 3),
        ((8, 5, 0), 3),
        ((8, 5, 31), 3),
        ((13, 6, 1), 3),
        ((13, 6, 48), 3),
        ((13, 6, 63), 3),
        ((20, 17, 100_001), 4), // online power of device 1 in interval 1
        ((37, 17, 100_001), 4), // its rgu
        ((37 + 7 * 17, 17, 131_071), 4), // its rrd_off
        ((174, 17, 100_001), 4), // online power of device 2 in interval 1
        ((328, 17, 100_001), 4), // online power of device 1 in interval 2
        ((618, 17, 100_001), 4), // the last field
    ];
    for (field, number) in faults {
        assert_eq!(plan_fault(&with(&plan, &[field])), (number, field.0));
    }
    for offset in 0..5 {
        assert_eq!(
            plan_fault(&with(&plan, &[(635 + offset, 1, 1)])),
            (6, 635 + offset)
        );
    }
    assert_eq!(plan_fault(&[&plan[..], &[0]].concat()), (6, 640));
    for (length, bit) in [(0, 0), (1, 8), (2, 13), (3, 20), (5, 37), (79, 618)] {
        assert_eq!(plan_fault(&plan[..length]), (1, bit), "{length} bytes");
    }
}
