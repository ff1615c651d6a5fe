//! The market's copy of a completion (A.7): its bytes and lengths by hand, what it answers, that it
//! tells no price; the desk reader and the market reader, and what each refuses.

use reference::batch;
use reference::busiest::busiest_batch;
use reference::case::{read_case, Case};
use reference::completion::{
    completion_bits, completion_bytes, message_bits, Audience, Completion,
};
use reference::edition::Edition;
use reference::encode::{encode_case, encode_plan, Encoded};
use reference::fault::{Fault, Number};
use reference::generate::batches::random_plan_message;
use reference::generate::prices::exchange_prices;
use reference::generate::readings::damaged_reading;
use reference::generate::sample::sample_in;
use reference::generate::shape::Size;
use reference::judge::{judge, our_completion, Refusal, Verdict};
use reference::market::{
    market_copy, read_completion, read_for, read_market, Copied, ReadingRefusal,
};
use reference::plan::read_plan;
use reference::rng::Rng;
use reference::rules::Place;
use reference::worked_day::{lettered_days, link_days, reactive_days, two_set_day, Day};

const SEED: u64 = 31;
const BEFORE: u8 = 0xa5;
const UNREAD: u64 = 0xa5a5_a5a5;
/// Bytes that hold every completion and every copy.
const ROOM: usize = 70_876;
/// Numbers that hold the figures of either: 484 in each of 96 intervals, 256 overruns, the surplus.
const NUMBERS: usize = 96 * (64 * 7 + 4 * 8 + 4) + 64 * 4 + 1;

/// A message from its fields as (width, value).
fn message(fields: &[(usize, u64)]) -> Vec<u8> {
    let bits: String = fields
        .iter()
        .map(|&(width, value)| format!("{value:0width$b}"))
        .collect();
    let byte = |eight: &[u8]| {
        let digits = format!("{:0<8}", String::from_utf8_lossy(eight));
        u8::from_str_radix(&digits, 2).expect("eight binary digits")
    };
    bits.as_bytes().chunks(8).map(byte).collect()
}

fn copy_of(case: &[u8], plan: &[u8]) -> Vec<u8> {
    let mut buffer = vec![BEFORE; ROOM];
    let Copied::Written { bytes } = market_copy(case, plan, &mut buffer) else {
        panic!("the plan keeps every rule");
    };
    assert!(buffer[bytes..].iter().all(|&byte| byte == BEFORE));
    buffer.truncate(bytes);
    buffer
}

fn completion_of(case: &[u8], plan: &[u8]) -> Vec<u8> {
    let mut buffer = vec![0; ROOM];
    let verdict = judge(case, plan, &mut buffer);
    assert!(matches!(verdict, Verdict::Accepted { .. }), "{verdict:?}");
    let (edition, case) = read_case(case).expect("it passes reading");
    buffer.truncate(completion_bits(edition, &case).div_ceil(8));
    buffer
}

/// Kind 4, edition 1 and 2 devices are 0100 0001 00010, 2 intervals and no zones 000010 000: bits 0
/// to 21. In interval 1 nothing starts, stops or is missing: 4 and 23 bits of 0, to bit 48. In
/// interval 2 device 1 starts: bit 49; the other three and the mismatch are 0, to bit 75.
#[test]
fn the_worked_day_by_its_bytes() {
    let (case, plan) = two_set_day().messages();
    let by_hand = [
        0b0100_0001,
        0b0001_0000,
        0b0100_0000,
        0,
        0,
        0,
        0b0100_0000,
        0,
        0,
        0,
    ];
    assert_eq!(copy_of(&case, &plan), by_hand);
}

/// Starts and stops of the two-set day in an interval: nothing, or a start of device 1.
const NOTHING: [(usize, u64); 4] = [(1, 0), (1, 0), (1, 0), (1, 0)];
const A_START: [(usize, u64); 4] = [(1, 1), (1, 0), (1, 0), (1, 0)];

/// Day (h) lacks 1,500 W of rgu, scr and nsc, then 7,500; edition 2's zone 2,000 var of qru less the
/// 1,000 that are held, then 1,000 of qrd, with 1 kvar of reactive mismatch in interval 1; the link
/// day has 60 kW too many on bar 0 and 60 too few on bar 1.
#[test]
fn days_with_shortfalls_and_mismatches_by_their_fields() {
    let of = |day: &Day| {
        let (case, plan) = day.messages();
        copy_of(&case, &plan)
    };
    let shortfalls = |six: [u64; 6]| six.map(|watts| (33, watts));
    let day_h = [
        &[(4, 4), (4, 1), (5, 2), (6, 2), (3, 1)][..],
        &NOTHING,
        &shortfalls([1_500, 0, 1_500, 1_500, 0, 0]),
        &[(23, 0)],
        &A_START,
        &shortfalls([7_500, 0, 7_500, 7_500, 0, 0]),
        &[(23, 0)],
    ];
    assert_eq!(of(&lettered_days()[7].1), message(&day_h.concat()));
    let reactive = [
        &[(4, 4), (4, 2), (5, 2), (6, 2), (3, 1)][..],
        &NOTHING,
        &shortfalls([0; 6]),
        &[(33, 1_000), (33, 0), (23, 0), (23, 1)],
        &A_START,
        &shortfalls([0; 6]),
        &[(33, 0), (33, 1_000), (23, 0), (23, 0)],
    ];
    assert_eq!(of(&reactive_days()[4].1), message(&reactive.concat()));
    let linked = [
        &[(4, 4), (4, 5), (7, 2), (7, 2), (3, 0)][..],
        &NOTHING,
        &[(23, 60), (23, 60), (23, 0), (23, 0)],
        &A_START,
        &[(23, 0); 4],
    ];
    assert_eq!(of(&link_days()[2].1), message(&linked.concat()));
}

/// Day (l), 30 minutes at 150 kW in a window of no energy: an overrun of 4,500 kW·min ends the copy.
#[test]
fn an_overrun_ends_the_copy() {
    let (case, plan) = lettered_days()[11].1.messages();
    let (plain_case, plain_plan) = two_set_day().messages();
    let plain = copy_of(&plain_case, &plain_plan);
    let copy = copy_of(&case, &plan);
    // 76 bits, then 32.
    assert_eq!(copy[..9], plain[..9]);
    assert_eq!(copy[9..], message(&[(4, 0), (32, 4_500)]));
}

/// Every count at its most: the table of lengths.
#[test]
fn largest_lengths() {
    let lengths = |edition, devices, intervals| {
        let largest = busiest_batch(edition, 1, devices, intervals);
        let [case, plan] = batch::messages(&largest)[..] else {
            panic!("a case and a plan");
        };
        (completion_of(case, plan).len(), copy_of(case, plan).len())
    };
    let small = Edition::ALL.map(|edition| lengths(edition, 16, 48));
    assert_eq!(
        small,
        [
            (12_165, 5_341),
            (13_887, 7_063),
            (13_887, 7_063),
            (13_888, 7_064),
            (14_164, 7_340)
        ]
    );
    let large = [Edition::Four, Edition::Five].map(|edition| lengths(edition, 64, 96));
    assert_eq!(large, [(70_324, 15_788), (70_876, 16_340)]);
}

/// "Reading refusals come first", then broken, then 7 "with the copy's own length"; only a copy that
/// is written touches the buffer.
#[test]
fn answers_without_a_copy() {
    let (case, plan) = two_set_day().messages();
    let (_, broken) = lettered_days()[1].1.messages();
    let mut buffer = [BEFORE; 9];
    let cut = Fault::new(Number::Cut, 8);
    let mut answer = |case: &[u8], plan: &[u8]| market_copy(case, plan, &mut buffer);
    let case_refused = Copied::Refused(Refusal::Case(cut));
    assert_eq!(answer(&case[..1], &plan[..1]), case_refused);
    assert_eq!(
        answer(&case, &plan[..1]),
        Copied::Refused(Refusal::Plan(cut))
    );
    let place = Place {
        rule: 5,
        interval: 2,
        device: 1,
        window: 0,
    };
    assert_eq!(answer(&case, &broken), Copied::Broken(place));
    let too_short = Copied::Refused(Refusal::BufferTooShort { bytes_needed: 10 });
    assert_eq!(answer(&case, &plan), too_short);
    assert_eq!(buffer, [BEFORE; 9]);
    assert_eq!(market_copy(&case, &broken, &mut []), Copied::Broken(place));
    assert_eq!(
        market_copy(&case, &plan, &mut [BEFORE; 10]),
        Copied::Written { bytes: 10 }
    );
}

/// Cases of an edition with their content, each with plans of every kind.
fn stacks(edition: Edition, seed: u64) -> impl Iterator<Item = (Case, Vec<u8>, Vec<Vec<u8>>)> {
    (0..30).map(move |index| {
        let mut rng = Rng::numbered(seed, index);
        let size = rng.pick(&[Size::Tiny, Size::Small, Size::Medium]);
        let sample = sample_in(&mut rng, edition, size);
        let message = encode_case(edition, &sample.case).bytes;
        let plans = (0..6).map(|_| random_plan_message(&mut rng, &sample));
        let plans = plans.collect();
        (sample.case, message, plans)
    })
}

/// Whether a field of a case is a price or a cost, by its name.
fn is_price(name: &str) -> bool {
    name.ends_with(" price") || name.ends_with(" cost")
}

/// The value of each field of a message.
fn values(message: &Encoded) -> Vec<u64> {
    let bit = |place: usize| u64::from(message.bytes[place / 8] >> (7 - place % 8) & 1);
    let value = |place: usize, end: usize| (place..end).fold(0, |value, at| 2 * value + bit(at));
    message
        .fields
        .iter()
        .map(|field| value(field.place, field.end()))
        .collect()
}

/// Exchanging prices and costs changes every one of them somewhere, and no other field anywhere.
#[test]
fn prices_and_costs_alone_are_exchanged() {
    for edition in Edition::ALL {
        let mut changed = std::collections::BTreeSet::new();
        let mut prices = std::collections::BTreeSet::new();
        for (index, (mut case, _, _)) in stacks(edition, SEED).enumerate() {
            let before = encode_case(edition, &case);
            exchange_prices(&mut Rng::numbered(SEED, index as u64), edition, &mut case);
            let after = encode_case(edition, &case);
            assert_eq!(before.fields, after.fields);
            let pairs = values(&before).into_iter().zip(values(&after));
            for (field, (old, new)) in before.fields.iter().zip(pairs) {
                if is_price(field.name) {
                    prices.insert(field.name);
                }
                if old != new {
                    assert!(is_price(field.name), "{}", field.name);
                    changed.insert(field.name);
                }
            }
        }
        assert_eq!(changed, prices);
        // Two of the day, a zone's shortfalls, three and a state's of a device, a block's, reserves'.
        let reactive = usize::from(edition.has_reactive_power());
        assert_eq!(prices.len(), 2 + 6 + 4 + 1 + 8 + 4 * reactive);
    }
}

/// "Two accepted case and plan pairs that differ in prices and costs only, at will, give the same
/// market copy and, with buffers of one length, the same refusals for it."
#[test]
fn pairs_with_exchanged_prices_give_one_copy() {
    let (mut written, mut broken, mut refused, mut other_completion) = (0, 0, 0, 0);
    for edition in Edition::ALL {
        for (index, (mut case, message, plans)) in stacks(edition, SEED + 1).enumerate() {
            let mut rng = Rng::numbered(SEED + 1, index as u64);
            exchange_prices(&mut rng, edition, &mut case);
            let exchanged = encode_case(edition, &case).bytes;
            for plan in &plans {
                for room in [ROOM, 0, 9, 60] {
                    let mut one = vec![BEFORE; room];
                    let mut other = one.clone();
                    let answer = market_copy(&message, plan, &mut one);
                    assert_eq!(market_copy(&exchanged, plan, &mut other), answer);
                    assert_eq!(one, other);
                    match answer {
                        Copied::Written { .. } => written += 1,
                        Copied::Broken(_) => broken += 1,
                        Copied::Refused(_) => refused += 1,
                    }
                }
                let mut one = vec![0; ROOM];
                let mut other = one.clone();
                let verdicts = [
                    judge(&message, plan, &mut one),
                    judge(&exchanged, plan, &mut other),
                ];
                other_completion += usize::from(one != other && verdicts[0] != verdicts[1]);
            }
        }
    }
    let reached = [written, broken, refused, other_completion];
    assert!(reached.iter().all(|&count| count > 200), "{reached:?}");
}

/// The copy has the completion's figures without states, block powers and the surplus, whatever the
/// completion is.
#[test]
fn the_copy_is_the_completion_without_offers() {
    let mut copies = 0;
    for edition in Edition::ALL {
        for (case, message, plans) in stacks(edition, SEED + 2) {
            for plan in &plans {
                let Ok(plan_read) = read_plan(edition, &case, plan) else {
                    continue;
                };
                let Ok(ours) = our_completion(&case, &plan_read) else {
                    continue;
                };
                let completion = completion_of(&message, plan);
                let desk = read_for(Audience::Desk, edition, &case, &completion);
                let desk = desk.expect("our completion reads back");
                assert_eq!(
                    (&desk.completion, desk.surplus),
                    (&ours.completion, Some(ours.surplus))
                );
                let copy = copy_of(&message, plan);
                let market = read_for(Audience::Market, edition, &case, &copy);
                let market = market.expect("our copy reads back");
                assert_eq!(market.surplus, None);
                assert_eq!(market.completion, without_offers(&ours.completion));
                let bits = [Audience::Desk, Audience::Market]
                    .map(|audience| message_bits(audience, edition, &case));
                let cells = case.devices.len() * case.intervals();
                assert_eq!(bits[0] - bits[1], 71 * cells + 64);
                assert_eq!([completion.len(), copy.len()], bits.map(|n| n.div_ceil(8)));
                copies += 1;
            }
        }
    }
    assert!(copies > 150, "{copies}");
}

fn without_offers(completion: &Completion) -> Completion {
    let mut completion = completion.clone();
    for interval in &mut completion.intervals {
        for device in &mut interval.devices {
            device.startup_state = 0;
            device.blocks = [0; 4];
        }
    }
    completion
}

type Reader = fn(&[u8], &[u8], &mut [u64]) -> Result<usize, ReadingRefusal>;
const READERS: [Reader; 2] = [read_completion, read_market];

/// The numbers that a reader gives back, or the message's fault.
fn numbers(reader: Reader, case: &[u8], message: &[u8]) -> Result<Vec<u64>, Fault> {
    let mut table = vec![UNREAD; NUMBERS];
    match reader(case, message, &mut table) {
        Ok(count) => {
            assert!(table[count..].iter().all(|&number| number == UNREAD));
            table.truncate(count);
            Ok(table)
        }
        Err(ReadingRefusal::Message(fault)) => {
            assert!(table.iter().all(|&number| number == UNREAD));
            Err(fault)
        }
        Err(refusal) => panic!("{refusal:?}"),
    }
}

/// Both messages of a day.
fn both(day: &Day) -> (Vec<u8>, [Vec<u8>; 2]) {
    let (case, plan) = day.messages();
    let messages = [completion_of(&case, &plan), copy_of(&case, &plan)];
    (case, messages)
}

/// The worked day and day (h), number by number; its surplus −1,452,140 in two's complement.
#[test]
fn figures_come_back_in_the_messages_order() {
    let (case, [completion, copy]) = both(&two_set_day());
    let off = [0, 0, 0, 30, 0, 0, 0];
    let desk = [
        &off[..],
        &off,
        &[0],
        &[1, 0, 2, 100, 50, 0, 0],
        &[0, 0, 0, 150, 0, 0, 0],
        &[0],
        &[167_860],
    ];
    assert_eq!(
        numbers(read_completion, &case, &completion),
        Ok(desk.concat())
    );
    let market = vec![0, 0, 0, 0, 0, 1, 0, 0, 0, 0];
    assert_eq!(numbers(read_market, &case, &copy), Ok(market));
    let (case, [completion, copy]) = both(&lettered_days()[7].1);
    let desk = numbers(read_completion, &case, &completion).expect("it is read");
    assert_eq!(desk.len(), 2 * (2 * 7 + 6 + 1) + 1);
    assert_eq!(desk.last().map(|&last| last as i64), Some(-1_452_140));
    let [first, second] = [
        [1_500, 0, 1_500, 1_500, 0, 0],
        [7_500, 0, 7_500, 7_500, 0, 0],
    ];
    let market = [
        &[0, 0, 0, 0][..],
        &first,
        &[0],
        &[1, 0, 0, 0],
        &second,
        &[0],
    ];
    assert_eq!(numbers(read_market, &case, &copy), Ok(market.concat()));
    // Real, then reactive, bar 0 first.
    let (case, [_, copy]) = both(&link_days()[2].1);
    let market = vec![0, 0, 0, 0, 60, 60, 0, 0, 1, 0, 0, 0, 0, 0, 0, 0];
    assert_eq!(numbers(read_market, &case, &copy), Ok(market));
}

/// "A desk reader refuses kind 4 and a market reader refuses kind 3", and both a plan and a case.
#[test]
fn each_reader_refuses_every_other_kind() {
    for day in [&two_set_day(), &lettered_days()[7].1, &link_days()[0].1] {
        let (case, messages) = both(day);
        let (_, plan) = day.messages();
        let other = Err(Fault::new(Number::Kind, 0));
        for (index, reader) in READERS.into_iter().enumerate() {
            assert!(numbers(reader, &case, &messages[index]).is_ok());
            assert_eq!(numbers(reader, &case, &messages[1 - index]), other);
            assert_eq!(numbers(reader, &case, &plan), other);
            assert_eq!(numbers(reader, &case, &case), other);
        }
    }
}

/// "1 where cut": every beginning, at the first field that it does not hold whole.
#[test]
fn every_beginning_is_refused_by_1() {
    let (case, messages) = both(&two_set_day());
    let device = [1, 1, 3, 17, 17, 17, 17];
    let header = [4, 4, 5, 6, 3];
    let of_desk = [
        &header[..],
        &device,
        &device,
        &[23],
        &device,
        &device,
        &[23, 64],
    ]
    .concat();
    let of_market = [&header[..], &[1, 1, 1, 1, 23, 1, 1, 1, 1, 23]].concat();
    for (reader, (message, widths)) in READERS
        .into_iter()
        .zip(messages.iter().zip([of_desk, of_market]))
    {
        for length in 0..message.len() {
            let mut place = 0;
            let cut = widths.iter().find(|&&width| {
                place += width;
                place > 8 * length
            });
            let cut_at = place - cut.expect("a field is cut");
            let expected = Err(Fault::new(Number::Cut, cut_at));
            assert_eq!(numbers(reader, &case, &message[..length]), expected);
        }
    }
    // Days of every edition, by the number alone.
    for edition in Edition::ALL {
        for (content, case, plans) in stacks(edition, SEED + 3).take(8) {
            let mut room = vec![0; ROOM];
            let is_accepted =
                |plan: &&Vec<u8>| matches!(judge(&case, plan, &mut room), Verdict::Accepted { .. });
            let Some(plan) = plans.iter().find(is_accepted) else {
                continue;
            };
            let messages = [completion_of(&case, plan), copy_of(&case, plan)];
            for (audience, message) in Audience::ALL.into_iter().zip(&messages) {
                for length in 0..message.len() {
                    let beginning = read_for(audience, edition, &content, &message[..length]);
                    let fault = beginning.expect_err("it is cut");
                    assert_eq!(fault.number, Number::Cut);
                    assert!(fault.bit <= 8 * length);
                }
            }
        }
    }
}

/// The message with a field overwritten.
fn with(message: &[u8], place: usize, width: usize, value: i128) -> Vec<u8> {
    let mut bytes = message.to_vec();
    reference::bits::overwrite(&mut bytes, place, width, value);
    bytes
}

/// Kind, edition and counts at bits counted by hand, in editions 1 and 5, in field order; then 6.
#[test]
fn damaged_messages_are_refused_at_their_field() {
    let days = [
        (lettered_days()[7].1.clone(), [8, 13, 19], [5, 6, 3]),
        (link_days()[0].1.clone(), [8, 15, 22], [7, 7, 3]),
    ];
    for (day, places, widths) in &days {
        let (case, messages) = both(day);
        let zones = day.case.zones.len() as i128;
        for (reader, message) in READERS.into_iter().zip(&messages) {
            let refused = |bytes: &[u8], number, bit| {
                let expected = Err(Fault::new(number, bit));
                assert_eq!(numbers(reader, &case, bytes), expected);
            };
            for kind in [0, 1, 2, 5, 15] {
                refused(&with(message, 0, 4, kind), Number::Kind, 0);
            }
            for edition in (0..16).filter(|&edition| edition != day.edition.figure()) {
                refused(&with(message, 4, 4, edition), Number::Kind, 4);
            }
            for (index, counts) in [[2, 2], [2, 2], [zones, zones]].into_iter().enumerate() {
                for count in [counts[0] - 1, counts[1] + 1, 0, (1 << widths[index]) - 1] {
                    if count != counts[0] && count >= 0 {
                        let bytes = with(message, places[index], widths[index], count);
                        refused(&bytes, Number::Count, places[index]);
                    }
                }
            }
            // The earliest counts, and a count ahead of what is cut or behind the end.
            let wrong = with(&with(message, places[2], 3, 7), places[0], widths[0], 1);
            refused(&wrong, Number::Count, places[0]);
            refused(&wrong[..4], Number::Count, places[0]);
            refused(&[&wrong[..], &[0]].concat(), Number::Count, places[0]);
            refused(
                &[&message[..], &[0]].concat(),
                Number::Fill,
                8 * message.len(),
            );
            refused(&with(&with(message, 0, 4, 9), 4, 4, 9), Number::Kind, 0);
        }
    }
    // The worked day's copy has four fill bits, from bit 76 on.
    let (case, [_, copy]) = both(&two_set_day());
    for (place, width, value, bit) in [(76, 1, 1, 76), (79, 1, 1, 79), (76, 4, 5, 77)] {
        let bytes = with(&copy, place, width, value);
        let expected = Err(Fault::new(Number::Fill, bit));
        assert_eq!(numbers(read_market, &case, &bytes), expected);
        let longer = [&bytes[..], &[0]].concat();
        assert_eq!(numbers(read_market, &case, &longer), expected);
    }
}

/// "There is no 4 and no 5: a state of 7 or a block power of 131,071 comes back as it stands, the
/// surplus as a signed number."
#[test]
fn every_value_of_a_width_is_in_range() {
    let day = &lettered_days()[7].1;
    let (case, [completion, copy]) = both(day);
    let ones = |message: &[u8], end: usize| {
        let mut bytes = message.to_vec();
        (22..end).for_each(|bit| bytes[bit / 8] |= 128 >> (bit % 8));
        bytes
    };
    let [device, six] = [
        vec![1, 1, 7, 131_071, 131_071, 131_071, 131_071],
        vec![(1 << 33) - 1; 6],
    ];
    let mismatch = vec![(1 << 23) - 1];
    let interval = [&device[..], &device, &six, &mismatch].concat();
    let surplus = vec![u64::MAX];
    let desk = [&interval[..], &interval, &surplus].concat();
    // 22 bits, twice two devices of 73, six shortfalls and a mismatch, the surplus.
    let bits = 22 + 2 * (2 * 73 + 6 * 33 + 23) + 64;
    assert_eq!(
        numbers(read_completion, &case, &ones(&completion, bits)),
        Ok(desk)
    );
    let interval = [&[1; 4][..], &six, &mismatch].concat();
    let bits = 22 + 2 * (2 * 2 + 6 * 33 + 23);
    let market = [&interval[..], &interval].concat();
    assert_eq!(numbers(read_market, &case, &ones(&copy, bits)), Ok(market));
    let (edition, content) = read_case(&case).expect("it passes reading");
    let least = with(&completion, 22 + 2 * (2 * 73 + 6 * 33 + 23), 64, 1 << 63);
    let figures = read_for(Audience::Desk, edition, &content, &least).expect("it is read");
    assert_eq!(figures.surplus, Some(i128::from(i64::MIN)));
}

/// "the case's own refusals first"; 7 comes last, with 8 bytes for each number, and nothing is
/// written then.
#[test]
fn refusals_of_the_case_and_of_the_table() {
    let (case, messages) = both(&two_set_day());
    for (reader, (message, count)) in READERS.into_iter().zip(messages.iter().zip([31, 10])) {
        let mut table = vec![UNREAD; count];
        let case_refused = Err(ReadingRefusal::Case(Fault::new(Number::Cut, 8)));
        assert_eq!(reader(&case[..1], &message[..1], &mut table), case_refused);
        let refused = Err(ReadingRefusal::Message(Fault::new(Number::Cut, 8)));
        assert_eq!(reader(&case, &message[..1], &mut []), refused);
        let too_short = Err(ReadingRefusal::TableTooShort {
            bytes_needed: 8 * count,
        });
        assert_eq!(reader(&case, message, &mut table[1..]), too_short);
        assert_eq!(table, vec![UNREAD; count]);
        assert_eq!(reader(&case, message, &mut []), too_short);
        assert_eq!(reader(&case, message, &mut table), Ok(count));
    }
}

/// The widths of a message's fields behind its counts, in its order.
fn widths(audience: Audience, edition: Edition, case: &Case) -> Vec<usize> {
    let device = match audience {
        Audience::Desk => vec![1, 1, 3, 17, 17, 17, 17],
        Audience::Market => vec![1, 1],
    };
    let (shortfalls, mismatches) = match edition {
        Edition::One => (6, 1),
        Edition::Two | Edition::Three | Edition::Four => (8, 2),
        Edition::Five => (8, 4),
    };
    let interval = [
        device.repeat(case.devices.len()),
        vec![33; shortfalls * case.zones.len()],
        vec![23; mismatches],
    ];
    let mut widths = interval.concat().repeat(case.durations.len());
    let windows = case
        .devices
        .iter()
        .flat_map(|device| &device.energy_windows);
    widths.extend(windows.map(|_| 32));
    widths.extend((audience == Audience::Desk).then_some(64));
    widths
}

/// The reading stated a second time, over a string of binary digits.
fn read_again(
    audience: Audience,
    edition: Edition,
    case: &Case,
    message: &[u8],
) -> Result<Vec<u64>, Fault> {
    let bits: String = message.iter().map(|byte| format!("{byte:08b}")).collect();
    let kind = if audience == Audience::Desk { 3 } else { 4 };
    let (devices, intervals) = if edition >= Edition::Four {
        (7, 7)
    } else {
        (5, 6)
    };
    let header = [
        (4, kind, Number::Kind),
        (4, edition.figure() as usize, Number::Kind),
        (devices, case.devices.len(), Number::Count),
        (intervals, case.durations.len(), Number::Count),
        (3, case.zones.len(), Number::Count),
    ];
    let mut at = 0;
    let mut take = |width: usize| {
        let digits = bits
            .get(at..at + width)
            .ok_or(Fault::new(Number::Cut, at))?;
        at += width;
        Ok(u64::from_str_radix(digits, 2).expect("binary digits"))
    };
    let mut place = 0;
    for (width, value, number) in header {
        if take(width)? != value as u64 {
            return Err(Fault::new(number, place));
        }
        place += width;
    }
    let figures = widths(audience, edition, case)
        .into_iter()
        .map(&mut take)
        .collect::<Result<Vec<u64>, Fault>>()?;
    let last_byte_end = at.next_multiple_of(8);
    match bits[at..last_byte_end].find('1') {
        Some(behind) => Err(Fault::new(Number::Fill, at + behind)),
        None if bits.len() > last_byte_end => Err(Fault::new(Number::Fill, last_byte_end)),
        None => Ok(figures),
    }
}

/// Damage of every kind, both readers, against the reading stated a second time.
#[test]
fn damaged_messages_are_read_as_stated_again() {
    let mut reached = [0; 7];
    for edition in Edition::ALL {
        for (index, (case, message, plans)) in stacks(edition, SEED + 4).enumerate() {
            let mut rng = Rng::numbered(SEED + 4, index as u64);
            for plan in &plans {
                let mut room = vec![0; ROOM];
                let verdict = judge(&message, plan, &mut room);
                if !matches!(verdict, Verdict::Accepted { .. }) {
                    continue;
                }
                let messages = [completion_of(&message, plan), copy_of(&message, plan)];
                for (audience, whole) in Audience::ALL.into_iter().zip(&messages) {
                    let damaged = damaged_reading(&mut rng, audience, edition, &case, whole);
                    for (reader, audience) in READERS.into_iter().zip(Audience::ALL) {
                        let given = numbers(reader, &message, &damaged);
                        assert_eq!(given, read_again(audience, edition, &case, &damaged));
                        let number = given.err().map_or(0, |fault| fault.number.figure());
                        reached[usize::from(number)] += 1;
                    }
                }
            }
        }
    }
    let [read, cut, kind, count, range, contradiction, fill] = reached;
    assert!(
        [read, cut, kind, count, fill].iter().all(|&n| n > 20),
        "{reached:?}"
    );
    assert_eq!((range, contradiction), (0, 0));
}

/// A rival completion of any figures reads back as it was written.
#[test]
fn any_completion_reads_back() {
    let day = &link_days()[0].1;
    let Ok(mut ours) = our_completion(&day.case, &day.plan) else {
        panic!("it keeps every rule");
    };
    let interval = &mut ours.completion.intervals[1];
    interval.mismatches = [1, 2];
    interval.reactive_mismatches = [3, 8_388_607];
    interval.devices[1].blocks = [9, 10, 11, 131_071];
    let bytes = completion_bytes(day.edition, &day.case, &ours.completion, -5);
    let read = read_for(Audience::Desk, day.edition, &day.case, &bytes).expect("it is read");
    assert_eq!((read.completion, read.surplus), (ours.completion, Some(-5)));
    let (case, plan) = (
        encode_case(day.edition, &day.case).bytes,
        encode_plan(day.edition, &day.plan).bytes,
    );
    assert_ne!(completion_of(&case, &plan), bytes);
}
