//! Writing in the newest edition (A.9, with A.12's last sentence): the bits of the worked day by
//! hand, largest lengths, neutral values, own bytes, content and bytes, verdicts, refusals.

use reference::batch;
use reference::breaches::breaches;
use reference::busiest::busiest_batch;
use reference::case::{read_case, Case, Link, ReactiveReserves};
use reference::edition::Edition;
use reference::encode::{encode_case, encode_plan};
use reference::fault::{Fault, Number};
use reference::generate::batches::random_plan_message;
use reference::generate::sample::{random_sample, sample_in};
use reference::generate::shape::Size;
use reference::judge::{judge, Refusal, Verdict};
use reference::plan::{read_plan, Plan};
use reference::rewrite::{rewrite_case, rewrite_plan};
use reference::rng::Rng;
use reference::worked_day::{link_days, two_set_day};

const SEED: u64 = 29;
const BEFORE: u8 = 0xa5;
/// Bytes that hold every case of the newest edition, every plan and every completion.
const ROOM: usize = 328_113;

fn written_case(case: &[u8]) -> Vec<u8> {
    let mut buffer = vec![BEFORE; ROOM];
    let bytes = rewrite_case(case, &mut buffer).expect("it passes reading");
    assert!(buffer[bytes..].iter().all(|&byte| byte == BEFORE));
    buffer.truncate(bytes);
    buffer
}

fn written_plan(case: &[u8], plan: &[u8]) -> Vec<u8> {
    let mut buffer = vec![BEFORE; ROOM];
    let bytes = rewrite_plan(case, plan, &mut buffer).expect("it passes reading");
    assert!(buffer[bytes..].iter().all(|&byte| byte == BEFORE));
    buffer.truncate(bytes);
    buffer
}

/// A message as bits, taken from another one part by part.
struct Bits<'a> {
    from: &'a [u8],
    at: usize,
    bits: Vec<bool>,
}

impl<'a> Bits<'a> {
    fn of(from: &'a [u8]) -> Bits<'a> {
        Bits {
            from,
            at: 0,
            bits: Vec::new(),
        }
    }

    fn keep(&mut self, width: usize) {
        for bit in self.at..self.at + width {
            self.bits.push(self.from[bit / 8] & (128 >> (bit % 8)) != 0);
        }
        self.at += width;
    }

    fn skip(&mut self, width: usize) {
        self.at += width;
    }

    fn add(&mut self, width: usize, value: usize) {
        for bit in (0..width).rev() {
            self.bits.push(value >> bit & 1 == 1);
        }
    }

    fn bytes(mut self) -> Vec<u8> {
        self.bits.resize(self.bits.len().next_multiple_of(8), false);
        let byte = |eight: &[bool]| eight.iter().fold(0, |byte, &bit| 2 * byte + u8::from(bit));
        self.bits.chunks(8).map(byte).collect()
    }
}

/// Of edition 1, the case has its header in bits 0 to 49, its durations in 50 to 65, then device 1
/// with 455 bits ahead of two intervals of two blocks, and device 2 with 361 ahead of two of one.
#[test]
fn the_worked_case_by_its_bits() {
    let (case, _) = two_set_day().messages();
    let mut bits = Bits::of(&case);
    bits.add(4, 1);
    bits.add(4, 5);
    bits.add(7, 2);
    bits.add(7, 2);
    bits.skip(4 + 4 + 5 + 6);
    bits.keep(3 + 14 + 14);
    bits.add(17, 0);
    bits.keep(2 * 8);
    for (ahead, blocks) in [(455, 2), (361, 1)] {
        bits.keep(ahead);
        bits.add(2, 0);
        bits.add(1, 0);
        for _ in 0..2 {
            bits.keep(2 + 17 + 17 + 3);
            for _ in 0..blocks {
                bits.keep(17);
                bits.add(17, 0);
                bits.keep(15);
            }
            bits.keep(8 * 14);
            bits.add(18 + 18 + 14 + 14, 0);
        }
    }
    assert_eq!((bits.at, bits.bits.len()), (1_678, 2_062));
    let expected = bits.bytes();
    assert_eq!(expected.len(), 258);
    assert_eq!(written_case(&case), expected);
}

/// Of edition 1, the plan has 19 bits ahead of four settings of 154.
#[test]
fn the_worked_plan_by_its_bits() {
    let (case, plan) = two_set_day().messages();
    let mut bits = Bits::of(&plan);
    bits.add(4, 2);
    bits.add(4, 5);
    bits.add(7, 2);
    bits.add(7, 2);
    bits.skip(4 + 4 + 5 + 6);
    for _ in 0..2 {
        for _ in 0..2 {
            bits.keep(1 + 9 * 17);
            bits.add(18 + 17 + 17, 0);
        }
        bits.add(18, 0);
    }
    assert_eq!((bits.at, bits.bits.len()), (635, 882));
    assert_eq!(written_plan(&case, &plan), bits.bytes());
}

/// Two lines on each set from edition 2 on; edition 1 has none, 66 bits less for each of 16 sets.
#[test]
fn largest_lengths() {
    for edition in Edition::ALL {
        let small = busiest_batch(edition, 1, 16, 48);
        let [case, plan] = batch::messages(&small)[..] else {
            panic!("a case and a plan");
        };
        let linked = if edition == Edition::One {
            43_611
        } else {
            43_743
        };
        assert_eq!(written_case(case).len(), linked, "{edition:?}");
        assert_eq!(written_plan(case, plan).len(), 19_887, "{edition:?}");
    }
    for edition in [Edition::Four, Edition::Five] {
        let large = busiest_batch(edition, 1, 64, 96);
        let [case, plan] = batch::messages(&large)[..] else {
            panic!("a case and a plan");
        };
        assert_eq!(written_case(case).len(), 328_113, "{edition:?}");
        assert_eq!(written_plan(case, plan).len(), 158_427, "{edition:?}");
    }
}

/// Cases of an edition, each with plans that pass reading: content and messages.
fn pairs(edition: Edition, seed: u64) -> impl Iterator<Item = (Case, Plan, Vec<u8>, Vec<u8>)> {
    (0..40).flat_map(move |index| {
        let mut rng = Rng::numbered(seed, index);
        let size = rng.pick(&[Size::Tiny, Size::Small, Size::Medium]);
        let sample = sample_in(&mut rng, edition, size);
        let case = encode_case(edition, &sample.case).bytes;
        let drawn: Vec<Vec<u8>> = (0..5)
            .map(|_| random_plan_message(&mut rng, &sample))
            .collect();
        let kept = drawn.into_iter().filter_map(move |message| {
            let plan = read_plan(edition, &sample.case, &message).ok()?;
            Some((sample.case.clone(), plan, case.clone(), message))
        });
        kept.collect::<Vec<_>>()
    })
}

/// "q, its limits and reserves 0, minima 0, prices 1 where 0 is out of range, floors 0, no links";
/// "the sets of older editions on bar 0, limit 0 and flow 0".
fn hold_neutral(edition: Edition, case: &Case, plan: &Plan) {
    if !edition.has_bars() {
        assert_eq!(case.link_limit, 0);
        assert!(case.devices.iter().all(|device| device.bar == 0));
        assert!(plan.flows.iter().all(|&flow| flow == 0));
    }
    let mut terms = case.devices.iter().flat_map(|device| &device.terms);
    if !edition.has_floors() {
        let mut blocks = terms.clone().flat_map(|terms| &terms.blocks);
        assert!(blocks.all(|block| block.floor == 0));
    }
    if !edition.has_reactive_power() {
        assert!(terms.all(|terms| {
            (terms.qmin, terms.qmax) == (0, 0)
                && terms.reactive_prices == ReactiveReserves::default()
        }));
        assert!(case.devices.iter().all(|device| device.link == Link::None));
        for zone in &case.zones {
            assert_eq!(zone.shortfall_prices[6..], [1, 1]);
            assert!(zone.minima.iter().all(|minima| minima[2..] == [0, 0]));
        }
        assert!(!plan.has_reactive_power());
    }
}

/// "The written message passes reading, holds the same figures field by field".
#[test]
fn what_is_written_reads_back() {
    for edition in Edition::ALL {
        let mut zones = 0;
        for (content, figures, case, plan) in pairs(edition, SEED) {
            let new_case = written_case(&case);
            let new_plan = written_plan(&case, &plan);
            let (newest, case) = read_case(&new_case).expect("it passes reading");
            let plan = read_plan(newest, &case, &new_plan).expect("it passes reading");
            assert_eq!(newest, Edition::Five);
            hold_neutral(edition, &case, &plan);
            zones += case.zones.len();
            assert_eq!((case, plan), (content, figures));
        }
        assert!(zones > 20, "{edition:?}");
    }
}

/// "Writing an edition 5 message gives its own bytes"; one of an older edition never does.
#[test]
fn the_newest_edition_is_its_own_bytes() {
    for edition in Edition::ALL {
        for (_, _, case, plan) in pairs(edition, SEED + 1) {
            let is_newest = edition == Edition::Five;
            assert_eq!(written_case(&case) == case, is_newest);
            assert_eq!(written_plan(&case, &plan) == plan, is_newest);
            let new_case = written_case(&case);
            assert_eq!(written_case(&new_case), new_case);
        }
    }
}

/// "hold equal content exactly when their written forms are the same bytes".
#[test]
fn content_and_bytes_go_together() {
    let day = two_set_day();
    let forms = Edition::ALL.map(|edition| {
        let case = encode_case(edition, &day.case).bytes;
        let plan = encode_plan(edition, &day.plan).bytes;
        (written_case(&case), written_plan(&case, &plan))
    });
    assert!(forms.iter().all(|form| *form == forms[0]));
    let mut changed = day.clone();
    changed.case.devices[1].terms[1].reserve_prices.rrd_off += 1;
    changed.plan.intervals[1][1].reserves.rrd_off += 1;
    let (case, plan) = changed.messages();
    assert_ne!(written_case(&case), forms[0].0);
    assert_ne!(written_plan(&case, &plan), forms[0].1);
    let mut linked = link_days().swap_remove(0).1;
    let (case, _) = linked.messages();
    linked.case.link_limit += 1;
    let (other, _) = linked.messages();
    assert_ne!(written_case(&case), written_case(&other));
}

/// "with result buffers long enough, the written pair's verdict is the old pair's, place included",
/// and so is every breach.
#[test]
fn written_pairs_are_judged_as_before() {
    let mut verdicts = [0, 0];
    for edition in Edition::ALL {
        for (_, _, case, plan) in pairs(edition, SEED + 2) {
            let (new_case, new_plan) = (written_case(&case), written_plan(&case, &plan));
            let mut room = vec![0; ROOM];
            let old = judge(&case, &plan, &mut room);
            assert_eq!(judge(&new_case, &new_plan, &mut room), old);
            verdicts[usize::from(matches!(old, Verdict::Accepted { .. }))] += 1;
            let mut list = vec![BEFORE; 4 * ROOM];
            let mut other = list.clone();
            let count = breaches(&case, &plan, &mut list);
            assert_eq!(breaches(&new_case, &new_plan, &mut other), count);
            assert_eq!(list, other);
        }
    }
    assert!(verdicts.iter().all(|&count| count > 150), "{verdicts:?}");
}

/// "It refuses what reading refuses, then 7": case, then plan, then the buffer; nothing is touched.
#[test]
fn refusals() {
    let (case, plan) = two_set_day().messages();
    let cut = |bit| Fault::new(Number::Cut, bit);
    let mut buffer = vec![BEFORE; 257];
    let case_refused = Err(Refusal::Case(cut(8)));
    assert_eq!(rewrite_case(&case[..1], &mut buffer), case_refused);
    assert_eq!(
        rewrite_plan(&case[..1], &plan[..1], &mut buffer),
        case_refused
    );
    let plan_refused = Err(Refusal::Plan(cut(8)));
    assert_eq!(rewrite_plan(&case, &plan[..1], &mut []), plan_refused);
    let too_short = |bytes_needed| Err(Refusal::BufferTooShort { bytes_needed });
    assert_eq!(rewrite_case(&case, &mut buffer), too_short(258));
    assert_eq!(rewrite_case(&case[..1], &mut []), case_refused);
    assert_eq!(
        rewrite_plan(&case, &plan, &mut buffer[..110]),
        too_short(111)
    );
    assert!(buffer.iter().all(|&byte| byte == BEFORE));
    assert_eq!(rewrite_plan(&case, &plan, &mut buffer[..111]), Ok(111));
    let mut buffer = vec![BEFORE; 258];
    assert_eq!(rewrite_case(&case, &mut buffer), Ok(258));
}

/// A day of many devices and intervals is written within the host form.
#[test]
fn large_days() {
    for index in 0..6 {
        let mut rng = Rng::numbered(SEED + 3, index);
        let sample = random_sample(&mut rng, Size::Beyond);
        let case = encode_case(sample.edition, &sample.case).bytes;
        let (edition, content) = read_case(&written_case(&case)).expect("it passes reading");
        assert_eq!((edition, content), (Edition::Five, sample.case));
    }
}
