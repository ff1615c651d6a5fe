//! The corpora through the static library, beside the reference: every verdict and every
//! completion's bytes, every list of breaches, every message in the newest edition, every market copy
//! and what both readers make of completions and copies, the rest of the buffers, and every split.

mod common;
#[path = "../examples/packed/lines.rs"]
mod lines;

use std::fs;

use common::{accepted, each_batch, each_case, each_pair, fault};
use host::explain::Breach;
use host::{
    breaches, inspect, judge, market, read_completion, read_market, split, write_case, write_plan,
    Copied, Fault, Framed, Inspected, Listed, Read, Verdict, Written, LONGEST_CASE,
    LONGEST_COMPLETION, LONGEST_COPY, LONGEST_LIST, LONGEST_PLAN, MOST_NUMBERS,
};
use reference::batch::{messages, split as expected_split, Split};
use reference::breaches::breaches as expected_list;
use reference::case::read_case;
use reference::completion::Audience;
use reference::crc::crc32;
use reference::encode::encode_case;
use reference::form::Form;
use reference::generate::prices::exchange_prices;
use reference::generate::readings::damaged_reading;
use reference::judge::{judge as expected, Refusal, Verdict as ExpectedVerdict};
use reference::market::{
    market_copy, read_completion as expected_desk, read_market as expected_market,
    Copied as ExpectedCopy, ReadingRefusal,
};
use reference::packed::{unpack, Extent};
use reference::rewrite::{rewrite_case, rewrite_plan};
use reference::rng::Rng;
use reference::rules::Place;

/// Longer than any completion, so that bytes behind it are seen to stay.
const ROOM: usize = LONGEST_COMPLETION + 3;
/// What a buffer holds before a call.
const BEFORE: u8 = 0xa5;

/// The reference's breach as the wrappers have it.
fn breach(place: Place) -> Breach {
    let figures = [
        u64::from(place.rule),
        place.interval as u64,
        place.device as u64,
        place.window as u64,
    ];
    Breach::of(figures).expect("a list can hold it")
}

/// The reference's verdict as the wrapper has it.
fn verdict(verdict: ExpectedVerdict) -> Verdict {
    match verdict {
        ExpectedVerdict::Accepted { surplus } => Verdict::Accepted {
            surplus: surplus as i64,
        },
        ExpectedVerdict::Broken(place) => Verdict::Broken(breach(place)),
        ExpectedVerdict::Refused(Refusal::Case(refused)) => Verdict::CaseRefused(fault(refused)),
        ExpectedVerdict::Refused(Refusal::Plan(refused)) => Verdict::PlanRefused(fault(refused)),
        ExpectedVerdict::Refused(Refusal::BufferTooShort { bytes_needed }) => Verdict::TooShort {
            bytes: bytes_needed,
        },
    }
}

/// The reference's answer to asking for a list, as the wrapper has it.
fn listed(listed: Result<usize, Refusal>) -> Listed {
    match listed {
        Ok(count) => Listed::Breaches { count },
        Err(Refusal::Case(refused)) => Listed::CaseRefused(fault(refused)),
        Err(Refusal::Plan(refused)) => Listed::PlanRefused(fault(refused)),
        Err(Refusal::BufferTooShort { bytes_needed }) => Listed::TooShort {
            bytes: bytes_needed,
        },
    }
}

/// The reference's answer to writing a message, as the wrappers have it.
fn written(written: Result<usize, Refusal>) -> Written {
    match written {
        Ok(bytes) => Written::Message { bytes },
        Err(Refusal::Case(refused)) => Written::CaseRefused(fault(refused)),
        Err(Refusal::Plan(refused)) => Written::PlanRefused(fault(refused)),
        Err(Refusal::BufferTooShort { bytes_needed }) => Written::TooShort {
            bytes: bytes_needed,
        },
    }
}

/// Both sides on one pair and one buffer's length: verdict and buffer alike.
fn agree(case: &[u8], plan: &[u8], room: usize) -> Verdict {
    let mut ours = vec![BEFORE; room];
    let mut theirs = ours.clone();
    let answer = judge(case, plan, &mut ours);
    assert_eq!(answer, verdict(expected(case, plan, &mut theirs)));
    assert_eq!(ours, theirs);
    answer
}

#[test]
fn corpus_agrees_in_every_verdict_and_byte() {
    let (mut pairs, mut accepted, mut short) = (0u32, 0u32, 0u32);
    each_case(|case, plans| {
        match (inspect(case), read_case(case)) {
            (Inspected::Counts { devices, .. }, Ok((_, read))) => {
                assert_eq!(devices, read.devices.len());
            }
            (answer, Err(refused)) => assert_eq!(answer, Inspected::CaseRefused(fault(refused))),
            (answer, Ok(_)) => panic!("{answer:?}"),
        }
        for plan in plans {
            let answer = agree(case, plan, ROOM);
            pairs += 1;
            if let Verdict::Accepted { .. } = answer {
                accepted += 1;
                // One byte too few is refused with the bytes needed, and nothing is written.
                let short_of = agree(case, plan, 0);
                let Verdict::TooShort { bytes } = short_of else {
                    panic!("{short_of:?}");
                };
                assert_eq!(agree(case, plan, bytes - 1), short_of);
                assert_eq!(agree(case, plan, bytes), answer);
                short += 1;
            }
        }
    });
    println!("{pairs} pairs, {accepted} accepted, {short} tried with short buffers");
    assert!(accepted > 500 && pairs > 2_000);
}

/// Both sides on one pair and one list's length: answer and list alike, and the list's bytes.
fn agree_in_list(case: &[u8], plan: &[u8], room: usize) -> (Listed, Vec<u8>) {
    let mut ours = vec![BEFORE; room];
    let mut theirs = ours.clone();
    let answer = breaches(case, plan, &mut ours);
    assert_eq!(answer, listed(expected_list(case, plan, &mut theirs)));
    assert_eq!(ours, theirs);
    (answer, ours)
}

/// A list that has breaches: its first is the one that judging names, it just fits in its bytes,
/// and one byte fewer is refused with the bytes needed.
fn try_around_length(case: &[u8], plan: &[u8], list: &[u8]) {
    let first = Breach::from([0, 1, 2, 3].map(|k| list[k]));
    assert_eq!(judge(case, plan, &mut []), Verdict::Broken(first));
    let (bytes, count) = (list.len(), list.len() / 4);
    let (fitting, exact) = agree_in_list(case, plan, bytes);
    assert_eq!(fitting, Listed::Breaches { count });
    assert_eq!(exact, list);
    let (short, untouched) = agree_in_list(case, plan, bytes - 1);
    assert_eq!(short, Listed::TooShort { bytes });
    assert!(untouched.iter().all(|&byte| byte == BEFORE));
}

#[test]
fn corpus_agrees_in_every_list() {
    let (mut none, mut listed, mut refused, mut longest) = (0u32, 0u32, 0u32, 0);
    each_pair(|case, plan| {
        let (answer, list) = agree_in_list(case, plan, LONGEST_LIST);
        let verdict = judge(case, plan, &mut vec![0; ROOM]);
        match answer {
            Listed::Breaches { count: 0 } => {
                // An empty list fits where there is no room at all.
                assert_eq!(agree_in_list(case, plan, 0).0, answer);
                assert!(matches!(verdict, Verdict::Accepted { .. }), "{verdict:?}");
                none += 1;
            }
            Listed::Breaches { count } => {
                let length = 4 * count;
                try_around_length(case, plan, &list[..length]);
                longest = longest.max(length);
                listed += 1;
            }
            Listed::CaseRefused(fault) => {
                assert_eq!(verdict, Verdict::CaseRefused(fault));
                refused += 1;
            }
            Listed::PlanRefused(fault) => {
                assert_eq!(verdict, Verdict::PlanRefused(fault));
                refused += 1;
            }
            other => panic!("{other:?}"),
        }
    });
    println!("{none} without a breach, {listed} with, {refused} refused; longest {longest} bytes");
    assert!(none > 500 && listed > 1_000 && refused > 500);
    assert!(longest > 500_000 && longest <= LONGEST_LIST);
}

/// What both sides answer on one message and one buffer's length: answer and buffer alike.
fn agree_in_writing(
    room: usize,
    ours: impl Fn(&mut [u8]) -> Written,
    theirs: impl Fn(&mut [u8]) -> Result<usize, Refusal>,
) -> (Written, Vec<u8>) {
    let mut buffer = vec![BEFORE; room];
    let mut other = buffer.clone();
    let answer = ours(&mut buffer);
    assert_eq!(answer, written(theirs(&mut other)));
    assert_eq!(buffer, other);
    (answer, buffer)
}

/// A message in the newest edition, where it passes reading: with room to spare, with just enough
/// and with a byte too few.
fn agree_around_length(
    longest: usize,
    ours: impl Fn(&mut [u8]) -> Written,
    theirs: impl Fn(&mut [u8]) -> Result<usize, Refusal>,
) -> Option<Vec<u8>> {
    let (answer, mut message) = agree_in_writing(longest + 3, &ours, &theirs);
    let Written::Message { bytes } = answer else {
        return None;
    };
    message.truncate(bytes);
    let (_, exact) = agree_in_writing(bytes, &ours, &theirs);
    assert_eq!(exact, message);
    let (short, untouched) = agree_in_writing(bytes - 1, &ours, &theirs);
    assert_eq!(short, Written::TooShort { bytes });
    assert!(untouched.iter().all(|&byte| byte == BEFORE));
    Some(message)
}

/// Every message in the newest edition, and every written pair judged as the pair it came from.
#[test]
fn corpus_agrees_in_every_message_written() {
    let (mut cases, mut plans, mut own) = (0, 0, 0);
    each_case(|case, stack| {
        let ours = |buffer: &mut [u8]| write_case(case, buffer);
        let theirs = |buffer: &mut [u8]| rewrite_case(case, buffer);
        let new_case = agree_around_length(LONGEST_CASE, ours, theirs);
        cases += usize::from(new_case.is_some());
        for plan in stack {
            let ours = |buffer: &mut [u8]| write_plan(case, plan, buffer);
            let theirs = |buffer: &mut [u8]| rewrite_plan(case, plan, buffer);
            let new_plan = agree_around_length(LONGEST_PLAN, ours, theirs);
            let (Some(new_case), Some(new_plan)) = (&new_case, new_plan) else {
                continue;
            };
            plans += 1;
            let mut room = vec![0; ROOM];
            let judged = judge(case, plan, &mut room);
            assert_eq!(judge(new_case, &new_plan, &mut room), judged);
            if case[0] & 15 == 5 {
                assert_eq!((&new_case[..], &new_plan[..]), (case, &plan[..]));
                own += 1;
            }
        }
    });
    println!("{cases} cases and {plans} plans written, {own} pairs as they stood");
    assert!(cases > 700 && plans > 3_000 && own > 500);
}

/// The reference's answer to asking for a copy, as the wrapper has it.
fn copied(copied: ExpectedCopy) -> Copied {
    match copied {
        ExpectedCopy::Written { bytes } => Copied::Written { bytes },
        ExpectedCopy::Broken(place) => Copied::Broken(breach(place)),
        ExpectedCopy::Refused(Refusal::Case(refused)) => Copied::CaseRefused(fault(refused)),
        ExpectedCopy::Refused(Refusal::Plan(refused)) => Copied::PlanRefused(fault(refused)),
        ExpectedCopy::Refused(Refusal::BufferTooShort { bytes_needed }) => Copied::TooShort {
            bytes: bytes_needed,
        },
    }
}

/// Both sides on one pair and one buffer's length: answer and buffer alike.
fn agree_in_copy(case: &[u8], plan: &[u8], room: usize) -> (Copied, Vec<u8>) {
    let mut ours = vec![BEFORE; room];
    let mut theirs = ours.clone();
    let answer = market(case, plan, &mut ours);
    assert_eq!(answer, copied(market_copy(case, plan, &mut theirs)));
    assert_eq!(ours, theirs);
    (answer, ours)
}

/// A plan's copy, where it is accepted: with room to spare, with just enough and with a byte too few.
fn copy_around_length(case: &[u8], plan: &[u8]) -> Option<Vec<u8>> {
    let (answer, mut copy) = agree_in_copy(case, plan, LONGEST_COPY + 3);
    let Copied::Written { bytes } = answer else {
        // A broken or refused plan is so whatever the buffer's length.
        assert_eq!(agree_in_copy(case, plan, 0).0, answer);
        return None;
    };
    copy.truncate(bytes);
    assert_eq!(agree_in_copy(case, plan, bytes), (answer, copy.clone()));
    let (short, untouched) = agree_in_copy(case, plan, bytes - 1);
    assert_eq!(short, Copied::TooShort { bytes });
    assert!(untouched.iter().all(|&byte| byte == BEFORE));
    Some(copy)
}

/// The case with every price and cost drawn anew.
fn at_other_prices(rng: &mut Rng, case: &[u8]) -> Option<Vec<u8>> {
    let (edition, mut case) = read_case(case).ok()?;
    exchange_prices(rng, edition, &mut case);
    Some(encode_case(edition, &case).bytes)
}

/// Every copy, and the same copy, answer and buffer at other prices and costs.
#[test]
fn corpus_agrees_in_every_copy() {
    let (mut pairs, mut copies, mut other_surplus) = (0u64, 0, 0);
    each_case(|case, plans| {
        let exchanged = at_other_prices(&mut Rng::numbered(1, pairs), case);
        for plan in plans {
            pairs += 1;
            let copy = copy_around_length(case, plan);
            copies += usize::from(copy.is_some());
            let Some(exchanged) = &exchanged else {
                continue;
            };
            let length = copy.map_or(0, |copy| copy.len());
            for room in [LONGEST_COPY, length, length.saturating_sub(1)] {
                let mut one = vec![BEFORE; room];
                let mut other = one.clone();
                let answer = market(case, plan, &mut one);
                assert_eq!(market(exchanged, plan, &mut other), answer);
                assert_eq!(one, other);
            }
            let surplus = [case, exchanged].map(|case| judge(case, plan, &mut vec![0; ROOM]));
            other_surplus += usize::from(surplus[0] != surplus[1]);
        }
    });
    println!("{pairs} pairs, {copies} copies; {other_surplus} of another surplus at other prices");
    assert!(pairs > 2_000 && copies > 500 && other_surplus > 400);
}

/// A reader of the plan unit beside the reference's.
type Readers = (
    fn(&[u8], &[u8], &mut [u64]) -> Read,
    fn(&[u8], &[u8], &mut [u64]) -> Result<usize, ReadingRefusal>,
);
const READERS: [Readers; 2] = [
    (read_completion, expected_desk),
    (read_market, expected_market),
];

/// Both sides on one message and one table's length: answer and table alike.
fn agree_in_reading((ours, theirs): Readers, case: &[u8], message: &[u8], room: usize) -> Read {
    let mut table = vec![u64::from(BEFORE); room];
    let mut other = table.clone();
    let answer = ours(case, message, &mut table);
    let expected = match theirs(case, message, &mut other) {
        Ok(numbers) => Read::Figures { numbers },
        Err(ReadingRefusal::Case(refused)) => Read::CaseRefused(fault(refused)),
        Err(ReadingRefusal::Message(refused)) => Read::MessageRefused(fault(refused)),
        Err(ReadingRefusal::TableTooShort { bytes_needed }) => Read::TooShort {
            bytes: bytes_needed,
        },
    };
    assert_eq!(answer, expected);
    assert_eq!(table, other);
    answer
}

/// Every completion and copy by both readers, whole and damaged, with tables that just hold the
/// numbers and that lack one.
#[test]
fn corpus_agrees_in_every_reading() {
    let (mut read, mut refused) = (0u64, [0; 8]);
    each_pair(|case, plan| {
        let Copied::TooShort { bytes } = market(case, plan, &mut []) else {
            return;
        };
        let (edition, content) = read_case(case).expect("it passes reading");
        let mut copy = vec![0; bytes];
        assert_eq!(market(case, plan, &mut copy), Copied::Written { bytes });
        let (_, completion) = accepted(case, plan).expect("an accepted plan has a copy");
        let messages = [completion, copy];
        for (index, readers) in READERS.into_iter().enumerate() {
            let (own, other) = (&messages[index], &messages[1 - index]);
            let answer = agree_in_reading(readers, case, own, MOST_NUMBERS);
            let Read::Figures { numbers } = answer else {
                panic!("{answer:?}");
            };
            assert_eq!(agree_in_reading(readers, case, own, numbers), answer);
            let bytes = 8 * numbers;
            let short = agree_in_reading(readers, case, own, numbers - 1);
            assert_eq!(short, Read::TooShort { bytes });
            let kind = Read::MessageRefused(Fault { number: 2, bit: 0 });
            assert_eq!(agree_in_reading(readers, case, other, MOST_NUMBERS), kind);
            // No price of the case is looked at.
            let mut rng = Rng::numbered(3, read);
            let exchanged = at_other_prices(&mut rng, case).expect("it passes reading");
            assert_eq!(agree_in_reading(readers, &exchanged, own, numbers), answer);
            let case_refused = agree_in_reading(readers, &case[..1], own, MOST_NUMBERS);
            assert!(matches!(case_refused, Read::CaseRefused(_)));
            read += 1;
            let mut rng = Rng::numbered(2, read);
            let audience = Audience::ALL[index];
            let damaged = damaged_reading(&mut rng, audience, edition, &content, own);
            match agree_in_reading(readers, case, &damaged, MOST_NUMBERS) {
                Read::MessageRefused(fault) => refused[fault.number as usize] += 1,
                other => assert!(matches!(other, Read::Figures { .. })),
            }
        }
    });
    println!("{read} messages read; damaged ones refused by number {refused:?}");
    assert!(read > 1_000);
    assert!([1, 2, 3, 6].iter().all(|&number| refused[number] > 50));
    assert_eq!([refused[4], refused[5], refused[7]], [0; 3]);
}

/// Beginnings of the messages of small days: all are refused by 1.
#[test]
fn beginnings_are_refused_by_1() {
    let mut messages = 0;
    each_pair(|case, plan| {
        let Copied::TooShort { bytes } = market(case, plan, &mut []) else {
            return;
        };
        if bytes > 60 || messages > 200 {
            return;
        }
        let mut copy = vec![0; bytes];
        market(case, plan, &mut copy);
        let (_, completion) = accepted(case, plan).expect("an accepted plan has a copy");
        for (readers, message) in READERS.into_iter().zip([completion, copy]) {
            for length in 0..message.len() {
                let beginning = &message[..length];
                let answer = agree_in_reading(readers, case, beginning, 0);
                let Read::MessageRefused(Fault { number: 1, bit }) = answer else {
                    panic!("{answer:?}");
                };
                assert!(bit <= 8 * length as u64);
            }
            messages += 1;
        }
    });
    assert!(messages > 100);
}

/// The larger days as the output beside them has them, line for line.
#[test]
fn larger_days_agree_in_every_line() {
    let path = concat!(env!("CARGO_MANIFEST_DIR"), "/corpus");
    let [stream, expected] = ["stdin", "stdout"]
        .map(|name| fs::read(format!("{path}/{name}")).expect("it is committed"));
    let batches = unpack(&stream).expect("a packed stream");
    let output: String = (0..)
        .zip(batches)
        .map(|(number, batch)| lines::of_batch(Extent::Corpus, number, batch))
        .collect();
    let expected = String::from_utf8(expected).expect("text");
    for (line, expected) in output.lines().zip(expected.lines()) {
        assert_eq!(line, expected);
    }
    assert_eq!(output.len(), expected.len());
}

/// `N CRC` of the numbers that a reader gives of a message.
fn reading(reader: fn(&[u8], &[u8], &mut [u64]) -> Read, case: &[u8], message: &[u8]) -> String {
    let mut table = vec![0; MOST_NUMBERS];
    let Read::Figures { numbers } = reader(case, message, &mut table) else {
        panic!("our own message is read");
    };
    let bytes = table[..numbers].iter().flat_map(|n| n.to_be_bytes());
    format!("{numbers} {}", crc32(&bytes.collect::<Vec<u8>>()))
}

/// The line of a plan in a file of copies, where it is accepted.
fn copy_line(batch: usize, index: usize, case: &[u8], plan: &[u8]) -> Option<String> {
    let mut copy = vec![0; LONGEST_COPY];
    let Copied::Written { bytes } = market(case, plan, &mut copy) else {
        return None;
    };
    copy.truncate(bytes);
    let (_, completion) = accepted(case, plan).expect("an accepted plan has a copy");
    let crc = crc32(&copy);
    let desk = reading(read_completion, case, &completion);
    let market = reading(read_market, case, &copy);
    let line = format!("copy {bytes} {crc}; desk {desk}; market {market}");
    Some(format!("batch {batch} plan {index}: {line}"))
}

/// Every copy, and both readers on what our calls wrote, as the files beside the corpus have them.
#[test]
fn copies_agree_in_every_line() {
    for (name, corpus) in ["batch-copies", "copies"].into_iter().zip(common::CORPORA) {
        let path = format!("{}/corpus/{name}", env!("CARGO_MANIFEST_DIR"));
        let expected = fs::read_to_string(path).expect("it is committed");
        let stream = fs::read(corpus).expect("the corpus is committed");
        let batches = unpack(&stream).expect("a packed stream");
        let mut lines = Vec::new();
        for (number, batch) in batches.into_iter().enumerate() {
            if let Some((case, plans)) = messages(batch).split_first() {
                let of_plan = |(index, plan): (usize, &&[u8])| copy_line(number, index, case, plan);
                lines.extend((1..).zip(plans).filter_map(of_plan));
            }
        }
        for (line, expected) in lines.iter().zip(expected.lines()) {
            assert_eq!(line, expected);
        }
        assert_eq!(lines.len(), expected.lines().count());
    }
}

/// Both splitters at one place of a batch: one answer, and the place behind a message.
fn agree_in_split(batch: &[u8], at: usize) -> Option<usize> {
    let (expected, behind) = match expected_split(Form::HOST, batch, at) {
        Split::End => (Framed::End, None),
        Split::Message { message, next } => {
            let from = next - message.len();
            (Framed::Message { from, until: next }, Some(next))
        }
        Split::Refused(refused) => (Framed::Refused(fault(refused)), None),
    };
    assert_eq!(split(batch, at as u64), expected);
    behind
}

#[test]
fn corpus_agrees_in_every_split() {
    let (mut batches, mut split) = (0, 0);
    each_batch(|batch| {
        let mut at = 0;
        while let Some(behind) = agree_in_split(batch, at) {
            at = behind;
            split += 1;
        }
        batches += 1;
    });
    println!("{batches} batches, {split} messages");
    assert!(batches > 1_500 && split > 5_000);
}
