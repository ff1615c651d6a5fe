//! The judgement's buffer and bytes, the splitter, and sizes, against figures taken by hand from
//! the paper.

use reference::batch::{join, run, split, Split};
use reference::case::read_case;
use reference::completion::completion_bits;
use reference::crc::crc32;
use reference::edition::Edition;
use reference::fault::{Fault, Number};
use reference::form::{Form, Largest};
use reference::generate::extreme::{very_high_surplus_day, very_low_surplus_day};
use reference::judge::{judge, Refusal, Verdict};
use reference::worked_day::{lettered_days, two_set_day};

/// A message from its fields as (width, value), values not negative.
fn message(fields: &[(usize, u64)]) -> Vec<u8> {
    let bits: String = fields
        .iter()
        .map(|&(width, value)| format!("{value:0width$b}"))
        .collect();
    bits.as_bytes()
        .chunks(8)
        .map(|chunk| {
            let byte = format!("{:0<8}", String::from_utf8_lossy(chunk));
            u8::from_str_radix(&byte, 2).expect("eight binary digits")
        })
        .collect()
}

/// The completion of day (a), field by field: 30 in the first block, then a start in state 2 with
/// 100 and 50; the load at 30, then 150; no mismatch; 167,860.
fn completion_of_day_a() -> Vec<u8> {
    let header = [(4, 3), (4, 1), (5, 2), (6, 2), (3, 0)];
    let interval_1 = [
        [(1, 0), (1, 0), (3, 0), (17, 30), (17, 0), (17, 0), (17, 0)],
        [(1, 0), (1, 0), (3, 0), (17, 30), (17, 0), (17, 0), (17, 0)],
    ];
    let interval_2 = [
        [
            (1, 1),
            (1, 0),
            (3, 2),
            (17, 100),
            (17, 50),
            (17, 0),
            (17, 0),
        ],
        [(1, 0), (1, 0), (3, 0), (17, 150), (17, 0), (17, 0), (17, 0)],
    ];
    let mut fields = header.to_vec();
    fields.extend(interval_1.concat());
    fields.push((23, 0));
    fields.extend(interval_2.concat());
    fields.push((23, 0));
    fields.push((64, 167_860));
    message(&fields)
}

#[test]
fn completion_of_the_worked_day_has_these_bytes() {
    let (case, plan) = two_set_day().messages();
    let mut buffer = [0; 53];
    assert_eq!(
        judge(&case, &plan, &mut buffer),
        Verdict::Accepted { surplus: 167_860 }
    );
    assert_eq!(buffer.to_vec(), completion_of_day_a());
}

/// Day (h), −1,452,140: shortfalls of 1,500 W and 7,500 W for rgu, scr and nsc; the surplus in
/// two's complement.
#[test]
fn completion_with_a_zone_has_these_bytes() {
    let days = lettered_days();
    let day_h = &days[7].1;
    let (case, plan) = day_h.messages();
    let mut buffer = [0; 200];
    let verdict = judge(&case, &plan, &mut buffer);
    assert_eq!(
        verdict,
        Verdict::Accepted {
            surplus: -1_452_140
        }
    );
    let device = |on: [u64; 3], blocks: [u64; 2]| {
        let [started, stopped, state] = on;
        [
            (1, started),
            (1, stopped),
            (3, state),
            (17, blocks[0]),
            (17, blocks[1]),
            (17, 0),
            (17, 0),
        ]
    };
    let shortfalls = |rgu: u64| [(33, rgu), (33, 0), (33, rgu), (33, rgu), (33, 0), (33, 0)];
    let mut fields = vec![(4, 3), (4, 1), (5, 2), (6, 2), (3, 1)];
    fields.extend(device([0, 0, 0], [30, 0]));
    fields.extend(device([0, 0, 0], [30, 0]));
    fields.extend(shortfalls(1_500));
    fields.push((23, 0));
    fields.extend(device([1, 0, 2], [100, 50]));
    fields.extend(device([0, 0, 0], [150, 0]));
    fields.extend(shortfalls(7_500));
    fields.push((23, 0));
    fields.push((64, u64::MAX - 1_452_140 + 1));
    let expected = message(&fields);
    assert_eq!(buffer[..expected.len()], expected);
    assert!(buffer[expected.len()..].iter().all(|&byte| byte == 0));
}

#[test]
fn number_7_only_when_too_short_and_nothing_written_then() {
    let (case, plan) = two_set_day().messages();
    for length in 0..53 {
        let mut buffer = vec![0xA5; length];
        assert_eq!(
            judge(&case, &plan, &mut buffer),
            Verdict::Refused(Refusal::BufferTooShort { bytes_needed: 53 })
        );
        assert_eq!(buffer, vec![0xA5; length]);
    }
}

#[test]
fn acceptance_leaves_the_rest_of_the_buffer() {
    let (case, plan) = two_set_day().messages();
    let mut buffer = vec![0xA5; 60];
    judge(&case, &plan, &mut buffer);
    assert_eq!(buffer[..53], completion_of_day_a());
    assert_eq!(buffer[53..], [0xA5; 7]);
}

#[test]
fn only_acceptance_writes_and_7_comes_last() {
    let (case, plan) = two_set_day().messages();
    let (_, broken) = lettered_days()[1].1.messages();
    let cut = Fault::new(Number::Cut, 8);
    let fill = Fault::new(Number::Fill, 1_680);
    let long_case = [&case[..], &[0]].concat();
    for length in [0, 200] {
        let mut buffer = vec![0xA5; length];
        assert!(matches!(
            judge(&case, &broken, &mut buffer),
            Verdict::Broken(_)
        ));
        assert_eq!(
            judge(&case, &plan[..1], &mut buffer),
            Verdict::Refused(Refusal::Plan(cut))
        );
        assert_eq!(
            judge(&case[..1], &plan[..1], &mut buffer),
            Verdict::Refused(Refusal::Case(cut))
        );
        assert_eq!(
            judge(&long_case, &plan[..1], &mut buffer),
            Verdict::Refused(Refusal::Case(fill))
        );
        assert_eq!(buffer, vec![0xA5; length]);
    }
}

fn refused(number: Number, bit: usize) -> Split<'static> {
    Split::Refused(Fault::new(number, bit))
}

#[test]
fn splitter_answers_in_its_sequence() {
    for form in [Form::BATCH, Form::HOST] {
        assert_eq!(split(form, &[], 0), Split::End);
        assert_eq!(split(form, &[0], 0), refused(Number::Cut, 0));
        assert_eq!(split(form, &[0, 0], 0), refused(Number::Cut, 0));
        let empty = Split::Message {
            message: &[],
            next: 3,
        };
        assert_eq!(split(form, &[0, 0, 0], 0), empty);
        assert_eq!(split(form, &[0, 0, 1], 0), refused(Number::Cut, 0));
        let longest = [255, 255, 255, 7];
        assert_eq!(split(form, &longest, 0), refused(Number::Range, 0));
        // The bit is the length's first, counted from the batch's first.
        let batch = [0, 0, 2, 21, 22, 0, 0, 9, 1];
        let two = Split::Message {
            message: &[21, 22],
            next: 5,
        };
        assert_eq!(split(form, &batch, 0), two);
        assert_eq!(split(form, &batch, 5), refused(Number::Cut, 40));
        assert_eq!(split(form, &batch, 9), Split::End);
        assert_eq!(split(form, &batch, 10), Split::End);
    }
}

/// A length above 65,536, in the host form above 1,048,576, is 4 before the message is found to be
/// cut; these lengths themselves are not.
#[test]
fn splitter_has_the_longest_message_of_its_form() {
    let lengths = [
        (Form::BATCH, 65_536, [[1, 0, 0], [1, 0, 1]]),
        (Form::HOST, 1_048_576, [[16, 0, 0], [16, 0, 1]]),
    ];
    for (form, bytes, [longest, longer]) in lengths {
        assert_eq!(split(form, &longest, 0), refused(Number::Cut, 0));
        assert_eq!(split(form, &longer, 0), refused(Number::Range, 0));
        let mut batch = longest.to_vec();
        batch.extend(vec![9; bytes]);
        let Split::Message { message, next } = split(form, &batch, 0) else {
            panic!("{bytes} bytes are a message");
        };
        assert_eq!((message.len(), next), (bytes, bytes + 3));
        let whole = [&longer[..], &batch].concat();
        assert_eq!(split(form, &whole, 0), refused(Number::Range, 0));
    }
    // 65,537 is a length that the host form takes.
    assert_eq!(split(Form::HOST, &[1, 0, 1], 0), refused(Number::Cut, 0));
}

#[test]
fn splitter_hands_back_the_callers_own_bytes() {
    let batch = [0, 0, 2, 21, 22];
    let Split::Message { message, .. } = split(Form::BATCH, &batch, 0) else {
        panic!("two bytes are a message");
    };
    assert!(std::ptr::eq(message, &batch[3..5]));
}

fn printed(batch: &[u8]) -> Vec<String> {
    run(Form::BATCH, batch)
        .iter()
        .map(|line| line.to_string())
        .collect()
}

#[test]
fn batch_program_ends_where_the_paper_ends_it() {
    let (case, plan) = two_set_day().messages();
    assert!(printed(&[]).is_empty());
    assert_eq!(printed(&[0, 0]), ["framing 1"]);
    assert_eq!(printed(&[2, 0, 0]), ["framing 4"]);
    assert_eq!(printed(&[0, 0, 0]), ["0 refused 1 0"]);
    assert_eq!(printed(&join(&[&case])), ["0 case 2 2 0"]);
    // A refused case ends the run; 17 devices are refused 3 at bit 8.
    let mut wrong = case.clone();
    wrong[1] = 17 << 3;
    assert_eq!(printed(&join(&[&wrong, &plan])), ["0 refused 3 8"]);
    // A refused plan does not.
    assert_eq!(
        printed(&join(&[&case[..], &[], &plan])),
        ["0 case 2 2 0", "1 refused 1 0", "2 accepted 167860"]
    );
    // A splitter refusal keeps the lines before it.
    let batch = [join(&[&case, &plan]), vec![0, 0, 4, 33]].concat();
    assert_eq!(
        printed(&batch),
        ["0 case 2 2 0", "1 accepted 167860", "framing 1"]
    );
}

/// From the widths: 29,812 bytes of case, 14,787 of plan, 12,165 of completion. Four states at each
/// of 16 devices took 47 bits more each, 94 bytes.
///
/// The very low surplus: shortfalls 100 × 17,280 min × 4 zones × 19.2·10^9 W, mismatch and blocks each
/// 10,000 × 17,280 × 1.6·10^6 kW, on cost 16 × 100,000 × 17,280, 16 starts of 10^9, and 64 overruns
/// of 4·10^9 at 10,000. The very high one: 16 devices × 100,000 kW × 10,000 × 17,280 min and 16 states.
#[test]
fn largest_messages_and_surpluses() {
    let low = very_low_surplus_day(Edition::One, Largest::SMALL);
    let (case, plan) = low.messages();
    assert_eq!((case.len(), plan.len()), (29_812, 14_787));
    let mut buffer = vec![0; 12_165];
    assert_eq!(
        judge(&case, &plan, &mut buffer),
        Verdict::Accepted {
            surplus: -135_823_403_648_000_000
        }
    );
    assert_eq!(completion_bits(Edition::One, &low.case).div_ceil(8), 12_165);
    assert_eq!(
        judge(&case, &plan, &mut buffer[..12_164]),
        Verdict::Refused(Refusal::BufferTooShort {
            bytes_needed: 12_165
        })
    );
    let (case, plan) = very_high_surplus_day(Edition::One, Largest::SMALL).messages();
    assert_eq!(
        judge(&case, &plan, &mut buffer),
        Verdict::Accepted {
            surplus: 276_496_000_000_000
        }
    );
}

#[test]
fn example_messages_have_these_sizes() {
    let (case, plan) = two_set_day().messages();
    assert_eq!((case.len(), plan.len()), (210, 80));
    assert_eq!(read_case(&case), Ok((Edition::One, two_set_day().case)));
}

/// The check value that CRC-32 is published with.
#[test]
fn crc_is_that_of_zlib() {
    assert_eq!(crc32(b"123456789"), 0xCBF4_3926);
    assert_eq!(crc32(b""), 0);
}
