//! A batch of plans by one call, through the static library: every number of the table and every
//! byte of the results, over both corpora beside judging each plan alone, and by hand; refusals and
//! their sequence, buffers that are too short, and batches that are cut.

mod common;

use common::{accepted, each_case};
use host::messages::{completion_length, read_case};
use host::{
    inspect, judge, judge_batch, messages, Batched, Fault, Inspected, Turn, Verdict, BATCH_NUMBERS,
    LONGEST_COMPLETION, LONGEST_MESSAGE,
};
use reference::batch::join;
use reference::form::Form;
use reference::worked_day::lettered_days;

extern "C" {
    fn kadunfo_judge(
        case: *const u8,
        case_length: usize,
        plan: *const u8,
        plan_length: usize,
        result: *mut u8,
        result_length: usize,
        figures: *mut u64,
        figures_length: usize,
    ) -> u64;
    fn kadunfo_judge_batch(
        case: *const u8,
        case_length: usize,
        plans: *const u8,
        plans_length: usize,
        results: *mut u8,
        results_length: usize,
        table: *mut u64,
        table_length: usize,
        figures: *mut u64,
        figures_length: usize,
    ) -> u64;
}

const FIGURES: usize = 4;
/// What buffers hold before a call.
const BEFORE: u8 = 0xa5;
const NUMBER_BEFORE: u64 = u64::from_ne_bytes([BEFORE; 8]);
/// Places beyond those that a call needs.
const BEHIND: usize = 3;

/// How many places are lent.
#[derive(Clone, Copy)]
struct Room {
    results: usize,
    table: usize,
    figures: usize,
}

impl Room {
    /// For so many plans, with so many bytes of results.
    fn of(plans: usize, results: usize) -> Room {
        Room {
            results,
            table: BATCH_NUMBERS * plans + BEHIND,
            figures: FIGURES,
        }
    }
}

/// A word, and the buffers behind it.
#[derive(Clone, PartialEq, Debug)]
struct Left {
    word: u64,
    figures: Vec<u64>,
    table: Vec<u64>,
    results: Vec<u8>,
}

impl Left {
    fn untouched(word: u64, room: Room) -> Left {
        Left {
            word,
            figures: vec![NUMBER_BEFORE; room.figures],
            table: vec![NUMBER_BEFORE; room.table],
            results: vec![BEFORE; room.results],
        }
    }

    /// With these figures, and nothing else written.
    fn told(word: u64, figures: [u64; FIGURES], room: Room) -> Left {
        let mut left = Left::untouched(word, room);
        left.figures[..FIGURES].copy_from_slice(&figures);
        left
    }

    fn refused(word: u64, fault: Fault, room: Room) -> Left {
        Left::told(word, [fault.number, fault.bit, 0, 0], room)
    }

    /// Judged: these numbers and these completions at the front of the buffers.
    fn judged(numbers: &[[u64; BATCH_NUMBERS]], completions: &[u8], room: Room) -> Left {
        let counts = [numbers.len(), completions.len(), 0, 0].map(|count| count as u64);
        let mut left = Left::told(0, counts, room);
        let numbers = numbers.as_flattened();
        left.table[..numbers.len()].copy_from_slice(numbers);
        left.results[..completions.len()].copy_from_slice(completions);
        left
    }
}

/// What the exported function leaves of buffers that it is lent.
fn batched(case: &[u8], plans: &[u8], room: Room) -> Left {
    let mut left = Left::untouched(0, room);
    // SAFETY: each pointer comes with the length of its slice, and the slices do not overlap.
    left.word = unsafe {
        kadunfo_judge_batch(
            case.as_ptr(),
            case.len(),
            plans.as_ptr(),
            plans.len(),
            left.results.as_mut_ptr(),
            left.results.len(),
            left.table.as_mut_ptr(),
            left.table.len(),
            left.figures.as_mut_ptr(),
            left.figures.len(),
        )
    };
    left
}

/// The word and the figures of one plan.
fn judged(case: &[u8], plan: &[u8], result: &mut [u8]) -> (u64, [u64; FIGURES]) {
    let mut figures = [NUMBER_BEFORE; FIGURES];
    // SAFETY: as above.
    let word = unsafe {
        kadunfo_judge(
            case.as_ptr(),
            case.len(),
            plan.as_ptr(),
            plan.len(),
            result.as_mut_ptr(),
            result.len(),
            figures.as_mut_ptr(),
            figures.len(),
        )
    };
    (word, figures)
}

/// The bytes of a plan's completion; 0 where it has none.
fn needed(case: &[u8], plan: &[u8]) -> usize {
    match judged(case, plan, &mut []) {
        (4, [7, bytes, 0, 0]) => bytes as usize,
        _ => 0,
    }
}

/// What is asked of a batch whose case passes reading: each plan judged alone with what is left.
fn alone(case: &[u8], plans: &[&[u8]], room: Room) -> Left {
    let mut results = vec![BEFORE; room.results];
    let (mut numbers, mut used) = (Vec::new(), 0);
    for plan in plans {
        let (word, [a, b, c, d]) = judged(case, plan, &mut results[used..]);
        let bytes = if word == 0 { needed(case, plan) } else { 0 };
        numbers.push([word, a, b, c, d, bytes as u64]);
        used += bytes;
    }
    let left = Left::judged(&numbers, &results[..used], room);
    assert!(left.results == results, "judging writes a completion alone");
    left
}

/// Room for all completions and more, with a byte too few, with half and with none.
#[test]
fn corpus_agrees_in_every_number_and_byte() {
    let (mut cases, mut refused, mut words) = (0, 0, [0; 5]);
    each_case(|case, plans| {
        cases += 1;
        let batch = join(plans);
        let all: usize = plans.iter().map(|plan| needed(case, plan)).sum();
        for results in [all + BEHIND, all.saturating_sub(1), all / 2, 0] {
            let room = Room::of(plans.len(), results);
            let left = batched(case, &batch, room);
            if let Inspected::CaseRefused(fault) = inspect(case) {
                assert!(left == Left::refused(2, fault, room), "case {cases}");
                refused += 1;
                continue;
            }
            assert!(left == alone(case, plans, room), "case {cases}");
            let (numbers, _) = left.table.as_chunks::<BATCH_NUMBERS>();
            for [word, ..] in &numbers[..plans.len()] {
                words[*word as usize] += 1;
            }
        }
    });
    println!("{cases} cases, {refused} times refused; plans by word {words:?}");
    assert!(cases > 1_500 && refused > 500);
    assert!([0, 1, 3, 4].iter().all(|&word| words[word] > 1_000));
    assert_eq!(words[2], 0);
}

/// Each turn beside the wrapper of judging; completions of this length stand one behind another, and
/// the bytes behind them stay. How many there are.
fn hold_turns(
    case: &[u8],
    plans: &[&[u8]],
    turns: &[Turn],
    length: usize,
    results: &[u8],
) -> usize {
    assert_eq!(turns.len(), plans.len());
    let mut end = 0;
    for (turn, plan) in turns.iter().zip(plans) {
        let mut alone = vec![BEFORE; LONGEST_COMPLETION];
        assert_eq!(judge(case, plan, &mut alone), turn.verdict);
        let is_accepted = matches!(turn.verdict, Verdict::Accepted { .. });
        let own = if is_accepted { length } else { 0 };
        assert_eq!(turn.completion, end..end + own);
        assert!(results[turn.completion.clone()] == alone[..own]);
        end += own;
    }
    assert!(results[end..].iter().all(|&byte| byte == BEFORE));
    end / length
}

/// The wrapper, in room for as many completions of the case's length as there are plans.
#[test]
fn corpus_agrees_in_every_verdict() {
    let (mut refused, mut judged, mut completions) = (0, 0, 0);
    each_case(|case, plans| {
        let batch = join(plans);
        if let Inspected::CaseRefused(fault) = inspect(case) {
            let answer = judge_batch(case, &batch, &mut []);
            assert_eq!(answer, Batched::CaseRefused(fault));
            refused += 1;
            return;
        }
        let length = completion_length(&read_case(case).expect("it passes reading"));
        let mut results = vec![BEFORE; length * plans.len()];
        let answer = judge_batch(case, &batch, &mut results);
        let Batched::Judged(turns) = answer else {
            panic!("{answer:?}");
        };
        judged += plans.len();
        completions += hold_turns(case, plans, &turns, length, &results);
    });
    println!("{refused} cases refused; {judged} plans judged, {completions} accepted");
    assert!(refused > 500 && judged > 3_000 && completions > 500);
}

/// The two-set day: plan (a), accepted with 167,860 and a completion of 53 bytes; plan (b), which
/// breaks rule 5 for device 1 in interval 2; and a plan of one byte.
struct Day {
    case: Vec<u8>,
    a: Vec<u8>,
    b: Vec<u8>,
    completion: Vec<u8>,
}

const ACCEPTED: [u64; BATCH_NUMBERS] = [0, 167_860, 0, 0, 0, 53];
const BROKEN: [u64; BATCH_NUMBERS] = [1, 5, 2, 1, 0, 0];
const CUT: [u64; BATCH_NUMBERS] = [3, 1, 8, 0, 0, 0];
/// Plan (a) with too little room.
const UNFIT: [u64; BATCH_NUMBERS] = [4, 7, 53, 0, 0, 0];

impl Day {
    fn new() -> Day {
        let days = lettered_days();
        let (case, a) = days[0].1.messages();
        let (_, b) = days[1].1.messages();
        let (_, completion) = accepted(&case, &a).expect("day (a) is accepted");
        assert_eq!((a.len(), b.len(), completion.len()), (80, 80, 53));
        Day {
            case,
            a,
            b,
            completion,
        }
    }

    fn cut(&self) -> &[u8] {
        &self.a[..1]
    }
}

#[test]
fn accepted_broken_and_refused_plans_are_mixed() {
    let day = Day::new();
    let plans = join(&[&day.b, &day.a[..], day.cut(), &day.a, &day.b]);
    let completions = day.completion.repeat(2);
    for results in [106, 106 + BEHIND] {
        let room = Room::of(5, results);
        let numbers = [BROKEN, ACCEPTED, CUT, ACCEPTED, BROKEN];
        let expected = Left::judged(&numbers, &completions, room);
        assert_eq!(batched(&day.case, &plans, room), expected);
    }
}

/// The completions of one case are as long as one another: behind the first that does not fit, what
/// fits is what needs no room.
#[test]
fn a_completion_that_does_not_fit_takes_no_room() {
    let day = Day::new();
    let plans = join(&[&day.a[..], &day.a, &day.b, day.cut(), &day.a]);
    for results in [53, 105] {
        let room = Room::of(5, results);
        let numbers = [ACCEPTED, UNFIT, BROKEN, CUT, UNFIT];
        let expected = Left::judged(&numbers, &day.completion, room);
        assert_eq!(batched(&day.case, &plans, room), expected);
    }
    for results in [0, 52] {
        let room = Room::of(5, results);
        let numbers = [UNFIT, UNFIT, BROKEN, CUT, UNFIT];
        let expected = Left::judged(&numbers, &[], room);
        assert_eq!(batched(&day.case, &plans, room), expected);
    }
}

/// Eight bytes for each of six numbers a plan.
#[test]
fn a_table_that_is_too_short_is_refused_with_its_bytes() {
    let day = Day::new();
    for (count, bytes) in [(1, 48), (2, 96), (3, 144)] {
        let plans = join(&vec![&day.a; count]);
        let whole = Room::of(count, 200);
        for table in [0, 1, 6 * count - 1] {
            let room = Room { table, ..whole };
            let expected = Left::told(4, [7, bytes, 0, 0], room);
            assert_eq!(batched(&day.case, &plans, room), expected);
        }
        let table = 6 * count;
        let room = Room { table, ..whole };
        assert_eq!(batched(&day.case, &plans, room).word, 0);
    }
}

/// With fewer than four places nothing is done, whatever else is wrong; with more the rest stay.
#[test]
fn figures_have_four_places() {
    let day = Day::new();
    let plans = join(&[&day.a]);
    for figures in 0..FIGURES {
        for (case, plans) in [(&day.case[..], &plans[..]), (&[], &[0])] {
            let whole = Room::of(1, 53);
            for table in [0, whole.table] {
                let room = Room {
                    figures,
                    table,
                    ..whole
                };
                assert_eq!(batched(case, plans, room), Left::untouched(5, room));
            }
        }
    }
    let room = Room {
        figures: FIGURES + BEHIND,
        ..Room::of(1, 53)
    };
    let expected = Left::judged(&[ACCEPTED], &day.completion, room);
    assert_eq!(batched(&day.case, &plans, room), expected);
}

/// The case, then the batch, then the table, with results that are too short besides.
#[test]
fn refusals_have_their_sequence() {
    let day = Day::new();
    let (whole, cut) = (join(&[&day.a]), [&join(&[&day.a])[..], &[0]].concat());
    let short = Room {
        table: 5,
        ..Room::of(1, 0)
    };
    let of_case = Fault { number: 1, bit: 8 };
    for plans in [&cut[..], &whole, &[]] {
        let expected = Left::refused(2, of_case, short);
        assert_eq!(batched(&day.case[..1], plans, short), expected);
    }
    let of_batch = Fault {
        number: 1,
        bit: 664,
    };
    let expected = Left::refused(3, of_batch, short);
    assert_eq!(batched(&day.case, &cut, short), expected);
    let expected = Left::told(4, [7, 48, 0, 0], short);
    assert_eq!(batched(&day.case, &whole, short), expected);
}

/// Every beginning of a batch: where the splitter finds its end it is judged, elsewhere refused.
#[test]
fn a_batch_that_is_cut_is_refused_as_the_splitter_refuses_it() {
    let day = Day::new();
    let plans = join(&[&day.a[..], &day.b, &[], &day.a]);
    let mut whole = Vec::new();
    for length in 0..=plans.len() {
        let beginning = &plans[..length];
        let room = Room::of(4, 106);
        let expected = match messages(beginning).collect::<Result<Vec<&[u8]>, Fault>>() {
            Ok(found) => {
                whole.push(length);
                alone(&day.case, &found, room)
            }
            Err(fault) => Left::refused(3, fault, room),
        };
        assert_eq!(batched(&day.case, beginning, room), expected);
    }
    assert_eq!(whole, [0, 83, 166, 169, 252]);
    let room = Room::of(4, 106);
    // Inside the second length, and inside its message.
    for length in [84, 85, 86, 165] {
        let fault = Fault {
            number: 1,
            bit: 664,
        };
        let expected = Left::refused(3, fault, room);
        assert_eq!(batched(&day.case, &plans[..length], room), expected);
    }
}

#[test]
fn an_empty_batch_is_no_refusal() {
    let day = Day::new();
    for results in [0, 53] {
        for table in [0, 6] {
            let room = Room {
                results,
                table,
                figures: FIGURES,
            };
            let expected = Left::told(0, [0; FIGURES], room);
            assert_eq!(batched(&day.case, &[], room), expected);
        }
    }
    let answer = judge_batch(&day.case, &[], &mut []);
    assert_eq!(answer, Batched::Judged(Vec::new()));
}

/// Plan (a) with bytes behind it: refused by 6 behind its 80 as long as the hosts' splitter takes it,
/// also where the batch program's does not; a byte longer it is the batch that is refused, by 4.
#[test]
fn a_long_message_is_refused_as_a_plan_up_to_the_hosts_limit() {
    let day = Day::new();
    let behind = |bytes: usize| {
        let long = [&day.a[..], &vec![0; bytes - day.a.len()]].concat();
        join(&[&day.a, &long, &day.a])
    };
    let room = Room::of(3, 106);
    let refused = [3, 6, 640, 0, 0, 0];
    let judged = Left::judged(
        &[ACCEPTED, refused, ACCEPTED],
        &day.completion.repeat(2),
        room,
    );
    let small = Form::BATCH.longest_message;
    for bytes in [small, small + 1, LONGEST_MESSAGE - 1, LONGEST_MESSAGE] {
        assert_eq!(batched(&day.case, &behind(bytes), room), judged);
    }
    let fault = Fault {
        number: 4,
        bit: 664,
    };
    let plans = behind(LONGEST_MESSAGE + 1);
    let expected = Left::refused(3, fault, room);
    assert_eq!(batched(&day.case, &plans, room), expected);
    let answer = judge_batch(&day.case, &plans, &mut [0; 106]);
    assert_eq!(answer, Batched::BatchRefused(fault));
}
