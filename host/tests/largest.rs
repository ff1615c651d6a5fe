//! The largest day, every count at its most, by each function in a thread that has the stack which
//! the header promises to be enough.

mod common;

use common::in_promised_stack;
use host::messages::read_case;
use host::{
    breaches, framed, inspect, judge, judge_batch, market, mend, messages, read_completion,
    read_market, write_case, write_plan, Batched, Copied, Inspected, Listed, Mend, Mended, Read,
    Turn, Verdict, Written, LONGEST_CASE, LONGEST_COMPLETION, LONGEST_COPY, LONGEST_MESSAGE,
    LONGEST_PLAN, MOST_NUMBERS,
};
use reference::busiest::busiest_batch;
use reference::edition::Edition;
use reference::judge::judge as expected;
use reference::market::market_copy;
use reference::mend::{mend as expected_mend, Mending};

#[test]
fn promised_stack_is_enough_for_the_largest_day() {
    let batch = busiest_batch(Edition::NEWEST, 1, 64, 96);
    let batch: Vec<&[u8]> = messages(&batch).map_while(Result::ok).collect();
    let [case, plan] = batch[..] else {
        panic!("a case and a plan");
    };
    assert!(case.len() < LONGEST_MESSAGE && plan.len() < LONGEST_MESSAGE);
    let counts = in_promised_stack(|| inspect(case));
    assert_eq!(
        counts,
        Inspected::Counts {
            devices: 64,
            intervals: 96,
            zones: 4
        }
    );
    let mut theirs = vec![0; LONGEST_COMPLETION];
    expected(case, plan, &mut theirs);
    let mut ours = vec![0; LONGEST_COMPLETION];
    let judged = in_promised_stack(|| judge(case, plan, &mut ours));
    let Verdict::Accepted { surplus } = judged else {
        panic!("{judged:?}");
    };
    assert!(ours == theirs);
    ours.pop();
    let short = in_promised_stack(|| judge(case, plan, &mut ours));
    let bytes = LONGEST_COMPLETION;
    assert_eq!(short, Verdict::TooShort { bytes });
    let listed = in_promised_stack(|| breaches(case, plan, &mut []));
    assert_eq!(listed, Listed::Breaches { count: 0 });
    let mut new_case = vec![0; LONGEST_CASE];
    let written = in_promised_stack(|| write_case(case, &mut new_case));
    let bytes = LONGEST_CASE;
    assert_eq!(written, Written::Message { bytes });
    assert!(new_case == case);
    let mut new_plan = vec![0; LONGEST_PLAN];
    let written = in_promised_stack(|| write_plan(case, plan, &mut new_plan));
    let bytes = LONGEST_PLAN;
    assert_eq!(written, Written::Message { bytes });
    assert!(new_plan == plan);
    let mut completion = vec![0; LONGEST_COMPLETION];
    judge(case, plan, &mut completion);
    hold_batch(case, plan, judged, &completion);
    hold_copies(case, plan, &completion);
    hold_mends(case, plan, surplus);
}

/// The largest plan twice in a batch, with room for both completions.
fn hold_batch(case: &[u8], plan: &[u8], verdict: Verdict, completion: &[u8]) {
    let plans = framed(plan).repeat(2);
    let mut results = vec![0; 2 * LONGEST_COMPLETION];
    let batched = in_promised_stack(|| judge_batch(case, &plans, &mut results));
    let turn = |from| Turn {
        verdict,
        completion: from..from + LONGEST_COMPLETION,
    };
    let turns = [0, LONGEST_COMPLETION].map(turn);
    assert_eq!(batched, Batched::Judged(turns.to_vec()));
    assert!(results == completion.repeat(2));
}

/// The largest plan as it is, with a power of its last interval too high, and with a set that is off
/// given power besides.
fn hold_mends(case: &[u8], plan: &[u8], surplus: i64) {
    let answer = in_promised_stack(|| mend(case, plan));
    assert_eq!(answer, Mended::Accepted { surplus });
    let figures = read_case(case).expect("it passes reading");
    let with = |plan: &[u8], interval, power| {
        let change = Mend {
            interval,
            device: 64,
            power,
        };
        change.applied(&figures, plan).expect("such a field").1
    };
    let one = with(plan, 96, 100_000);
    let Mending::Mended(by) = expected_mend(case, &one) else {
        panic!("one power mends it");
    };
    let by = Mend {
        interval: by.interval,
        device: by.device,
        power: by.power as i64,
    };
    assert_eq!(in_promised_stack(|| mend(case, &one)), Mended::By(by));
    let many = with(&one, 1, 1);
    assert_eq!(in_promised_stack(|| mend(case, &many)), Mended::Nothing);
}

/// The copy and both readers: every length is the greatest, 16,000 numbers of the copy.
fn hold_copies(case: &[u8], plan: &[u8], completion: &[u8]) {
    let mut copy = vec![0; LONGEST_COPY];
    let copied = in_promised_stack(|| market(case, plan, &mut copy));
    assert_eq!(
        copied,
        Copied::Written {
            bytes: LONGEST_COPY
        }
    );
    let mut theirs = vec![0; LONGEST_COPY];
    market_copy(case, plan, &mut theirs);
    assert!(copy == theirs);
    let mut table = vec![0; MOST_NUMBERS];
    let read = in_promised_stack(|| read_completion(case, completion, &mut table));
    assert_eq!(
        read,
        Read::Figures {
            numbers: MOST_NUMBERS
        }
    );
    let read = in_promised_stack(|| read_market(case, &copy, &mut table));
    assert_eq!(read, Read::Figures { numbers: 16_000 });
}
