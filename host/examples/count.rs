//! Calls one function on a batch's first plan, which is accepted, so many times: `count BATCH TIMES
//! FUNCTION`. Each reads the case each time, so the difference of two is what one does besides. A plan
//! that is mended may be broken; `judge-batch` takes all plans of the batch.

use std::env;
use std::fs;
use std::process::ExitCode;

use host::{
    inspect, judge, judge_batch, market, mend, messages, read_completion, read_market, with_buffer,
    write_case, write_plan, Batched, Copied, Fault, Inspected, Mended, Read, Turn, Verdict,
    Written, LONGEST_CASE, LONGEST_COMPLETION, LONGEST_COPY, MOST_NUMBERS,
};

const USAGE: &str = "usage: count BATCH TIMES \
judge|judge-batch|inspect|write-case|write-plan|market|read-completion|read-market|mend";

fn main() -> ExitCode {
    let words: Vec<String> = env::args().skip(1).collect();
    let [batch, times, what] = words.as_slice() else {
        eprintln!("{USAGE}");
        return ExitCode::FAILURE;
    };
    let batch = fs::read(batch).expect("a batch");
    let mut messages = messages(&batch);
    let case = whole(messages.next());
    let plans = messages.rest();
    let plan = whole(messages.next());
    let completions = LONGEST_COMPLETION * (1 + messages.count());
    let mut result = vec![0; LONGEST_CASE.max(completions)];
    let mut table = vec![0; MOST_NUMBERS];
    let message = match what.as_str() {
        "read-completion" => completion_of(case, plan),
        "read-market" => copy_of(case, plan),
        _ => Vec::new(),
    };
    for _ in 0..times.parse().expect("a number of times") {
        let done = match what.as_str() {
            "judge" => matches!(judge(case, plan, &mut result), Verdict::Accepted { .. }),
            "judge-batch" => are_accepted(judge_batch(case, plans, &mut result)),
            "inspect" => matches!(inspect(case), Inspected::Counts { .. }),
            "write-case" => is_written(write_case(case, &mut result)),
            "write-plan" => is_written(write_plan(case, plan, &mut result)),
            "market" => matches!(market(case, plan, &mut result), Copied::Written { .. }),
            "read-completion" => is_read(read_completion(case, &message, &mut table)),
            "read-market" => is_read(read_market(case, &message, &mut table)),
            "mend" => is_mended(mend(case, plan)),
            _ => panic!("{USAGE}"),
        };
        assert!(done);
    }
    ExitCode::SUCCESS
}

fn whole(message: Option<Result<&[u8], Fault>>) -> &[u8] {
    message.and_then(Result::ok).expect("a case and a plan")
}

fn are_accepted(batched: Batched) -> bool {
    let is_accepted = |turn: &Turn| matches!(turn.verdict, Verdict::Accepted { .. });
    matches!(batched, Batched::Judged(turns) if turns.iter().all(is_accepted))
}

/// Whether a plan passed reading.
fn is_mended(mended: Mended) -> bool {
    matches!(
        mended,
        Mended::Accepted { .. } | Mended::By(_) | Mended::Nothing
    )
}

fn is_written(written: Written) -> bool {
    matches!(written, Written::Message { .. })
}

fn is_read(read: Read) -> bool {
    matches!(read, Read::Figures { .. })
}

fn completion_of(case: &[u8], plan: &[u8]) -> Vec<u8> {
    let (verdict, completion) = with_buffer(|buffer| judge(case, plan, buffer));
    assert!(matches!(verdict, Verdict::Accepted { .. }), "{verdict:?}");
    completion
}

fn copy_of(case: &[u8], plan: &[u8]) -> Vec<u8> {
    let mut copy = vec![0; LONGEST_COPY];
    let Copied::Written { bytes } = market(case, plan, &mut copy) else {
        panic!("an accepted plan has a copy");
    };
    copy.truncate(bytes);
    copy
}
