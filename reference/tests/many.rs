//! Many plans in one call, by hand: order of refusals, room, what is written.

use reference::batch::join;
use reference::fault::{Fault, Number};
use reference::judge::{judge, Refusal, Verdict};
use reference::many::{judge_many, Many, Turn, NUMBER_BYTES, ROW_NUMBERS};
use reference::worked_day;

const UNTOUCHED: u8 = 0xa5;

fn day() -> (Vec<u8>, Vec<u8>, Vec<u8>) {
    let (case, plan) = worked_day::two_set_day().messages();
    let mut buffer = vec![0; 1000];
    assert!(matches!(
        judge(&case, &plan, &mut buffer),
        Verdict::Accepted { .. }
    ));
    let mut short = Vec::new();
    let Verdict::Refused(Refusal::BufferTooShort { bytes_needed }) =
        judge(&case, &plan, &mut short)
    else {
        panic!("an empty buffer holds no completion");
    };
    (case, plan, buffer[..bytes_needed].to_vec())
}

#[test]
fn completions_stand_one_behind_another_and_what_lies_behind_stays() {
    let (case, plan, completion) = day();
    let mut results = vec![UNTOUCHED; 2 * completion.len() + 3];
    let batch = join(&[&plan[..], &plan[..plan.len() - 1], &plan[..]]);
    let Many::Judged(turns) = judge_many(&case, &batch, &mut results, 3 * ROW_NUMBERS) else {
        panic!("judged");
    };
    let bytes: Vec<usize> = turns.iter().map(|turn| turn.bytes).collect();
    assert_eq!(bytes, [completion.len(), 0, completion.len()]);
    assert!(matches!(
        turns[1].verdict,
        Verdict::Refused(Refusal::Plan(_))
    ));
    assert_eq!(results[..completion.len()], completion);
    assert_eq!(results[completion.len()..2 * completion.len()], completion);
    assert_eq!(results[2 * completion.len()..], [UNTOUCHED; 3]);
}

#[test]
fn a_plan_without_room_is_refused_by_7_and_takes_none() {
    let (case, plan, completion) = day();
    let mut results = vec![UNTOUCHED; 2 * completion.len() - 1];
    let batch = join(&[&plan[..], &plan[..]]);
    let Many::Judged(turns) = judge_many(&case, &batch, &mut results, 2 * ROW_NUMBERS) else {
        panic!("judged");
    };
    let refused = Turn {
        verdict: Verdict::Refused(Refusal::BufferTooShort {
            bytes_needed: completion.len(),
        }),
        bytes: 0,
    };
    assert_eq!(turns[1], refused);
    assert!(results[completion.len()..].iter().all(|&b| b == UNTOUCHED));
}

#[test]
fn refusals_come_case_first_then_batch_then_table() {
    let (case, plan, _) = day();
    let batch = join(&[&plan[..], &plan[..]]);
    let cut = &batch[..batch.len() - 1];
    let second = 8 * (batch.len() / 2);
    let mut results = [UNTOUCHED; 100];
    assert!(matches!(
        judge_many(&case[..4], cut, &mut results, 0),
        Many::CaseRefused(_)
    ));
    assert_eq!(
        judge_many(&case, cut, &mut results, 0),
        Many::BatchRefused(Fault::new(Number::Cut, second))
    );
    assert_eq!(
        judge_many(&case, &batch, &mut results, 2 * ROW_NUMBERS - 1),
        Many::TableTooShort {
            bytes_needed: 2 * ROW_NUMBERS * NUMBER_BYTES
        }
    );
    assert_eq!(results, [UNTOUCHED; 100]);
    assert_eq!(
        judge_many(&case, &[], &mut results, 0),
        Many::Judged(vec![])
    );
}
