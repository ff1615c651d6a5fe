//! A batch of plans, judged by one call against a case that is read once.

use std::ops::Range;

use crate::answers::Refused;
use crate::{messages, word, Fault, Told, Verdict};

extern "C" {
    fn kadunfo_judge_batch(
        case: *const u8,
        case_length: usize,
        plans: *const u8,
        plans_length: usize,
        results: *mut u8,
        results_length: usize,
        table: *mut u64,
        table_length: usize,
        figures: *mut u64,
        figures_length: usize,
    ) -> u64;
}

/// Numbers of each plan in the table: a word, its four figures, the bytes of its completion.
pub const BATCH_NUMBERS: usize = 6;

/// What judging a batch of plans comes to.
#[derive(Clone, PartialEq, Eq, Debug)]
pub enum Batched {
    /// Of each plan, in the batch's order.
    Judged(Vec<Turn>),
    CaseRefused(Fault),
    /// Of the length at which the splitter ends the batch.
    BatchRefused(Fault),
    /// A word, or figures with it, that the header does not have.
    Unknown {
        word: u64,
    },
}

/// What judging a plan in its turn comes to.
#[derive(Clone, PartialEq, Eq, Debug)]
pub struct Turn {
    /// As of the plan alone, with what is left of the buffer.
    pub verdict: Verdict,
    /// Where its completion stands in the buffer; no byte where none is written.
    pub completion: Range<usize>,
}

/// Judges each message of the batch `plans` against one case. Acceptance alone writes to `results`,
/// where completions stand one behind another; a plan whose completion does not fit what is left takes
/// no room. Nothing is written where the case or the batch is refused.
pub fn judge_batch(case: &[u8], plans: &[u8], results: &mut [u8]) -> Batched {
    let count = messages(plans).filter(Result::is_ok).count();
    let mut table = vec![0; BATCH_NUMBERS * count];
    // SAFETY: each pointer comes with the length of its slice, and the slices do not overlap.
    let told = Told::by(|figures, length| unsafe {
        kadunfo_judge_batch(
            case.as_ptr(),
            case.len(),
            plans.as_ptr(),
            plans.len(),
            results.as_mut_ptr(),
            results.len(),
            table.as_mut_ptr(),
            table.len(),
            figures,
            length,
        )
    });
    Batched::of(told, &table)
}

impl Batched {
    /// The answer to a call that left a table with numbers for each message of the batch.
    fn of(told: Told, table: &[u64]) -> Batched {
        match (told.word, told.figures) {
            (word @ word::JUDGED, [plans, bytes, 0, 0]) => {
                let turns = turns(table);
                let end = turns.last().map_or(0, |last| last.completion.end);
                match (turns.len() as u64, end as u64) == (plans, bytes) {
                    true => Batched::Judged(turns),
                    false => Batched::Unknown { word },
                }
            }
            _ => match told.refused() {
                Refused::Case(fault) => Batched::CaseRefused(fault),
                Refused::Message(fault) => Batched::BatchRefused(fault),
                Refused::TooShort { .. } => Batched::Unknown { word: told.word },
                Refused::Unknown { word } => Batched::Unknown { word },
            },
        }
    }
}

fn turns(table: &[u64]) -> Vec<Turn> {
    let (plans, _) = table.as_chunks::<BATCH_NUMBERS>();
    let mut end = 0;
    let turn = |&[word, figures @ .., bytes]: &[u64; BATCH_NUMBERS]| {
        let from = end;
        end += bytes as usize;
        Turn {
            verdict: Told { word, figures }.into(),
            completion: from..end,
        }
    };
    plans.iter().map(turn).collect()
}

#[cfg(test)]
mod tests {
    use super::{Batched, Turn};
    use crate::explain::Breach;
    use crate::{Fault, Told, Verdict};

    fn told(word: u64, figures: [u64; 4]) -> Told {
        Told { word, figures }
    }

    #[rustfmt::skip]
    const TABLE: [u64; 24] = [
        0, 7, 0, 0, 0, 53,
        1, 5, 2, 1, 0, 0,
        4, 7, 53, 0, 0, 0,
        3, 1, 8, 0, 0, 0,
    ];

    #[test]
    fn a_batch_has_the_headers_figures() {
        let turn = |verdict, completion| Turn {
            verdict,
            completion,
        };
        let first = Breach::from([5, 2, 1, 0]);
        let cut = Fault { number: 1, bit: 8 };
        let turns = vec![
            turn(Verdict::Accepted { surplus: 7 }, 0..53),
            turn(Verdict::Broken(first), 53..53),
            turn(Verdict::TooShort { bytes: 53 }, 53..53),
            turn(Verdict::PlanRefused(cut), 53..53),
        ];
        let judged = told(0, [4, 53, 0, 0]);
        assert_eq!(Batched::of(judged, &TABLE), Batched::Judged(turns));
        assert_eq!(Batched::of(told(0, [0; 4]), &[]), Batched::Judged(vec![]));
        let fault = Fault { number: 4, bit: 9 };
        let refused = |word| Batched::of(told(word, [4, 9, 0, 0]), &TABLE);
        assert_eq!(refused(2), Batched::CaseRefused(fault));
        assert_eq!(refused(3), Batched::BatchRefused(fault));
    }

    /// Other counts than the table has, a figure too many, a table too short, and other words.
    #[test]
    fn what_the_header_does_not_have_is_unknown() {
        for (word, figures) in [
            (0, [3, 53, 0, 0]),
            (0, [4, 52, 0, 0]),
            (0, [4, 53, 0, 1]),
            (1, [5, 2, 1, 0]),
            (4, [7, 192, 0, 0]),
            (5, [0; 4]),
        ] {
            let answer = Batched::of(told(word, figures), &TABLE);
            assert_eq!(answer, Batched::Unknown { word });
        }
    }
}
