//! The plans of a batch by one call, held to what judging each alone gave.

use host::{judge_batch, messages, Batched, Turn, Verdict};

/// What a buffer holds before a call, and how many bytes more than the completions have.
const BEFORE: u8 = 0xa5;
const BEHIND: usize = 3;

/// What judging plans alone gave so far.
#[derive(Default)]
pub struct Alone {
    turns: Vec<Turn>,
    completions: Vec<u8>,
}

impl Alone {
    /// A plan's verdict, with its completion where it is accepted.
    pub fn note(&mut self, verdict: Verdict, completion: &[u8]) {
        let from = self.completions.len();
        if let Verdict::Accepted { .. } = verdict {
            self.completions.extend(completion);
        }
        let completion = from..self.completions.len();
        self.turns.push(Turn {
            verdict,
            completion,
        });
    }

    /// All together give the same, up to the length that is refused, if one is; with that they are
    /// refused.
    pub fn hold(self, case: &[u8], plans: &[u8]) {
        let mut expected = self.completions;
        let behind = expected.len() + BEHIND;
        let untouched = vec![BEFORE; behind];
        expected.resize(behind, BEFORE);
        let judge = |plans: &[u8], expected: Batched, completions: &[u8]| {
            let mut results = untouched.clone();
            assert_eq!(judge_batch(case, plans, &mut results), expected);
            assert!(results == completions, "other completions in a batch");
        };
        let refused = messages(plans).find_map(Result::err);
        let end = refused.map_or(plans.len(), |fault| fault.bit as usize / 8);
        judge(&plans[..end], Batched::Judged(self.turns), &expected);
        if let Some(fault) = refused {
            judge(plans, Batched::BatchRefused(fault), &untouched);
        }
    }
}
