//! Many plans in one call: "takes a case and a batch of plans behind their lengths [...] and judges
//! them all with the case read once, an answer of fixed size for each in a lent buffer, completions
//! one after another in another".

use crate::batch::{split, Split};
use crate::case::read_case;
use crate::fault::Fault;
use crate::form::Form;
use crate::judge::{find, judge_for, Finding, Verdict};
use crate::plan::read_plan;

/// The numbers that each plan has in the lent table, and the bytes of a number.
pub const ROW_NUMBERS: usize = 6;
pub const NUMBER_BYTES: usize = 8;

/// One plan's verdict and the bytes of its completion, 0 where none is written.
#[derive(Clone, Copy, PartialEq, Eq, Debug)]
pub struct Turn {
    pub verdict: Verdict,
    pub bytes: usize,
}

/// What one call answers. The refusals come in this order, each with nothing written.
#[derive(Clone, PartialEq, Eq, Debug)]
pub enum Many {
    CaseRefused(Fault),
    BatchRefused(Fault),
    TableTooShort { bytes_needed: usize },
    Judged(Vec<Turn>),
}

/// Judges every plan of a batch against one case, each in the room that the completions ahead of it
/// leave, with a table of so many numbers.
pub fn judge_many(case: &[u8], batch: &[u8], results: &mut [u8], numbers: usize) -> Many {
    let (edition, case) = match read_case(case) {
        Err(fault) => return Many::CaseRefused(fault),
        Ok(read) => read,
    };
    let plans = match plans_of(batch) {
        Err(fault) => return Many::BatchRefused(fault),
        Ok(plans) => plans,
    };
    if numbers < ROW_NUMBERS * plans.len() {
        let bytes_needed = NUMBER_BYTES * ROW_NUMBERS * plans.len();
        return Many::TableTooShort { bytes_needed };
    }
    let mut turns = Vec::new();
    let mut at = 0;
    for plan in plans {
        let verdict = judge_for(edition, &case, plan, &mut results[at..]);
        let bytes = match verdict {
            Verdict::Accepted { .. } => {
                let plan = read_plan(edition, &case, plan).expect("a plan that was accepted");
                completion_length(find(edition, &case, &plan))
            }
            Verdict::Broken(_) | Verdict::Refused(_) => 0,
        };
        turns.push(Turn { verdict, bytes });
        at += bytes;
    }
    Many::Judged(turns)
}

fn completion_length(finding: Finding) -> usize {
    match finding {
        Finding::Accepted { message, .. } => message.len(),
        Finding::Broken(_) => 0,
    }
}

/// All messages of a batch, or what the splitter for hosts refuses.
fn plans_of(batch: &[u8]) -> Result<Vec<&[u8]>, Fault> {
    let mut plans = Vec::new();
    let mut at = 0;
    loop {
        match split(Form::HOST, batch, at) {
            Split::End => return Ok(plans),
            Split::Refused(fault) => return Err(fault),
            Split::Message { message, next } => {
                plans.push(message);
                at = next;
            }
        }
    }
}
