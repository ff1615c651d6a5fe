//! "Writing cases and plans" (A.9): messages written in the newest edition.
//!
//! "Given a case, or a plan with its case, that passes reading, write that message in edition 4,
//! with edition 2 and 3 additions at their neutral values"; "A.9 now has edition 5 wherever it said
//! 4, with the sets of older editions on bar 0, limit 0 and flow 0." (A.12) A message is read into
//! its content, in which what its edition lacks has its neutral value, and the content is written
//! field by field.

use crate::case::{read_case, Case};
use crate::edition::Edition;
use crate::encode::{encode_case, encode_plan};
use crate::judge::Refusal;
use crate::plan::{read_plan, Plan};

/// The message of a case's content in the newest edition.
pub fn newest_case(case: &Case) -> Vec<u8> {
    encode_case(Edition::NEWEST, case).bytes
}

/// The message of a plan's content in the newest edition.
pub fn newest_plan(plan: &Plan) -> Vec<u8> {
    encode_plan(Edition::NEWEST, plan).bytes
}

/// Writes a case to the front of `buffer` and returns how many bytes it takes: "It refuses what
/// reading refuses, then 7." Reading is that of the host form.
pub fn rewrite_case(case_message: &[u8], buffer: &mut [u8]) -> Result<usize, Refusal> {
    let (_, case) = read_case(case_message).map_err(Refusal::Case)?;
    put(&newest_case(&case), buffer)
}

/// Writes a plan, read with its case, likewise: "case, then plan; then 7."
pub fn rewrite_plan(
    case_message: &[u8],
    plan_message: &[u8],
    buffer: &mut [u8],
) -> Result<usize, Refusal> {
    let (edition, case) = read_case(case_message).map_err(Refusal::Case)?;
    let plan = read_plan(edition, &case, plan_message).map_err(Refusal::Plan)?;
    put(&newest_plan(&plan), buffer)
}

/// "bytes past what is written stay"; a refusal touches none.
fn put(message: &[u8], buffer: &mut [u8]) -> Result<usize, Refusal> {
    let bytes_needed = message.len();
    let room = buffer
        .get_mut(..bytes_needed)
        .ok_or(Refusal::BufferTooShort { bytes_needed })?;
    room.copy_from_slice(message);
    Ok(bytes_needed)
}
