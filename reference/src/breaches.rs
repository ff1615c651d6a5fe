//! "Every broken rule of a metered day" (A.5).

use crate::case::{read_case, Case};
use crate::clock::spans;
use crate::edition::Edition;
use crate::forced::forced;
use crate::judge::Refusal;
use crate::plan::{read_plan, Plan};
use crate::rules::{broken_rules, Place};

/// The bytes of a breach: "four bytes (rule, interval, device, window)".
pub const BREACH_BYTES: usize = 4;

/// "Write every broken rule into a lent buffer as four bytes (rule, interval, device, window), each
/// breach exactly once, in document 01's order, the rest of the buffer unchanged, and return how
/// many. [...] Reading refusals come first. It then refuses with 7 when the buffer can't hold the
/// list, and writes nothing." Reading is that of the host form.
pub fn breaches(
    case_message: &[u8],
    plan_message: &[u8],
    buffer: &mut [u8],
) -> Result<usize, Refusal> {
    let (edition, case) = read_case(case_message).map_err(Refusal::Case)?;
    breaches_for(edition, &case, plan_message, buffer)
}

/// The same for a plan of a case that passed reading.
pub fn breaches_for(
    edition: Edition,
    case: &Case,
    plan_message: &[u8],
    buffer: &mut [u8],
) -> Result<usize, Refusal> {
    let plan = read_plan(edition, case, plan_message).map_err(Refusal::Plan)?;
    let list = bytes_of(&breaches_of(case, &plan));
    let bytes_needed = list.len();
    let room = buffer
        .get_mut(..bytes_needed)
        .ok_or(Refusal::BufferTooShort { bytes_needed })?;
    room.copy_from_slice(&list);
    Ok(bytes_needed / BREACH_BYTES)
}

/// Every broken rule of a read plan, in the paper's order; none of a plan that is accepted.
pub fn breaches_of(case: &Case, plan: &Plan) -> Vec<Place> {
    let spans = spans(&case.durations);
    let forced = forced(case, &spans, plan);
    broken_rules(case, &spans, plan, &forced).collect()
}

/// The bytes of a list of breaches.
pub fn bytes_of(breaches: &[Place]) -> Vec<u8> {
    breaches.iter().flat_map(breach_bytes).collect()
}

/// The breaches of a list's bytes.
pub fn breaches_in(list: &[u8]) -> Vec<Place> {
    let (entries, rest) = list.as_chunks::<BREACH_BYTES>();
    assert!(rest.is_empty(), "four bytes each");
    let place = |&[rule, interval, device, window]: &[u8; BREACH_BYTES]| Place {
        rule,
        interval: usize::from(interval),
        device: usize::from(device),
        window: usize::from(window),
    };
    entries.iter().map(place).collect()
}

fn breach_bytes(place: &Place) -> [u8; BREACH_BYTES] {
    let byte = |number: usize| u8::try_from(number).expect("a place's numbers fit their bytes");
    [
        place.rule,
        byte(place.interval),
        byte(place.device),
        byte(place.window),
    ]
}
