//! The judgement: "Order: case, then plan; [...] then the rules; then 7."

use crate::case::{read_case, Case};
use crate::clock::spans;
use crate::completion::completion_bytes;
use crate::edition::Edition;
use crate::energy::EnergyRule;
use crate::fault::Fault;
use crate::forced::forced;
use crate::ours::{complete_by, Ours};
use crate::plan::{read_plan, Plan};
use crate::rules::{first_broken, Place};

/// "A verdict is accepted with its surplus, broken with its place, or refused with one of these
/// faults."
#[derive(Clone, Copy, PartialEq, Eq, Debug)]
pub enum Verdict {
    Accepted { surplus: i128 },
    Broken(Place),
    Refused(Refusal),
}

/// "Numbers 1 to 6 come with the message they concern, case or plan"; 7 with the bytes needed.
#[derive(Clone, Copy, PartialEq, Eq, Debug)]
pub enum Refusal {
    Case(Fault),
    Plan(Fault),
    BufferTooShort { bytes_needed: usize },
}

/// What the judgement of a read plan comes to, before any buffer is looked at.
#[derive(Clone, PartialEq, Eq, Debug)]
pub enum Finding {
    Accepted { surplus: i128, message: Vec<u8> },
    Broken(Place),
}

/// Judges one plan against one case in the host form and, on acceptance alone, writes the
/// completion's bytes to the front of `buffer`.
pub fn judge(case_message: &[u8], plan_message: &[u8], buffer: &mut [u8]) -> Verdict {
    match read_case(case_message) {
        Err(fault) => Verdict::Refused(Refusal::Case(fault)),
        Ok((edition, case)) => judge_for(edition, &case, plan_message, buffer),
    }
}

/// Judges one plan against a case that passed reading.
pub fn judge_for(edition: Edition, case: &Case, plan_message: &[u8], buffer: &mut [u8]) -> Verdict {
    let plan = match read_plan(edition, case, plan_message) {
        Err(fault) => return Verdict::Refused(Refusal::Plan(fault)),
        Ok(plan) => plan,
    };
    match find(edition, case, &plan) {
        Finding::Broken(place) => Verdict::Broken(place),
        Finding::Accepted { message, .. } if buffer.len() < message.len() => {
            Verdict::Refused(Refusal::BufferTooShort {
                bytes_needed: message.len(),
            })
        }
        Finding::Accepted { surplus, message } => {
            buffer[..message.len()].copy_from_slice(&message);
            Verdict::Accepted { surplus }
        }
    }
}

/// The first broken rule of a plan, or its surplus and completion message, with energy by the
/// minute. The edition decides on nothing but the message.
pub fn find(edition: Edition, case: &Case, plan: &Plan) -> Finding {
    find_by(EnergyRule::ByMinute, edition, case, plan)
}

/// The same with energy by either rule.
pub fn find_by(energy_rule: EnergyRule, edition: Edition, case: &Case, plan: &Plan) -> Finding {
    match our_completion_by(energy_rule, case, plan) {
        Err(place) => Finding::Broken(place),
        Ok(ours) => Finding::Accepted {
            surplus: ours.surplus,
            message: completion_bytes(edition, case, &ours.completion, ours.surplus),
        },
    }
}

/// Our completion of a plan with its surplus, or the first broken rule, with energy by the minute.
pub fn our_completion(case: &Case, plan: &Plan) -> Result<Ours, Place> {
    our_completion_by(EnergyRule::ByMinute, case, plan)
}

fn our_completion_by(energy_rule: EnergyRule, case: &Case, plan: &Plan) -> Result<Ours, Place> {
    let spans = spans(&case.durations);
    let forced = forced(case, &spans, plan);
    match first_broken(case, &spans, plan, &forced) {
        Some(place) => Err(place),
        None => Ok(complete_by(energy_rule, case, &spans, plan, &forced)),
    }
}
