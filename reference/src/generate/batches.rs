//! Random batches for the long run: one case, many plans.

use crate::batch::{append_length, append_message, join};
use crate::edition::Edition;
use crate::encode::{encode_case, encode_plan};
use crate::form::Form;
use crate::generate::breaks::{
    metered_plan, nudged_plan, plan_breaking, plan_broken_severally, recommitted_plan,
};
use crate::generate::damage::{
    any_above_range, contradict, contradictions, damaged, give_too_many_states, overgrow,
    with_other_edition,
};
use crate::generate::plans::{good_plan, wild_plan};
use crate::generate::sample::{random_sample, wild_case, Sample};
use crate::generate::shape::Size;
use crate::rng::Rng;
use crate::worked_day::Day;

/// A batch of one case and about `plans` plans, for a form.
pub fn random_batch(rng: &mut Rng, form: Form, size: Size, plans: usize) -> Vec<u8> {
    match rng.below(40) {
        0..=2 => refused_case_batch(rng, size),
        3 => wild_batch(rng, size, plans),
        4 => overgrown_batch(rng),
        _ => {
            let sample = random_sample(rng, size);
            let mut batch = Vec::new();
            append_message(&mut batch, &encode_case(sample.edition, &sample.case).bytes);
            for _ in 0..plans {
                append_message(&mut batch, &random_plan_message(rng, &sample));
            }
            if rng.chance(5) {
                spoil_framing(rng, form, &mut batch);
            }
            batch
        }
    }
}

/// The size of a batch's case: in the batch form mostly small or medium, in the host form mostly
/// more than the batch form takes.
pub fn random_size(rng: &mut Rng, form: Form) -> Size {
    if form == Form::HOST && rng.chance(65) {
        return if rng.chance(8) {
            Size::Greatest
        } else {
            Size::Beyond
        };
    }
    match rng.below(100) {
        0..=14 => Size::Tiny,
        15..=69 => Size::Small,
        70..=96 => Size::Medium,
        97 | 98 => Size::Large,
        _ => Size::Full,
    }
}

/// A plan's message: accepted in a good share, broken at any rule of the edition, or refused.
pub fn random_plan_message(rng: &mut Rng, sample: &Sample) -> Vec<u8> {
    let edition = sample.edition;
    let plan = match rng.below(100) {
        0..=3 => plan_broken_severally(rng, sample),
        4..=11 => nudged_plan(rng, sample),
        12..=16 => recommitted_plan(rng, sample),
        17..=18 => wild_plan(rng, edition, &sample.case),
        19..=22 => metered_plan(rng, sample),
        23..=52 => {
            let rule = rng.from_to(1, i128::from(edition.last_rule())) as u8;
            plan_breaking(rng, sample, rule).unwrap_or_else(|| nudged_plan(rng, sample))
        }
        53..=60 => {
            let message = encode_plan(edition, &good_plan(rng, sample));
            return damaged(rng, &message);
        }
        61 => return encode_case(edition, &sample.case).bytes,
        62 => return plan_of_another_edition(rng, sample),
        _ => good_plan(rng, sample),
    };
    encode_plan(edition, &plan).bytes
}

/// A plan, whole and good but for its edition: "A plan's edition equals its case's, else 2." Where
/// no other edition can say its counts, but for the number in its header.
pub fn plan_of_another_edition(rng: &mut Rng, sample: &Sample) -> Vec<u8> {
    let (devices, intervals) = (sample.case.devices.len(), sample.case.intervals());
    let others: Vec<Edition> = Edition::ALL
        .into_iter()
        .filter(|&edition| edition != sample.edition)
        .filter(|edition| edition.largest().holds(devices, intervals))
        .collect();
    let plan = good_plan(rng, sample).in_figures_of_edition_1();
    if others.is_empty() {
        return with_other_edition(rng, &encode_plan(sample.edition, &plan));
    }
    encode_plan(rng.pick(&others), &plan).bytes
}

/// A batch whose case is refused; what follows it is never read.
pub fn refused_case_batch(rng: &mut Rng, size: Size) -> Vec<u8> {
    let mut sample = random_sample(rng, size);
    let contradicts = rng.chance(50);
    if contradicts {
        for _ in 0..1 + rng.below(3) {
            let contradiction = rng.pick(contradictions(sample.edition));
            contradict(rng, &mut sample.case, contradiction);
        }
    }
    let is_overfull = rng.chance(20);
    if is_overfull {
        give_too_many_states(rng, &mut sample.case);
    }
    let message = encode_case(sample.edition, &sample.case);
    let bytes = if (contradicts || is_overfull) && rng.chance(70) {
        message.bytes
    } else if rng.chance(10) {
        let above = any_above_range(rng, &message, "most starts");
        above.unwrap_or_else(|| damaged(rng, &message))
    } else {
        damaged(rng, &message)
    };
    let plan = good_plan(rng, &sample);
    join(&[bytes, encode_plan(sample.edition, &plan).bytes])
}

/// A batch of a day, otherwise small, with more devices or intervals than the batch form takes.
pub fn overgrown_batch(rng: &mut Rng) -> Vec<u8> {
    let size = rng.pick(&[Size::Tiny, Size::Small]);
    let sample = random_sample(rng, size);
    let mut day = Day {
        edition: sample.edition,
        plan: good_plan(rng, &sample),
        case: sample.case,
    };
    overgrow(rng, &mut day);
    let (case, plan) = day.messages();
    join(&[case, plan])
}

fn wild_batch(rng: &mut Rng, size: Size, plans: usize) -> Vec<u8> {
    let (edition, case) = wild_case(rng, size);
    let mut batch = Vec::new();
    append_message(&mut batch, &encode_case(edition, &case).bytes);
    for _ in 0..plans {
        let plan = wild_plan(rng, edition, &case);
        append_message(&mut batch, &encode_plan(edition, &plan).bytes);
    }
    batch
}

/// Ends a batch with a framing refusal of one kind or another.
pub fn spoil_framing(rng: &mut Rng, form: Form, batch: &mut Vec<u8>) {
    let longest = form.longest_message;
    match rng.below(4) {
        0 => batch.extend(vec![0; 1 + rng.below(2)]),
        1 => append_length(batch, rng.pick(&[longest + 1, (1 << 24) - 1])),
        2 => append_length(batch, rng.pick(&[1, 300, longest])),
        _ => {
            let length = batch.len();
            batch.truncate(length - rng.below(length.min(20)));
        }
    }
}
