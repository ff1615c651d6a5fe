//! Rivals of our completion: other choices for the same plan.

use crate::case::{Block, Case, MOST_STATES};
use crate::completion::{Completion, IntervalChoices};
use crate::edition::Edition;
use crate::plan::Plan;
use crate::rng::Rng;

/// Another completion of a plan, made from ours by a few random changes of the kinds that rules
/// allow: power moved between blocks, above their floors or not, another startup state, more
/// shortfall, mismatch or overrun. Reactive choices and those of bar 1 are changed where the edition's
/// completions have them.
///
/// Whether it meets every rule is for [`crate::meets::meets`] to say.
pub fn random_rival(
    rng: &mut Rng,
    edition: Edition,
    case: &Case,
    plan: &Plan,
    ours: &Completion,
) -> Completion {
    let mut rival = ours.clone();
    for _ in 0..1 + rng.below(6) {
        let t = rng.below(rival.intervals.len());
        let j = rng.below(case.devices.len());
        match rng.below(5) {
            0 | 1 => {
                let floors_bind = plan.intervals[t][j].on && rng.chance(80);
                let blocks = &case.devices[j].terms[t].blocks;
                let filled = &mut rival.intervals[t].devices[j].blocks;
                move_power(rng, blocks, floors_bind, filled);
            }
            2 => take_another_state(rng, case, &mut rival, j),
            3 => add_shortfall_or_mismatch(rng, edition, &mut rival, t),
            _ => add_overrun(rng, &mut rival, j),
        }
    }
    rival
}

fn move_power(rng: &mut Rng, blocks: &[Block], floors_bind: bool, filled: &mut [i128; 4]) {
    if blocks.len() < 2 {
        return;
    }
    let (from, to) = (rng.below(blocks.len()), rng.below(blocks.len()));
    let floor = if floors_bind { blocks[from].floor } else { 0 };
    let most = (filled[from] - floor).clamp(0, (blocks[to].cap - filled[to]).max(0));
    let moved = match rng.below(2) {
        0 => most,
        _ => rng.from_to(0, most),
    };
    filled[from] -= moved;
    filled[to] += moved;
}

/// Takes any state, or none, at one of the device's starts.
fn take_another_state(rng: &mut Rng, case: &Case, rival: &mut Completion, j: usize) {
    let states = case.devices[j].startup_states.len();
    let starts: Vec<usize> = (0..rival.intervals.len())
        .filter(|&t| rival.intervals[t].devices[j].started == 1)
        .collect();
    if !starts.is_empty() {
        let t = rng.pick(&starts);
        rival.intervals[t].devices[j].startup_state = rng.below(states + 1) as i128;
    }
}

fn add_shortfall_or_mismatch(rng: &mut Rng, edition: Edition, rival: &mut Completion, t: usize) {
    let interval = &mut rival.intervals[t];
    let more = rng.pick(&[1, 1_000, 1 << 70]);
    let z = rng.below(interval.shortfalls.len() + 1);
    match interval.shortfalls.get_mut(z) {
        Some(shortfalls) => shortfalls[rng.below(edition.shortfalls())] += more,
        None => *any_mismatch(rng, edition, interval) += more,
    }
}

/// A mismatch of an interval, of any bar, real or reactive.
fn any_mismatch<'a>(
    rng: &mut Rng,
    edition: Edition,
    interval: &'a mut IntervalChoices,
) -> &'a mut i128 {
    let bar = rng.below(edition.bars());
    if edition.has_reactive_power() && rng.chance(50) {
        &mut interval.reactive_mismatches[bar]
    } else {
        &mut interval.mismatches[bar]
    }
}

fn add_overrun(rng: &mut Rng, rival: &mut Completion, j: usize) {
    let overruns = &mut rival.overruns[j];
    if !overruns.is_empty() {
        let w = rng.below(overruns.len());
        overruns[w] += rng.pick(&[1, 1_000, 1 << 70]);
    }
}

/// The highest number that can name a startup state.
const LAST_STATE: i128 = MOST_STATES as i128;

/// A completion that does not meet every rule: ours with one choice changed so that it must not be
/// taken for one of "these".
pub fn random_misfit(
    rng: &mut Rng,
    edition: Edition,
    case: &Case,
    plan: &Plan,
    ours: &Completion,
) -> Completion {
    let mut misfit = ours.clone();
    let t = rng.below(misfit.intervals.len());
    let j = rng.below(case.devices.len());
    let floors_bind = plan.intervals[t][j].on;
    let blocks = &case.devices[j].terms[t].blocks;
    let interval = &mut misfit.intervals[t];
    let device = &mut interval.devices[j];
    let off_by = rng.pick(&[-1, 1, 1 << 70]);
    match rng.below(10) {
        0 => device.started += off_by,
        1 => device.stopped += off_by,
        2 => device.blocks[rng.below(4)] += off_by,
        3 => {
            // The sum is kept, but both blocks leave their ranges.
            device.blocks[0] += 1 << 40;
            device.blocks[1] -= 1 << 40;
        }
        4 => device.startup_state = rng.pick(&[-1, LAST_STATE + 1, 1 << 70]),
        5 if device.started == 0 => device.startup_state = rng.from_to(1, LAST_STATE),
        6 if !interval.shortfalls.is_empty() => {
            let z = rng.below(interval.shortfalls.len());
            interval.shortfalls[z][rng.below(edition.shortfalls())] -= 1;
        }
        7 => match misfit.overruns.iter_mut().flatten().next() {
            Some(overrun) => *overrun -= 1,
            None => *any_mismatch(rng, edition, interval) -= 1,
        },
        8 if floors_bind && take_below_floor(blocks, &mut device.blocks) => {}
        _ => *any_mismatch(rng, edition, interval) -= 1,
    }
    misfit
}

/// Moves power from a block down to one below its floor to another that has room; false where no
/// two blocks let it.
pub fn take_below_floor(blocks: &[Block], filled: &mut [i128; 4]) -> bool {
    for from in (0..blocks.len()).filter(|&m| blocks[m].floor > 0) {
        let moved = filled[from] - blocks[from].floor + 1;
        let has_room = |to: &usize| *to != from && blocks[*to].cap - filled[*to] >= moved;
        if let Some(to) = (0..blocks.len()).find(has_room) {
            filled[from] -= moved;
            filled[to] += moved;
            return true;
        }
    }
    false
}
