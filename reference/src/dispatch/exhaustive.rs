//! The definition: all powers of all blocks are tried.

use std::cmp::Reverse;

use super::Task;

/// "The powers add up to the target, and no other such powers cost less in blocks. Among equals the
/// first offer in merit order gets the most, then the next": "of all block powers of least cost, the
/// greatest when read in merit order". None where no such powers exist.
pub fn cheapest(task: &Task) -> Option<Vec<i128>> {
    let allowed = each_choice(task).filter(|choice| task.allows(choice));
    allowed.min_by_key(|choice| (task.cost(choice), Reverse(choice.clone())))
}

/// How many choices of block powers there are, or none that can be counted.
pub fn choices(task: &Task) -> Option<u64> {
    let widths = task.blocks.iter().map(|block| block.cap - block.floor + 1);
    widths
        .map(|width| u64::try_from(width).ok())
        .try_fold(1u64, |count, width| count.checked_mul(width?))
}

/// Every choice of a power from its floor to its cap for each block.
fn each_choice(task: &Task) -> impl Iterator<Item = Vec<i128>> + '_ {
    let first: Vec<i128> = task.blocks.iter().map(|block| block.floor).collect();
    std::iter::successors(Some(first), |choice| next_choice(task, choice))
}

/// The next choice: the last block that is below its cap gets 1 more, those behind it their floors.
fn next_choice(task: &Task, choice: &[i128]) -> Option<Vec<i128>> {
    let below = |place: &usize| choice[*place] < task.blocks[*place].cap;
    let raised = (0..choice.len()).rev().find(below)?;
    let mut next = choice.to_vec();
    next[raised] += 1;
    for place in raised + 1..next.len() {
        next[place] = task.blocks[place].floor;
    }
    Some(next)
}
