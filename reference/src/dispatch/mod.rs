//! "Cheapest dispatch of one interval" (A.10).
//!
//! "A duty engineer has a load figure and the sets that stay on, and wants powers." The definition,
//! by trying all powers of all blocks, is [`exhaustive`]; days of every size are answered by
//! [`exchange`], which starts anywhere and moves power between two blocks while that is better. The
//! two are held to one another by tests. [`stream`] and [`run`] are the long run.

pub mod exchange;
pub mod exhaustive;
pub mod run;
pub mod stream;

use crate::case::{read_case, Block, Case, Device, Side};
use crate::fault::Fault;

/// "a list of offers, each with its set, block number (both from 1), cap, floor and price".
#[derive(Clone, Copy, PartialEq, Eq, PartialOrd, Ord, Debug)]
pub struct Offer {
    pub set: u64,
    pub block: u64,
    pub cap: u64,
    pub floor: u64,
    pub price: i64,
}

impl Offer {
    /// "merit order: price, then set, then block".
    pub fn merit(&self) -> (i64, u64, u64) {
        (self.price, self.set, self.block)
    }
}

/// What is asked beside the case, with the two lists that are lent.
#[derive(Clone, PartialEq, Eq, Debug)]
pub struct Question {
    pub interval: u64,
    /// "the producing sets on in this interval and the one before", in the order named.
    pub sets: Vec<u64>,
    /// "their earlier powers"; the answer "is written over" them.
    pub powers: Vec<u64>,
    pub offers: Vec<Offer>,
    pub target: u64,
}

#[derive(Clone, Copy, PartialEq, Eq, Debug)]
pub enum Answer {
    /// The powers and the list in merit order stand where they were lent.
    Dispatched,
    /// "After all reading refusals".
    CaseRefused(Fault),
    /// "it refuses with 8 (returned: 0) exactly when the interval or a set is not in the case, a set
    /// consumes or is named twice, the earlier powers are not as many as the sets, or the offers are
    /// not those blocks".
    NotOfCase,
    /// "then with 9 (returned: the target) exactly when no such powers exist".
    NoSuchPowers { target: u64 },
}

/// Answers a question on the bytes of a case: "on any refusal the list keeps the order it came in,
/// and the earlier powers are untouched."
pub fn dispatch(case: &[u8], question: &mut Question) -> Answer {
    match read_case(case) {
        Ok((_, case)) => dispatch_in(&case, question),
        Err(fault) => Answer::CaseRefused(fault),
    }
}

/// The same for a case that passed reading.
pub fn dispatch_in(case: &Case, question: &mut Question) -> Answer {
    let Some(task) = Task::of(case, question) else {
        return Answer::NotOfCase;
    };
    let Some(block_powers) = exchange::cheapest(&task) else {
        return Answer::NoSuchPowers {
            target: question.target,
        };
    };
    let powers = task.powers(&block_powers);
    let small = |power: i128| u64::try_from(power).expect("a power within its bounds");
    question.powers = powers.into_iter().map(small).collect();
    question.offers.sort_by_key(Offer::merit);
    Answer::Dispatched
}

/// Block powers within bounds that add up to a target.
#[derive(Clone, PartialEq, Eq, Debug)]
pub struct Task {
    /// Of each set, in the order named, the least and the greatest power.
    pub bounds: Vec<(i128, i128)>,
    /// In merit order.
    pub blocks: Vec<TaskBlock>,
    pub target: i128,
}

/// A block on offer, and whose it is.
#[derive(Clone, Copy, PartialEq, Eq, Debug)]
pub struct TaskBlock {
    /// The place of its set among those named, from 0.
    pub owner: usize,
    pub cap: i128,
    pub floor: i128,
    pub price: i128,
}

impl Task {
    /// The task of a question; none where it is refused with 8.
    pub fn of(case: &Case, question: &Question) -> Option<Task> {
        let t = place(question.interval, case.intervals())?;
        let devices: Vec<&Device> = question
            .sets
            .iter()
            .map(|&set| producing(case, set))
            .collect::<Option<_>>()?;
        if is_any_twice(&question.sets) || question.powers.len() != question.sets.len() {
            return None;
        }
        if !is_same_list(&question.offers, &offers_of(case, t, &question.sets)) {
            return None;
        }
        let bounds = devices.iter().zip(&question.powers);
        Some(Task {
            bounds: bounds
                .map(|(device, &earlier)| bounds_of(case, device, t, i128::from(earlier)))
                .collect(),
            blocks: in_merit_order(&question.sets, &question.offers),
            target: i128::from(question.target),
        })
    }

    /// What each set's blocks come to, in the order named.
    pub fn powers(&self, block_powers: &[i128]) -> Vec<i128> {
        let mut powers = vec![0; self.bounds.len()];
        for (block, power) in self.blocks.iter().zip(block_powers) {
            powers[block.owner] += power;
        }
        powers
    }

    /// "Cost is the sum of price·power; d is common to all."
    pub fn cost(&self, block_powers: &[i128]) -> i128 {
        let blocks = self.blocks.iter().zip(block_powers);
        blocks.map(|(block, power)| block.price * power).sum()
    }

    /// Whether each block's power is from its floor to its cap, each set's power "lies within" its
    /// bounds, and "The powers add up to the target".
    pub fn allows(&self, block_powers: &[i128]) -> bool {
        let powers = self.powers(block_powers);
        let within = |(power, (low, high)): (&i128, &(i128, i128))| low <= power && power <= high;
        let honours =
            |(block, power): (&TaskBlock, &i128)| block.floor <= *power && *power <= block.cap;
        block_powers.len() == self.blocks.len()
            && self.blocks.iter().zip(block_powers).all(honours)
            && powers.iter().zip(&self.bounds).all(within)
            && powers.iter().sum::<i128>() == self.target
    }
}

/// The place from 0 of a number from 1, if there is one of so many.
fn place(number: u64, count: usize) -> Option<usize> {
    let place = usize::try_from(number.checked_sub(1)?).ok()?;
    (place < count).then_some(place)
}

/// The device of a set that is in the case and does not consume.
fn producing(case: &Case, set: u64) -> Option<&Device> {
    let device = &case.devices[place(set, case.devices.len())?];
    (device.side == Side::Producing).then_some(device)
}

fn is_any_twice(sets: &[u64]) -> bool {
    let mut sorted = sets.to_vec();
    sorted.sort();
    sorted.windows(2).any(|pair| pair[0] == pair[1])
}

/// "a list in any order that holds each block of each named set once, with the case's cap, floor (0
/// before edition 3) and price, and nothing else."
fn is_same_list(one: &[Offer], other: &[Offer]) -> bool {
    let sorted = |offers: &[Offer]| {
        let mut offers = offers.to_vec();
        offers.sort();
        offers
    };
    sorted(one) == sorted(other)
}

/// The blocks of sets of the case in the interval at place `t`, by set as named, then by block.
pub fn offers_of(case: &Case, t: usize, sets: &[u64]) -> Vec<Offer> {
    let small = |figure: i128| u64::try_from(figure).expect("a power of the case");
    let of_set = |&set: &u64| {
        let device = &case.devices[place(set, case.devices.len()).expect("a set of the case")];
        let offer = move |(block, offered): (u64, &Block)| Offer {
            set,
            block,
            cap: small(offered.cap),
            floor: small(offered.floor),
            price: i64::try_from(offered.price).expect("a price of the case"),
        };
        (1..).zip(&device.terms[t].blocks).map(offer)
    };
    sets.iter().flat_map(of_set).collect()
}

/// "from max(pmin, sum of floors, earlier − d·down) to min(pmax, sum of caps, earlier + d·up)".
pub fn bounds_of(case: &Case, device: &Device, t: usize, earlier: i128) -> (i128, i128) {
    let (terms, d) = (&device.terms[t], case.durations[t]);
    let low = terms.pmin.max(terms.sum_of_floors());
    let high = terms.pmax.min(terms.sum_of_caps());
    (
        low.max(earlier - d * device.ramps.down),
        high.min(earlier + d * device.ramps.up),
    )
}

fn in_merit_order(sets: &[u64], offers: &[Offer]) -> Vec<TaskBlock> {
    let mut sorted = offers.to_vec();
    sorted.sort_by_key(Offer::merit);
    let block = |offer: &Offer| TaskBlock {
        owner: sets
            .iter()
            .position(|&set| set == offer.set)
            .expect("an offer of a named set"),
        cap: i128::from(offer.cap),
        floor: i128::from(offer.floor),
        price: i128::from(offer.price),
    };
    sorted.iter().map(block).collect()
}
