//! Questions for the cheapest dispatch of an interval (A.10): ties, equal prices, tight bounds,
//! targets at both ends and one beyond, and every way to be refused with 8 or 9.

mod cases;
mod widest;

pub use cases::random_case;
pub use widest::{widest_batch, Arrangement};

use std::cmp::Reverse;

use crate::batch::join;
use crate::case::{Case, Side};
use crate::dispatch::{bounds_of, offers_of, Offer, Question};
use crate::encode::encode_case;
use crate::generate::damage::damaged;
use crate::rng::Rng;

/// A case and questions for it: now and then one that is refused in reading.
pub fn random_batch(rng: &mut Rng, questions: usize) -> Vec<u8> {
    let (edition, case) = random_case(rng);
    let message = encode_case(edition, &case);
    let bytes = if rng.chance(3) {
        damaged(rng, &message)
    } else {
        message.bytes
    };
    let mut messages = vec![bytes];
    for _ in 0..questions {
        messages.push(random_question(rng, &case).to_bytes());
    }
    join(&messages)
}

/// A question for a case; about one in five is spoilt so that it is refused with 8.
pub fn random_question(rng: &mut Rng, case: &Case) -> Question {
    let t = rng.below(case.intervals());
    let sets = random_sets(rng, case);
    let mut question = Question {
        interval: t as u64 + 1,
        powers: random_powers(rng, case, t, &sets),
        offers: offers_of(case, t, &sets),
        sets,
        target: 0,
    };
    question.target = random_target(rng, case, &question);
    arrange(rng, &mut question.offers);
    if rng.chance(20) {
        spoil(rng, case, &mut question);
    }
    question
}

fn shuffle<T>(rng: &mut Rng, items: &mut [T]) {
    for last in (1..items.len()).rev() {
        items.swap(last, rng.below(last + 1));
    }
}

/// Producing sets in any order: none, one, some or all.
fn random_sets(rng: &mut Rng, case: &Case) -> Vec<u64> {
    let numbered = (1..).zip(&case.devices);
    let mut sets: Vec<u64> = numbered
        .filter(|(_, device)| device.side == Side::Producing)
        .map(|(number, _)| number)
        .collect();
    if rng.chance(80) {
        shuffle(rng, &mut sets);
    }
    let wanted = match rng.below(40) {
        0 => 0,
        1..=3 => 1,
        4..=6 => 2,
        7..=16 => 1 + rng.below(sets.len() + 1),
        _ => sets.len(),
    };
    sets.truncate(wanted);
    sets
}

/// Lists come in any order, now and then in merit order or the other way round.
fn arrange(rng: &mut Rng, offers: &mut [Offer]) {
    match rng.below(5) {
        0 => {}
        1 => offers.sort_by_key(Offer::merit),
        2 => offers.sort_by_key(|offer| Reverse(offer.merit())),
        _ => shuffle(rng, offers),
    }
}

/// Earlier powers from which the bounds can be kept, now and then but for one set.
fn random_powers(rng: &mut Rng, case: &Case, t: usize, sets: &[u64]) -> Vec<u64> {
    let is_tight = rng.chance(40);
    let reaches = sets.iter().map(|&set| Reach::of(case, set, t));
    let reaches: Vec<Reach> = reaches.collect();
    let earlier = |reach: &Reach| as_power(reach.earlier_power(rng, is_tight));
    let mut powers: Vec<u64> = reaches.iter().map(earlier).collect();
    if !powers.is_empty() && rng.chance(15) {
        let which = rng.below(powers.len());
        let reach = &reaches[which];
        powers[which] = match rng.below(3) {
            0 => as_power(reach.high + reach.down + 1),
            1 => as_power(reach.low - reach.up - 1),
            _ => any_number(rng),
        };
    }
    powers
}

fn as_power(power: i128) -> u64 {
    u64::try_from(power.max(0)).expect("a power")
}

/// The limits of a set without its ramps, and how far these go.
struct Reach {
    low: i128,
    high: i128,
    down: i128,
    up: i128,
}

impl Reach {
    fn of(case: &Case, set: u64, t: usize) -> Reach {
        let device = &case.devices[set as usize - 1];
        let (terms, d) = (&device.terms[t], case.durations[t]);
        Reach {
            low: terms.pmin.max(terms.sum_of_floors()),
            high: terms.pmax.min(terms.sum_of_caps()),
            down: d * device.ramps.down,
            up: d * device.ramps.up,
        }
    }

    /// A power at which the set may have been: between its limits, as far from one of these powers
    /// as a ramp goes, or so that one power alone is left.
    fn earlier_power(&self, rng: &mut Rng, is_tight: bool) -> i128 {
        let between = rng.from_to(self.low.min(self.high), self.high.max(self.low));
        match rng.below(8) {
            0 if is_tight => self.high + self.down,
            1 if is_tight => self.low - self.up,
            2 | 3 if is_tight => between + self.down,
            4 | 5 if is_tight => between - self.up,
            6 => self.low,
            7 => self.high,
            _ => between,
        }
    }
}

fn any_number(rng: &mut Rng) -> u64 {
    match rng.below(6) {
        0 => 0,
        1 => u64::MAX - rng.draw() % 40_000_000,
        2 => 1 << 63,
        3 => rng.draw(),
        4 => u64::MAX,
        _ => rng.draw() % 200_000,
    }
}

/// A target at both ends, one beyond, between them, or any number.
fn random_target(rng: &mut Rng, case: &Case, question: &Question) -> u64 {
    let t = question.interval as usize - 1;
    let (mut low, mut high) = (0, 0);
    for (&set, &earlier) in question.sets.iter().zip(&question.powers) {
        let device = &case.devices[set as usize - 1];
        let bounds = bounds_of(case, device, t, i128::from(earlier));
        low += bounds.0;
        high += bounds.1;
    }
    let target = match rng.below(20) {
        0 | 1 => low,
        2 | 3 => high,
        4 => low - 1,
        5 => high + 1,
        6 => return any_number(rng),
        7 => low + 1,
        8 => high - 1,
        _ => rng.from_to(low.min(high), high.max(low)),
    };
    u64::try_from(target).unwrap_or(0)
}

/// Spoils a question so that it is refused with 8, whatever its target is.
fn spoil(rng: &mut Rng, case: &Case, question: &mut Question) {
    match rng.below(10) {
        0 => question.interval = beyond(rng, case.intervals()),
        1 => add_set(rng, question, |rng| beyond(rng, case.devices.len())),
        2 => add_consuming(rng, case, question),
        3 => name_twice(rng, case, question),
        4 if rng.chance(50) => question.powers.push(any_number(rng)),
        4 if !question.powers.is_empty() => {
            question.powers.pop();
        }
        _ => spoil_offers(rng, case, question),
    }
}

/// A number that none of so many has.
fn beyond(rng: &mut Rng, count: usize) -> u64 {
    let above = count as u64 + 1;
    rng.pick(&[0, above, above + 1, u64::MAX, 1 << 32, (1 << 32) + 1])
}

fn add_set(rng: &mut Rng, question: &mut Question, number: impl Fn(&mut Rng) -> u64) {
    let at = rng.below(question.sets.len() + 1);
    question.sets.insert(at, number(rng));
    question.powers.insert(at, rng.draw() % 300);
}

/// Names a set that consumes, with its blocks among the offers.
fn add_consuming(rng: &mut Rng, case: &Case, question: &mut Question) {
    let numbered = (1..).zip(&case.devices);
    let consuming: Vec<u64> = numbered
        .filter(|(_, device)| device.side == Side::Consuming)
        .map(|(number, _)| number)
        .collect();
    if consuming.is_empty() {
        return spoil_offers(rng, case, question);
    }
    let set = rng.pick(&consuming);
    let t = question.interval as usize - 1;
    question.offers.extend(offers_of(case, t, &[set]));
    add_set(rng, question, |_| set);
}

/// Names a set twice, with its blocks among the offers once or twice.
fn name_twice(rng: &mut Rng, case: &Case, question: &mut Question) {
    if question.sets.is_empty() {
        return question.interval = beyond(rng, case.intervals());
    }
    let set = rng.pick(&question.sets);
    if rng.chance(50) {
        let t = question.interval as usize - 1;
        question.offers.extend(offers_of(case, t, &[set]));
    }
    add_set(rng, question, |_| set);
}

/// Makes the list another than that of the blocks, most of the time: missing, extra, twice or
/// changed offers, those of another set or interval.
fn spoil_offers(rng: &mut Rng, case: &Case, question: &mut Question) {
    let count = question.offers.len();
    let t = rng.below(case.intervals());
    let any_set = 1 + rng.below(case.devices.len()) as u64;
    match rng.below(7) {
        0 if count > 0 => {
            question.offers.remove(rng.below(count));
        }
        1 if count > 0 => question.offers.push(question.offers[rng.below(count)]),
        2 if count > 1 => question.offers[rng.below(count)] = question.offers[rng.below(count)],
        3 => question.offers = offers_of(case, t, &question.sets),
        4 => question.offers.extend(offers_of(case, t, &[any_set])),
        5 if count > 0 => {
            let which = rng.below(count);
            change_offer(rng, &mut question.offers[which]);
        }
        6 if count > 1 => exchange_figure(rng, &mut question.offers),
        _ => question.offers.push(Offer {
            set: any_set,
            block: 1 + rng.below(5) as u64,
            cap: 0,
            floor: 0,
            price: 0,
        }),
    }
}

/// Changes one figure of an offer, by 1 or to any number.
fn change_offer(rng: &mut Rng, offer: &mut Offer) {
    let any = rng.draw();
    let changed = |rng: &mut Rng, figure: u64| match rng.below(4) {
        0 => figure.wrapping_add(1),
        1 => figure.wrapping_sub(1),
        2 => figure ^ (1 << 32),
        _ => any,
    };
    match rng.below(5) {
        0 => offer.set = changed(rng, offer.set),
        1 => offer.block = changed(rng, offer.block),
        2 => offer.cap = changed(rng, offer.cap),
        3 => offer.floor = changed(rng, offer.floor),
        _ => {
            let turned = offer.price.wrapping_neg();
            let other = changed(rng, offer.price as u64) as i64;
            offer.price = rng.pick(&[turned, other, i64::MIN, i64::MAX]);
        }
    }
}

/// Exchanges one figure of two offers: the list stays as it was where they have it in common.
fn exchange_figure(rng: &mut Rng, offers: &mut [Offer]) {
    let (one, other) = (rng.below(offers.len()), rng.below(offers.len()));
    let (first, second) = (offers[one], offers[other]);
    match rng.below(5) {
        0 => (offers[one].set, offers[other].set) = (second.set, first.set),
        1 => (offers[one].block, offers[other].block) = (second.block, first.block),
        2 => (offers[one].cap, offers[other].cap) = (second.cap, first.cap),
        3 => (offers[one].floor, offers[other].floor) = (second.floor, first.floor),
        _ => (offers[one].price, offers[other].price) = (second.price, first.price),
    }
}
