//! Cases with offers to dispatch.

use crate::bits::HIGHEST_POWER;
use crate::case::{Block, Case, Device, Side, Terms, MOST_ITEMS};
use crate::edition::Edition;
use crate::generate::device::Scale;
use crate::generate::sample::{sample_of, wild_case};
use crate::generate::shape::{Shape, Size};
use crate::rng::Rng;

const HIGHEST_PRICE: i128 = 10_000;

/// A case of any edition: as the long run of plans has it, or with offers made for dispatching.
pub fn random_case(rng: &mut Rng) -> (Edition, Case) {
    if rng.chance(15) {
        return wild_case(rng, Size::Small);
    }
    let size = match rng.below(20) {
        0 => Size::Tiny,
        1..=8 => Size::Small,
        9..=14 => Size::Medium,
        15..=17 => Size::Full,
        _ => Size::Greatest,
    };
    let edition = rng.pick(&size.editions());
    let shape = Shape {
        intervals: 1 + rng.below(4),
        ..Shape::random(rng, size)
    };
    let mut case = sample_of(rng, edition, &shape, Scale::Low).case;
    if rng.chance(85) {
        retune(rng, edition, &mut case);
    }
    (edition, case)
}

/// How great the powers of offers are, and which prices there are.
struct Tune {
    highest_cap: i128,
    prices: Vec<i128>,
    floors_percent: usize,
    /// How many of a hundred have limits that need not fit their blocks.
    odd_percent: usize,
}

impl Tune {
    fn random(rng: &mut Rng, edition: Edition) -> Tune {
        let any = rng.from_to(-HIGHEST_PRICE, HIGHEST_PRICE);
        let few = [any, any, 0, 3, -3, HIGHEST_PRICE, -HIGHEST_PRICE];
        let mut any_price = || rng.from_to(-HIGHEST_PRICE, HIGHEST_PRICE);
        let many: Vec<i128> = (0..40).map(|_| any_price()).collect();
        Tune {
            highest_cap: rng.pick(&[1, 3, 10, 200, 25_000, HIGHEST_POWER]),
            prices: match rng.below(4) {
                0 => vec![any],
                1 => few[..2 + rng.below(few.len() - 1)].to_vec(),
                2 => (-2..=2).collect(),
                _ => many,
            },
            floors_percent: if edition.has_floors() {
                rng.pick(&[0, 20, 60, 100])
            } else {
                0
            },
            odd_percent: rng.pick(&[0, 0, 0, 2, 30]),
        }
    }

    fn block(&self, rng: &mut Rng) -> Block {
        let cap = match rng.below(8) {
            0 => 0,
            1 => self.highest_cap,
            _ => rng.from_to(0, self.highest_cap),
        };
        let any = rng.from_to(0, cap);
        let floor = if rng.chance(self.floors_percent) {
            rng.pick(&[0, cap / 2, cap, any])
        } else {
            0
        };
        Block {
            cap,
            floor: floor.min(HIGHEST_POWER / MOST_ITEMS as i128),
            price: rng.pick(&self.prices),
        }
    }

    fn terms(&self, rng: &mut Rng, terms: &mut Terms) {
        let blocks = if rng.chance(30) {
            MOST_ITEMS
        } else {
            rng.below(MOST_ITEMS + 1)
        };
        terms.blocks = (0..blocks).map(|_| self.block(rng)).collect();
        if rng.chance(self.odd_percent) {
            terms.pmax = rng.from_to(0, HIGHEST_POWER);
            terms.pmin = rng.from_to(0, terms.pmax);
            return;
        }
        let most = terms.sum_of_caps().min(HIGHEST_POWER);
        terms.pmax = match rng.below(3) {
            0 => HIGHEST_POWER,
            1 => rng.from_to(terms.sum_of_floors(), most),
            _ => most,
        };
        terms.pmin = match rng.below(3) {
            0 => rng.from_to(0, terms.pmax.min(most)),
            _ => rng.from_to(0, terms.sum_of_floors().min(terms.pmax)),
        };
    }

    fn device(&self, rng: &mut Rng, device: &mut Device) {
        device.side = if rng.chance(12) {
            Side::Consuming
        } else {
            Side::Producing
        };
        device.start_windows.clear();
        device.energy_windows.clear();
        let ramp = |rng: &mut Rng| match rng.below(3) {
            0 => 1,
            1 => rng.from_to(1, (self.highest_cap / 2).max(1)),
            _ => rng.from_to(1, HIGHEST_POWER),
        };
        device.ramps.up = ramp(rng);
        device.ramps.down = ramp(rng);
        for terms in &mut device.terms {
            self.terms(rng, terms);
        }
    }
}

/// Gives every device offers, limits and ramps that bind, and intervals so short that ramps do.
fn retune(rng: &mut Rng, edition: Edition, case: &mut Case) {
    let tune = Tune::random(rng, edition);
    for duration in &mut case.durations {
        *duration = rng.pick(&[2, 2, 4, 60, 360]);
    }
    for device in &mut case.devices {
        tune.device(rng, device);
    }
    case.devices[0].side = Side::Producing;
}
