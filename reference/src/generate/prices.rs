//! Cases with other prices and costs: "Two accepted case and plan pairs that differ in prices and
//! costs only, at will, give the same market copy".

use crate::case::{Case, Device, ReactiveReserves, Reserves, Terms};
use crate::edition::Edition;
use crate::rng::Rng;

/// Draws every price and cost of a case anew, each by itself within its range: "mismatch and overrun
/// price, shortfall prices, on, start, stop and state costs, block prices, reserve prices. Shares,
/// minima, caps, floors, downtimes and every count are not." What the edition lacks stays neutral.
pub fn exchange_prices(rng: &mut Rng, edition: Edition, case: &mut Case) {
    let mut draw = Draw {
        equal_per_cent: rng.pick(&[0, 0, 50, 100]),
        rng,
    };
    case.mismatch_price = draw.one(1, 10_000);
    case.overrun_price = draw.one(1, 10_000);
    for zone in &mut case.zones {
        for price in &mut zone.shortfall_prices[..edition.shortfalls()] {
            *price = draw.one(1, 100);
        }
    }
    for device in &mut case.devices {
        exchange_costs(&mut draw, device);
        for terms in &mut device.terms {
            exchange_offers(&mut draw, edition, terms);
        }
    }
}

/// Random prices, of which so many in a hundred are the least or the greatest: equal ones are common
/// then.
struct Draw<'a> {
    rng: &'a mut Rng,
    equal_per_cent: usize,
}

impl Draw<'_> {
    fn one(&mut self, low: i128, high: i128) -> i128 {
        if self.rng.chance(self.equal_per_cent) {
            self.rng.pick(&[low, high])
        } else {
            self.rng.from_to(low, high)
        }
    }
}

fn exchange_costs(draw: &mut Draw, device: &mut Device) {
    const HIGHEST_COST: i128 = 1_000_000_000;
    device.on_cost = draw.one(0, 100_000);
    device.start_cost = draw.one(0, HIGHEST_COST);
    device.stop_cost = draw.one(0, HIGHEST_COST);
    for state in &mut device.startup_states {
        state.cost = draw.one(-HIGHEST_COST, HIGHEST_COST);
    }
}

fn exchange_offers(draw: &mut Draw, edition: Edition, terms: &mut Terms) {
    const HIGHEST_PRICE: i128 = 10_000;
    for block in &mut terms.blocks {
        block.price = draw.one(-HIGHEST_PRICE, HIGHEST_PRICE);
    }
    let eight = [(); 8].map(|_| draw.one(0, HIGHEST_PRICE));
    terms.reserve_prices = Reserves::from_order(eight);
    if edition.has_reactive_power() {
        let two = [(); 2].map(|_| draw.one(0, HIGHEST_PRICE));
        terms.reactive_prices = ReactiveReserves::from_order(two);
    }
}
