//! Orders of a case's devices.

use crate::renumber::Order;
use crate::rng::Rng;

/// Another order of so many devices, each as likely; of one device there is no other.
pub fn random_order(rng: &mut Rng, devices: usize) -> Order {
    loop {
        let order = Order::new(shuffled(rng, devices)).expect("each place is named once");
        if !order.is_old() || devices < 2 {
            return order;
        }
    }
}

/// The places from 0, in any order: each is exchanged with one that is not behind it.
fn shuffled(rng: &mut Rng, count: usize) -> Vec<usize> {
    let mut places: Vec<usize> = (0..count).collect();
    for last in (1..count).rev() {
        places.swap(last, rng.below(last + 1));
    }
    places
}
