//! Floors of generated blocks (A.6): none, below pmin, at the powers that a device can run at, as
//! great as their caps, and, where the device is off, greater than any power it has.

use crate::case::{Device, Terms};
use crate::rng::Rng;

/// Gives the blocks of a device floors with which it may still be on where `on` says so.
pub fn set_floors(rng: &mut Rng, on: &[bool], device: &mut Device) {
    let percent = rng.pick(&[0, 50, 100, 100]);
    for (terms, &on) in device.terms.iter_mut().zip(on) {
        if rng.chance(percent) {
            let floors = sum_of_floors(rng, terms, on);
            spread_floors(rng, terms, floors);
        }
    }
}

/// What the floors of an interval come to together.
fn sum_of_floors(rng: &mut Rng, terms: &Terms, on: bool) -> i128 {
    let caps = terms.sum_of_caps();
    let highest = caps.min(terms.pmax);
    let least = terms.pmin.min(highest);
    match rng.below(8) {
        0 => rng.from_to(0, least),
        1 => least,
        2 => highest,
        3..=5 => rng.from_to(least, highest),
        6 => rng.from_to(least, least + (highest - least) / 4),
        _ if on => rng.from_to(0, highest),
        _ => rng.from_to(highest, caps),
    }
}

/// Spreads floors over the blocks, none above its cap: by chance, or each block in turn up to its
/// cap, from the first or from the last.
fn spread_floors(rng: &mut Rng, terms: &mut Terms, floors: i128) {
    let count = terms.blocks.len();
    let mut order: Vec<usize> = (0..count).collect();
    if rng.chance(50) {
        order.reverse();
    }
    let by_chance = rng.chance(50);
    let mut left = floors;
    for m in order.clone() {
        let block = &mut terms.blocks[m];
        let most = left.min(block.cap);
        block.floor = if by_chance {
            rng.from_to(0, most)
        } else {
            most
        };
        left -= block.floor;
    }
    for m in order {
        let block = &mut terms.blocks[m];
        let more = left.min(block.cap - block.floor);
        block.floor += more;
        left -= more;
    }
}

/// Lowers the floors of every interval, from the last block on, until they come to pmin at most.
pub fn lower_floors_to_pmin(device: &mut Device) {
    for terms in &mut device.terms {
        let mut beyond = (terms.sum_of_floors() - terms.pmin).max(0);
        for block in terms.blocks.iter_mut().rev() {
            let less = beyond.min(block.floor);
            block.floor -= less;
            beyond -= less;
        }
    }
}

/// Any floors at all, none above its cap.
pub fn scramble_floors(rng: &mut Rng, device: &mut Device) {
    for block in device.terms.iter_mut().flat_map(|terms| &mut terms.blocks) {
        block.floor = rng
            .pick(&[0, 0, 0, 1, block.cap, block.cap / 10])
            .min(block.cap);
    }
}
