//! The most that can be asked.

use std::cmp::Reverse;

use crate::batch::join;
use crate::bits::HIGHEST_POWER;
use crate::case::{Block, Case, Device, Side, Terms, MOST_ITEMS};
use crate::dispatch::{bounds_of, offers_of, Offer, Question};
use crate::edition::Edition;
use crate::encode::encode_case;
use crate::form::Largest;
use crate::generate::dispatches::shuffle;
use crate::rng::Rng;

/// How the offers of the widest question come.
#[derive(Clone, Copy, PartialEq, Eq, Debug)]
pub enum Arrangement {
    /// By set, then by block.
    BySet,
    ByMerit,
    /// The other way round than by merit.
    Against,
    Shuffled,
}

impl Arrangement {
    pub const ALL: [Arrangement; 4] = [
        Arrangement::BySet,
        Arrangement::ByMerit,
        Arrangement::Against,
        Arrangement::Shuffled,
    ];

    pub fn name(self) -> &'static str {
        match self {
            Arrangement::BySet => "set",
            Arrangement::ByMerit => "merit",
            Arrangement::Against => "against",
            Arrangement::Shuffled => "shuffled",
        }
    }

    fn arrange(self, rng: &mut Rng, offers: &mut [Offer]) {
        match self {
            Arrangement::BySet => offers.sort(),
            Arrangement::ByMerit => offers.sort_by_key(Offer::merit),
            Arrangement::Against => offers.sort_by_key(|offer| Reverse(offer.merit())),
            Arrangement::Shuffled => shuffle(rng, offers),
        }
    }
}

/// The power of every set in the interval before.
const EARLIER: u64 = 20_000;

/// 64 sets with four blocks each, every set named, from the last to the first, and a target so many
/// thousandths of the way from the least to the most.
pub fn widest_batch(rng: &mut Rng, thousandths: i128, arrangement: Arrangement) -> Vec<u8> {
    let case = widest_case(rng);
    let sets: Vec<u64> = (1..=case.devices.len() as u64).rev().collect();
    let mut offers = offers_of(&case, 0, &sets);
    arrangement.arrange(rng, &mut offers);
    let bounds = |device| bounds_of(&case, device, 0, i128::from(EARLIER));
    let low: i128 = case.devices.iter().map(|device| bounds(device).0).sum();
    let high: i128 = case.devices.iter().map(|device| bounds(device).1).sum();
    let target = low + (high - low) * thousandths / 1_000;
    let question = Question {
        interval: 1,
        powers: vec![EARLIER; sets.len()],
        sets,
        offers,
        target: u64::try_from(target).expect("a power"),
    };
    join(&[
        encode_case(Edition::NEWEST, &case).bytes,
        question.to_bytes(),
    ])
}

/// One interval of six hours, 64 producing sets with floors and prices of their own.
fn widest_case(rng: &mut Rng) -> Case {
    let mut block = || Block {
        cap: rng.from_to(5_000, 25_000),
        floor: rng.from_to(0, 20),
        price: rng.from_to(-10_000, 10_000),
    };
    let mut device = || {
        let terms = Terms {
            pmin: 40,
            pmax: HIGHEST_POWER,
            blocks: (0..MOST_ITEMS).map(|_| block()).collect(),
            ..Terms::default()
        };
        Device::plain(Side::Producing, vec![terms])
    };
    Case {
        mismatch_price: 1,
        overrun_price: 1,
        link_limit: 0,
        durations: vec![360],
        zones: Vec::new(),
        devices: (0..Largest::LARGE.devices).map(|_| device()).collect(),
    }
}
