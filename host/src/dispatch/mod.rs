//! The cheapest dispatch of one interval, and its words for the desk program.

pub mod words;

use crate::{word, Fault, Told};

/// A block that is offered.
#[repr(C)]
#[derive(Clone, Copy, PartialEq, Eq, PartialOrd, Ord, Debug)]
pub struct Offer {
    /// The device's number, from 1.
    pub set: u64,
    /// From 1.
    pub block: u64,
    pub cap: u64,
    /// 0 before edition 3.
    pub floor: u64,
    /// Grains per kW min.
    pub price: i64,
}

impl Offer {
    /// Merit order: price, then device, then block.
    pub fn merit(&self) -> (i64, u64, u64) {
        (self.price, self.set, self.block)
    }
}

extern "C" {
    fn kadunfo_dispatch(
        case: *const u8,
        case_length: usize,
        interval: u64,
        sets: *const u64,
        sets_length: usize,
        powers: *mut u64,
        powers_length: usize,
        offers: *mut Offer,
        offers_length: usize,
        target: u64,
        figures: *mut u64,
        figures_length: usize,
    ) -> u64;
}

/// What asking for a dispatch comes to.
#[derive(Clone, Copy, PartialEq, Eq, Debug)]
pub enum Dispatched {
    /// The powers stand over the earlier ones, and the offers in merit order.
    Powers,
    CaseRefused(Fault),
    /// Number 8: the interval or a device is not in the case, a device consumes or is named twice, the
    /// earlier powers are not as many as the devices, or the offers are not exactly their blocks.
    NotOfCase,
    /// Number 9: no powers within the bounds add up to the target.
    NoSuchPowers {
        target: u64,
    },
    /// A word, or figures with it, that the header does not have.
    Unknown {
        word: u64,
    },
}

/// "it refuses with 8".
const NOT_OF_CASE: u64 = 8;
/// "then with 9".
const NO_SUCH_POWERS: u64 = 9;

/// Writes the cheapest powers that add up to `target` over the earlier `powers` of `sets`, in the order
/// named, and puts `offers` in merit order; any refusal leaves both as they came.
pub fn dispatch(
    case: &[u8],
    interval: u64,
    sets: &[u64],
    powers: &mut [u64],
    offers: &mut [Offer],
    target: u64,
) -> Dispatched {
    // SAFETY: each pointer comes with the length of its slice, the slices do not overlap, and an offer
    // has the header's layout.
    let told = Told::by(|figures, length| unsafe {
        kadunfo_dispatch(
            case.as_ptr(),
            case.len(),
            interval,
            sets.as_ptr(),
            sets.len(),
            powers.as_mut_ptr(),
            powers.len(),
            offers.as_mut_ptr(),
            offers.len(),
            target,
            figures,
            length,
        )
    });
    told.into()
}

impl From<Told> for Dispatched {
    fn from(told: Told) -> Dispatched {
        match (told.word, told.figures) {
            (word::DISPATCHED, [0, 0, 0, 0]) => Dispatched::Powers,
            (word::CASE_REFUSED, [number, bit, 0, 0]) => {
                Dispatched::CaseRefused(Fault { number, bit })
            }
            (word::NOT_DISPATCHED, [NOT_OF_CASE, 0, 0, 0]) => Dispatched::NotOfCase,
            (word::NOT_DISPATCHED, [NO_SUCH_POWERS, target, 0, 0]) => {
                Dispatched::NoSuchPowers { target }
            }
            (word, _) => Dispatched::Unknown { word },
        }
    }
}
