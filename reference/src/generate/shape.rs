//! How large a generated case is.

use crate::case::MOST_ZONES;
use crate::edition::Edition;
use crate::form::Largest;
use crate::rng::Rng;

#[derive(Clone, Copy, PartialEq, Eq, Debug)]
pub enum Size {
    /// A message that a person can read: 1 or 2 devices, 1 to 3 intervals, at most one zone.
    Tiny,
    Small,
    Medium,
    Large,
    /// Every count at its greatest for the batch form: 16 devices, 48 intervals, 4 zones, 3 states,
    /// 4 of every other item.
    Full,
    /// More than the batch form takes: 17 to 24 devices and 49 to 60 intervals, or one of both far
    /// above and the other small.
    Beyond,
    /// Every count at its greatest for the host form: 64 devices, 96 intervals.
    Greatest,
}

impl Size {
    /// The editions whose counts can say it.
    pub fn editions(self) -> Vec<Edition> {
        let all = Edition::ALL.into_iter();
        let is_beyond = matches!(self, Size::Beyond | Size::Greatest);
        all.filter(|edition| edition.has_large_counts() || !is_beyond)
            .collect()
    }
}

/// The counts of a case.
#[derive(Clone, Copy, PartialEq, Eq, Debug)]
pub struct Shape {
    pub size: Size,
    pub devices: usize,
    pub intervals: usize,
    pub zones: usize,
}

impl Shape {
    pub fn random(rng: &mut Rng, size: Size) -> Shape {
        let small = Largest::SMALL;
        let (devices, intervals) = match size {
            Size::Tiny => {
                let devices = if rng.chance(75) { 1 } else { 2 };
                (devices, 1 + rng.below(if devices == 1 { 3 } else { 2 }))
            }
            Size::Small => (1 + rng.below(4), 1 + rng.below(8)),
            Size::Medium => (1 + rng.below(8), 4 + rng.below(21)),
            Size::Large => (
                8 + rng.below(small.devices - 7),
                24 + rng.below(small.intervals - 23),
            ),
            Size::Full => (small.devices, small.intervals),
            Size::Beyond => counts_beyond(rng),
            Size::Greatest => (Largest::LARGE.devices, Largest::LARGE.intervals),
        };
        let zones = match size {
            Size::Tiny => rng.below(2),
            Size::Full | Size::Greatest => MOST_ZONES,
            _ => rng.below(MOST_ZONES + 1),
        };
        Shape {
            size,
            devices,
            intervals,
            zones,
        }
    }

    /// Whether every list of it is as long as may be.
    pub fn is_full(&self) -> bool {
        matches!(self.size, Size::Full | Size::Greatest)
    }

    /// How many states, windows or blocks to give, of which there may be `most`.
    pub fn items(&self, rng: &mut Rng, most: usize) -> usize {
        match self.size {
            Size::Tiny => {
                if rng.chance(60) {
                    0
                } else {
                    1 + rng.below(2)
                }
            }
            _ if self.is_full() => most,
            _ => rng.below(most + 1),
        }
    }
}

/// Devices and intervals of which one count at least is more than the batch form takes.
fn counts_beyond(rng: &mut Rng) -> (usize, usize) {
    let (small, large) = (Largest::SMALL, Largest::LARGE);
    let more_devices = |rng: &mut Rng, most: usize| small.devices + 1 + rng.below(most);
    let more_intervals = |rng: &mut Rng, most: usize| small.intervals + 1 + rng.below(most);
    match rng.below(10) {
        0 | 1 => {
            let most = large.devices - small.devices;
            (more_devices(rng, most), 1 + rng.below(6))
        }
        2 | 3 => {
            let most = large.intervals - small.intervals;
            (1 + rng.below(6), more_intervals(rng, most))
        }
        4 => (more_devices(rng, 8), 1 + rng.below(small.intervals)),
        5 => (1 + rng.below(small.devices), more_intervals(rng, 12)),
        _ => (more_devices(rng, 8), more_intervals(rng, 12)),
    }
}
