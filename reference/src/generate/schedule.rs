//! The dispatch that a commitment leaves open: which powers a device can reach in each interval
//! without breaking rules 5, 6 and 16 to 19 then or later.

use crate::case::Device;
use crate::clock::Span;
use crate::forced::{commit, Commitment};
use crate::generate::reactive::grid_of;
use crate::rng::Rng;
use crate::rules::{most_fall, most_rise};

/// A commitment with, per interval, the least and the greatest power from which the rest of the
/// day can still be followed.
#[derive(Clone, PartialEq, Eq, Debug)]
pub struct Schedule {
    pub commitment: Commitment,
    reach: Vec<(i128, i128)>,
}

/// Which of the rules does not count in the search for a dispatch.
#[derive(Clone, Copy, PartialEq, Eq, Debug)]
pub enum Waived {
    None,
    Rule18,
    Rule19,
}

/// Which of the open powers a dispatch prefers.
#[derive(Clone, Copy, PartialEq, Eq, Debug)]
pub enum Preference {
    Any,
    Least,
    Greatest,
    /// The least or the greatest, by chance in each interval.
    Ends,
}

impl Preference {
    pub fn random(rng: &mut Rng) -> Preference {
        rng.pick(&[
            Preference::Any,
            Preference::Any,
            Preference::Least,
            Preference::Greatest,
            Preference::Ends,
        ])
    }

    /// A figure from `low` to `high`, in steps from `low` on.
    pub fn choose(self, rng: &mut Rng, (low, high): (i128, i128), step: i128) -> i128 {
        match self {
            Preference::Any => low + step * rng.from_to(0, (high - low) / step),
            Preference::Least => low,
            Preference::Greatest => high,
            Preference::Ends => rng.pick(&[low, high]),
        }
    }
}

/// The schedule of a commitment, if any dispatch of it keeps rules 5, 6 and 16 to 19.
pub fn schedule(
    device: &Device,
    spans: &[Span],
    on: Vec<bool>,
    waived: Waived,
) -> Option<Schedule> {
    let commitment = commit(device, spans, on);
    let mut reach = Vec::with_capacity(spans.len());
    for t in 0..spans.len() {
        reach.push(powers_in_limits(device, &commitment, t, waived)?);
    }
    for t in (1..spans.len()).rev() {
        let rise = most_rise(device, spans, &commitment, t);
        let fall = most_fall(device, spans, &commitment, t);
        let (next_low, next_high) = reach[t];
        let (low, high) = reach[t - 1];
        reach[t - 1] = (low.max(next_low - rise), high.min(next_high + fall));
        if reach[t - 1].0 > reach[t - 1].1 {
            return None;
        }
    }
    let schedule = Schedule { commitment, reach };
    let (low, high) = schedule.reach_from(device, spans, 0, device.initial_power);
    (low <= high).then_some(schedule)
}

/// The powers of one interval that rules 16 to 19 allow without reserves.
fn powers_in_limits(
    device: &Device,
    commitment: &Commitment,
    t: usize,
    waived: Waived,
) -> Option<(i128, i128)> {
    let terms = &device.terms[t];
    let trajectory = commitment.trajectory(t);
    let (low, high) = if commitment.on[t] {
        (terms.pmin + trajectory, terms.pmax + trajectory)
    } else {
        (trajectory, trajectory)
    };
    let off_limit = if commitment.on[t] { 0 } else { terms.pmax };
    let keeps_18 = waived == Waived::Rule18 || trajectory <= off_limit;
    let floors = if commitment.on[t] {
        terms.sum_of_floors()
    } else {
        0
    };
    let (low, high) = match waived {
        Waived::Rule19 => (low, high),
        _ => (low.max(floors), high.min(terms.sum_of_caps())),
    };
    (keeps_18 && low <= high).then_some((low, high))
}

impl Schedule {
    /// The least and the greatest power of interval `t` from which the rest of the day can still be
    /// followed.
    pub fn open_powers(&self, t: usize) -> (i128, i128) {
        self.reach[t]
    }

    /// The powers of interval `t` that can follow `previous`.
    fn reach_from(
        &self,
        device: &Device,
        spans: &[Span],
        t: usize,
        previous: i128,
    ) -> (i128, i128) {
        let (low, high) = self.reach[t];
        (
            low.max(previous - most_fall(device, spans, &self.commitment, t)),
            high.min(previous + most_rise(device, spans, &self.commitment, t)),
        )
    }

    /// Online powers of a dispatch that keeps rules 5, 6 and 16 to 19, with whole kvar where the
    /// device's link is an equality.
    pub fn dispatch(
        &self,
        rng: &mut Rng,
        device: &Device,
        spans: &[Span],
        preference: Preference,
    ) -> Vec<i128> {
        let mut previous = device.initial_power;
        let grid = grid_of(device);
        (0..spans.len())
            .map(|t| {
                let open = self.reach_from(device, spans, t, previous);
                previous = preference.choose(rng, open, grid);
                previous - self.commitment.trajectory(t)
            })
            .collect()
    }
}
