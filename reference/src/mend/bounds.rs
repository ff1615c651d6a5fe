//! The mend by bounds, over a range of any length.
//!
//! "One power moves rules 5, 6, 16, 17, 19, 23, 24, 25 of its cell and 5, 6 of the same set in the
//! next interval, nothing else." So a cell's power can mend a plan only where every breach is of
//! these. Each of them is one or two tests that hold on one side of some power and not on the other;
//! the power where a test changes is found by halving the range, and what all tests leave is a range
//! again, whose nearest end is the least change of that cell.

use crate::breaches::breaches_of;
use crate::case::{Case, Device, Side};
use crate::clock::{spans, Span};
use crate::forced::{forced, Forced};
use crate::mend::Mend;
use crate::plan::{Plan, Setting};
use crate::reactive::ReactivePoint;
use crate::rules::{most_fall, most_rise, Place};

/// The rules of its own cell that a power moves.
const RULES_HERE: [u8; 8] = [5, 6, 16, 17, 19, 23, 24, 25];
/// The rules of the same set in the next interval that a power moves.
const RULES_NEXT: [u8; 2] = [5, 6];

/// The accepted replacement of least rank of a power of a broken plan by one from 0 to `most`.
pub fn least_mend(case: &Case, plan: &Plan, most: i128) -> Option<Mend> {
    let breaches = breaches_of(case, plan);
    let spans = spans(&case.durations);
    let forced = forced(case, &spans, plan);
    let mut mends = Vec::new();
    for t in 0..spans.len() {
        for j in 0..case.devices.len() {
            if breaches.iter().all(|breach| is_moved(breach, t, j)) {
                let cell = Cell {
                    device: &case.devices[j],
                    spans: &spans,
                    setting: &plan.intervals[t][j],
                    forced: &forced[j],
                    t,
                };
                mends.extend(cell.nearest(most).map(|power| Mend::at((t, j), power)));
            }
        }
    }
    mends.into_iter().min_by_key(|mend| mend.rank(plan))
}

/// Whether a breach is of a rule that the power in interval `t` of device `j` moves.
fn is_moved(breach: &Place, t: usize, j: usize) -> bool {
    let Place {
        rule,
        interval,
        device,
        ..
    } = *breach;
    let here = interval == t + 1 && RULES_HERE.contains(&rule);
    let next = interval == t + 2 && RULES_NEXT.contains(&rule);
    device == j + 1 && (here || next)
}

/// What a power decides on: each holds of all powers up to one, or from one on, or of all or none.
#[derive(Clone, Copy, PartialEq, Eq, Debug)]
pub enum Test {
    /// Rule 5 of the cell.
    Rise,
    /// Rule 6 of the cell.
    Fall,
    /// Rule 5 of the same set in the next interval.
    NextRise,
    /// Rule 6 of the same set in the next interval.
    NextFall,
    /// Rule 16.
    Highest,
    /// Rule 17.
    Lowest,
    /// Rule 19 by its caps.
    Caps,
    /// Rule 19 by its floors.
    Floors,
    /// Rule 23.
    UpperLine,
    /// Rule 24.
    LowerLine,
    /// Rule 25: q is not above what the equality asks.
    NotAbove,
    /// Rule 25: q is not below it.
    NotBelow,
}

const TESTS: [Test; 12] = [
    Test::Rise,
    Test::Fall,
    Test::NextRise,
    Test::NextFall,
    Test::Highest,
    Test::Lowest,
    Test::Caps,
    Test::Floors,
    Test::UpperLine,
    Test::LowerLine,
    Test::NotAbove,
    Test::NotBelow,
];

/// One device in one interval of a plan.
struct Cell<'a> {
    device: &'a Device,
    spans: &'a [Span],
    setting: &'a Setting,
    forced: &'a Forced,
    t: usize,
}

impl Cell<'_> {
    /// Of the powers from 0 to `most` with which every test holds, the one nearest to the plan's.
    fn nearest(&self, most: i128) -> Option<i128> {
        let mut range = Some((0, most));
        for test in TESTS {
            range = range.and_then(|open| narrowed(open, |online| self.holds(test, online)));
        }
        let (least, greatest) = range?;
        Some(self.setting.online_power.clamp(least, greatest))
    }

    /// Whether a test holds with another online power.
    fn holds(&self, test: Test, online: i128) -> bool {
        let power = online + self.forced.commitment.trajectory(self.t);
        let terms = &self.device.terms[self.t];
        let on = i128::from(self.setting.on);
        match test {
            Test::Rise => power - self.power_before() <= self.most_rise(self.t),
            Test::Fall => self.power_before() - power <= self.most_fall(self.t),
            Test::NextRise => self
                .power_behind()
                .is_none_or(|next| next - power <= self.most_rise(self.t + 1)),
            Test::NextFall => self
                .power_behind()
                .is_none_or(|next| power - next <= self.most_fall(self.t + 1)),
            Test::Highest => online + self.raising() <= terms.pmax * on,
            Test::Lowest => online - self.lowering() >= terms.pmin * on,
            Test::Caps => power <= terms.sum_of_caps(),
            Test::Floors => power >= terms.sum_of_floors() * on,
            Test::UpperLine => self.reactive(power).room(23).is_none_or(|room| room >= 0),
            Test::LowerLine => self.reactive(power).room(24).is_none_or(|room| room >= 0),
            Test::NotAbove => self.reactive(power).deviation().is_none_or(|far| far <= 0),
            Test::NotBelow => self.reactive(power).deviation().is_none_or(|far| far >= 0),
        }
    }

    fn most_rise(&self, t: usize) -> i128 {
        most_rise(self.device, self.spans, &self.forced.commitment, t)
    }

    fn most_fall(&self, t: usize) -> i128 {
        most_fall(self.device, self.spans, &self.forced.commitment, t)
    }

    /// The reserves that would raise the device's own power: "rgu+scr+rru_on" producing, "rgd+rrd_on"
    /// consuming.
    fn raising(&self) -> i128 {
        self.online_reserves(self.device.side == Side::Producing)
    }

    /// The reserves that would lower it.
    fn lowering(&self) -> i128 {
        self.online_reserves(self.device.side == Side::Consuming)
    }

    fn online_reserves(&self, upward: bool) -> i128 {
        let r = &self.setting.reserves;
        if upward {
            r.rgu + r.scr + r.rru_on
        } else {
            r.rgd + r.rrd_on
        }
    }

    fn power_before(&self) -> i128 {
        match self.t {
            0 => self.device.initial_power,
            t => self.forced.power[t - 1],
        }
    }

    fn power_behind(&self) -> Option<i128> {
        self.forced.power.get(self.t + 1).copied()
    }

    fn reactive(&self, power: i128) -> ReactivePoint<'_> {
        ReactivePoint {
            device: self.device,
            t: self.t,
            setting: self.setting,
            bracket: self.forced.commitment.bracket[self.t],
            power,
        }
    }
}

/// The part of a range in which a test holds that changes at most once in it.
fn narrowed((least, greatest): (i128, i128), holds: impl Fn(i128) -> bool) -> Option<(i128, i128)> {
    match (holds(least), holds(greatest)) {
        (true, true) => Some((least, greatest)),
        (false, false) => None,
        (at_least, _) => {
            let (mut same, mut other) = (least, greatest);
            while other - same > 1 {
                let middle = (same + other) / 2;
                if holds(middle) == at_least {
                    same = middle;
                } else {
                    other = middle;
                }
            }
            Some(if at_least {
                (least, same)
            } else {
                (other, greatest)
            })
        }
    }
}
