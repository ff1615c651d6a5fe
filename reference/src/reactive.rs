//! Rules 21 to 26: reactive power against its limits and its link to real power (A.1, "in the order
//! of equations 122 to 128 with the two zero reserves as one rule").
//!
//! "No product is rounded": everything is compared in thousandths of a kvar, in which a slope times
//! a power is whole.

use crate::case::{Device, Link, LinkLine, Side};
use crate::plan::Setting;

/// The numbers of the reactive rules.
pub const REACTIVE_RULES: std::ops::RangeInclusive<u8> = 21..=26;

/// Thousandths in one.
const WHOLE: i128 = 1_000;

/// The reactive side of one device in one interval.
#[derive(Clone, Copy)]
pub struct ReactivePoint<'a> {
    pub device: &'a Device,
    pub t: usize,
    pub setting: &'a Setting,
    /// [`crate::forced::Commitment::bracket`] of the interval.
    pub bracket: i128,
    /// p, the whole power of the interval.
    pub power: i128,
}

impl ReactivePoint<'_> {
    /// Whether one of rules 21 to 26 holds; those of another link kind hold of every device.
    pub fn keeps(&self, rule: u8) -> bool {
        match rule {
            21..=24 => self.room(rule).is_none_or(|room| room >= 0),
            25 => self.deviation().is_none_or(|deviation| deviation == 0),
            26 => !self.is_fixed() || self.setting.reactive_reserves.in_order() == [0, 0],
            _ => unreachable!("reactive rules are 21 to 26"),
        }
    }

    /// The first of rules 21 to 26 that is broken.
    pub fn first_broken(&self) -> Option<u8> {
        REACTIVE_RULES.into_iter().find(|&rule| !self.keeps(rule))
    }

    /// What one of rules 21 to 24 leaves to its bound, below 0 where it is broken: "hi ≤ qmax·n",
    /// "lo ≥ qmin·n", and for kind 1 "1000·hi ≤ 1000·upper offset·n + upper slope·p", "1000·lo ≥
    /// 1000·lower offset·n + lower slope·p". None where the link is of another kind.
    pub fn room(&self, rule: u8) -> Option<i128> {
        let terms = &self.device.terms[self.t];
        match (rule, &self.device.link) {
            (21, _) => Some(WHOLE * (terms.qmax * self.bracket - self.highest())),
            (22, _) => Some(WHOLE * (self.lowest() - terms.qmin * self.bracket)),
            (23, Link::TwoLines { upper, .. }) => Some(self.at(upper) - WHOLE * self.highest()),
            (24, Link::TwoLines { lower, .. }) => Some(WHOLE * self.lowest() - self.at(lower)),
            _ => None,
        }
    }

    /// How far q lies above what kind 2 asks, "1000·q = 1000·offset·n + slope·p"; none where the
    /// link is of another kind.
    pub fn deviation(&self) -> Option<i128> {
        match &self.device.link {
            Link::Equality(line) => Some(WHOLE * self.setting.reactive_power - self.at(line)),
            _ => None,
        }
    }

    fn is_fixed(&self) -> bool {
        matches!(self.device.link, Link::Equality(_))
    }

    /// A line's reactive power, in thousandths: its offset counts as often as the bracket says.
    fn at(&self, line: &LinkLine) -> i128 {
        WHOLE * line.offset * self.bracket + line.slope * self.power
    }

    /// hi, q with the reserve that would raise it: "up-reserve products consume headroom to lower
    /// operating limits" of consuming devices, to upper ones of producing devices.
    fn highest(&self) -> i128 {
        let reserves = &self.setting.reactive_reserves;
        self.setting.reactive_power
            + match self.device.side {
                Side::Producing => reserves.qru,
                Side::Consuming => reserves.qrd,
            }
    }

    /// lo, q without the reserve that would lower it.
    fn lowest(&self) -> i128 {
        let reserves = &self.setting.reactive_reserves;
        self.setting.reactive_power
            - match self.device.side {
                Side::Producing => reserves.qrd,
                Side::Consuming => reserves.qru,
            }
    }
}
