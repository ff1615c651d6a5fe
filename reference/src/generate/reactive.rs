//! Reactive power of generated devices and plans (A.1): limits and links with which a device's
//! commitment can still be followed, settings that keep rules 21 to 26, often only just, and
//! settings that break one of them.

use crate::bits::HIGHEST_POWER;
use crate::case::{Device, Link, LinkLine, ReactiveReserves, Side, Terms};
use crate::generate::device::{reserve_price, Scale};
use crate::generate::plans::Amount;
use crate::generate::schedule::{Preference, Schedule};
use crate::plan::Setting;
use crate::reactive::ReactivePoint;
use crate::rng::Rng;

/// Thousandths of a kvar in one.
const WHOLE: i128 = 1_000;
/// The steepest slope that a line can say, in thousandths.
const STEEPEST_SLOPE: i128 = 10_000;
const ATTEMPTS: usize = 6;

/// The least and the greatest q, in thousandths of a kvar, that a device's link leaves.
fn bounds_of_link(device: &Device, bracket: i128, power: i128) -> (i128, i128) {
    let at = |line: &LinkLine| WHOLE * line.offset * bracket + line.slope * power;
    let sayable = WHOLE * HIGHEST_POWER;
    match &device.link {
        Link::None => (-sayable, sayable),
        Link::TwoLines { upper, lower } => (at(lower).max(-sayable), at(upper).min(sayable)),
        Link::Equality(line) => (at(line).max(-sayable), at(line).min(sayable)),
    }
}

/// The least and the greatest q, in thousandths of a kvar, that rules 21 to 25 leave without
/// reserves in interval `t`.
fn bounds(device: &Device, t: usize, bracket: i128, power: i128) -> (i128, i128) {
    let Terms { qmin, qmax, .. } = device.terms[t];
    let (low, high) = bounds_of_link(device, bracket, power);
    (
        low.max(WHOLE * qmin * bracket),
        high.min(WHOLE * qmax * bracket),
    )
}

/// The same in whole kvar; none where no q is left.
fn open_kvar((low, high): (i128, i128)) -> Option<(i128, i128)> {
    let (least, greatest) = (ceiling(low, WHOLE), high.div_euclid(WHOLE));
    (least <= greatest).then_some((least, greatest))
}

fn ceiling(figure: i128, divisor: i128) -> i128 {
    -(-figure).div_euclid(divisor)
}

/// Whether rules 21 to 26 can be kept at every power of a dispatch of the schedule.
///
/// The bounds are lines in p, or cut off by constants: where a kvar lies between them at both ends
/// of the open powers, one does at every power between.
pub fn can_be_kept(device: &Device, schedule: &Schedule) -> bool {
    (0..device.terms.len()).all(|t| {
        let (least, greatest) = schedule.open_powers(t);
        let bracket = schedule.commitment.bracket[t];
        let is_sloping = matches!(device.link, Link::TwoLines { .. }) && least < greatest;
        let spare = if is_sloping { WHOLE } else { 0 };
        [least, greatest].into_iter().all(|power| {
            let (low, high) = bounds(device, t, bracket, power);
            low + spare <= high && open_kvar((low, high)).is_some()
        })
    })
}

/// The step of powers with which an equality gives whole kvar; 1 for other links.
pub fn grid_of(device: &Device) -> i128 {
    match &device.link {
        Link::Equality(line) => WHOLE / greatest_common_divisor(WHOLE, line.slope.abs()),
        _ => 1,
    }
}

fn greatest_common_divisor(a: i128, b: i128) -> i128 {
    match b {
        0 => a,
        _ => greatest_common_divisor(b, a % b),
    }
}

/// A step for the powers of a device: mostly 1, else one that lets an equality's slope be finer
/// than a whole number.
pub fn random_grid(rng: &mut Rng) -> i128 {
    rng.pick(&[1, 1, 1, 1, 1, 1, 1, 1, 1, 2, 10, 1_000])
}

/// Puts every power and every ramp of a device on multiples of `grid`, a divisor of 1,000.
pub fn snap_to_grid(device: &mut Device, grid: i128) {
    let down = |power: i128| power / grid * grid;
    let up = |power: i128| ceiling(power, grid) * grid;
    for terms in &mut device.terms {
        (terms.pmin, terms.pmax) = (down(terms.pmin), up(terms.pmax));
        for block in &mut terms.blocks {
            (block.cap, block.floor) = (up(block.cap), down(block.floor));
        }
    }
    device.initial_power = down(device.initial_power);
    let ramps = &mut device.ramps;
    for ramp in [
        &mut ramps.up,
        &mut ramps.down,
        &mut ramps.starting,
        &mut ramps.stopping,
    ] {
        *ramp = up(*ramp);
    }
}

/// Limits, link and prices of a device whose powers lie on `grid` and that can follow `schedule`.
pub fn set_reactive_power(
    rng: &mut Rng,
    device: &mut Device,
    schedule: &Schedule,
    scale: Scale,
    grid: i128,
) {
    let kvar = match scale {
        Scale::Extreme => HIGHEST_POWER,
        Scale::Wide => rng.pick(&[1_000, 30_000, HIGHEST_POWER]),
        Scale::Calm | Scale::Low => rng.pick(&[2, 9, 60, 1_000, 20_000]),
    };
    let is_followable = (0..ATTEMPTS).any(|_| {
        device.link = random_link(rng, schedule, kvar, grid);
        set_limits(rng, device, schedule, kvar);
        can_be_kept(device, schedule)
    });
    if !is_followable {
        device.link = Link::None;
        for terms in &mut device.terms {
            (terms.qmin, terms.qmax) = (-kvar, kvar);
        }
    }
    for terms in &mut device.terms {
        let prices = [(); 2].map(|_| reserve_price(rng, scale));
        terms.reactive_prices = ReactiveReserves::from_order(prices);
    }
}

/// The greatest power of a dispatch of a schedule.
fn greatest_power(schedule: &Schedule) -> i128 {
    let intervals = schedule.commitment.on.len();
    let greatest = (0..intervals).map(|t| schedule.open_powers(t).1).max();
    greatest.unwrap_or(0)
}

fn random_link(rng: &mut Rng, schedule: &Schedule, kvar: i128, grid: i128) -> Link {
    let power = greatest_power(schedule);
    match rng.below(10) {
        _ if grid > 1 => Link::Equality(random_equality(rng, power, kvar, grid)),
        0..=2 => Link::None,
        3..=8 => random_lines(rng, power, kvar),
        _ => Link::Equality(random_equality(rng, power, kvar, 1)),
    }
}

/// The steepest slope whose product with a power can be said as a reactive power, with room left
/// for an offset.
fn steepest_at(power: i128) -> i128 {
    (WHOLE * HIGHEST_POWER / 2 / power.max(1)).min(STEEPEST_SLOPE)
}

/// An equality of whole kvar at every multiple of `grid`.
fn random_equality(rng: &mut Rng, power: i128, kvar: i128, grid: i128) -> LinkLine {
    let step = WHOLE / grid;
    let steps = steepest_at(power) / step;
    let most = rng.pick(&[1, 3, 20]).min(steps);
    LinkLine {
        offset: rng.from_to(-kvar, kvar) / rng.pick(&[1, 2, 10]),
        slope: step * rng.from_to(-most, most),
    }
}

/// Two lines with at least a kvar between them at every power up to `power`.
fn random_lines(rng: &mut Rng, power: i128, kvar: i128) -> Link {
    let steepest = steepest_at(power);
    let slope = |rng: &mut Rng| match rng.below(4) {
        0 => 0,
        1 => rng.pick(&[-1_000, -200, 250, 333, 484, 1_000]),
        _ => rng.from_to(-steepest, steepest),
    };
    let (upper_slope, lower_slope) = match rng.below(5) {
        0 => (STEEPEST_SLOPE, -STEEPEST_SLOPE),
        _ => (slope(rng), slope(rng)),
    };
    let closing = ((lower_slope - upper_slope) * power).max(0);
    let gap = ceiling(closing, WHOLE) + 1 + rng.pick(&[0, 0, 3, kvar]);
    let lower_offset = rng.from_to(-kvar, kvar) / rng.pick(&[1, 1, 2]);
    let line = |offset: i128, slope| LinkLine {
        offset: offset.clamp(-HIGHEST_POWER, HIGHEST_POWER),
        slope,
    };
    Link::TwoLines {
        upper: line(lower_offset + gap, upper_slope),
        lower: line(lower_offset, lower_slope),
    }
}

/// Limits around what the link asks for, or any where it asks for nothing.
fn set_limits(rng: &mut Rng, device: &mut Device, schedule: &Schedule, kvar: i128) {
    for t in 0..device.terms.len() {
        let bracket = schedule.commitment.bracket[t];
        let limits = if device.link == Link::None || bracket == 0 {
            random_limits(rng, kvar)
        } else {
            let powers = schedule.open_powers(t);
            limits_around_link(rng, device, bracket, powers, kvar)
        };
        (device.terms[t].qmin, device.terms[t].qmax) = limits;
    }
}

/// On either side of 0, or on one side alone, or a single q.
fn random_limits(rng: &mut Rng, kvar: i128) -> (i128, i128) {
    let (a, b) = (rng.from_to(0, kvar), rng.from_to(0, kvar));
    match rng.below(8) {
        0 => (0, 0),
        1 => (a, a),
        2 => (-b, -b),
        3 => (a.min(b), a.max(b)),
        4 => (-a.max(b), -a.min(b)),
        _ => (-a, b),
    }
}

/// Limits that leave a q of the link open at both ends of the open powers, no more or wide.
fn limits_around_link(
    rng: &mut Rng,
    device: &Device,
    bracket: i128,
    (least, greatest): (i128, i128),
    kvar: i128,
) -> (i128, i128) {
    let chosen = [least, greatest].map(|power| {
        let (low, high) = bounds_of_link(device, bracket, power);
        let (low, high) = (ceiling(low, WHOLE), high.div_euclid(WHOLE));
        rng.from_to(low, low.max(high - 1))
    });
    let spare = i128::from(matches!(device.link, Link::TwoLines { .. }));
    let beside = [0, 1, kvar, kvar];
    let lowest = chosen[0].min(chosen[1]) - rng.pick(&beside);
    let highest = chosen[0].max(chosen[1]) + spare + rng.pick(&beside);
    let in_range = |q: i128| q.clamp(-HIGHEST_POWER, HIGHEST_POWER);
    (
        in_range(lowest.div_euclid(bracket)),
        in_range(ceiling(highest, bracket)),
    )
}

/// Any limits and any link at all.
pub fn scramble_reactive_power(rng: &mut Rng, device: &mut Device) {
    let mut line = || LinkLine {
        offset: rng.from_to(-HIGHEST_POWER, HIGHEST_POWER),
        slope: rng.from_to(-STEEPEST_SLOPE, STEEPEST_SLOPE),
    };
    let (upper, lower) = (line(), line());
    device.link = match rng.below(3) {
        0 => Link::None,
        1 => Link::TwoLines { upper, lower },
        _ => Link::Equality(upper),
    };
    for terms in &mut device.terms {
        terms.qmax = rng.from_to(-HIGHEST_POWER, HIGHEST_POWER);
        terms.qmin = rng.from_to(-HIGHEST_POWER, terms.qmax);
    }
}

/// A device in an interval of a plan: what its reactive power depends on.
#[derive(Clone, Copy)]
pub struct Running<'a> {
    pub device: &'a Device,
    pub t: usize,
    pub bracket: i128,
    /// p.
    pub power: i128,
}

impl Running<'_> {
    fn point<'a>(&'a self, setting: &'a Setting) -> ReactivePoint<'a> {
        ReactivePoint {
            device: self.device,
            t: self.t,
            setting,
            bracket: self.bracket,
            power: self.power,
        }
    }

    /// Sets q and reactive reserves that keep rules 21 to 26; nothing where no q does.
    pub fn set(&self, rng: &mut Rng, preference: Preference, amount: Amount, to: &mut Setting) {
        let bounds = bounds(self.device, self.t, self.bracket, self.power);
        let Some((least, greatest)) = open_kvar(bounds) else {
            return;
        };
        to.reactive_power = preference.choose(rng, (least, greatest), 1);
        let is_fixed = matches!(self.device.link, Link::Equality(_));
        if amount != Amount::None && !is_fixed {
            to.reactive_reserves = self.reserves(rng, amount, to);
        }
    }

    /// Reserves up to what rules 21 to 24 leave, which may be more than q could say.
    fn reserves(&self, rng: &mut Rng, amount: Amount, setting: &Setting) -> ReactiveReserves {
        let point = self.point(setting);
        let room = |rules: [u8; 2]| {
            let rooms = rules.into_iter().filter_map(|rule| point.room(rule));
            rooms.min().unwrap_or(0).div_euclid(WHOLE)
        };
        let above = amount.take(rng, room([21, 23]).min(HIGHEST_POWER));
        let below = amount.take(rng, room([22, 24]).min(HIGHEST_POWER));
        match self.device.side {
            Side::Producing => ReactiveReserves::from_order([above, below]),
            Side::Consuming => ReactiveReserves::from_order([below, above]),
        }
    }

    /// A setting changed so that `rule`, one of 21 to 26, is the first of them that it breaks, by
    /// `excess` kvar beyond the last that keeps it; none if it cannot be.
    pub fn broken(
        &self,
        rng: &mut Rng,
        setting: &Setting,
        rule: u8,
        excess: i128,
    ) -> Option<Setting> {
        let mut broken = *setting;
        let by_reserve = rng.chance(50);
        let beyond = |point: &ReactivePoint| Some(point.room(rule)?.div_euclid(WHOLE) + excess);
        match rule {
            21 | 23 => self.raise(&mut broken, beyond(&self.point(setting))?, by_reserve),
            22 | 24 => self.lower(&mut broken, beyond(&self.point(setting))?, by_reserve),
            25 => broken.reactive_power += rng.pick(&[-excess, excess]),
            _ => {
                let reserves = [[excess, 0], [0, excess], [excess, excess]];
                broken.reactive_reserves = ReactiveReserves::from_order(rng.pick(&reserves));
            }
        }
        (self.point(&broken).first_broken() == Some(rule)).then_some(broken)
    }

    /// Raises hi by so many kvar, by the reserve or by q.
    fn raise(&self, setting: &mut Setting, kvar: i128, by_reserve: bool) {
        let reserves = &mut setting.reactive_reserves;
        match (by_reserve, self.device.side) {
            (true, Side::Producing) => reserves.qru += kvar,
            (true, Side::Consuming) => reserves.qrd += kvar,
            (false, _) => setting.reactive_power += kvar,
        }
    }

    /// Lowers lo by so many kvar, by the reserve or by q.
    fn lower(&self, setting: &mut Setting, kvar: i128, by_reserve: bool) {
        let reserves = &mut setting.reactive_reserves;
        match (by_reserve, self.device.side) {
            (true, Side::Producing) => reserves.qrd += kvar,
            (true, Side::Consuming) => reserves.qru += kvar,
            (false, _) => setting.reactive_power -= kvar,
        }
    }

    /// Whether `rule` is the first of 21 to 26 that a setting breaks.
    pub fn breaks(&self, setting: &Setting, rule: u8) -> bool {
        self.point(setting).first_broken() == Some(rule)
    }
}
