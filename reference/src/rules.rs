//! "Rules, by number": those that a plan breaks, and the first of them.

use crate::case::{Case, Device, Side, StartWindow, Status, Terms};
use crate::clock::Span;
use crate::forced::{Commitment, Forced};
use crate::plan::{Plan, Setting};
use crate::reactive::{ReactivePoint, REACTIVE_RULES};

/// A broken rule and its place: "interval, device, window from 1, else 0".
#[derive(Clone, Copy, PartialEq, Eq, Debug)]
pub struct Place {
    pub rule: u8,
    pub interval: usize,
    pub device: usize,
    pub window: usize,
}

/// The rules of one device in one interval that paper 01 has.
const RULES_OF_A_POINT: std::ops::RangeInclusive<u8> = 1..=19;
/// The rule of a device's start windows.
const RULE_OF_WINDOWS: u8 = 20;
/// The rule of the flow between the bars.
const RULE_OF_FLOW: u8 = 27;

/// Every broken rule: "Checked by interval, then device, then number. Rule 20 comes after all
/// intervals, by device, then window." Rules 21 to 26 "come after 19 and before 20"; rule 27 "stands
/// after an interval's devices".
pub fn broken_rules<'a>(
    case: &'a Case,
    spans: &'a [Span],
    plan: &'a Plan,
    forced: &'a [Forced],
) -> impl Iterator<Item = Place> + 'a {
    let at_points = (0..spans.len()).flat_map(move |t| {
        let at_devices = (0..case.devices.len()).flat_map(move |j| {
            let setting = &plan.intervals[t][j];
            broken_at_point(
                Point::new(&case.devices[j], spans, setting, &forced[j], t),
                j,
            )
        });
        at_devices.chain(broken_by_flow(case, plan, t))
    });
    let in_windows = (0..case.devices.len())
        .flat_map(move |j| broken_in_windows(&case.devices[j], spans, &forced[j].commitment, j));
    at_points.chain(in_windows)
}

/// The first broken rule: the one that the judgement names.
pub fn first_broken(case: &Case, spans: &[Span], plan: &Plan, forced: &[Forced]) -> Option<Place> {
    broken_rules(case, spans, plan, forced).next()
}

/// The broken rules of device `j` in one interval, by number.
fn broken_at_point(point: Point<'_>, j: usize) -> impl Iterator<Item = Place> + '_ {
    let interval = point.t + 1;
    RULES_OF_A_POINT
        .chain(REACTIVE_RULES)
        .filter(move |&rule| !point.keeps(rule))
        .map(move |rule| Place {
            rule,
            interval,
            device: j + 1,
            window: 0,
        })
}

/// Rule 27, "flow within the limit either way", "with device 0 in its place".
fn broken_by_flow(case: &Case, plan: &Plan, t: usize) -> Option<Place> {
    let is_broken = plan.flows[t].abs() > case.link_limit;
    is_broken.then_some(Place {
        rule: RULE_OF_FLOW,
        interval: t + 1,
        device: 0,
        window: 0,
    })
}

/// The start windows of device `j` in which rule 20 is broken.
fn broken_in_windows<'a>(
    device: &'a Device,
    spans: &'a [Span],
    commitment: &'a Commitment,
    j: usize,
) -> impl Iterator<Item = Place> + 'a {
    (1..)
        .zip(&device.start_windows)
        .filter(move |(_, window)| !keeps_start_window(window, spans, commitment))
        .map(move |(window, _)| Place {
            rule: RULE_OF_WINDOWS,
            interval: 0,
            device: j + 1,
            window,
        })
}

/// One device in one interval: all that rules 1 to 19 and 21 to 26 speak of.
struct Point<'a> {
    device: &'a Device,
    terms: &'a Terms,
    spans: &'a [Span],
    setting: &'a Setting,
    commitment: &'a Commitment,
    t: usize,
    power: i128,
    previous_power: i128,
}

impl<'a> Point<'a> {
    fn new(
        device: &'a Device,
        spans: &'a [Span],
        setting: &'a Setting,
        forced: &'a Forced,
        t: usize,
    ) -> Point<'a> {
        Point {
            device,
            terms: &device.terms[t],
            spans,
            setting,
            commitment: &forced.commitment,
            t,
            power: forced.power[t],
            previous_power: if t == 0 {
                device.initial_power
            } else {
                forced.power[t - 1]
            },
        }
    }

    fn keeps(&self, rule: u8) -> bool {
        let limits = &self.device.reserve_limits;
        let r = &self.setting.reserves;
        match rule {
            1 => keeps_status(self.device, self.commitment, self.t),
            2 => holds_initial_state(self.device, self.spans, self.commitment, self.t),
            3 => starts_late_enough(self.device, self.spans, self.commitment, self.t),
            4 => stops_late_enough(self.device, self.spans, self.commitment, self.t),
            5 => self.power - self.previous_power <= self.most_rise(),
            6 => self.previous_power - self.power <= self.most_fall(),
            7 => r.rgu <= self.while_on(limits.rgu),
            8 => r.rgd <= self.while_on(limits.rgd),
            9 => r.rgu + r.scr <= self.while_on(limits.scr),
            10 => r.rgu + r.scr + r.rru_on <= self.while_on(limits.rru_on),
            11 => r.rgd + r.rrd_on <= self.while_on(limits.rrd_on),
            12 => r.nsc <= self.while_off(limits.nsc),
            13 => r.nsc + r.rru_off <= self.while_off(limits.rru_off),
            14 => r.rrd_off <= self.while_off(limits.rrd_off),
            15 => self.offers_its_sides_reserves_only(),
            16 => {
                self.setting.online_power + self.online_upward() <= self.while_on(self.terms.pmax)
            }
            17 => {
                self.setting.online_power - self.online_downward() >= self.while_on(self.terms.pmin)
            }
            18 => {
                self.commitment.trajectory(self.t) + self.offline_upward()
                    <= self.while_off(self.terms.pmax)
            }
            19 => self.fits_its_blocks(),
            _ => self.reactive().keeps(rule),
        }
    }

    fn reactive(&self) -> ReactivePoint<'_> {
        ReactivePoint {
            device: self.device,
            t: self.t,
            setting: self.setting,
            bracket: self.commitment.bracket[self.t],
            power: self.power,
        }
    }

    /// A figure times u.
    fn while_on(&self, figure: i128) -> i128 {
        if self.setting.on {
            figure
        } else {
            0
        }
    }

    /// A figure times (1 − u).
    fn while_off(&self, figure: i128) -> i128 {
        if self.setting.on {
            0
        } else {
            figure
        }
    }

    fn most_rise(&self) -> i128 {
        most_rise(self.device, self.spans, self.commitment, self.t)
    }

    fn most_fall(&self) -> i128 {
        most_fall(self.device, self.spans, self.commitment, self.t)
    }

    /// Rule 15, "producing: rrd_off = 0; consuming: nsc = rru_off = 0."
    fn offers_its_sides_reserves_only(&self) -> bool {
        let r = &self.setting.reserves;
        match self.device.side {
            Side::Producing => r.rrd_off == 0,
            Side::Consuming => r.nsc == 0 && r.rru_off == 0,
        }
    }

    /// The reserves that rule 16 holds below pmax: those that would raise the device's own power.
    fn online_upward(&self) -> i128 {
        let r = &self.setting.reserves;
        match self.device.side {
            Side::Producing => r.rgu + r.scr + r.rru_on,
            Side::Consuming => r.rgd + r.rrd_on,
        }
    }

    /// The reserves that rule 17 holds above pmin: those that would lower the device's own power.
    fn online_downward(&self) -> i128 {
        let r = &self.setting.reserves;
        match self.device.side {
            Side::Producing => r.rgd + r.rrd_on,
            Side::Consuming => r.rgu + r.scr + r.rru_on,
        }
    }

    /// Rule 19, "both bounds": "u·(sum of floors) ≤ p ≤ sum of caps".
    fn fits_its_blocks(&self) -> bool {
        let least = self.while_on(self.terms.sum_of_floors());
        (least..=self.terms.sum_of_caps()).contains(&self.power)
    }

    /// The reserves of an off device that rule 18 holds below pmax.
    fn offline_upward(&self) -> i128 {
        let r = &self.setting.reserves;
        match self.device.side {
            Side::Producing => r.nsc + r.rru_off,
            Side::Consuming => r.rrd_off,
        }
    }
}

/// Rule 1, "status fixed by the case".
pub fn keeps_status(device: &Device, commitment: &Commitment, t: usize) -> bool {
    match device.terms[t].status {
        Status::Free => true,
        Status::On => commitment.on[t],
        Status::Off => !commitment.on[t],
    }
}

/// Rule 2, "initial state held while S + minutes already so < its minimum".
pub fn holds_initial_state(
    device: &Device,
    spans: &[Span],
    commitment: &Commitment,
    t: usize,
) -> bool {
    let minimum = if device.initially_on {
        device.minimum_up
    } else {
        device.minimum_down
    };
    let must_hold = spans[t].start + device.minutes_already_so < minimum;
    !must_hold || commitment.on[t] == device.initially_on
}

/// Rule 3, "no start where an earlier stop has S − S' < minimum down".
pub fn starts_late_enough(
    device: &Device,
    spans: &[Span],
    commitment: &Commitment,
    t: usize,
) -> bool {
    let too_soon_after = |stop: usize| spans[t].start - spans[stop].start < device.minimum_down;
    !commitment.started[t] || !(0..t).any(|stop| commitment.stopped[stop] && too_soon_after(stop))
}

/// Rule 4, "no stop where an earlier start has S − S' < minimum up".
pub fn stops_late_enough(
    device: &Device,
    spans: &[Span],
    commitment: &Commitment,
    t: usize,
) -> bool {
    let too_soon_after = |start: usize| spans[t].start - spans[start].start < device.minimum_up;
    !commitment.stopped[t]
        || !(0..t).any(|start| commitment.started[start] && too_soon_after(start))
}

/// The right side of rule 5, "d·(up·(u − su) + starting·(su + 1 − u))".
pub fn most_rise(device: &Device, spans: &[Span], commitment: &Commitment, t: usize) -> i128 {
    let stays_on = commitment.on[t] && !commitment.started[t];
    let ramp = if stays_on {
        device.ramps.up
    } else {
        device.ramps.starting
    };
    spans[t].duration() * ramp
}

/// The right side of rule 6, "d·(down·u + stopping·(1 − u))".
pub fn most_fall(device: &Device, spans: &[Span], commitment: &Commitment, t: usize) -> i128 {
    let ramp = if commitment.on[t] {
        device.ramps.down
    } else {
        device.ramps.stopping
    };
    spans[t].duration() * ramp
}

/// Rule 20, "starts with window start ≤ S < window end are at most the window's number".
pub fn keeps_start_window(window: &StartWindow, spans: &[Span], commitment: &Commitment) -> bool {
    let starts = (0..spans.len())
        .filter(|&t| commitment.started[t])
        .filter(|&t| window.start <= spans[t].start && spans[t].start < window.end)
        .count();
    starts as i128 <= window.most_starts
}
