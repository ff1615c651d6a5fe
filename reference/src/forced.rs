//! The figures a plan forces ("Forced figures"): starts, stops, startup and shutdown power, and the
//! bracket of the reactive limits.
//!
//! Intervals and devices count from 0 here and in every module but [`crate::meets`]; places in
//! verdicts count from 1.

use crate::case::{Case, Device};
use crate::clock::Span;
use crate::plan::Plan;

/// The forced figures of one device that follow from its commitment alone, per interval.
#[derive(Clone, PartialEq, Eq, Debug)]
pub struct Commitment {
    pub on: Vec<bool>,
    /// "su = 1 where u rises".
    pub started: Vec<bool>,
    /// "sd = 1 where it falls".
    pub stopped: Vec<bool>,
    pub psu: Vec<i128>,
    pub psd: Vec<i128>,
    /// The bracket of 000 (112) to (116) and (122) to (126), "u + Σ su + Σ sd" over the sets of
    /// (205) and (208): u, one for each later start whose psu term is above 0, one for each stop so
    /// far whose psd term is. It is a count, and 2 or more where trajectories overlap.
    pub bracket: Vec<i128>,
}

/// The forced figures of one device.
#[derive(Clone, PartialEq, Eq, Debug)]
pub struct Forced {
    pub commitment: Commitment,
    /// "Power p = online power + psu + psd."
    pub power: Vec<i128>,
}

/// The forced figures of every device of a plan.
pub fn forced(case: &Case, spans: &[Span], plan: &Plan) -> Vec<Forced> {
    (0..case.devices.len())
        .map(|j| {
            let on = plan.intervals.iter().map(|row| row[j].on).collect();
            let commitment = commit(&case.devices[j], spans, on);
            let power = (0..spans.len())
                .map(|t| plan.intervals[t][j].online_power + commitment.trajectory(t))
                .collect();
            Forced { commitment, power }
        })
        .collect()
}

/// The figures that a device's commitment `on` forces.
pub fn commit(device: &Device, spans: &[Span], on: Vec<bool>) -> Commitment {
    let was_on = |t: usize| {
        if t == 0 {
            device.initially_on
        } else {
            on[t - 1]
        }
    };
    let intervals = spans.len();
    let started: Vec<bool> = (0..intervals).map(|t| on[t] && !was_on(t)).collect();
    let stopped: Vec<bool> = (0..intervals).map(|t| !on[t] && was_on(t)).collect();
    let of_starts: Vec<Vec<i128>> = (0..intervals)
        .map(|t| startup_powers(device, spans, &started, t))
        .collect();
    let of_stops: Vec<Vec<i128>> = (0..intervals)
        .map(|t| shutdown_powers(device, spans, &stopped, t))
        .collect();
    let sum = |powers: &Vec<i128>| powers.iter().sum();
    let bracket = (0..intervals)
        .map(|t| i128::from(on[t]) + (of_starts[t].len() + of_stops[t].len()) as i128)
        .collect();
    Commitment {
        on,
        started,
        stopped,
        psu: of_starts.iter().map(sum).collect(),
        psd: of_stops.iter().map(sum).collect(),
        bracket,
    }
}

/// The terms of "psu in t sums, over later t' with su, pmin(t') − starting ramp·(E(t') − E(t))
/// where above 0."
fn startup_powers(device: &Device, spans: &[Span], started: &[bool], t: usize) -> Vec<i128> {
    (t + 1..spans.len())
        .filter(|&later| started[later])
        .map(|later| {
            let lead = spans[later].end - spans[t].end;
            device.terms[later].pmin - device.ramps.starting * lead
        })
        .filter(|&power| power > 0)
        .collect()
}

/// The terms of "psd in t sums, over t' ≤ t with sd, pmin(t'−1) − stopping ramp·(E(t) − S(t'))
/// where above 0; for t' = 1 the initial power replaces pmin."
fn shutdown_powers(device: &Device, spans: &[Span], stopped: &[bool], t: usize) -> Vec<i128> {
    (0..=t)
        .filter(|&stop| stopped[stop])
        .map(|stop| {
            let before = if stop == 0 {
                device.initial_power
            } else {
                device.terms[stop - 1].pmin
            };
            before - device.ramps.stopping * (spans[t].end - spans[stop].start)
        })
        .filter(|&power| power > 0)
        .collect()
}

impl Commitment {
    /// psu + psd.
    pub fn trajectory(&self, t: usize) -> i128 {
        self.psu[t] + self.psd[t]
    }

    /// The last on interval before `t`, if any.
    pub fn last_on_before(&self, t: usize) -> Option<usize> {
        (0..t).rev().find(|&earlier| self.on[earlier])
    }
}
