//! Bars of generated devices, the link's limit, and the flows of plans (A.12): mostly such that they
//! take the mismatch from a bar, at the limit, or any; and flows that break rule 27.

use crate::bits::HIGHEST_POWER;
use crate::case::{Device, Side, BARS};
use crate::edition::Edition;
use crate::forced::forced;
use crate::generate::device::Scale;
use crate::generate::sample::Sample;
use crate::plan::Plan;
use crate::rng::Rng;

/// Puts devices on bars and gives back a limit of the link, 0 where the edition has no bars.
pub fn set_bars_and_limit(
    rng: &mut Rng,
    edition: Edition,
    devices: &mut [Device],
    scale: Scale,
) -> i128 {
    if !edition.has_bars() {
        return 0;
    }
    set_bars(rng, devices);
    random_limit(rng, devices, scale)
}

/// Devices on both bars, drawn one by one or mostly by side, or all on one.
pub fn set_bars(rng: &mut Rng, devices: &mut [Device]) {
    let (producing, consuming) = rng.pick(&[
        (0, 0),
        (100, 100),
        (50, 50),
        (50, 50),
        (50, 50),
        (10, 90),
        (10, 90),
        (90, 10),
    ]);
    for device in devices {
        let percent_on_bar_1 = match device.side {
            Side::Producing => producing,
            Side::Consuming => consuming,
        };
        device.bar = usize::from(rng.chance(percent_on_bar_1));
    }
}

/// A limit of the link: none, about what a device can do, or anything.
fn random_limit(rng: &mut Rng, devices: &[Device], scale: Scale) -> i128 {
    let j = rng.below(devices.len());
    let power = devices[j].terms[0].pmax;
    match rng.below(10) {
        _ if scale == Scale::Extreme => HIGHEST_POWER,
        0 => 0,
        1 => HIGHEST_POWER,
        2 if scale == Scale::Wide => rng.from_to(0, HIGHEST_POWER),
        2 | 3 => power / 2,
        4..=6 => rng.from_to(0, power),
        _ => power,
    }
}

/// Flows that keep rule 27.
pub fn set_flows(rng: &mut Rng, sample: &Sample, plan: &mut Plan) {
    let limit = sample.case.link_limit;
    let percent_helpful = rng.pick(&[50, 90, 100, 100]);
    for (t, balances) in balances(sample, plan).into_iter().enumerate() {
        let any = rng.from_to(-limit, limit);
        let flow = if rng.chance(percent_helpful) {
            helpful_flow(rng, balances)
        } else {
            rng.pick(&[0, limit, -limit, any])
        };
        plan.flows[t] = flow.clamp(-limit, limit);
    }
}

/// A flow that takes the whole mismatch from bar 0, or from bar 1, or lies between these.
fn helpful_flow(rng: &mut Rng, [bar_0, bar_1]: [i128; BARS]) -> i128 {
    let (for_bar_0, for_bar_1) = (-bar_0, bar_1);
    let between = rng.from_to(for_bar_0.min(for_bar_1), for_bar_0.max(for_bar_1));
    rng.pick(&[for_bar_0, for_bar_1, between])
}

/// What the devices of each bar consume less what they produce, per interval.
fn balances(sample: &Sample, plan: &Plan) -> Vec<[i128; BARS]> {
    let mut balances = vec![[0; BARS]; sample.spans.len()];
    let forced = forced(&sample.case, &sample.spans, plan);
    for (device, forced) in sample.case.devices.iter().zip(forced) {
        for (balances, power) in balances.iter_mut().zip(forced.power) {
            balances[device.bar] += match device.side {
                Side::Consuming => power,
                Side::Producing => -power,
            };
        }
    }
    balances
}

/// Breaks rule 27 in an interval drawn by chance, by `excess` kW either way; false where the limit is
/// too great for a flow to say more.
pub fn break_flow(rng: &mut Rng, sample: &Sample, plan: &mut Plan, excess: i128) -> bool {
    let t = rng.below(plan.flows.len());
    let beyond = sample.case.link_limit + excess;
    let is_sayable = beyond <= HIGHEST_POWER;
    if is_sayable {
        plan.flows[t] = rng.pick(&[beyond, -beyond]);
    }
    is_sayable
}
