//! Plans that keep every rule, and wild ones.

use crate::bits::HIGHEST_POWER;
use crate::case::{Case, Device, ReactiveReserves, Reserves, Side};
use crate::edition::Edition;
use crate::forced::Commitment;
use crate::generate::bars::set_flows;
use crate::generate::reactive::Running;
use crate::generate::sample::Sample;
use crate::generate::schedule::{Preference, Schedule};
use crate::plan::{Plan, Setting};
use crate::rng::Rng;

/// How much reserve a plan sets.
#[derive(Clone, Copy, PartialEq, Eq, Debug)]
pub enum Amount {
    None,
    Some,
    /// All that the rules leave.
    Most,
}

impl Amount {
    fn random(rng: &mut Rng) -> Amount {
        rng.pick(&[Amount::None, Amount::Some, Amount::Some, Amount::Most])
    }

    /// So much of what the rules leave at most.
    pub fn take(self, rng: &mut Rng, most: i128) -> i128 {
        match self {
            Amount::None => 0,
            Amount::Most if rng.chance(60) => most.max(0),
            _ => rng.from_to(0, most.max(0)),
        }
    }
}

/// A plan that keeps every rule.
pub fn good_plan(rng: &mut Rng, sample: &Sample) -> Plan {
    let chosen: Vec<&Schedule> = sample
        .pools
        .iter()
        .map(|pool| &pool.good[rng.below(pool.good.len())])
        .collect();
    plan_of(rng, sample, &chosen)
}

/// A plan that follows one schedule per device.
pub fn plan_of(rng: &mut Rng, sample: &Sample, schedules: &[&Schedule]) -> Plan {
    let devices = sample.case.devices.len();
    let mut plan = Plan::plain(vec![vec![Setting::default(); devices]; sample.spans.len()]);
    for (j, schedule) in schedules.iter().enumerate() {
        for (t, setting) in settings_of(rng, sample, j, schedule)
            .into_iter()
            .enumerate()
        {
            plan.intervals[t][j] = setting;
        }
    }
    if sample.edition.has_bars() {
        set_flows(rng, sample, &mut plan);
    }
    plan
}

/// The settings of one device that follows a schedule.
fn settings_of(rng: &mut Rng, sample: &Sample, j: usize, schedule: &Schedule) -> Vec<Setting> {
    let device = &sample.case.devices[j];
    let Schedule { commitment, .. } = schedule;
    let preference = Preference::random(rng);
    let amount = Amount::random(rng);
    let online = schedule.dispatch(rng, device, &sample.spans, preference);
    let mut settings: Vec<Setting> = (0..)
        .zip(online)
        .map(|(t, online_power)| Setting {
            on: commitment.on[t],
            online_power,
            reserves: reserves(rng, device, commitment, t, online_power, amount),
            ..Setting::default()
        })
        .collect();
    if sample.edition.has_reactive_power() {
        set_reactive_power(rng, device, commitment, &mut settings);
    }
    settings
}

/// Sets reactive power and reserves of one device that keep rules 21 to 26, where any do.
pub fn set_reactive_power(
    rng: &mut Rng,
    device: &Device,
    commitment: &Commitment,
    settings: &mut [Setting],
) {
    let preference = Preference::random(rng);
    let amount = Amount::random(rng);
    for (t, setting) in settings.iter_mut().enumerate() {
        let running = Running {
            device,
            t,
            bracket: commitment.bracket[t],
            power: setting.online_power + commitment.trajectory(t),
        };
        running.set(rng, preference, amount, setting);
    }
}

/// Reserves that keep rules 7 to 18.
fn reserves(
    rng: &mut Rng,
    device: &Device,
    commitment: &Commitment,
    t: usize,
    online_power: i128,
    amount: Amount,
) -> Reserves {
    if amount == Amount::None {
        return Reserves::default();
    }
    let mut take = |most: i128| amount.take(rng, most);
    let terms = &device.terms[t];
    let limits = &device.reserve_limits;
    let mut r = Reserves::default();
    if commitment.on[t] {
        let above = terms.pmax - online_power;
        let below = online_power - terms.pmin;
        let (up_room, down_room) = match device.side {
            Side::Producing => (above, below),
            Side::Consuming => (below, above),
        };
        r.rgu = take(limits.rgu.min(limits.scr).min(limits.rru_on).min(up_room));
        r.scr = take(
            (limits.scr - r.rgu)
                .min(limits.rru_on - r.rgu)
                .min(up_room - r.rgu),
        );
        let up = r.rgu + r.scr;
        r.rru_on = take((limits.rru_on - up).min(up_room - up));
        r.rgd = take(limits.rgd.min(limits.rrd_on).min(down_room));
        r.rrd_on = take((limits.rrd_on - r.rgd).min(down_room - r.rgd));
    } else {
        let room = terms.pmax - commitment.trajectory(t);
        match device.side {
            Side::Producing => {
                r.nsc = take(limits.nsc.min(limits.rru_off).min(room));
                r.rru_off = take((limits.rru_off - r.nsc).min(room - r.nsc));
            }
            Side::Consuming => r.rrd_off = take(limits.rrd_off.min(room)),
        }
    }
    r
}

/// A plan of figures drawn without regard to the rules.
pub fn wild_plan(rng: &mut Rng, edition: Edition, case: &Case) -> Plan {
    let percent_of_reserves = rng.pick(&[0, 10, 100]);
    let power_scale = rng.pick(&[0, 200, HIGHEST_POWER]);
    let reactive_scale = rng.pick(&[0, 200, HIGHEST_POWER]);
    let reserve = |rng: &mut Rng| {
        if rng.chance(percent_of_reserves) {
            rng.from_to(0, HIGHEST_POWER)
        } else {
            0
        }
    };
    let mut setting = || {
        let mut setting = Setting {
            on: rng.chance(50),
            online_power: rng.from_to(0, power_scale),
            reserves: Reserves::from_order([(); 8].map(|_| reserve(rng))),
            ..Setting::default()
        };
        if edition.has_reactive_power() {
            setting.reactive_power = rng.from_to(-reactive_scale, reactive_scale);
            let reserves = [(); 2].map(|_| reserve(rng));
            setting.reactive_reserves = ReactiveReserves::from_order(reserves);
        }
        setting
    };
    let devices = case.devices.len();
    let settings = (0..case.intervals())
        .map(|_| (0..devices).map(|_| setting()).collect())
        .collect();
    let mut plan = Plan::plain(settings);
    if edition.has_bars() {
        let scale = rng.pick(&[0, case.link_limit, HIGHEST_POWER]);
        plan.flows.fill_with(|| rng.from_to(-scale, scale));
    }
    plan
}
