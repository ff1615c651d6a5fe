//! Plans broken at a chosen rule, by as little as breaks it or by more.

use crate::bits::HIGHEST_POWER;
use crate::case::{Device, ReactiveReserves, Reserves, Side, Terms};
use crate::edition::Edition;
use crate::forced::{commit, Commitment};
use crate::generate::bars::break_flow;
use crate::generate::device::random_commitment;
use crate::generate::plans::{good_plan, plan_of, set_reactive_power};
use crate::generate::reactive::Running;
use crate::generate::sample::Sample;
use crate::generate::schedule::Schedule;
use crate::plan::{Plan, Setting};
use crate::rng::Rng;
use crate::rules::{most_fall, most_rise};

const ATTEMPTS: usize = 24;

/// A plan whose first broken rule is `rule`, if the case lets one be found.
pub fn plan_breaking(rng: &mut Rng, sample: &Sample, rule: u8) -> Option<Plan> {
    match rule {
        1..=4 | 20 => plan_with_spoilt_schedule(rng, sample, rule),
        27 => plan_with_broken_flow(rng, sample),
        18 | 19 if rng.chance(50) => plan_with_spoilt_schedule(rng, sample, rule)
            .or_else(|| plan_with_broken_setting(rng, sample, rule)),
        _ => plan_with_broken_setting(rng, sample, rule),
    }
}

/// A plan in which one device follows a schedule that breaks `rule`.
fn plan_with_spoilt_schedule(rng: &mut Rng, sample: &Sample, rule: u8) -> Option<Plan> {
    let candidates: Vec<(usize, &Schedule)> = sample
        .pools
        .iter()
        .enumerate()
        .flat_map(|(j, pool)| pool.spoilt.iter().map(move |spoilt| (j, spoilt)))
        .filter(|(_, spoilt)| spoilt.rule == rule)
        .map(|(j, spoilt)| (j, &spoilt.schedule))
        .collect();
    if candidates.is_empty() {
        return None;
    }
    let (spoilt_device, spoilt_schedule) = rng.pick(&candidates);
    let chosen: Vec<&Schedule> = sample
        .pools
        .iter()
        .enumerate()
        .map(|(j, pool)| {
            if j == spoilt_device {
                spoilt_schedule
            } else {
                &pool.good[rng.below(pool.good.len())]
            }
        })
        .collect();
    Some(plan_of(rng, sample, &chosen))
}

/// A good plan with one setting changed so that `rule` is broken there.
fn plan_with_broken_setting(rng: &mut Rng, sample: &Sample, rule: u8) -> Option<Plan> {
    let mut plan = good_plan(rng, sample);
    (0..ATTEMPTS)
        .any(|_| break_somewhere(rng, sample, &mut plan, rule))
        .then_some(plan)
}

/// A good plan with a flow beyond the limit in one interval.
fn plan_with_broken_flow(rng: &mut Rng, sample: &Sample) -> Option<Plan> {
    let mut plan = good_plan(rng, sample);
    let excess = random_excess(rng);
    break_flow(rng, sample, &mut plan, excess).then_some(plan)
}

/// How far beyond a bound to go.
fn random_excess(rng: &mut Rng) -> i128 {
    match rng.below(3) {
        0 => rng.from_to(1, 1_000),
        _ => 1,
    }
}

/// Breaks `rule`, one of 5 to 19 and 21 to 26, at a place drawn by chance; false if it cannot be
/// broken there.
pub fn break_somewhere(rng: &mut Rng, sample: &Sample, plan: &mut Plan, rule: u8) -> bool {
    let any = |rng: &mut Rng| {
        let t = rng.below(sample.spans.len());
        (t, rng.below(sample.case.devices.len()))
    };
    let place = match rule {
        21..=26 if rng.chance(50) => place_of_meeting(rng, sample, plan).unwrap_or(any(rng)),
        _ => any(rng),
    };
    break_at(rng, sample, plan, rule, place)
}

/// A place, as interval and device, where trajectories meet, if the plan has any.
fn place_of_meeting(rng: &mut Rng, sample: &Sample, plan: &Plan) -> Option<(usize, usize)> {
    let mut places = Vec::new();
    for (j, device) in sample.case.devices.iter().enumerate() {
        let on = plan.intervals.iter().map(|row| row[j].on).collect();
        let bracket = commit(device, &sample.spans, on).bracket;
        let of_device = (0..bracket.len()).filter(|&t| bracket[t] > 1);
        places.extend(of_device.map(|t| (t, j)));
    }
    (!places.is_empty()).then(|| rng.pick(&places))
}

/// Breaks `rule`, one of 5 to 19 and 21 to 26, in interval `t` at device `j`; false if it cannot
/// be.
pub fn break_at(
    rng: &mut Rng,
    sample: &Sample,
    plan: &mut Plan,
    rule: u8,
    (t, j): (usize, usize),
) -> bool {
    let spot = Spot::new(rng, sample, plan, t, j);
    match spot.broken(rng, rule) {
        Some(setting) if is_sayable(&setting) => {
            plan.intervals[t][j] = setting;
            true
        }
        _ => false,
    }
}

fn is_sayable(setting: &Setting) -> bool {
    let in_range = |power: i128| (0..=HIGHEST_POWER).contains(&power);
    let reactive_reserves = setting.reactive_reserves.in_order();
    in_range(setting.online_power)
        && setting.reserves.in_order().into_iter().all(in_range)
        && in_range(setting.reactive_power.abs())
        && reactive_reserves.into_iter().all(in_range)
}

/// A setting to be broken, and what bounds it.
struct Spot<'a> {
    device: &'a Device,
    setting: Setting,
    t: usize,
    /// The most and the least p that rules 5 and 6 allow.
    highest: i128,
    lowest: i128,
    trajectory: i128,
    bracket: i128,
    /// How far beyond a bound to go.
    excess: i128,
}

impl<'a> Spot<'a> {
    fn new(rng: &mut Rng, sample: &'a Sample, plan: &Plan, t: usize, j: usize) -> Spot<'a> {
        let device = &sample.case.devices[j];
        let on = plan.intervals.iter().map(|row| row[j].on).collect();
        let commitment: Commitment = commit(device, &sample.spans, on);
        let previous = match t {
            0 => device.initial_power,
            _ => plan.intervals[t - 1][j].online_power + commitment.trajectory(t - 1),
        };
        Spot {
            device,
            setting: plan.intervals[t][j],
            t,
            highest: previous + most_rise(device, &sample.spans, &commitment, t),
            lowest: previous - most_fall(device, &sample.spans, &commitment, t),
            trajectory: commitment.trajectory(t),
            bracket: commitment.bracket[t],
            excess: random_excess(rng),
        }
    }

    fn while_on(&self, figure: i128) -> i128 {
        if self.setting.on {
            figure
        } else {
            0
        }
    }

    fn while_off(&self, figure: i128) -> i128 {
        figure - self.while_on(figure)
    }

    fn with_reserves(&self, change: impl FnOnce(&mut Reserves)) -> Option<Setting> {
        let mut setting = self.setting;
        change(&mut setting.reserves);
        Some(setting)
    }

    /// The setting with another p, if rules 5 and 6 allow it.
    fn with_power(&self, power: i128) -> Option<Setting> {
        (self.lowest <= power && power <= self.highest).then_some(Setting {
            online_power: power - self.trajectory,
            ..self.setting
        })
    }

    /// The setting changed so that `rule` is the first that it breaks.
    fn broken(&self, rng: &mut Rng, rule: u8) -> Option<Setting> {
        let r = self.setting.reserves;
        let limits = &self.device.reserve_limits;
        let excess = self.excess;
        match rule {
            5 => Some(Setting {
                online_power: self.highest + excess - self.trajectory,
                ..self.setting
            }),
            6 => Some(Setting {
                online_power: self.lowest - excess - self.trajectory,
                ..self.setting
            }),
            7 => self.with_reserves(|to| to.rgu = self.while_on(limits.rgu) + excess),
            8 => self.with_reserves(|to| to.rgd = self.while_on(limits.rgd) + excess),
            9 => self.with_reserves(|to| to.scr = self.while_on(limits.scr) + excess - r.rgu),
            10 => self.with_reserves(|to| {
                to.rru_on = self.while_on(limits.rru_on) + excess - r.rgu - r.scr;
            }),
            11 => self.with_reserves(|to| {
                to.rrd_on = self.while_on(limits.rrd_on) + excess - r.rgd;
            }),
            12 => self.with_reserves(|to| to.nsc = self.while_off(limits.nsc) + excess),
            13 => self.with_reserves(|to| {
                to.rru_off = self.while_off(limits.rru_off) + excess - r.nsc;
            }),
            14 => self.with_reserves(|to| to.rrd_off = self.while_off(limits.rrd_off) + excess),
            15 => self.with_other_sides_reserve(rng),
            16 => self.above_pmax(rng),
            17 => self.below_pmin(rng),
            18 => self.above_pmax_while_off(),
            19 => self.beyond_either_bound(rng),
            25 if rng.chance(50) => self.beside_equality(rng),
            21..=26 => {
                let running = self.running(self.setting.online_power);
                running.broken(rng, &self.setting, rule, excess)
            }
            _ => None,
        }
    }

    /// The device in this interval, with some online power.
    fn running(&self, online_power: i128) -> Running<'a> {
        Running {
            device: self.device,
            t: self.t,
            bracket: self.bracket,
            power: online_power + self.trajectory,
        }
    }

    /// Rule 25, by a power for which q would not be a whole number of kvar or is another.
    fn beside_equality(&self, rng: &mut Rng) -> Option<Setting> {
        let terms = &self.device.terms[self.t];
        let power = self.setting.online_power + self.trajectory + rng.pick(&[-1, 1]);
        let mut setting = self.with_power(power)?;
        setting.reserves = Reserves::default();
        let online = setting.online_power;
        let keeps_others = online >= self.while_on(terms.pmin)
            && online <= self.while_on(terms.pmax)
            && power >= self.while_on(terms.sum_of_floors())
            && power <= terms.sum_of_caps();
        (keeps_others && self.running(online).breaks(&setting, 25)).then_some(setting)
    }

    /// Rule 15, with the limits of rules 12 to 14 kept: only while off.
    fn with_other_sides_reserve(&self, rng: &mut Rng) -> Option<Setting> {
        let limits = &self.device.reserve_limits;
        let uses_nsc = rng.chance(50);
        let most = match self.device.side {
            Side::Producing => limits.rrd_off,
            Side::Consuming if uses_nsc => limits.nsc.min(limits.rru_off),
            Side::Consuming => limits.rru_off,
        };
        let most = self.while_off(most);
        if most == 0 {
            return None;
        }
        let amount = rng.pick(&[1, most]);
        self.with_reserves(|to| match self.device.side {
            Side::Producing => to.rrd_off = amount,
            Side::Consuming if uses_nsc => to.nsc = amount,
            Side::Consuming => to.rru_off = amount,
        })
    }

    /// Rule 16, by online power or by reserves that rules 7 to 11 still allow.
    fn above_pmax(&self, rng: &mut Rng) -> Option<Setting> {
        let r = self.setting.reserves;
        let limits = &self.device.reserve_limits;
        let pmax = self.while_on(self.device.terms[self.t].pmax);
        let beyond = pmax + self.excess;
        let online = self.setting.online_power;
        match (self.device.side, rng.chance(50)) {
            (Side::Producing, true) => {
                self.with_power(beyond - r.rgu - r.scr - r.rru_on + self.trajectory)
            }
            (Side::Consuming, true) => self.with_power(beyond - r.rgd - r.rrd_on + self.trajectory),
            (Side::Producing, false) => {
                let up = beyond - online;
                (up <= self.while_on(limits.rru_on))
                    .then(|| self.with_reserves(|to| to.rru_on = up - r.rgu - r.scr))?
            }
            (Side::Consuming, false) => {
                let down = beyond - online;
                (down <= self.while_on(limits.rrd_on))
                    .then(|| self.with_reserves(|to| to.rrd_on = down - r.rgd))?
            }
        }
    }

    /// Rule 17, by online power or by reserves that rules 7 to 11 still allow.
    fn below_pmin(&self, rng: &mut Rng) -> Option<Setting> {
        let r = self.setting.reserves;
        let limits = &self.device.reserve_limits;
        let pmin = self.while_on(self.device.terms[self.t].pmin);
        let beyond = pmin - self.excess;
        let online = self.setting.online_power;
        match (self.device.side, rng.chance(50)) {
            (Side::Producing, true) => self.with_power(beyond + r.rgd + r.rrd_on + self.trajectory),
            (Side::Consuming, true) => {
                self.with_power(beyond + r.rgu + r.scr + r.rru_on + self.trajectory)
            }
            (Side::Producing, false) => {
                let down = online - beyond;
                (down <= self.while_on(limits.rrd_on))
                    .then(|| self.with_reserves(|to| to.rrd_on = down - r.rgd))?
            }
            (Side::Consuming, false) => {
                let up = online - beyond;
                (up <= self.while_on(limits.rru_on))
                    .then(|| self.with_reserves(|to| to.rru_on = up - r.rgu - r.scr))?
            }
        }
    }

    /// Rule 18, by reserves of an off device that rules 12 to 15 still allow.
    fn above_pmax_while_off(&self) -> Option<Setting> {
        let r = self.setting.reserves;
        let limits = &self.device.reserve_limits;
        let amount = self.while_off(self.device.terms[self.t].pmax) + self.excess - self.trajectory;
        match self.device.side {
            Side::Producing => (amount <= self.while_off(limits.rru_off))
                .then(|| self.with_reserves(|to| to.rru_off = amount - r.nsc))?,
            Side::Consuming => (amount <= self.while_off(limits.rrd_off))
                .then(|| self.with_reserves(|to| to.rrd_off = amount))?,
        }
    }

    /// Rule 19, by either bound.
    fn beyond_either_bound(&self, rng: &mut Rng) -> Option<Setting> {
        let (above, below) = (self.above_caps(), self.below_floors());
        if rng.chance(50) {
            above.or(below)
        } else {
            below.or(above)
        }
    }

    /// Rule 19 by its upper bound, with pmax kept.
    fn above_caps(&self) -> Option<Setting> {
        let caps = self.device.terms[self.t].sum_of_caps();
        self.beyond_blocks(caps + self.excess)
    }

    /// Rule 19 by its lower bound, with pmin kept: only while on, where floors come to more.
    fn below_floors(&self) -> Option<Setting> {
        let floors = self.while_on(self.device.terms[self.t].sum_of_floors());
        self.beyond_blocks(floors - self.excess)
    }

    /// A power with which rules 16 and 17 are kept without reserves.
    fn beyond_blocks(&self, power: i128) -> Option<Setting> {
        let terms = &self.device.terms[self.t];
        let mut setting = self.with_power(power)?;
        setting.reserves = Reserves::default();
        let online = setting.online_power;
        (online >= self.while_on(terms.pmin) && online <= self.while_on(terms.pmax))
            .then_some(setting)
    }
}

/// A rule of one device in one interval that an edition has, none of rules 1 to 4.
pub fn random_rule_of_a_setting(rng: &mut Rng, edition: Edition) -> u8 {
    let is_reactive = edition.has_reactive_power() && rng.chance(50);
    let (least, greatest) = if is_reactive { (21, 26) } else { (5, 19) };
    rng.from_to(least, greatest) as u8
}

/// A good plan broken at several places.
pub fn plan_broken_severally(rng: &mut Rng, sample: &Sample) -> Plan {
    let mut plan = good_plan(rng, sample);
    for _ in 0..ATTEMPTS {
        let rule = random_rule_of_a_setting(rng, sample.edition);
        break_somewhere(rng, sample, &mut plan, rule);
        if sample.edition.has_bars() && rng.chance(15) {
            let excess = random_excess(rng);
            break_flow(rng, sample, &mut plan, excess);
        }
    }
    plan
}

/// A good plan as meters tell it the day after: powers and flows that drifted, reserves that were
/// held or not, now and then a device that was switched otherwise.
pub fn metered_plan(rng: &mut Rng, sample: &Sample) -> Plan {
    let mut plan = good_plan(rng, sample);
    let drift = rng.pick(&[1, 30, 1_000]);
    let metered = |rng: &mut Rng, figure: i128, least: i128| {
        (figure + rng.from_to(-drift, drift)).clamp(least, HIGHEST_POWER)
    };
    for setting in plan.intervals.iter_mut().flatten() {
        setting.online_power = metered(rng, setting.online_power, 0);
        if rng.chance(20) {
            let eight = setting.reserves.in_order();
            let drifted = eight.map(|reserve| metered(rng, reserve, 0));
            setting.reserves = Reserves::from_order(drifted);
        }
        setting.on ^= rng.chance(3);
        if sample.edition.has_reactive_power() && rng.chance(30) {
            setting.reactive_power = metered(rng, setting.reactive_power, -HIGHEST_POWER);
            let two = setting.reactive_reserves.in_order();
            let drifted = two.map(|reserve| metered(rng, reserve, 0));
            setting.reactive_reserves = ReactiveReserves::from_order(drifted);
        }
    }
    if sample.edition.has_bars() {
        for flow in &mut plan.flows {
            *flow = metered(rng, *flow, -HIGHEST_POWER);
        }
    }
    plan
}

/// A good plan in which one device follows any commitment at all, at its least power while on; with
/// reactive power that keeps rules 21 to 26 where it can, or is nudged at one place.
pub fn recommitted_plan(rng: &mut Rng, sample: &Sample) -> Plan {
    let mut plan = good_plan(rng, sample);
    let j = rng.below(sample.case.devices.len());
    let device = &sample.case.devices[j];
    let mut settings = settings_of_any_commitment(rng, device, sample.spans.len());
    if sample.edition.has_reactive_power() {
        let on = settings.iter().map(|setting| setting.on).collect();
        let commitment = commit(device, &sample.spans, on);
        set_reactive_power(rng, device, &commitment, &mut settings);
        if rng.chance(40) {
            let t = rng.below(settings.len());
            nudge_reactive_power(rng, &mut settings[t]);
        }
    }
    for (t, setting) in settings.into_iter().enumerate() {
        plan.intervals[t][j] = setting;
    }
    plan
}

/// Settings of a device that is switched by chance, while on at the least power that pmin and
/// floors leave.
fn settings_of_any_commitment(rng: &mut Rng, device: &Device, intervals: usize) -> Vec<Setting> {
    let restless = rng.chance(50);
    let (_, commitment) = random_commitment(rng, intervals);
    let least = |t: usize| {
        let Terms { pmin, pmax, .. } = device.terms[t];
        device.terms[t].sum_of_floors().clamp(pmin, pmax)
    };
    let mut setting = |(t, calm_on): (usize, bool)| {
        let on = if restless { rng.chance(50) } else { calm_on };
        Setting {
            on,
            online_power: if on { least(t) } else { 0 },
            ..Setting::default()
        }
    };
    (0..).zip(commitment).map(&mut setting).collect()
}

/// A good plan with one figure, or one commitment, changed a little.
pub fn nudged_plan(rng: &mut Rng, sample: &Sample) -> Plan {
    let mut plan = good_plan(rng, sample);
    let t = rng.below(sample.spans.len());
    let j = rng.below(sample.case.devices.len());
    let setting = &mut plan.intervals[t][j];
    match rng.below(10) {
        _ if sample.edition.has_bars() && rng.chance(20) => {
            plan.flows[t] = near(rng, plan.flows[t], -HIGHEST_POWER);
        }
        0 => setting.on = !setting.on,
        1 | 2 => setting.online_power = near(rng, setting.online_power, 0),
        3..=6 if sample.edition.has_reactive_power() => nudge_reactive_power(rng, setting),
        _ => {
            let mut eight = setting.reserves.in_order();
            let k = rng.below(8);
            eight[k] = near(rng, eight[k], 0);
            setting.reserves = Reserves::from_order(eight);
        }
    }
    plan
}

/// A figure beside another, not below `least`.
fn near(rng: &mut Rng, figure: i128, least: i128) -> i128 {
    (figure + rng.pick(&[-1, 1, -60, 60])).clamp(least, HIGHEST_POWER)
}

fn nudge_reactive_power(rng: &mut Rng, setting: &mut Setting) {
    let reserves = &mut setting.reactive_reserves;
    match rng.below(4) {
        0 => reserves.qru = near(rng, reserves.qru, 0),
        1 => reserves.qrd = near(rng, reserves.qrd, 0),
        _ => setting.reactive_power = near(rng, setting.reactive_power, -HIGHEST_POWER),
    }
}
