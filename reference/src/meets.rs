//! "Completion and surplus", stated once more for any completion whatever.
//!
//! Nothing here is shared with the path that judges a plan and builds our completion: the times,
//! the forced figures, the rules, the needs and the surplus are written again from the paper, as
//! plain statements, with intervals, devices and zones counted from 1 as the paper counts them and
//! u as a number. What is read from the case and the plan, and the name of the energy rule, is all
//! that the two have in common.

use crate::case::{
    Case, Device, EnergyKind, EnergyWindow, Link, LinkLine, Reserves, Side, Status, Terms,
};
use crate::completion::{Completion, DeviceChoices, IntervalChoices};
use crate::energy::EnergyRule;
use crate::plan::{Plan, Setting};

/// Whether a completion of a plan for a case "meets every rule", with energy by the minute.
pub fn meets(case: &Case, plan: &Plan, completion: &Completion) -> bool {
    meets_by(EnergyRule::ByMinute, case, plan, completion)
}

/// The same with energy by either rule.
pub fn meets_by(
    energy_rule: EnergyRule,
    case: &Case,
    plan: &Plan,
    completion: &Completion,
) -> bool {
    let day = Day { case, plan };
    day.keeps_every_rule()
        && day.choices_are_these(completion)
        && day.overruns_suffice(energy_rule, completion)
}

/// Whether "every numbered rule holds of the plan".
pub fn keeps_every_rule(case: &Case, plan: &Plan) -> bool {
    Day { case, plan }.keeps_every_rule()
}

/// The numbers of rules 1 to 19 and 21 to 26 that a device breaks in an interval, both counted from
/// 1.
pub fn broken_rules_at(case: &Case, plan: &Plan, interval: usize, device: usize) -> Vec<u8> {
    Day { case, plan }.broken_rules_at(device, interval)
}

/// Whether rule 27 holds in an interval, counted from 1.
pub fn keeps_rule_27(case: &Case, plan: &Plan, interval: usize) -> bool {
    Day { case, plan }.keeps_rule_27(interval)
}

/// The start windows, from 1, in which a device breaks rule 20.
pub fn windows_broken(case: &Case, plan: &Plan, device: usize) -> Vec<usize> {
    Day { case, plan }.windows_broken(device)
}

/// The "surplus of a completion, by its own choices".
///
/// A choice that names no block or no state of the case has no price, and adds nothing. Choices so
/// large that a product leaves `i128` end the program; they do not wrap.
pub fn surplus_of(case: &Case, plan: &Plan, completion: &Completion) -> i128 {
    Day { case, plan }.surplus_of(completion)
}

struct Day<'a> {
    case: &'a Case,
    plan: &'a Plan,
}

/// Times, and what case and plan say at a place counted from 1.
impl<'a> Day<'a> {
    fn intervals(&self) -> impl Iterator<Item = usize> {
        1..=self.case.durations.len()
    }

    fn devices(&self) -> impl Iterator<Item = usize> {
        1..=self.case.devices.len()
    }

    fn zones(&self) -> impl Iterator<Item = usize> {
        1..=self.case.zones.len()
    }

    fn d(&self, t: usize) -> i128 {
        self.case.durations[t - 1]
    }

    fn e(&self, t: usize) -> i128 {
        self.case.durations[..t].iter().sum()
    }

    fn s(&self, t: usize) -> i128 {
        self.e(t) - self.d(t)
    }

    /// Twice the midpoint.
    fn m2(&self, t: usize) -> i128 {
        self.s(t) + self.e(t)
    }

    fn device(&self, j: usize) -> &'a Device {
        &self.case.devices[j - 1]
    }

    fn terms(&self, j: usize, t: usize) -> &'a Terms {
        &self.device(j).terms[t - 1]
    }

    fn setting(&self, j: usize, t: usize) -> &'a Setting {
        &self.plan.intervals[t - 1][j - 1]
    }

    fn reserves(&self, j: usize, t: usize) -> &'a Reserves {
        &self.setting(j, t).reserves
    }

    fn produces(&self, j: usize) -> bool {
        self.device(j).side == Side::Producing
    }

    fn consumes(&self, j: usize) -> bool {
        self.device(j).side == Side::Consuming
    }
}

/// "Forced figures".
impl Day<'_> {
    /// "u = on (1/0); before interval 1 the initial state stands."
    fn u(&self, j: usize, t: usize) -> i128 {
        if t == 0 {
            i128::from(self.device(j).initially_on)
        } else {
            i128::from(self.setting(j, t).on)
        }
    }

    fn su(&self, j: usize, t: usize) -> i128 {
        (self.u(j, t) - self.u(j, t - 1)).max(0)
    }

    fn sd(&self, j: usize, t: usize) -> i128 {
        (self.u(j, t - 1) - self.u(j, t)).max(0)
    }

    /// "pmin(t') − starting ramp·(E(t') − E(t))" of a later t' (000 (204)).
    fn supc(&self, j: usize, t: usize, later: usize) -> i128 {
        let lead = self.e(later) - self.e(t);
        self.terms(j, later).pmin - self.device(j).ramps.starting * lead
    }

    /// "pmin(t'−1) − stopping ramp·(E(t) − S(t'))" of an earlier t' or t itself (000 (206), (207)).
    fn sdpc(&self, j: usize, t: usize, stop: usize) -> i128 {
        let device = self.device(j);
        let from = match stop {
            1 => device.initial_power,
            _ => self.terms(j, stop - 1).pmin,
        };
        from - device.ramps.stopping * (self.e(t) - self.s(stop))
    }

    fn psu(&self, j: usize, t: usize) -> i128 {
        let mut psu = 0;
        for later in t + 1..=self.case.durations.len() {
            psu += self.su(j, later) * self.supc(j, t, later).max(0);
        }
        psu
    }

    fn psd(&self, j: usize, t: usize) -> i128 {
        let mut psd = 0;
        for stop in 1..=t {
            psd += self.sd(j, stop) * self.sdpc(j, t, stop).max(0);
        }
        psd
    }

    /// "u + the number of later starts whose psu term in t is above 0 + the number of stops up to t
    /// whose psd term in t is above 0".
    fn n(&self, j: usize, t: usize) -> i128 {
        let mut n = self.u(j, t);
        for later in t + 1..=self.case.durations.len() {
            n += self.su(j, later) * self.supc(j, t, later).signum().max(0);
        }
        for stop in 1..=t {
            n += self.sd(j, stop) * self.sdpc(j, t, stop).signum().max(0);
        }
        n
    }

    /// p, and in interval 0 the initial power.
    fn p(&self, j: usize, t: usize) -> i128 {
        if t == 0 {
            self.device(j).initial_power
        } else {
            self.setting(j, t).online_power + self.psu(j, t) + self.psd(j, t)
        }
    }
}

/// "Rules, by number", each for all places at once.
impl Day<'_> {
    fn keeps_every_rule(&self) -> bool {
        self.devices().all(|j| {
            self.intervals()
                .all(|t| self.broken_rules_at(j, t).is_empty())
                && self.windows_broken(j).is_empty()
        }) && self.intervals().all(|t| self.keeps_rule_27(t))
    }

    /// "Rule 27: −limit ≤ flow ≤ limit."
    fn keeps_rule_27(&self, t: usize) -> bool {
        let flow = self.plan.flows[t - 1];
        let limit = self.case.link_limit;
        -limit <= flow && flow <= limit
    }

    /// The numbers of rules 1 to 19 and 21 to 26 that device `j` breaks in interval `t`.
    fn broken_rules_at(&self, j: usize, t: usize) -> Vec<u8> {
        let kept = [
            &self.commitment_rules(j, t)[..],
            &self.ramping_rules(j, t),
            &self.reserve_rules(j, t),
            &self.power_rules(j, t),
            &self.reactive_rules(j, t),
        ]
        .concat();
        let numbers = (1..).filter(|&number| number != 20);
        numbers
            .zip(kept)
            .filter(|(_, kept)| !kept)
            .map(|(number, _)| number)
            .collect()
    }

    /// Whether rules 1 to 4 hold.
    fn commitment_rules(&self, j: usize, t: usize) -> [bool; 4] {
        let device = self.device(j);
        let u = self.u(j, t);
        let rule_1 = match self.terms(j, t).status {
            Status::Free => true,
            Status::On => u == 1,
            Status::Off => u == 0,
        };
        let its_minimum = match self.u(j, 0) {
            1 => device.minimum_up,
            _ => device.minimum_down,
        };
        let rule_2 = self.s(t) + device.minutes_already_so >= its_minimum || u == self.u(j, 0);
        let rule_3 = (1..t).all(|before| {
            self.su(j, t) * self.sd(j, before) == 0
                || self.s(t) - self.s(before) >= device.minimum_down
        });
        let rule_4 = (1..t).all(|before| {
            self.sd(j, t) * self.su(j, before) == 0
                || self.s(t) - self.s(before) >= device.minimum_up
        });
        [rule_1, rule_2, rule_3, rule_4]
    }

    /// Whether rules 5 and 6 hold.
    fn ramping_rules(&self, j: usize, t: usize) -> [bool; 2] {
        let ramps = &self.device(j).ramps;
        let (u, su, d) = (self.u(j, t), self.su(j, t), self.d(t));
        let rise = self.p(j, t) - self.p(j, t - 1);
        [
            rise <= d * (ramps.up * (u - su) + ramps.starting * (su + 1 - u)),
            -rise <= d * (ramps.down * u + ramps.stopping * (1 - u)),
        ]
    }

    /// Whether rules 7 to 15 hold.
    fn reserve_rules(&self, j: usize, t: usize) -> [bool; 9] {
        let limit = &self.device(j).reserve_limits;
        let r = self.reserves(j, t);
        let u = self.u(j, t);
        [
            r.rgu <= limit.rgu * u,
            r.rgd <= limit.rgd * u,
            r.rgu + r.scr <= limit.scr * u,
            r.rgu + r.scr + r.rru_on <= limit.rru_on * u,
            r.rgd + r.rrd_on <= limit.rrd_on * u,
            r.nsc <= limit.nsc * (1 - u),
            r.nsc + r.rru_off <= limit.rru_off * (1 - u),
            r.rrd_off <= limit.rrd_off * (1 - u),
            (self.consumes(j) || r.rrd_off == 0)
                && (self.produces(j) || r.nsc == 0)
                && (self.produces(j) || r.rru_off == 0),
        ]
    }

    /// Whether rules 16 to 19 hold.
    fn power_rules(&self, j: usize, t: usize) -> [bool; 4] {
        let terms = self.terms(j, t);
        let r = self.reserves(j, t);
        let u = self.u(j, t);
        let online = self.setting(j, t).online_power;
        let off_power = self.psu(j, t) + self.psd(j, t);
        let [rule_16, rule_17, rule_18] = if self.produces(j) {
            [
                online + r.rgu + r.scr + r.rru_on <= terms.pmax * u,
                online - r.rgd - r.rrd_on >= terms.pmin * u,
                off_power + r.nsc + r.rru_off <= terms.pmax * (1 - u),
            ]
        } else {
            [
                online + r.rgd + r.rrd_on <= terms.pmax * u,
                online - r.rgu - r.scr - r.rru_on >= terms.pmin * u,
                off_power + r.rrd_off <= terms.pmax * (1 - u),
            ]
        };
        let floors: i128 = terms.blocks.iter().map(|block| u * block.floor).sum();
        let caps = terms.blocks.iter().map(|block| block.cap).sum();
        let rule_19 = floors <= self.p(j, t) && self.p(j, t) <= caps;
        [rule_16, rule_17, rule_18, rule_19]
    }

    /// Whether rules 21 to 26 hold: of producing devices 000 (112) to (118), of consuming devices
    /// (122) to (128), "with the two zero reserves as one rule".
    fn reactive_rules(&self, j: usize, t: usize) -> [bool; 6] {
        let terms = self.terms(j, t);
        let setting = self.setting(j, t);
        let (q, r) = (setting.reactive_power, &setting.reactive_reserves);
        let n = self.n(j, t);
        let [most, least] = match self.device(j).side {
            Side::Producing => [q + r.qru, q - r.qrd],
            Side::Consuming => [q + r.qrd, q - r.qru],
        };
        let above = |line: &LinkLine, kvar: i128| {
            1000 * (kvar - line.offset * n) - line.slope * self.p(j, t)
        };
        let [rule_23, rule_24, rule_25, rule_26] = match &self.device(j).link {
            Link::None => [true; 4],
            Link::TwoLines { upper, lower } => [
                above(upper, most) <= 0,
                above(lower, least) >= 0,
                true,
                true,
            ],
            Link::Equality(line) => {
                let no_reserves = r.qru == 0 && r.qrd == 0;
                [true, true, above(line, q) == 0, no_reserves]
            }
        };
        let rule_21 = most <= terms.qmax * n;
        let rule_22 = least >= terms.qmin * n;
        [rule_21, rule_22, rule_23, rule_24, rule_25, rule_26]
    }

    /// The start windows, from 1, in which device `j` breaks rule 20.
    fn windows_broken(&self, j: usize) -> Vec<usize> {
        (1..)
            .zip(&self.device(j).start_windows)
            .filter(|(_, window)| {
                let starts: i128 = self
                    .intervals()
                    .filter(|&t| window.start <= self.s(t) && self.s(t) < window.end)
                    .map(|t| self.su(j, t))
                    .sum();
                starts > window.most_starts
            })
            .map(|(number, _)| number)
            .collect()
    }
}

/// "[...] and its choices are these".
impl Day<'_> {
    fn choices_are_these(&self, completion: &Completion) -> bool {
        self.has_one_choice_per_field(completion)
            && self.intervals().all(|t| {
                let choices = &completion.intervals[t - 1];
                self.devices()
                    .all(|j| self.device_choices_are_these(j, t, &choices.devices[j - 1]))
                    && self
                        .zones()
                        .all(|z| self.shortfalls_suffice(z, t, &choices.shortfalls[z - 1]))
                    && self.mismatches_suffice(t, choices)
            })
    }

    /// "one for each field of the completion message".
    fn has_one_choice_per_field(&self, completion: &Completion) -> bool {
        completion.intervals.len() == self.case.durations.len()
            && completion.intervals.iter().all(|choices| {
                choices.devices.len() == self.case.devices.len()
                    && choices.shortfalls.len() == self.case.zones.len()
            })
            && completion.overruns.len() == self.case.devices.len()
            && self
                .devices()
                .all(|j| completion.overruns[j - 1].len() == self.device(j).energy_windows.len())
    }

    /// "su and sd as above; block powers, each from 0 to its cap, whose sum is the device's p
    /// (absent blocks 0); at a start, no state or one of the device's states whose longest
    /// downtime ≥ downtime (elsewhere none)"; "While u = 1 each block power is at least its floor".
    fn device_choices_are_these(&self, j: usize, t: usize, choices: &DeviceChoices) -> bool {
        let blocks = &self.terms(j, t).blocks;
        let floor = |m: usize| blocks.get(m).map_or(0, |block| self.u(j, t) * block.floor);
        let cap = |m: usize| blocks.get(m).map_or(0, |block| block.cap);
        choices.started == self.su(j, t)
            && choices.stopped == self.sd(j, t)
            && (0..4).all(|m| floor(m) <= choices.blocks[m] && choices.blocks[m] <= cap(m))
            && choices.blocks.iter().sum::<i128>() == self.p(j, t)
            && self.state_is_allowed(j, t, choices.startup_state)
    }

    fn state_is_allowed(&self, j: usize, t: usize, state: i128) -> bool {
        let fits = self
            .device(j)
            .startup_states
            .iter()
            .zip(1..)
            .any(|(candidate, number)| {
                number == state && candidate.longest_downtime >= self.downtime(j, t)
            });
        state == 0 || (self.su(j, t) == 1 && fits)
    }

    /// "Downtime runs from the end of the last on interval; if none, S, plus minutes already so
    /// when initially off."
    fn downtime(&self, j: usize, t: usize) -> i128 {
        let ends_of_on_intervals = (1..t)
            .filter(|&before| self.u(j, before) == 1)
            .map(|before| self.e(before));
        match ends_of_on_intervals.max() {
            Some(end) => self.s(t) - end,
            None => self.s(t) + (1 - self.u(j, 0)) * self.device(j).minutes_already_so,
        }
    }

    fn shortfalls_suffice(&self, z: usize, t: usize, shortfalls: &[i128; 8]) -> bool {
        let [qru, qrd] = self.reactive_needs(z, t);
        let [rgu, rgd, scr, nsc, rru, rrd] = self.zone_needs(z, t);
        let needs = [rgu, rgd, scr, nsc, rru, rrd, qru, qrd];
        (0..8).all(|k| shortfalls[k] >= 0 && shortfalls[k] >= needs[k])
    }

    fn members(&self, z: usize) -> Vec<usize> {
        self.devices()
            .filter(|&j| self.device(j).zone_bits[z - 1])
            .collect()
    }

    /// The needs of reactive reserves in var, "1000·(minimum − sum of the members' reserves, both
    /// sides)".
    fn reactive_needs(&self, z: usize, t: usize) -> [i128; 2] {
        let [_, _, mut qru, mut qrd] = self.case.zones[z - 1].minima[t - 1];
        for j in self.members(z) {
            let held = &self.setting(j, t).reactive_reserves;
            qru -= held.qru;
            qrd -= held.qrd;
        }
        [1000 * qru, 1000 * qrd]
    }

    /// "Zone needs in W, over member devices", in the order of the shortfall prices.
    fn zone_needs(&self, z: usize, t: usize) -> [i128; 6] {
        let zone = &self.case.zones[z - 1];
        let members = self.members(z);
        let mut consuming_sum = 0;
        let mut largest_producing = 0;
        for &j in &members {
            if self.consumes(j) {
                consuming_sum += self.p(j, t);
            } else {
                largest_producing = largest_producing.max(self.p(j, t));
            }
        }
        let sum = |amount: fn(&Reserves) -> i128| -> i128 {
            members.iter().map(|&j| amount(self.reserves(j, t))).sum()
        };
        let rgu_required = zone.shares[0] * consuming_sum;
        let rgd_required = zone.shares[1] * consuming_sum;
        let scr_required = zone.shares[2] * largest_producing;
        let nsc_required = zone.shares[3] * largest_producing;
        let [rru_minimum, rrd_minimum, ..] = zone.minima[t - 1];
        [
            rgu_required - 1000 * sum(|r| r.rgu),
            rgd_required - 1000 * sum(|r| r.rgd),
            rgu_required + scr_required - 1000 * sum(|r| r.rgu + r.scr),
            rgu_required + scr_required + nsc_required - 1000 * sum(|r| r.rgu + r.scr + r.nsc),
            1000 * (rru_minimum - sum(|r| r.rru_on + r.rru_off)),
            1000 * (rrd_minimum - sum(|r| r.rrd_on + r.rrd_off)),
        ]
    }

    /// "Bar 0: real mismatch ≥ |consuming p + flow − producing p| of its sets; bar 1: ≥ |consuming p
    /// − producing p − flow|. Reactive: |consuming q − producing q| of each bar."
    fn mismatches_suffice(&self, t: usize, choices: &IntervalChoices) -> bool {
        let p = |side, bar| self.sum_on_bar(side, bar, |j| self.p(j, t));
        let q = |side, bar| self.sum_on_bar(side, bar, |j| self.setting(j, t).reactive_power);
        let flow = self.plan.flows[t - 1];
        let suffices = |mismatch: i128, load: i128, production: i128| {
            mismatch >= load - production && mismatch >= production - load
        };
        use Side::{Consuming, Producing};
        let [real_0, real_1] = choices.mismatches;
        let [reactive_0, reactive_1] = choices.reactive_mismatches;
        suffices(real_0, p(Consuming, 0) + flow, p(Producing, 0))
            && suffices(real_1, p(Consuming, 1), p(Producing, 1) + flow)
            && suffices(reactive_0, q(Consuming, 0), q(Producing, 0))
            && suffices(reactive_1, q(Consuming, 1), q(Producing, 1))
    }

    fn sum_on_bar(&self, side: Side, bar: usize, power: impl Fn(usize) -> i128) -> i128 {
        self.devices()
            .filter(|&j| self.device(j).side == side && self.device(j).bar == bar)
            .map(power)
            .sum()
    }

    fn overruns_suffice(&self, energy_rule: EnergyRule, completion: &Completion) -> bool {
        self.devices().all(|j| {
            let windows = &self.device(j).energy_windows;
            let overruns = &completion.overruns[j - 1];
            windows.iter().zip(overruns).all(|(window, &overrun)| {
                let energy = self.energy_in(energy_rule, j, window);
                overrun >= 0
                    && match window.kind {
                        EnergyKind::Maximum => energy <= window.energy + overrun,
                        EnergyKind::Minimum => energy >= window.energy - overrun,
                    }
            })
        })
    }

    fn energy_in(&self, energy_rule: EnergyRule, j: usize, window: &EnergyWindow) -> i128 {
        self.intervals()
            .map(|t| {
                let minutes = match energy_rule {
                    EnergyRule::ByMinute => self.minutes_in(t, window),
                    EnergyRule::ByMidpoint => self.d(t) * i128::from(self.m_is_in(t, window)),
                };
                minutes * self.p(j, t)
            })
            .sum()
    }

    /// "the minutes an interval shares with an energy window", counted one by one, each by its end.
    fn minutes_in(&self, t: usize, window: &EnergyWindow) -> i128 {
        let minutes = self.s(t) + 1..=self.e(t);
        minutes
            .filter(|&minute| window.start < minute && minute <= window.end)
            .count() as i128
    }

    /// "window start < M ≤ window end".
    fn m_is_in(&self, t: usize, window: &EnergyWindow) -> bool {
        2 * window.start < self.m2(t) && self.m2(t) <= 2 * window.end
    }
}

/// "Surplus of a completion, by its own choices and with each term summed over the day".
impl Day<'_> {
    fn surplus_of(&self, completion: &Completion) -> i128 {
        let mut consuming_blocks = 0;
        let mut producing_blocks = 0;
        let mut on_costs = 0;
        let mut switching_costs = 0;
        let mut reserve_costs = 0;
        let mut shortfall_and_mismatch = 0;
        for t in self.intervals() {
            let d = self.d(t);
            let choices = &completion.intervals[t - 1];
            for j in self.devices() {
                let device = self.device(j);
                let chosen = &choices.devices[j - 1];
                let blocks = d * self.block_money(j, t, chosen);
                if self.consumes(j) {
                    consuming_blocks += blocks;
                } else {
                    producing_blocks += blocks;
                }
                on_costs += d * device.on_cost * self.u(j, t);
                switching_costs += device.start_cost * chosen.started
                    + device.stop_cost * chosen.stopped
                    + self.state_cost(j, chosen.startup_state);
                reserve_costs += d * self.reserve_money(j, t);
            }
            shortfall_and_mismatch += d * self.shortfall_money(choices);
            shortfall_and_mismatch += d * self.mismatch_money(choices);
        }
        let overrun: i128 = completion.overruns.iter().flatten().sum();
        consuming_blocks
            - producing_blocks
            - on_costs
            - switching_costs
            - reserve_costs
            - shortfall_and_mismatch
            - self.case.overrun_price * overrun
    }

    fn shortfall_money(&self, choices: &IntervalChoices) -> i128 {
        let mut money = 0;
        for z in self.zones() {
            for k in 0..8 {
                let price = self.case.zones[z - 1].shortfall_prices[k];
                money += price * choices.shortfalls[z - 1][k];
            }
        }
        money
    }

    /// "All four cost d·mismatch price", here without d.
    fn mismatch_money(&self, choices: &IntervalChoices) -> i128 {
        let [real_0, real_1] = choices.mismatches;
        let [reactive_0, reactive_1] = choices.reactive_mismatches;
        self.case.mismatch_price * (real_0 + real_1 + reactive_0 + reactive_1)
    }

    fn block_money(&self, j: usize, t: usize, chosen: &DeviceChoices) -> i128 {
        let blocks = &self.terms(j, t).blocks;
        (0..blocks.len())
            .map(|m| blocks[m].price * chosen.blocks[m])
            .sum()
    }

    fn reserve_money(&self, j: usize, t: usize) -> i128 {
        let price = &self.terms(j, t).reserve_prices;
        let r = self.reserves(j, t);
        price.rgu * r.rgu
            + price.rgd * r.rgd
            + price.scr * r.scr
            + price.nsc * r.nsc
            + price.rru_on * r.rru_on
            + price.rru_off * r.rru_off
            + price.rrd_on * r.rrd_on
            + price.rrd_off * r.rrd_off
            + self.reactive_money(j, t)
    }

    /// 000 (96) and (97), without d.
    fn reactive_money(&self, j: usize, t: usize) -> i128 {
        let price = &self.terms(j, t).reactive_prices;
        let r = &self.setting(j, t).reactive_reserves;
        price.qru * r.qru + price.qrd * r.qrd
    }

    fn state_cost(&self, j: usize, state: i128) -> i128 {
        let states = &self.device(j).startup_states;
        (1..)
            .zip(states)
            .find(|(number, _)| *number == state)
            .map_or(0, |(_, found)| found.cost)
    }
}
