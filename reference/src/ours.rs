//! Our completion of a plan that keeps every rule, and its surplus.
//!
//! "Ours among equals: lower-numbered block first; lowest-numbered cheapest state, and none unless
//! it costs below 0." Shortfalls, mismatch and overruns are exactly their needs. The surplus is
//! added up here as the choices are made; [`crate::meets::surplus_of`] states it again from the
//! choices alone.

use crate::case::{
    Block, Case, Device, EnergyKind, EnergyWindow, ReactiveReserves, Reserves, Side, Terms, Zone,
    BARS, MOST_ITEMS, MOST_SHORTFALLS,
};
use crate::clock::Span;
use crate::completion::{Completion, DeviceChoices, IntervalChoices};
use crate::energy::EnergyRule;
use crate::forced::{Commitment, Forced};
use crate::plan::{Plan, Setting};

/// Our completion with its surplus in grains.
pub struct Ours {
    pub completion: Completion,
    pub surplus: i128,
}

/// Completes a plan that keeps every rule, with energy by the minute.
pub fn complete(case: &Case, spans: &[Span], plan: &Plan, forced: &[Forced]) -> Ours {
    complete_by(EnergyRule::ByMinute, case, spans, plan, forced)
}

/// Completes a plan that keeps every rule, with energy by either rule.
pub fn complete_by(
    energy_rule: EnergyRule,
    case: &Case,
    spans: &[Span],
    plan: &Plan,
    forced: &[Forced],
) -> Ours {
    let day = Day {
        energy_rule,
        case,
        spans,
        plan,
        forced,
    };
    let mut surplus = 0;
    let intervals = (0..spans.len())
        .map(|t| day.complete_interval(t, &mut surplus))
        .collect();
    let overruns: Vec<Vec<i128>> = (0..case.devices.len()).map(|j| day.overruns(j)).collect();
    surplus -= case.overrun_price * overruns.iter().flatten().sum::<i128>();
    Ours {
        completion: Completion {
            intervals,
            overruns,
        },
        surplus,
    }
}

struct Day<'a> {
    energy_rule: EnergyRule,
    case: &'a Case,
    spans: &'a [Span],
    plan: &'a Plan,
    forced: &'a [Forced],
}

impl Day<'_> {
    fn complete_interval(&self, t: usize, surplus: &mut i128) -> IntervalChoices {
        let duration = self.spans[t].duration();
        let devices = (0..self.case.devices.len())
            .map(|j| self.complete_device(j, t, surplus))
            .collect();
        let shortfalls: Vec<[i128; MOST_SHORTFALLS]> = self
            .case
            .zones
            .iter()
            .enumerate()
            .map(|(z, zone)| self.shortfalls(z, zone, t))
            .collect();
        for (zone, shortfall) in self.case.zones.iter().zip(&shortfalls) {
            *surplus -= duration * product_sum(&zone.shortfall_prices, shortfall);
        }
        let mismatches = self.mismatches(t);
        let reactive_mismatches = self.reactive_mismatches(t);
        let all: i128 = mismatches.iter().chain(&reactive_mismatches).sum();
        *surplus -= duration * self.case.mismatch_price * all;
        IntervalChoices {
            devices,
            shortfalls,
            mismatches,
            reactive_mismatches,
        }
    }

    fn complete_device(&self, j: usize, t: usize, surplus: &mut i128) -> DeviceChoices {
        let device = &self.case.devices[j];
        let commitment = &self.forced[j].commitment;
        let blocks = fill_blocks(
            device.side,
            &device.terms[t].blocks,
            commitment.on[t],
            self.forced[j].power[t],
        );
        let startup_state = if commitment.started[t] {
            cheapest_state(device, downtime(device, self.spans, commitment, t))
        } else {
            None
        };
        *surplus += self.spans[t].duration()
            * running_value(
                device,
                &device.terms[t],
                &self.plan.intervals[t][j],
                &blocks,
            );
        *surplus -= switching_cost(device, commitment, t, startup_state);
        DeviceChoices {
            started: i128::from(commitment.started[t]),
            stopped: i128::from(commitment.stopped[t]),
            startup_state: startup_state.map_or(0, |f| f as i128 + 1),
            blocks,
        }
    }

    /// Settings of the member devices of zone `z` in interval `t`, each with its device's index.
    fn members(&self, z: usize, t: usize) -> impl Iterator<Item = (usize, &Setting)> {
        self.plan.intervals[t]
            .iter()
            .enumerate()
            .filter(move |(j, _)| self.case.devices[*j].zone_bits[z])
    }

    fn is_consuming(&self, j: usize) -> bool {
        self.case.devices[j].side == Side::Consuming
    }

    /// "Zone needs in W, over member devices", and those of reactive reserves in var, none below 0.
    fn shortfalls(&self, z: usize, zone: &Zone, t: usize) -> [i128; MOST_SHORTFALLS] {
        let consuming_power: i128 = self
            .members(z, t)
            .filter(|(j, _)| self.is_consuming(*j))
            .map(|(j, _)| self.forced[j].power[t])
            .sum();
        let largest_producing_power = self
            .members(z, t)
            .filter(|(j, _)| !self.is_consuming(*j))
            .map(|(j, _)| self.forced[j].power[t])
            .max()
            .unwrap_or(0);
        let [rgu_share, rgd_share, scr_share, nsc_share] = zone.shares;
        let [rru_minimum, rrd_minimum, qru_minimum, qrd_minimum] = zone.minima[t];
        let required_rgu = rgu_share * consuming_power;
        let required_rgd = rgd_share * consuming_power;
        let required_scr = scr_share * largest_producing_power;
        let required_nsc = nsc_share * largest_producing_power;
        let held = self.held_reserves(z, t);
        let reactive = self.held_reactive_reserves(z, t);
        [
            required_rgu - 1_000 * held.rgu,
            required_rgd - 1_000 * held.rgd,
            required_rgu + required_scr - 1_000 * (held.rgu + held.scr),
            required_rgu + required_scr + required_nsc - 1_000 * (held.rgu + held.scr + held.nsc),
            1_000 * (rru_minimum - (held.rru_on + held.rru_off)),
            1_000 * (rrd_minimum - (held.rrd_on + held.rrd_off)),
            1_000 * (qru_minimum - reactive.qru),
            1_000 * (qrd_minimum - reactive.qrd),
        ]
        .map(|need| need.max(0))
    }

    /// The reserves that the members of zone `z` hold together.
    fn held_reserves(&self, z: usize, t: usize) -> Reserves {
        let mut held = [0; 8];
        for (_, setting) in self.members(z, t) {
            for (sum, reserve) in held.iter_mut().zip(setting.reserves.in_order()) {
                *sum += reserve;
            }
        }
        Reserves::from_order(held)
    }

    /// The reactive reserves that the members of zone `z` hold together, of both sides (000 (46),
    /// (47)).
    fn held_reactive_reserves(&self, z: usize, t: usize) -> ReactiveReserves {
        let mut held = ReactiveReserves::default();
        for (_, setting) in self.members(z, t) {
            held.qru += setting.reactive_reserves.qru;
            held.qrd += setting.reactive_reserves.qrd;
        }
        held
    }

    /// "Mismatch ≥ |consuming − producing p|" of each bar: "Flow counts as load on bar 0 and as
    /// production on bar 1".
    fn mismatches(&self, t: usize) -> [i128; BARS] {
        let [bar_0, bar_1] = self.balances(|j| self.forced[j].power[t]);
        let flow = self.plan.flows[t];
        [(bar_0 + flow).abs(), (bar_1 - flow).abs()]
    }

    /// The same of reactive power (000 (18)): "the link carries no reactive power".
    fn reactive_mismatches(&self, t: usize) -> [i128; BARS] {
        let balances = self.balances(|j| self.plan.intervals[t][j].reactive_power);
        balances.map(i128::abs)
    }

    /// What the devices of each bar consume less what they produce.
    fn balances(&self, power: impl Fn(usize) -> i128) -> [i128; BARS] {
        let mut balances = [0; BARS];
        for (j, device) in self.case.devices.iter().enumerate() {
            let sign = if self.is_consuming(j) { 1 } else { -1 };
            balances[device.bar] += sign * power(j);
        }
        balances
    }

    fn overruns(&self, j: usize) -> Vec<i128> {
        self.case.devices[j]
            .energy_windows
            .iter()
            .map(|window| self.overrun(j, window))
            .collect()
    }

    /// "Overrun uses p times the shared minutes", summed, "above a maximum or below a minimum."
    fn overrun(&self, j: usize, window: &EnergyWindow) -> i128 {
        let energy: i128 = self
            .spans
            .iter()
            .zip(&self.forced[j].power)
            .map(|(span, power)| self.energy_rule.minutes(span, window) * power)
            .sum();
        let beyond = match window.kind {
            EnergyKind::Maximum => energy - window.energy,
            EnergyKind::Minimum => window.energy - energy,
        };
        beyond.max(0)
    }
}

fn product_sum(prices: &[i128], amounts: &[i128]) -> i128 {
    prices
        .iter()
        .zip(amounts)
        .map(|(price, amount)| price * amount)
        .sum()
}

/// Fills blocks: "Floors first, then price order." Floors count while the device is on. In order of
/// merit the cheapest comes first for a producer and the dearest for a consumer; "lower-numbered
/// block first" among equals.
pub fn fill_blocks(side: Side, blocks: &[Block], on: bool, power: i128) -> [i128; MOST_ITEMS] {
    let mut by_merit: Vec<usize> = (0..blocks.len()).collect();
    by_merit.sort_by_key(|&m| match side {
        Side::Producing => (blocks[m].price, m),
        Side::Consuming => (-blocks[m].price, m),
    });
    let mut filled = [0; MOST_ITEMS];
    let mut left = power;
    if on {
        for (power, block) in filled.iter_mut().zip(blocks) {
            *power = block.floor;
            left -= block.floor;
        }
    }
    assert!(left >= 0, "rule 19 leaves every floor its power");
    for m in by_merit {
        let more = left.min(blocks[m].cap - filled[m]);
        filled[m] += more;
        left -= more;
    }
    assert_eq!(left, 0, "rule 19 leaves no power without a block");
    filled
}

/// "Downtime runs from the end of the last on interval; if none, S, plus minutes already so when
/// initially off."
pub fn downtime(device: &Device, spans: &[Span], commitment: &Commitment, t: usize) -> i128 {
    match commitment.last_on_before(t) {
        Some(last_on) => spans[t].start - spans[last_on].end,
        None if device.initially_on => spans[t].start,
        None => spans[t].start + device.minutes_already_so,
    }
}

/// "lowest-numbered cheapest state, and none unless it costs below 0", among "the device's states
/// whose longest downtime ≥ downtime".
pub fn cheapest_state(device: &Device, downtime: i128) -> Option<usize> {
    let states = &device.startup_states;
    (0..states.len())
        .filter(|&f| states[f].longest_downtime >= downtime && states[f].cost < 0)
        .min_by_key(|&f| (states[f].cost, f))
}

/// What a device's running brings per minute: its blocks' value or cost, less on cost and reserves.
fn running_value(
    device: &Device,
    terms: &Terms,
    setting: &Setting,
    blocks: &[i128; MOST_ITEMS],
) -> i128 {
    let block_prices: Vec<i128> = terms.blocks.iter().map(|block| block.price).collect();
    let energy = product_sum(&block_prices, blocks);
    let reserves = product_sum(
        &terms.reserve_prices.in_order(),
        &setting.reserves.in_order(),
    );
    let reactive_reserves = product_sum(
        &terms.reactive_prices.in_order(),
        &setting.reactive_reserves.in_order(),
    );
    let on_cost = if setting.on { device.on_cost } else { 0 };
    let costs = on_cost + reserves + reactive_reserves;
    match device.side {
        Side::Consuming => energy - costs,
        Side::Producing => -energy - costs,
    }
}

/// Start, stop and state costs of one interval.
fn switching_cost(
    device: &Device,
    commitment: &Commitment,
    t: usize,
    startup_state: Option<usize>,
) -> i128 {
    let start = if commitment.started[t] {
        device.start_cost
    } else {
        0
    };
    let stop = if commitment.stopped[t] {
        device.stop_cost
    } else {
        0
    };
    start + stop + startup_state.map_or(0, |f| device.startup_states[f].cost)
}
