//! The plan: its figures and its reading ("Messages", paragraph **Plan**, A.1 and A.12).

use crate::bits::FieldReader;
use crate::case::{Case, ReactiveReserves, Reserves};
use crate::edition::Edition;
use crate::fault::Fault;

pub const KIND_PLAN: i128 = 2;

/// A commitment and dispatch for every interval and, within it, every device.
#[derive(Clone, PartialEq, Eq, Debug)]
pub struct Plan {
    pub intervals: Vec<Vec<Setting>>,
    /// Per interval, the "flow from bar 0 to bar 1" in kW; 0 where the edition has none.
    pub flows: Vec<i128>,
}

/// What a plan sets for one device in one interval. The reactive figures are 0 where the edition
/// has none.
#[derive(Clone, Copy, PartialEq, Eq, Debug, Default)]
pub struct Setting {
    pub on: bool,
    pub online_power: i128,
    pub reserves: Reserves,
    /// q, in kvar.
    pub reactive_power: i128,
    pub reactive_reserves: ReactiveReserves,
}

impl Plan {
    /// A plan without flows.
    pub fn plain(intervals: Vec<Vec<Setting>>) -> Plan {
        Plan {
            flows: vec![0; intervals.len()],
            intervals,
        }
    }

    /// Whether any flow is other than 0.
    pub fn has_flows(&self) -> bool {
        self.flows.iter().any(|&flow| flow != 0)
    }

    /// Whether any figure of A.1 is other than 0.
    pub fn has_reactive_power(&self) -> bool {
        self.intervals.iter().flatten().any(|setting| {
            setting.reactive_power != 0 || setting.reactive_reserves != ReactiveReserves::default()
        })
    }

    /// The plan with every figure of A.1 and A.12 at 0.
    pub fn in_figures_of_edition_1(&self) -> Plan {
        let mut plan = Plan::plain(self.intervals.clone());
        for setting in plan.intervals.iter_mut().flatten() {
            setting.reactive_power = 0;
            setting.reactive_reserves = ReactiveReserves::default();
        }
        plan
    }
}

/// Reads a plan for a case of an edition, or gives back its first fault: "A plan's edition equals
/// its case's, else 2."
pub fn read_plan(edition: Edition, case: &Case, message: &[u8]) -> Result<Plan, Fault> {
    let devices = case.devices.len();
    let intervals = case.intervals();
    let mut fields = FieldReader::new(message);
    fields.fixed(4, KIND_PLAN)?;
    fields.fixed(4, edition.figure())?;
    fields.count(edition.devices().width, devices, devices)?;
    fields.count(edition.intervals().width, intervals, intervals)?;
    let mut plan = Plan::plain(Vec::with_capacity(intervals));
    for _ in 0..intervals {
        let mut settings = Vec::with_capacity(devices);
        for _ in 0..devices {
            settings.push(read_setting(&mut fields, edition)?);
        }
        plan.intervals.push(settings);
        plan.flows.push(read_flow(&mut fields, edition)?);
    }
    fields.finish()?;
    Ok(plan)
}

/// "the plan, after each interval's devices, a flow from bar 0 to bar 1 (18 bits, ±100,000)".
fn read_flow(fields: &mut FieldReader, edition: Edition) -> Result<i128, Fault> {
    if edition.has_bars() {
        fields.power_either_way()
    } else {
        Ok(0)
    }
}

/// "on 1, online power 17, eight reserves 17 each"; "The plan gains q (as qmax) and two reactive
/// reserves (17 each)".
fn read_setting(fields: &mut FieldReader, edition: Edition) -> Result<Setting, Fault> {
    let on = fields.flag()?;
    let online_power = fields.power()?;
    let mut eight = [0; 8];
    for reserve in &mut eight {
        *reserve = fields.power()?;
    }
    let mut setting = Setting {
        on,
        online_power,
        reserves: Reserves::from_order(eight),
        ..Setting::default()
    };
    if edition.has_reactive_power() {
        setting.reactive_power = fields.power_either_way()?;
        setting.reactive_reserves.qru = fields.power()?;
        setting.reactive_reserves.qrd = fields.power()?;
    }
    Ok(setting)
}
