//! "The smallest power change that mends a plan" (A.13).
//!
//! "Answer: the interval, device and new online power such that the plan with that one figure
//! replaced is accepted, with the smallest change in kW; then earlier interval, lower device, lower
//! new power. If no single replacement from 0 to 100,000 is accepted, the answer says none, and says
//! so only then. A plan already accepted is answered with its surplus, a message refused in reading
//! with its fault. No result buffer is lent: accepted means here that no rule is broken. All editions
//! are served by the same statement."
//!
//! The sentence is followed twice: [`trial`] judges the plan with every replacement in turn,
//! [`bounds`] finds where each test that a power decides on begins or ceases to hold.

pub mod bounds;
pub mod trial;

use crate::bits::HIGHEST_POWER;
use crate::case::{read_case, Case};
use crate::edition::Edition;
use crate::judge::{our_completion, Refusal};
use crate::plan::{read_plan, Plan};
use crate::renumber::Order;

/// One online power to be replaced: interval and device from 1, and the new power in kW.
#[derive(Clone, Copy, PartialEq, Eq, Debug)]
pub struct Mend {
    pub interval: usize,
    pub device: usize,
    pub power: i128,
}

/// What is answered.
#[derive(Clone, Copy, PartialEq, Eq, Debug)]
pub enum Mending {
    Accepted {
        surplus: i128,
    },
    Mended(Mend),
    /// "the answer says none".
    Nothing,
    /// Never by 7: "No result buffer is lent".
    Refused(Refusal),
}

impl Mend {
    /// The replacement at places that count from 0.
    fn at((t, j): (usize, usize), power: i128) -> Mend {
        Mend {
            interval: t + 1,
            device: j + 1,
            power,
        }
    }

    /// The power that it replaces.
    pub fn old_power(&self, plan: &Plan) -> i128 {
        plan.intervals[self.interval - 1][self.device - 1].online_power
    }

    /// The plan "with that one figure replaced".
    pub fn applied(&self, plan: &Plan) -> Plan {
        let mut mended = plan.clone();
        mended.intervals[self.interval - 1][self.device - 1].online_power = self.power;
        mended
    }

    /// "with the smallest change in kW; then earlier interval, lower device, lower new power".
    pub fn rank(&self, plan: &Plan) -> (i128, usize, usize, i128) {
        let change = (self.power - self.old_power(plan)).abs();
        (change, self.interval, self.device, self.power)
    }

    /// The same replacement where the devices stand in another order (A.11).
    pub fn renumbered(&self, order: &Order) -> Mend {
        Mend {
            device: order.new_number(self.device),
            ..*self
        }
    }
}

/// The mend of one plan for one case, both read in the host form.
pub fn mend(case_message: &[u8], plan_message: &[u8]) -> Mending {
    match read_case(case_message) {
        Err(fault) => Mending::Refused(Refusal::Case(fault)),
        Ok((edition, case)) => mend_for(edition, &case, plan_message),
    }
}

/// The same for a plan of a case that passed reading.
pub fn mend_for(edition: Edition, case: &Case, plan_message: &[u8]) -> Mending {
    let plan = match read_plan(edition, case, plan_message) {
        Err(fault) => return Mending::Refused(Refusal::Plan(fault)),
        Ok(plan) => plan,
    };
    match our_completion(case, &plan) {
        Ok(ours) => Mending::Accepted {
            surplus: ours.surplus,
        },
        Err(_) => mend_of(case, &plan).map_or(Mending::Nothing, |(mend, _)| Mending::Mended(mend)),
    }
}

/// The mend of a plan that is broken, with the surplus that the mended plan is accepted with.
pub fn mend_of(case: &Case, plan: &Plan) -> Option<(Mend, i128)> {
    let mend = bounds::least_mend(case, plan, HIGHEST_POWER)?;
    let ours = our_completion(case, &mend.applied(plan));
    let surplus = ours.expect("a mended plan breaks no rule").surplus;
    Some((mend, surplus))
}
