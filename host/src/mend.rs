//! The smallest power change that mends a plan, and the plan with it.

use crate::answers::Refused;
use crate::messages::{plan_message, read_plan, Case};
use crate::{word, Fault, Told};

extern "C" {
    fn kadunfo_mend(
        case: *const u8,
        case_length: usize,
        plan: *const u8,
        plan_length: usize,
        figures: *mut u64,
        figures_length: usize,
    ) -> u64;
}

/// One online power to be replaced: interval and device from 1, and the new power in kW.
#[derive(Clone, Copy, PartialEq, Eq, Debug)]
pub struct Mend {
    pub interval: usize,
    pub device: usize,
    pub power: i64,
}

/// What asking for the smallest mend comes to.
#[derive(Clone, Copy, PartialEq, Eq, Debug)]
pub enum Mended {
    /// The plan breaks no rule.
    Accepted {
        surplus: i64,
    },
    /// The plan with this one power replaced breaks no rule.
    By(Mend),
    /// The plan is broken, and no replacement of one power mends it.
    Nothing,
    CaseRefused(Fault),
    PlanRefused(Fault),
    /// A word, or figures with it, that the header does not have.
    Unknown {
        word: u64,
    },
}

/// The smallest change of one online power that mends a plan; then the earlier interval, the lower
/// device, the lower power.
pub fn mend(case: &[u8], plan: &[u8]) -> Mended {
    // SAFETY: each pointer comes with the length of its slice, and the slices do not overlap.
    let told = Told::by(|figures, length| unsafe {
        let (case, case_length) = (case.as_ptr(), case.len());
        kadunfo_mend(
            case,
            case_length,
            plan.as_ptr(),
            plan.len(),
            figures,
            length,
        )
    });
    told.into()
}

impl From<Told> for Mended {
    fn from(told: Told) -> Mended {
        match (told.word, told.figures) {
            (word::ACCEPTED, [surplus, 0, 0, 0]) => Mended::Accepted {
                surplus: surplus as i64,
            },
            (word::MENDED, [interval, device, power, 0]) => Mended::By(Mend {
                interval: interval as usize,
                device: device as usize,
                power: power as i64,
            }),
            (word::UNMENDABLE, [0, 0, 0, 0]) => Mended::Nothing,
            _ => match told.refused() {
                Refused::Case(fault) => Mended::CaseRefused(fault),
                Refused::Message(fault) => Mended::PlanRefused(fault),
                Refused::TooShort { .. } => Mended::Unknown { word: told.word },
                Refused::Unknown { word } => Mended::Unknown { word },
            },
        }
    }
}

impl Mend {
    /// The power that is replaced in a plan that passed reading, and the plan with that one field
    /// replaced, its other bits as they were; `None` where its figures are not so.
    pub fn applied(&self, case: &Case, message: &[u8]) -> Option<(i64, Vec<u8>)> {
        let (t, j) = (self.interval.checked_sub(1)?, self.device.checked_sub(1)?);
        let mut plan = read_plan(case, message)?;
        if plan_message(&plan).ok()? != message {
            return None;
        }
        let online = &mut plan.rows.get_mut(t)?.settings.get_mut(j)?.online;
        let old = std::mem::replace(online, self.power);
        Some((old, plan_message(&plan).ok()?))
    }
}
