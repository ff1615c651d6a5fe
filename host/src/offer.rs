//! The mend that is offered beside a broken plan, held to the plan unit's verdict on the mended plan.

use crate::explain::place_words;
use crate::json::Json;
use crate::messages::Case;
use crate::{judge, mend, with_buffer, Mend, Mended, Verdict};

/// The smallest change of one online power that mends a broken plan.
pub struct Offer {
    pub mend: Mend,
    /// The power that is replaced.
    pub old: i64,
    /// The mended plan's message.
    pub plan: Vec<u8>,
    /// The mended plan's surplus.
    pub surplus: i64,
}

impl Offer {
    /// `interval 2, device 1: online power 150 kW in place of 151 kW, 1 kW less`.
    pub fn words(&self, case: &Case) -> String {
        let (old, new) = (self.old, self.mend.power);
        let place = place_words(case, self.mend.interval, self.mend.device, 0);
        let way = if new > old { "more" } else { "less" };
        let change = (new - old).abs();
        format!("{place}: online power {new} kW in place of {old} kW, {change} kW {way}")
    }

    pub fn json(&self) -> Json {
        Json::Object(vec![
            ("interval", Json::count(self.mend.interval)),
            ("device", Json::count(self.mend.device)),
            ("power", Json::number(self.mend.power)),
            ("old", Json::number(self.old)),
            ("surplus", Json::number(self.surplus)),
        ])
    }
}

/// What is said of an offer, or of none.
pub fn told(case: &Case, offer: Option<&Offer>) -> String {
    match offer {
        Some(offer) => {
            let (words, surplus) = (offer.words(case), offer.surplus);
            format!("mend: {words}; then accepted {surplus}")
        }
        None => "no mend: no replacement of one online power makes this plan accepted".to_string(),
    }
}

/// The offer for a broken plan, none where no such change mends it; or what is not borne out.
pub fn offer(case: &Case, case_message: &[u8], plan: &[u8]) -> Result<Option<Offer>, String> {
    let mend = match mend(case_message, plan) {
        Mended::By(mend) => mend,
        Mended::Nothing => return Ok(None),
        other => return Err(format!("the plan unit mends a broken plan by {other:?}")),
    };
    let offer = mend.applied(case, plan).and_then(|(old, plan)| {
        let surplus = surplus(case_message, &plan)?;
        Some(Offer {
            mend,
            old,
            plan,
            surplus,
        })
    });
    let what = "the plan unit does not accept the plan that its mend makes";
    offer.map(Some).ok_or_else(|| what.to_string())
}

/// The surplus of a plan that is accepted.
fn surplus(case: &[u8], plan: &[u8]) -> Option<i64> {
    match with_buffer(|buffer| judge(case, plan, buffer)) {
        (Verdict::Accepted { surplus }, _) => Some(surplus),
        _ => None,
    }
}
