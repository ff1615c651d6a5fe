//! The verb `mend`.

use super::arguments::{is_stdin, Arguments};
use super::judging::judge_files;
use super::machine::{accepted_members, broken_members};
use super::output::{hold_apart, put_all};
use super::trouble::{Done, Trouble};
use super::Answer;
use crate::json::Json;
use crate::judged::{Findings, Judged};
use crate::offer::{self, Offer};

/// `mend CASE PLAN [-o OUT] [--json]`.
pub fn mend_verb(arguments: &Arguments) -> Done<Answer> {
    let [case_path, plan_path] = arguments.files.as_slice() else {
        return Err(Trouble::WrongUse);
    };
    let place = arguments.file("-o");
    let (_, _, judged) = judge_files(case_path, plan_path)?;
    let status = u8::from(judged.status() > 0 && judged.offer.is_none());
    let plan = judged.offer.as_ref().map(|offer| offer.plan.as_slice());
    match place {
        Some(place) if is_stdin(place) => {
            let out = plan.unwrap_or_default().to_vec();
            return Ok(Answer { out, status });
        }
        Some(place) => {
            hold_apart(&[case_path, plan_path], &[place])?;
            let made: Vec<_> = plan.map(|plan| (place, plan)).into_iter().collect();
            put_all(&made)?;
        }
        None => {}
    }
    let text = if arguments.has("--json") {
        json(&judged).line()
    } else {
        words(&judged)?
    };
    Ok(Answer::new(text, status))
}

/// The surplus of an accepted plan; the mend of a broken one, with the rules that it mends; or none.
fn words(judged: &Judged) -> Done<String> {
    let case = &judged.day.case;
    match (&judged.findings, &judged.offer) {
        (Findings::Accepted { surplus, .. }, _) => Ok(format!("accepted {surplus}\n")),
        (Findings::Broken(_), None) => Ok(offer::told(case, None) + "\n"),
        (Findings::Broken(list), Some(offer)) => {
            let Offer { mend, surplus, .. } = offer;
            let (interval, device, power) = (mend.interval, mend.device, mend.power);
            let mut text = format!("mended {interval} {device} {power}\n");
            text += &format!("{}\n", offer.words(case));
            for line in judged.lines(list.len()).map_err(Trouble::Defect)? {
                text += &format!("mends {line}\n");
            }
            Ok(text + &format!("then accepted {surplus}\n"))
        }
    }
}

fn json(judged: &Judged) -> Json {
    Json::Object(match &judged.findings {
        Findings::Accepted { surplus, .. } => accepted_members(*surplus),
        Findings::Broken(_) => broken_members(judged, Vec::new()),
    })
}
