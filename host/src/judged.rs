//! A plan's verdict with everything that is told of it, held to the plan unit's figures.

use crate::balance::{balances, powers, reactive_balances};
use crate::bill::{bill, grouped, Bill};
use crate::day::Day;
use crate::explain::{explain, Breach};
use crate::messages::{read_outcome, read_plan, Case, Chosen, Kind, Outcome};
use crate::offer::{self, offer, Offer};
use crate::{breaches, judge, with_buffer, word, Fault, Listed, Verdict, LONGEST_LIST};

/// A plan of a case that passed reading.
pub struct Judged {
    pub day: Day,
    pub findings: Findings,
    /// Of a broken plan: the change that mends it, if one does.
    pub offer: Option<Offer>,
}

impl Judged {
    /// 0 where the plan is accepted, 1 where it is broken.
    pub fn status(&self) -> u8 {
        u8::from(matches!(self.findings, Findings::Broken(_)))
    }

    /// The broken rules, none where the plan is accepted.
    pub fn breaches(&self) -> &[Breach] {
        match &self.findings {
            Findings::Accepted { .. } => &[],
            Findings::Broken(list) => list,
        }
    }

    /// The first so many of them in words, or what is not borne out.
    pub fn lines(&self, most: usize) -> Result<Vec<String>, String> {
        let line = |breach: &Breach| told(&self.day, *breach);
        self.breaches().iter().take(most).map(line).collect()
    }

    /// The mend of a broken plan in words; none of an accepted one.
    pub fn mend(&self) -> Option<String> {
        let is_broken = matches!(self.findings, Findings::Broken(_));
        is_broken.then(|| offer::told(&self.day.case, self.offer.as_ref()))
    }

    /// The verdict in a line.
    pub fn headline(&self) -> Result<String, String> {
        match &self.findings {
            Findings::Accepted { surplus, .. } => {
                let surplus = grouped(i128::from(*surplus));
                Ok(format!("accepted: surplus {surplus} grains"))
            }
            Findings::Broken(list) => {
                let first = self.lines(1)?.concat();
                let words = match first.split_once(" rule ") {
                    Some((_, words)) => format!("rule {words}"),
                    None => first,
                };
                let more = match list.len() {
                    1 => String::new(),
                    all => format!("; {} more", grouped(all as i128 - 1)),
                };
                Ok(format!("broken: {words}{more}"))
            }
        }
    }
}

/// A verdict with everything that is told of it.
pub enum Findings {
    /// With the completion and the bill of its surplus.
    Accepted {
        surplus: i64,
        completion: Outcome,
        bill: Bill,
    },
    /// With every broken rule, in the order of judging.
    Broken(Vec<Breach>),
}

/// Why there is no verdict.
#[derive(Debug)]
pub enum Unjudged {
    CaseRefused(Fault),
    PlanRefused(Fault),
    /// A word that the header does not have, or not where it is answered.
    Unknown {
        word: u64,
    },
    /// What the plan unit says is not borne out.
    Defect(String),
}

fn defect<T>(what: impl Into<String>) -> Result<T, Unjudged> {
    Err(Unjudged::Defect(what.into()))
}

/// A buffer of the bytes needed is refused as too short.
const STILL_SHORT: Unjudged = Unjudged::Unknown {
    word: word::RESULT_REFUSED,
};

/// The surplus of a plan that is accepted, or the first breach of one that is broken.
pub fn ruled(verdict: Verdict) -> Result<Result<i64, Breach>, Unjudged> {
    match verdict {
        Verdict::Accepted { surplus } => Ok(Ok(surplus)),
        Verdict::Broken(first) => Ok(Err(first)),
        Verdict::CaseRefused(fault) => Err(Unjudged::CaseRefused(fault)),
        Verdict::PlanRefused(fault) => Err(Unjudged::PlanRefused(fault)),
        Verdict::TooShort { .. } => Err(STILL_SHORT),
        Verdict::Unknown { word } => Err(Unjudged::Unknown { word }),
    }
}

/// Every broken rule of a plan.
pub fn broken_rules(case: &[u8], plan: &[u8]) -> Result<Vec<Breach>, Unjudged> {
    let mut list = vec![0; LONGEST_LIST];
    let count = match breaches(case, plan, &mut list) {
        Listed::Breaches { count } => count,
        Listed::CaseRefused(fault) => return Err(Unjudged::CaseRefused(fault)),
        Listed::PlanRefused(fault) => return Err(Unjudged::PlanRefused(fault)),
        Listed::TooShort { .. } => return Err(STILL_SHORT),
        Listed::Unknown { word } => return Err(Unjudged::Unknown { word }),
    };
    let (entries, _) = list.as_chunks::<4>();
    match entries.get(..count) {
        Some(entries) => Ok(entries.iter().copied().map(Breach::from).collect()),
        None => defect("the plan unit's list is not as long as it says"),
    }
}

/// A breach in words, with both sides of its rule, or that it is not borne out.
pub fn told(day: &Day, breach: Breach) -> Result<String, String> {
    let what = "the figures of this program do not bear out the plan unit's breach";
    explain(day, breach).ok_or_else(|| format!("{what} {breach}"))
}

/// The figures of a plan that passed reading for a case.
pub fn day_of(case: &Case, plan: &[u8]) -> Result<Day, Unjudged> {
    match read_plan(case, plan) {
        Some(plan) => Ok(Day {
            case: case.clone(),
            plan,
        }),
        None => defect("this program does not read the plan that the plan unit reads"),
    }
}

/// Judges a plan message for a case, given as it is read and as its message.
pub fn judged(case: &Case, case_message: &[u8], plan: &[u8]) -> Result<Judged, Unjudged> {
    let (verdict, result) = with_buffer(|buffer| judge(case_message, plan, buffer));
    match ruled(verdict)? {
        Ok(surplus) => {
            let day = day_of(case, plan)?;
            let findings = accepted(&day, surplus, &result)?;
            Ok(Judged {
                day,
                findings,
                offer: None,
            })
        }
        Err(first) => broken(case, case_message, plan, first),
    }
}

/// What is told of a plan that judging tells to be broken: the list must begin with the breach that
/// it names, and the mend must mend the plan.
pub fn broken(
    case: &Case,
    case_message: &[u8],
    plan: &[u8],
    first: Breach,
) -> Result<Judged, Unjudged> {
    let day = day_of(case, plan)?;
    let list = broken_rules(case_message, plan)?;
    if list.first() != Some(&first) {
        return defect("the plan unit's list does not begin with the verdict's breach");
    }
    let offer = offer(case, case_message, plan).map_err(Unjudged::Defect)?;
    Ok(Judged {
        day,
        findings: Findings::Broken(list),
        offer,
    })
}

/// The completion must be read to its end, carry the verdict's surplus and have the mismatches of this
/// program's powers, and its bill must come to the surplus.
fn accepted(day: &Day, surplus: i64, message: &[u8]) -> Result<Findings, Unjudged> {
    let windows = day.case.energy_windows();
    let read = read_outcome(Kind::Completion, windows, message);
    let is_told = |outcome: &Outcome| outcome.surplus == Some(surplus) && fits(day, outcome);
    let Some(completion) = read.filter(is_told) else {
        return defect("this program does not read the completion that the plan unit writes");
    };
    if !has_our_mismatches(day, &completion) {
        return defect("the powers of this program do not bear out the completion's mismatches");
    }
    let bill = bill(day, &completion);
    if bill.total() != i128::from(surplus) {
        let total = bill.total();
        return defect(format!(
            "the bill comes to {total}, the surplus is {surplus}"
        ));
    }
    Ok(Findings::Accepted {
        surplus,
        completion,
        bill,
    })
}

/// The completion has the edition and the counts of the case.
fn fits(day: &Day, completion: &Outcome) -> bool {
    let case = &day.case;
    let has_counts = |row: &Chosen| {
        row.choices.len() == case.devices.len() && row.shortfalls.len() == case.zones.len()
    };
    completion.edition == case.edition
        && completion.rows.len() == case.intervals.len()
        && completion.rows.iter().all(has_counts)
}

fn has_our_mismatches(day: &Day, completion: &Outcome) -> bool {
    let real = balances(day, &powers(day));
    let reactive = reactive_balances(day);
    let rows = completion.rows.iter().zip(real.iter().zip(&reactive));
    let mut is_ours = rows.map(|(row, (real, reactive))| {
        (0..day.case.bars()).all(|bar| {
            row.mismatches[bar] == real[bar].mismatch()
                && row.reactive_mismatches[bar] == reactive[bar].mismatch()
        })
    });
    is_ours.all(|same| same)
}

#[cfg(test)]
mod tests {
    use super::{accepted, Unjudged};
    use crate::day::Day;
    use crate::messages::{
        case_message, outcome_message, plan_message, read_outcome, Kind, Outcome,
    };
    use crate::{judge, text, with_buffer};

    const CASE: &str = include_str!("../../examples/two-sets.case");
    const PLAN: &str = include_str!("../../examples/two-sets.plan");
    const SURPLUS: i64 = 167_860;

    /// What is made of the two-set day's completion after a change.
    fn after(change: impl Fn(&mut Outcome)) -> Result<(), String> {
        let (case, _) = text::read_case(CASE).expect("a right text");
        let (plan, _) = text::read_plan(&case, PLAN).expect("a right text");
        let messages = [case_message(&case), plan_message(&plan)].map(|m| m.expect("it fits"));
        let (_, completion) = with_buffer(|buffer| judge(&messages[0], &messages[1], buffer));
        let read = read_outcome(Kind::Completion, 0, &completion);
        let mut outcome = read.expect("it is whole");
        change(&mut outcome);
        let message = outcome_message(Kind::Completion, &outcome).expect("it fits");
        match accepted(&Day { case, plan }, SURPLUS, &message) {
            Ok(_) => Ok(()),
            Err(Unjudged::Defect(what)) => Err(what),
            Err(other) => panic!("{other:?}"),
        }
    }

    #[test]
    fn what_is_not_borne_out_is_a_defect() {
        assert_eq!(after(|_| {}), Ok(()));
        let told = after(|outcome| outcome.surplus = Some(SURPLUS + 1));
        assert!(told.is_err_and(|what| what.contains("does not read the completion")));
        let told = after(|outcome| drop(outcome.rows.pop()));
        assert!(told.is_err_and(|what| what.contains("does not read the completion")));
        let told = after(|outcome| outcome.rows[1].mismatches[0] = 1);
        assert!(told.is_err_and(|what| what.contains("the completion's mismatches")));
        // 1 kW less in the block at 3, for 60 minutes.
        let told = after(|outcome| outcome.rows[1].choices[0].blocks[0] -= 1);
        let expected = "the bill comes to 168040, the surplus is 167860";
        assert_eq!(told, Err(expected.to_string()));
    }
}
