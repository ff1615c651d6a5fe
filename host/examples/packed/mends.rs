//! The line of a mend, and of the plan with it, judged again.

use host::messages::read_case;
use host::{judge, mend, with_buffer, Mend, Mended, Verdict};

/// What mending a message behind a case comes to; the mended plan must be accepted, with a surplus.
pub fn mend_line(case: &[u8], plan: &[u8]) -> String {
    match mend(case, plan) {
        Mended::Accepted { surplus } => format!("mend accepted {surplus}\n"),
        Mended::By(by) => {
            let Mend {
                interval,
                device,
                power,
            } = by;
            let surplus = mended_surplus(case, plan, by);
            format!("mend {interval} {device} {power} {surplus}\n")
        }
        Mended::Nothing => "mend none\n".to_string(),
        Mended::CaseRefused(fault) | Mended::PlanRefused(fault) => {
            format!("mend refused {} {}\n", fault.number, fault.bit)
        }
        Mended::Unknown { word } => panic!("a plan is answered with {word}"),
    }
}

/// The surplus of the mended plan by the judgement, or what it answers in its place.
fn mended_surplus(case: &[u8], plan: &[u8], mend: Mend) -> String {
    let figures = read_case(case).expect("a case that passes reading");
    let Some((_, mended)) = mend.applied(&figures, plan) else {
        return "of no such field".to_string();
    };
    match with_buffer(|buffer| judge(case, &mended, buffer)) {
        (Verdict::Accepted { surplus }, _) => surplus.to_string(),
        (other, _) => format!("judged {other:?}"),
    }
}
