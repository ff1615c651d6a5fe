//! The line of A.13 behind a line.

use crate::batch::Line;
use crate::mend::Mend;

/// What mending the message of a line comes to; a case that passes reading is no plan.
pub fn mend_line(line: &Line) -> Option<String> {
    match line {
        Line::Accepted { surplus, .. } => Some(format!("mend accepted {surplus}")),
        Line::Broken { mend, .. } => Some(told(mend)),
        Line::Refused { fault, .. } => {
            let number = fault.number.figure();
            Some(format!("mend refused {number} {}", fault.bit))
        }
        Line::Case { .. } | Line::Framing { .. } => None,
    }
}

fn told(mend: &Option<(Mend, i128)>) -> String {
    let Some((mend, surplus)) = mend else {
        return "mend none".to_string();
    };
    let Mend {
        interval,
        device,
        power,
    } = mend;
    format!("mend {interval} {device} {power} {surplus}")
}
