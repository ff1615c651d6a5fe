//! Which minutes of an interval count in an energy window.

use crate::case::EnergyWindow;
use crate::clock::Span;

/// The rule that an energy window counts by.
#[derive(Clone, Copy, PartialEq, Eq, Debug)]
pub enum EnergyRule {
    /// "Fuel contracts now count the minutes an interval shares with an energy window" (A.3).
    ByMinute,
    /// "where the formulation takes the whole interval by its midpoint": the comparison with the
    /// formulation is made with this one rule exchanged.
    ByMidpoint,
}

impl EnergyRule {
    /// The minutes of an interval that count in a window.
    pub fn minutes(self, span: &Span, window: &EnergyWindow) -> i128 {
        match self {
            EnergyRule::ByMinute => shared_minutes(span, window),
            EnergyRule::ByMidpoint if holds_midpoint(span, window) => span.duration(),
            EnergyRule::ByMidpoint => 0,
        }
    }
}

/// The minutes that [S, E] and the window have in common, 0 where they do not meet.
fn shared_minutes(span: &Span, window: &EnergyWindow) -> i128 {
    let from = span.start.max(window.start);
    let until = span.end.min(window.end);
    (until - from).max(0)
}

/// "window start < M ≤ window end".
fn holds_midpoint(span: &Span, window: &EnergyWindow) -> bool {
    window.start < span.midpoint() && span.midpoint() <= window.end
}
