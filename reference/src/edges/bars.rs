//! Edges of A.12: bars, the flow between them, and mismatches of each.

use super::{AcceptedEdge, BrokenDay, BrokenEdge, Day};
use crate::bits::HIGHEST_POWER;
use crate::case::Side;
use crate::completion::IntervalChoices;
use crate::edition::Edition;

impl Day<'_> {
    /// Whether the flow and the choices of some interval lie so.
    fn any_flow(&self, lie: impl Fn(i128, &IntervalChoices) -> bool) -> bool {
        let mut flows = self.plan.flows.iter().zip(&self.completion.intervals);
        flows.any(|(&flow, choices)| lie(flow, choices))
    }

    /// Whether the mismatches of some interval are more than one busbar would have.
    fn any_mismatch_of_bars_alone(&self) -> bool {
        (0..self.spans.len()).any(|t| {
            let signed = self.case.devices.iter().zip(self.forced).map(|(d, f)| {
                let sign = if d.side == Side::Consuming { 1 } else { -1 };
                sign * f.power[t]
            });
            let of_one_busbar = signed.sum::<i128>().abs();
            let [bar_0, bar_1] = self.completion.intervals[t].mismatches;
            bar_0 + bar_1 > of_one_busbar
        })
    }

    fn has_devices_on(&self, bar: usize) -> bool {
        self.case.devices.iter().any(|device| device.bar == bar)
    }

    fn has_both_bars(&self) -> bool {
        self.has_devices_on(0) && self.has_devices_on(1)
    }
}

/// What accepted plans can show of bars.
pub(super) const BAR_ACCEPTED_EDGES: &[AcceptedEdge] = &[
    ("edition 5", |day| day.edition == Edition::Five),
    ("edition 5 with bar, limit and flow 0 everywhere", |day| {
        day.edition == Edition::Five && !day.case.has_bars() && !day.plan.has_flows()
    }),
    (
        "edition 5 with every figure of later editions neutral",
        |day| {
            day.edition == Edition::Five
                && !day.case.has_bars()
                && !day.plan.has_flows()
                && !day.case.has_floors()
                && !day.case.has_reactive_power()
                && !day.plan.has_reactive_power()
        },
    ),
    ("devices on both bars", |day| day.has_both_bars()),
    ("every device on bar 1", |day| !day.has_devices_on(0)),
    ("zone with members on both bars", |day| {
        day.any_zone(|members| {
            let on = |bar| members.iter().any(|device| device.bar == bar);
            on(0) && on(1)
        })
    }),
    ("link limit 0 with devices on both bars", |day| {
        day.case.link_limit == 0 && day.has_both_bars()
    }),
    ("link limit 100,000", |day| {
        day.case.link_limit == HIGHEST_POWER
    }),
    ("flow at the limit", |day| {
        day.any_flow(|flow, _| flow > 0 && flow == day.case.link_limit)
    }),
    ("flow at the limit the other way", |day| {
        day.any_flow(|flow, _| flow < 0 && -flow == day.case.link_limit)
    }),
    ("flow one below the limit", |day| {
        day.any_flow(|flow, _| flow > 0 && flow + 1 == day.case.link_limit)
    }),
    ("flow 0 below a limit", |day| {
        day.any_flow(|flow, _| flow == 0 && day.case.link_limit > 0)
    }),
    ("flows either way on one day", |day| {
        day.any_flow(|flow, _| flow > 0) && day.any_flow(|flow, _| flow < 0)
    }),
    ("flow that puts bar 0 in balance", |day| {
        day.any_flow(|flow, choices| flow != 0 && choices.mismatches[0] == 0)
    }),
    ("flow that puts bar 1 in balance", |day| {
        day.any_flow(|flow, choices| flow != 0 && choices.mismatches[1] == 0)
    }),
    ("flow that puts both bars in balance", |day| {
        day.any_flow(|flow, choices| flow != 0 && choices.mismatches == [0, 0])
    }),
    ("mismatch on bar 0 alone", |day| {
        day.any_flow(|_, choices| choices.mismatches[0] > 0 && choices.mismatches[1] == 0)
    }),
    ("mismatch on bar 1 alone", |day| {
        day.any_flow(|_, choices| choices.mismatches[0] == 0 && choices.mismatches[1] > 0)
    }),
    ("mismatch on both bars", |day| {
        day.any_flow(|_, choices| choices.mismatches.iter().all(|&kw| kw > 0))
    }),
    ("mismatches that one busbar would not have", |day| {
        day.any_mismatch_of_bars_alone()
    }),
    ("reactive mismatch on bar 1 alone", |day| {
        day.any_flow(|_, choices| {
            choices.reactive_mismatches[0] == 0 && choices.reactive_mismatches[1] > 0
        })
    }),
    ("reactive mismatch on both bars", |day| {
        day.any_flow(|_, choices| choices.reactive_mismatches.iter().all(|&kvar| kvar > 0))
    }),
];

const RULE_OF_FLOW: u8 = 27;

impl BrokenDay<'_> {
    /// Whether some flow is so far above the limit, in its own direction.
    fn any_flow_beyond(&self, lies: impl Fn(i128, i128) -> bool) -> bool {
        let mut flows = self.plan.flows.iter();
        flows.any(|&flow| lies(flow, flow.abs() - self.case.link_limit))
    }
}

/// What only plans that break a rule can show of the flow.
pub(super) const BAR_BROKEN_EDGES: &[BrokenEdge] = &[
    ("(broken) rule 27 by one kW", |day| {
        day.any_flow_beyond(|flow, beyond| flow > 0 && beyond == 1)
    }),
    ("(broken) rule 27 by one kW the other way", |day| {
        day.any_flow_beyond(|flow, beyond| flow < 0 && beyond == 1)
    }),
    ("(broken) rule 27 with a limit of 0", |day| {
        day.case.link_limit == 0 && day.any_flow_beyond(|_, beyond| beyond > 0)
    }),
    ("(broken) rule 27 alone", |day| {
        day.breaches.len() == 1 && day.breaches[0].rule == RULE_OF_FLOW
    }),
    ("(broken) rule 27 behind a device of its interval", |day| {
        day.any_two_in_a_row(|a, b| b.rule == RULE_OF_FLOW && a.interval == b.interval)
    }),
    (
        "(broken) rule 27 before a device of a later interval",
        |day| day.any_two_in_a_row(|a, b| a.rule == RULE_OF_FLOW && b.device > 0 && b.interval > 0),
    ),
    (
        "(broken) rule 27 in two intervals, one after another",
        |day| day.any_two_in_a_row(|a, b| (a.rule, b.rule) == (RULE_OF_FLOW, RULE_OF_FLOW)),
    ),
    ("(broken) rule 20 behind rule 27", |day| {
        day.any_two_in_a_row(|a, b| (a.rule, b.rule) == (RULE_OF_FLOW, 20))
    }),
];
