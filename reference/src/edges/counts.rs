//! Edges of A.8: most starts beyond those of editions 1 to 3, and days beyond 16 devices or 48
//! intervals.

use super::{AcceptedEdge, BrokenEdge, Day, Place};
use crate::completion::IntervalChoices;
use crate::edition::Edition;
use crate::form::Largest;

const SMALL: Largest = Largest::SMALL;
const LARGE: Largest = Largest::LARGE;
const SMALL_MOST_STARTS: i128 = SMALL.intervals as i128;

impl Day<'_> {
    /// Whether some start window allows so many starts.
    fn any_most_starts(&self, lies: impl Fn(i128) -> bool) -> bool {
        self.any_unit(|unit| {
            let mut windows = unit.device.start_windows.iter();
            windows.any(|window| lies(window.most_starts))
        })
    }

    fn any_choices(&self, lie: impl Fn(&IntervalChoices) -> bool) -> bool {
        self.completion.intervals.iter().any(lie)
    }
}

/// What accepted plans of edition 4 can show in either form.
pub(super) const COUNT_ACCEPTED_EDGES: &[AcceptedEdge] = &[
    ("edition 4", |day| day.edition == Edition::Four),
    (
        "edition 4 with every figure of editions 2 and 3 neutral",
        |day| {
            day.edition == Edition::Four
                && !day.case.has_floors()
                && !day.case.has_reactive_power()
                && !day.plan.has_reactive_power()
        },
    ),
    ("most starts of 49 to 95", |day| {
        day.any_most_starts(|most| (SMALL_MOST_STARTS + 1..LARGE.intervals as i128).contains(&most))
    }),
    ("most starts of 96", |day| {
        day.any_most_starts(|most| most == LARGE.intervals as i128)
    }),
];

/// What accepted plans can show beyond 16 devices or 48 intervals.
pub(super) const LARGE_ACCEPTED_EDGES: &[AcceptedEdge] = &[
    ("more than 16 devices", |day| {
        day.forced.len() > SMALL.devices
    }),
    ("more than 48 intervals", |day| {
        day.spans.len() > SMALL.intervals
    }),
    ("more than 16 devices and 48 intervals", |day| {
        day.forced.len() > SMALL.devices && day.spans.len() > SMALL.intervals
    }),
    ("64 devices and 96 intervals", |day| {
        (day.forced.len(), day.spans.len()) == (LARGE.devices, LARGE.intervals)
    }),
    ("start behind interval 48", |day| {
        day.any_spot(|spot| spot.t >= SMALL.intervals && spot.starts())
    }),
    ("48 starts of one device", |day| {
        day.any_unit(|unit| unit.starts() == SMALL.intervals)
    }),
    ("startup power over more than 48 intervals", |day| {
        day.any_unit(|unit| {
            let powers = &unit.forced.commitment.psu;
            powers.iter().filter(|&&power| power > 0).count() > SMALL.intervals
        })
    }),
    ("mismatch of more than 1,600,000 kW", |day| {
        day.any_choices(|choices| choices.mismatches[0] > 1_600_000)
    }),
    ("reactive mismatch of more than 1,600,000 kvar", |day| {
        day.any_choices(|choices| choices.reactive_mismatches[0] > 1_600_000)
    }),
    ("flow behind interval 48", |day| {
        let mut later = day.plan.flows.iter().skip(SMALL.intervals);
        later.any(|&flow| flow != 0)
    }),
    ("overrun of more than 1,728,000,000 kW·min", |day| {
        let mut overruns = day.completion.overruns.iter().flatten();
        overruns.any(|&overrun| overrun > 1_728_000_000)
    }),
    ("surplus below that of 16 devices and 48 intervals", |day| {
        day.surplus < -224_573_483_648_000_000
    }),
];

/// What plans that break a rule can show beyond 16 devices or 48 intervals.
pub(super) const LARGE_BROKEN_EDGES: &[BrokenEdge] = &[
    ("(broken) first behind interval 48", |day| {
        day.breaches[0].interval > SMALL.intervals
    }),
    ("(broken) first behind device 16", |day| {
        day.breaches[0].device > SMALL.devices
    }),
    ("(broken) at device 64 in interval 96 alone", |day| {
        let is_last =
            |place: &Place| (place.device, place.interval) == (LARGE.devices, LARGE.intervals);
        day.breaches.iter().all(is_last)
    }),
    ("(broken) rule 20 behind device 16", |day| {
        let is_so = |place: &Place| place.rule == 20 && place.device > SMALL.devices;
        day.breaches.iter().any(is_so)
    }),
    ("(broken) rule 27 behind interval 48", |day| {
        let is_so = |place: &Place| place.rule == 27 && place.interval > SMALL.intervals;
        day.breaches.iter().any(is_so)
    }),
    ("(broken) bracket of more than 48", |day| {
        let mut brackets = day.forced.iter().flat_map(|f| &f.commitment.bracket);
        brackets.any(|&n| n > SMALL.intervals as i128)
    }),
];
