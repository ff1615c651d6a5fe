//! Edges of A.1: reactive limits, links, reserves, shortfalls and mismatch.

use super::{AcceptedEdge, BrokenDay, BrokenEdge, Day, Spot};
use crate::case::{Link, LinkLine, Side, BARS};
use crate::edition::Edition;
use crate::plan::Setting;
use crate::reactive::ReactivePoint;

/// Thousandths of a kvar in one.
const WHOLE: i128 = 1_000;

impl Spot<'_> {
    fn setting(&self) -> &Setting {
        &self.unit.day.plan.intervals[self.t][self.unit.j]
    }

    fn bracket(&self) -> i128 {
        self.unit.forced.commitment.bracket[self.t]
    }

    fn q(&self) -> i128 {
        self.setting().reactive_power
    }

    fn reactive(&self) -> ReactivePoint<'_> {
        ReactivePoint {
            device: self.unit.device,
            t: self.t,
            setting: self.setting(),
            bracket: self.bracket(),
            power: self.unit.forced.power[self.t],
        }
    }

    /// Whether one of rules 21 to 24 leaves no kvar to a device of a side, with the reserve that
    /// counts there above 0, and the bracket so.
    fn is_at_bound(&self, rule: u8, side: Side, bracket: impl Fn(i128) -> bool) -> bool {
        let reserves = &self.setting().reactive_reserves;
        let counts = match (rule, side) {
            (21 | 23, Side::Producing) | (22 | 24, Side::Consuming) => reserves.qru,
            _ => reserves.qrd,
        };
        self.unit.device.side == side
            && bracket(self.bracket())
            && counts > 0
            && (0..WHOLE).contains(&self.reactive().room(rule).unwrap_or(WHOLE))
    }

    /// Whether a line asks for a part of a kvar where q is bounded by it as closely as can be.
    fn is_beside_a_part(&self, rule: u8) -> bool {
        let room = self.reactive().room(rule);
        room.is_some_and(|room| 0 < room && room < WHOLE)
    }

    fn meets_sloping_line_exactly(&self) -> bool {
        let slopes = match &self.unit.device.link {
            Link::TwoLines { upper, .. } => upper.slope % WHOLE != 0,
            _ => false,
        };
        slopes && self.unit.forced.power[self.t] > 0 && self.reactive().room(23) == Some(0)
    }

    fn equality(&self) -> Option<&LinkLine> {
        match &self.unit.device.link {
            Link::Equality(line) => Some(line),
            _ => None,
        }
    }

    /// Whether a device of a side has a q other than 0 by an equality.
    fn follows_equality(&self, side: Side) -> bool {
        self.unit.device.side == side && self.equality().is_some() && self.q() != 0
    }
}

impl Day<'_> {
    fn has_link(&self, is_of_kind: fn(&Link) -> bool) -> bool {
        self.edition == Edition::Two && self.case.devices.iter().any(|d| is_of_kind(&d.link))
    }

    /// Whether a zone's need of a reactive reserve lies so to what its members hold of it.
    fn any_reactive_need(&self, lies: impl Fn(i128, i128) -> bool) -> bool {
        let held = |z: usize, t: usize, k: usize| -> i128 {
            let members = (0..self.case.devices.len()).filter(|&j| self.is_member(z, j));
            members
                .map(|j| self.plan.intervals[t][j].reactive_reserves.in_order()[k])
                .sum()
        };
        (0..self.case.zones.len()).any(|z| {
            (0..self.spans.len()).any(|t| {
                let minima = self.case.zones[z].minima[t];
                (0..2).any(|k| lies(minima[2 + k], held(z, t, k)))
            })
        })
    }

    fn is_member(&self, z: usize, j: usize) -> bool {
        self.case.devices[j].zone_bits[z]
    }

    /// Whether members of both sides hold a reactive reserve in one zone.
    fn any_zone_with_reserves_of_both_sides(&self) -> bool {
        let holds = |z: usize, t: usize, side: Side| {
            (0..self.case.devices.len()).any(|j| {
                self.is_member(z, j)
                    && self.case.devices[j].side == side
                    && self.plan.intervals[t][j].reactive_reserves.qru > 0
            })
        };
        (0..self.case.zones.len()).any(|z| {
            (0..self.spans.len())
                .any(|t| holds(z, t, Side::Producing) && holds(z, t, Side::Consuming))
        })
    }

    /// Consuming less producing q of some interval.
    fn any_reactive_balance(&self, lies: impl Fn(i128) -> bool) -> bool {
        self.plan.intervals.iter().any(|settings| {
            let signed = settings.iter().zip(&self.case.devices).map(|(s, d)| {
                let sign = if d.side == Side::Consuming { 1 } else { -1 };
                sign * s.reactive_power
            });
            lies(signed.sum())
        })
    }
}

/// What accepted plans can show of reactive power.
pub(super) const REACTIVE_ACCEPTED_EDGES: &[AcceptedEdge] = &[
    ("edition 1", |day| day.edition == Edition::One),
    ("edition 2", |day| day.edition == Edition::Two),
    ("edition 2 with every reactive figure neutral", |day| {
        day.edition == Edition::Two
            && !day.case.has_reactive_power()
            && !day.plan.has_reactive_power()
    }),
    ("edition 2, device without link", |day| {
        day.has_link(|link| *link == Link::None)
    }),
    ("edition 2, device with two lines", |day| {
        day.has_link(|link| matches!(link, Link::TwoLines { .. }))
    }),
    ("edition 2, device with an equality", |day| {
        day.has_link(|link| matches!(link, Link::Equality(_)))
    }),
    ("q above 0", |day| day.any_spot(|spot| spot.q() > 0)),
    ("q below 0", |day| day.any_spot(|spot| spot.q() < 0)),
    ("q where qmin is above 0", |day| {
        day.any_spot(|spot| spot.q() > 0 && spot.unit.device.terms[spot.t].qmin > 0)
    }),
    ("q where qmax is below 0", |day| {
        day.any_spot(|spot| spot.q() < 0 && spot.unit.device.terms[spot.t].qmax < 0)
    }),
    ("q 0 while off where qmin is above 0", |day| {
        day.any_spot(|spot| spot.bracket() == 0 && spot.unit.device.terms[spot.t].qmin > 0)
    }),
    ("q on a trajectory", |day| {
        day.any_spot(|spot| !spot.is_on() && spot.bracket() == 1 && spot.q() != 0)
    }),
    ("reactive reserves on a trajectory", |day| {
        day.any_spot(|spot| !spot.is_on() && spot.setting().reactive_reserves.qru > 0)
    }),
    ("q above qmax where two trajectories meet", |day| {
        day.any_spot(|spot| spot.bracket() == 2 && spot.q() > spot.unit.device.terms[spot.t].qmax)
    }),
    ("q below qmin where two trajectories meet", |day| {
        day.any_spot(|spot| spot.bracket() == 2 && spot.q() < spot.unit.device.terms[spot.t].qmin)
    }),
    ("equality where two trajectories meet", |day| {
        day.any_spot(|spot| {
            spot.bracket() == 2 && spot.equality().is_some_and(|line| line.offset != 0)
        })
    }),
    ("rule 21 met exactly with qru, producing", |day| {
        day.any_spot(|spot| spot.is_at_bound(21, Side::Producing, |n| n > 0))
    }),
    ("rule 21 met exactly with qrd, consuming", |day| {
        day.any_spot(|spot| spot.is_at_bound(21, Side::Consuming, |n| n > 0))
    }),
    ("rule 22 met exactly with qrd, producing", |day| {
        day.any_spot(|spot| spot.is_at_bound(22, Side::Producing, |n| n > 0))
    }),
    ("rule 22 met exactly with qru, consuming", |day| {
        day.any_spot(|spot| spot.is_at_bound(22, Side::Consuming, |n| n > 0))
    }),
    ("rule 23 leaves no kvar to qru, producing", |day| {
        day.any_spot(|spot| spot.is_at_bound(23, Side::Producing, |n| n > 0))
    }),
    ("rule 23 leaves no kvar to qrd, consuming", |day| {
        day.any_spot(|spot| spot.is_at_bound(23, Side::Consuming, |n| n > 0))
    }),
    ("rule 24 leaves no kvar to qrd, producing", |day| {
        day.any_spot(|spot| spot.is_at_bound(24, Side::Producing, |n| n > 0))
    }),
    ("rule 24 leaves no kvar to qru, consuming", |day| {
        day.any_spot(|spot| spot.is_at_bound(24, Side::Consuming, |n| n > 0))
    }),
    ("rule 21 met exactly where two trajectories meet", |day| {
        let is_two = |n| n == 2;
        day.any_spot(|spot| {
            spot.is_at_bound(21, Side::Producing, is_two)
                || spot.is_at_bound(21, Side::Consuming, is_two)
        })
    }),
    ("rule 23 met exactly on a sloping line", |day| {
        day.any_spot(|spot| spot.meets_sloping_line_exactly())
    }),
    ("rule 23 leaves a part of a kvar", |day| {
        day.any_spot(|spot| spot.is_beside_a_part(23))
    }),
    ("rule 24 leaves a part of a kvar", |day| {
        day.any_spot(|spot| spot.is_beside_a_part(24))
    }),
    ("rule 25 kept by a q other than 0, producing", |day| {
        day.any_spot(|spot| spot.follows_equality(Side::Producing))
    }),
    ("rule 25 kept by a q other than 0, consuming", |day| {
        day.any_spot(|spot| spot.follows_equality(Side::Consuming))
    }),
    ("rule 25 kept with a slope finer than a whole", |day| {
        day.any_spot(|spot| {
            let is_fine = |line: &LinkLine| line.slope % WHOLE != 0;
            spot.q() != 0 && spot.equality().is_some_and(is_fine)
        })
    }),
    ("qru and qrd of one device", |day| {
        day.any_spot(|spot| {
            let reserves = &spot.setting().reactive_reserves;
            reserves.qru > 0 && reserves.qrd > 0
        })
    }),
    ("reactive mismatch, more consumed", |day| {
        day.any_reactive_balance(|balance| balance > 0)
    }),
    ("reactive mismatch, more produced", |day| {
        day.any_reactive_balance(|balance| balance < 0)
    }),
    ("reactive power in balance, other than 0", |day| {
        let intervals = day.plan.intervals.iter().zip(&day.completion.intervals);
        intervals.into_iter().any(|(settings, choices)| {
            settings.iter().any(|s| s.reactive_power != 0)
                && choices.reactive_mismatches == [0; BARS]
        })
    }),
    ("qru shortfall", |day| {
        day.any_shortfalls(|shortfalls| shortfalls[6] > 0)
    }),
    ("qrd shortfall", |day| {
        day.any_shortfalls(|shortfalls| shortfalls[7] > 0)
    }),
    ("reactive need met in part", |day| {
        day.any_reactive_need(|minimum, held| 0 < held && held < minimum)
    }),
    ("reactive need met and more", |day| {
        day.any_reactive_need(|minimum, held| 0 < minimum && minimum < held)
    }),
    ("qru of both sides in one zone", |day| {
        day.any_zone_with_reserves_of_both_sides()
    }),
];

impl BrokenDay<'_> {
    /// Whether a device of a side breaks one of rules 21 to 26 at a point that lies so.
    fn breaks_so(&self, rule: u8, side: Side, lies: impl Fn(&ReactivePoint) -> bool) -> bool {
        self.any_device_interval(|j, t| {
            self.case.devices[j].side == side
                && self.breaks(rule, j, t)
                && lies(&self.reactive(j, t))
        })
    }

    fn reactive(&self, j: usize, t: usize) -> ReactivePoint<'_> {
        ReactivePoint {
            device: &self.case.devices[j],
            t,
            setting: &self.plan.intervals[t][j],
            bracket: self.forced[j].commitment.bracket[t],
            power: self.forced[j].power[t],
        }
    }

    /// Whether one of rules 21 to 24 is broken by the first kvar that breaks it.
    fn breaks_by_one(&self, rule: u8, side: Side) -> bool {
        self.breaks_so(rule, side, |point| {
            (-WHOLE..0).contains(&point.room(rule).unwrap_or(0))
        })
    }

    /// Whether any of rules 21 to 26 is the first that the plan breaks, where the bracket lies so.
    fn first_breaks_where(&self, lies: impl Fn(i128) -> bool) -> bool {
        let first = &self.breaches[0];
        let is_reactive = (21..=26).contains(&first.rule);
        is_reactive && {
            let (j, t) = (first.device - 1, first.interval - 1);
            lies(self.forced[j].commitment.bracket[t])
        }
    }
}

/// What only plans that break a rule can show of reactive power. A bracket of 3 needs a trajectory
/// that passes an on interval, which breaks rule 18 there, in a later interval or an earlier one.
pub(super) const REACTIVE_BROKEN_EDGES: &[BrokenEdge] = &[
    ("(broken) rule 21 by one kvar, producing", |day| {
        day.breaks_by_one(21, Side::Producing)
    }),
    ("(broken) rule 21 by one kvar, consuming", |day| {
        day.breaks_by_one(21, Side::Consuming)
    }),
    ("(broken) rule 22 by one kvar, producing", |day| {
        day.breaks_by_one(22, Side::Producing)
    }),
    ("(broken) rule 22 by one kvar, consuming", |day| {
        day.breaks_by_one(22, Side::Consuming)
    }),
    ("(broken) rule 23 by one kvar, producing", |day| {
        day.breaks_by_one(23, Side::Producing)
    }),
    ("(broken) rule 23 by one kvar, consuming", |day| {
        day.breaks_by_one(23, Side::Consuming)
    }),
    ("(broken) rule 24 by one kvar, producing", |day| {
        day.breaks_by_one(24, Side::Producing)
    }),
    ("(broken) rule 24 by one kvar, consuming", |day| {
        day.breaks_by_one(24, Side::Consuming)
    }),
    ("(broken) rule 23 by a part of a kvar", |day| {
        day.any_device_interval(|j, t| {
            let room = day.reactive(j, t).room(23);
            room.is_some_and(|room| -WHOLE < room && room < 0)
        })
    }),
    ("(broken) rule 24 by a part of a kvar", |day| {
        day.any_device_interval(|j, t| {
            let room = day.reactive(j, t).room(24);
            room.is_some_and(|room| -WHOLE < room && room < 0)
        })
    }),
    ("(broken) rule 25 by one kvar, producing", |day| {
        day.breaks_so(25, Side::Producing, is_one_kvar_off)
    }),
    ("(broken) rule 25 by one kvar, consuming", |day| {
        day.breaks_so(25, Side::Consuming, is_one_kvar_off)
    }),
    ("(broken) rule 25 by a part of a kvar", |day| {
        day.any_device_interval(|j, t| {
            let deviation = day.reactive(j, t).deviation();
            deviation.is_some_and(|deviation| deviation % WHOLE != 0)
        })
    }),
    ("(broken) rule 26 by qru 1, producing", |day| {
        day.breaks_so(26, Side::Producing, |point| holds(point, [1, 0]))
    }),
    ("(broken) rule 26 by qrd 1, producing", |day| {
        day.breaks_so(26, Side::Producing, |point| holds(point, [0, 1]))
    }),
    ("(broken) rule 26 by qru 1, consuming", |day| {
        day.breaks_so(26, Side::Consuming, |point| holds(point, [1, 0]))
    }),
    ("(broken) rule 26 by qrd 1, consuming", |day| {
        day.breaks_so(26, Side::Consuming, |point| holds(point, [0, 1]))
    }),
    ("(broken) rule 26 by qru and qrd both", |day| {
        let both = |point: &ReactivePoint| {
            let reserves = &point.setting.reactive_reserves;
            reserves.qru > 0 && reserves.qrd > 0
        };
        day.breaks_so(26, Side::Producing, both) || day.breaks_so(26, Side::Consuming, both)
    }),
    ("(broken) first at a reactive rule while off", |day| {
        day.first_breaks_where(|bracket| bracket == 0)
    }),
    (
        "(broken) first at a reactive rule where two trajectories meet",
        |day| day.first_breaks_where(|bracket| bracket == 2),
    ),
    ("(broken) bracket of 3 or more", |day| {
        day.forced
            .iter()
            .any(|forced| forced.commitment.bracket.iter().any(|&n| n >= 3))
    }),
    ("(broken) rules 19 and 21 at one place", |day| {
        day.any_two_in_a_row(|a, b| {
            (a.rule, b.rule, a.interval, a.device) == (19, 21, b.interval, b.device)
        })
    }),
    (
        "(broken) rule 21 of a device before a later device",
        |day| {
            day.any_two_in_a_row(|a, b| {
                a.rule >= 21 && b.rule < 20 && a.interval == b.interval && a.device < b.device
            })
        },
    ),
    ("(broken) rule 20 behind a reactive rule", |day| {
        day.any_two_in_a_row(|a, b| (21..=26).contains(&a.rule) && b.rule == 20)
    }),
];

fn is_one_kvar_off(point: &ReactivePoint) -> bool {
    point.deviation().map(i128::abs) == Some(WHOLE)
}

fn holds(point: &ReactivePoint, reserves: [i128; 2]) -> bool {
    point.setting.reactive_reserves.in_order() == reserves
}
