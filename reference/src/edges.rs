//! The edges of the paper's wording that a set of batches reaches, counted from the batches alone.

use std::collections::BTreeMap;

use crate::batch::{split, Split};
use crate::case::{
    read_case_in, Case, Device, EnergyKind, EnergyWindow, Side, MOST_SHORTFALLS, MOST_STATES,
};
use crate::clock::{spans, Span};
use crate::completion::{Completion, DeviceChoices};
use crate::edition::Edition;
use crate::energy::EnergyRule;
use crate::forced::{forced, Forced};
use crate::form::Form;
use crate::ours::{complete, complete_by, downtime};
use crate::plan::{read_plan, Plan};
use crate::rules::{broken_rules, most_fall, most_rise, Place};

mod bars;
mod counts;
mod floors;
mod reactive;

use bars::{BAR_ACCEPTED_EDGES, BAR_BROKEN_EDGES};
use counts::{COUNT_ACCEPTED_EDGES, LARGE_ACCEPTED_EDGES, LARGE_BROKEN_EDGES};
use floors::{FLOOR_ACCEPTED_EDGES, FLOOR_BROKEN_EDGES};
use reactive::{REACTIVE_ACCEPTED_EDGES, REACTIVE_BROKEN_EDGES};

/// An edge's name, and whether a day shows it.
type Edge<D> = (&'static str, fn(&D) -> bool);

/// Counts of edges: how many plans show each.
#[derive(Clone, PartialEq, Eq, Debug)]
pub struct Edges {
    form: Form,
    counts: BTreeMap<&'static str, usize>,
}

/// The edges that accepted and that broken plans can show in the batch form.
const EDGES: (&[&[AcceptedEdge]], &[&[BrokenEdge]]) = (
    &[
        ACCEPTED_EDGES,
        REACTIVE_ACCEPTED_EDGES,
        FLOOR_ACCEPTED_EDGES,
        COUNT_ACCEPTED_EDGES,
        BAR_ACCEPTED_EDGES,
    ],
    &[
        BROKEN_EDGES,
        REACTIVE_BROKEN_EDGES,
        FLOOR_BROKEN_EDGES,
        BAR_BROKEN_EDGES,
    ],
);

/// Those that plans can show in the host form alone.
const LARGE_EDGES: (&[&[AcceptedEdge]], &[&[BrokenEdge]]) =
    (&[LARGE_ACCEPTED_EDGES], &[LARGE_BROKEN_EDGES]);

impl Edges {
    /// No plan yet, of batches in a form.
    pub fn none(form: Form) -> Edges {
        Edges {
            form,
            counts: BTreeMap::new(),
        }
    }

    /// The edges that are counted: in the host form those of large days alone.
    fn counted(
        &self,
    ) -> (
        &'static [&'static [AcceptedEdge]],
        &'static [&'static [BrokenEdge]],
    ) {
        if self.form == Form::HOST {
            LARGE_EDGES
        } else {
            EDGES
        }
    }

    /// Every edge with its count, 0 included.
    pub fn in_order(&self) -> Vec<(&'static str, usize)> {
        let (accepted, broken) = self.counted();
        let of_accepted = accepted.iter().copied().flatten().map(|(name, _)| *name);
        let of_broken = broken.iter().copied().flatten().map(|(name, _)| *name);
        of_accepted
            .chain(of_broken)
            .map(|name| (name, self.counts.get(name).copied().unwrap_or(0)))
            .collect()
    }

    /// Counts the edges that the plans of one batch show.
    pub fn add(&mut self, batch: &[u8]) {
        let Split::Message { message, mut next } = split(self.form, batch, 0) else {
            return;
        };
        let Ok((edition, case)) = read_case_in(self.form, message) else {
            return;
        };
        while let Split::Message {
            message,
            next: then,
        } = split(self.form, batch, next)
        {
            if let Ok(plan) = read_plan(edition, &case, message) {
                self.add_plan(edition, &case, &plan);
            }
            next = then;
        }
    }

    fn add_plan(&mut self, edition: Edition, case: &Case, plan: &Plan) {
        let spans = &spans(&case.durations);
        let forced = &forced(case, spans, plan);
        let breaches: Vec<Place> = broken_rules(case, spans, plan, forced).collect();
        if breaches.is_empty() {
            let ours = complete(case, spans, plan, forced);
            let day = Day {
                edition,
                case,
                spans,
                plan,
                forced,
                completion: &ours.completion,
                surplus: ours.surplus,
            };
            for edges in self.counted().0 {
                self.count(edges, &day);
            }
        } else {
            let day = BrokenDay {
                case,
                spans,
                plan,
                forced,
                breaches,
            };
            for edges in self.counted().1 {
                self.count(edges, &day);
            }
        }
    }

    fn count<D>(&mut self, edges: &[Edge<D>], day: &D) {
        for (name, shows) in edges {
            if shows(day) {
                *self.counts.entry(name).or_default() += 1;
            }
        }
    }
}

/// An accepted plan with all that follows from it.
struct Day<'a> {
    edition: Edition,
    case: &'a Case,
    spans: &'a [Span],
    plan: &'a Plan,
    forced: &'a [Forced],
    completion: &'a Completion,
    surplus: i128,
}

/// One device of a day.
struct Unit<'a> {
    day: &'a Day<'a>,
    j: usize,
    device: &'a Device,
    forced: &'a Forced,
}

/// One device of a day in one interval.
struct Spot<'a> {
    unit: Unit<'a>,
    t: usize,
}

impl<'a> Day<'a> {
    fn unit(&'a self, j: usize) -> Unit<'a> {
        Unit {
            day: self,
            j,
            device: &self.case.devices[j],
            forced: &self.forced[j],
        }
    }

    fn any_unit(&'a self, shows: impl Fn(&Unit) -> bool) -> bool {
        (0..self.forced.len()).any(|j| shows(&self.unit(j)))
    }

    fn any_spot(&'a self, shows: impl Fn(&Spot) -> bool) -> bool {
        let at = |j, t| Spot {
            unit: self.unit(j),
            t,
        };
        (0..self.spans.len()).any(|t| (0..self.forced.len()).any(|j| shows(&at(j, t))))
    }

    fn any_zone(&self, shows: impl Fn(&[&Device]) -> bool) -> bool {
        (0..self.case.zones.len()).any(|z| {
            let members: Vec<&Device> = self
                .case
                .devices
                .iter()
                .filter(|device| device.zone_bits[z])
                .collect();
            shows(&members)
        })
    }

    fn any_shortfalls(&self, shows: impl Fn(&[i128; MOST_SHORTFALLS]) -> bool) -> bool {
        self.completion
            .intervals
            .iter()
            .any(|interval| interval.shortfalls.iter().any(&shows))
    }

    fn any_overrun(&self, kind: EnergyKind) -> bool {
        self.case
            .devices
            .iter()
            .zip(&self.completion.overruns)
            .any(|(device, overruns)| {
                device
                    .energy_windows
                    .iter()
                    .zip(overruns)
                    .any(|(window, &overrun)| window.kind == kind && overrun > 0)
            })
    }

    fn overruns_are_not_those_by_midpoint(&self) -> bool {
        let rule = EnergyRule::ByMidpoint;
        let by_midpoint = complete_by(rule, self.case, self.spans, self.plan, self.forced);
        by_midpoint.completion.overruns != self.completion.overruns
    }
}

impl Unit<'_> {
    fn starts(&self) -> usize {
        count(&self.forced.commitment.started)
    }

    fn stops(&self) -> usize {
        count(&self.forced.commitment.stopped)
    }

    /// Whether several intervals with power share minutes with one energy window.
    fn has_energy_window_over_several(&self) -> bool {
        let shares = |window: &EnergyWindow, t: usize| {
            let minutes = EnergyRule::ByMinute.minutes(&self.day.spans[t], window);
            minutes > 0 && self.forced.power[t] > 0
        };
        self.device.energy_windows.iter().any(|window| {
            let sharing = (0..self.day.spans.len()).filter(|&t| shares(window, t));
            sharing.count() > 1
        })
    }
}

fn count(flags: &[bool]) -> usize {
    flags.iter().filter(|&&flag| flag).count()
}

fn runs_over_two(powers: &[i128]) -> bool {
    powers.windows(2).any(|pair| pair[0] > 0 && pair[1] > 0)
}

impl Spot<'_> {
    fn starts(&self) -> bool {
        self.unit.forced.commitment.started[self.t]
    }

    fn stops(&self) -> bool {
        self.unit.forced.commitment.stopped[self.t]
    }

    fn is_on(&self) -> bool {
        self.unit.forced.commitment.on[self.t]
    }

    fn span(&self) -> &Span {
        &self.unit.day.spans[self.t]
    }

    fn chosen(&self) -> &DeviceChoices {
        &self.unit.day.completion.intervals[self.t].devices[self.unit.j]
    }

    fn rise(&self) -> i128 {
        let power = &self.unit.forced.power;
        let previous = match self.t {
            0 => self.unit.device.initial_power,
            t => power[t - 1],
        };
        power[self.t] - previous
    }

    fn rises_as_far_as_may_be(&self) -> bool {
        let commitment = &self.unit.forced.commitment;
        self.rise() == most_rise(self.unit.device, self.unit.day.spans, commitment, self.t)
    }

    fn falls_as_far_as_may_be(&self) -> bool {
        let commitment = &self.unit.forced.commitment;
        -self.rise() == most_fall(self.unit.device, self.unit.day.spans, commitment, self.t)
    }

    /// The states that fit at a start, as index and cost.
    fn fitting_states(&self) -> Vec<(usize, i128)> {
        if !self.starts() {
            return Vec::new();
        }
        let commitment = &self.unit.forced.commitment;
        let down = downtime(self.unit.device, self.unit.day.spans, commitment, self.t);
        self.unit
            .device
            .startup_states
            .iter()
            .enumerate()
            .filter(|(_, state)| state.longest_downtime >= down)
            .map(|(f, state)| (f, state.cost))
            .collect()
    }

    fn taken_state(&self) -> Option<usize> {
        usize::try_from(self.chosen().startup_state - 1).ok()
    }

    fn takes_state_at_its_longest_downtime(&self) -> bool {
        let commitment = &self.unit.forced.commitment;
        let down = || downtime(self.unit.device, self.unit.day.spans, commitment, self.t);
        self.taken_state()
            .is_some_and(|f| self.unit.device.startup_states[f].longest_downtime == down())
    }

    fn tied_states_decide(&self) -> bool {
        let states = &self.unit.device.startup_states;
        self.taken_state().is_some_and(|taken| {
            self.fitting_states()
                .iter()
                .any(|&(f, cost)| f > taken && cost == states[taken].cost)
        })
    }

    fn passes_over_first_fitting_state(&self) -> bool {
        self.taken_state()
            .is_some_and(|taken| self.fitting_states()[0].0 < taken)
    }

    fn cheapest_state_costs_nothing(&self) -> bool {
        let costs = self.fitting_states().into_iter().map(|(_, cost)| cost);
        costs.min() == Some(0)
    }

    fn tied_blocks_decide(&self) -> bool {
        let blocks = &self.unit.device.terms[self.t].blocks;
        let filled = &self.chosen().blocks;
        (0..blocks.len()).any(|first| {
            (first + 1..blocks.len()).any(|second| {
                blocks[first].price == blocks[second].price
                    && blocks[first].cap > 0
                    && filled[first] > 0
                    && filled[second] < blocks[second].cap
            })
        })
    }

    fn fills_negative_block(&self, side: Side) -> bool {
        let blocks = &self.unit.device.terms[self.t].blocks;
        self.unit.device.side == side
            && blocks
                .iter()
                .zip(self.chosen().blocks)
                .any(|(block, power)| block.price < 0 && power > 0)
    }

    fn starts_at_window(&self, at: impl Fn(i128, i128, i128) -> bool) -> bool {
        let windows = &self.unit.device.start_windows;
        self.starts()
            && windows
                .iter()
                .any(|window| at(window.start, window.end, self.span().start))
    }

    fn has_power_at_window(&self, lies: impl Fn(&EnergyWindow, &Span) -> bool) -> bool {
        let windows = &self.unit.device.energy_windows;
        self.unit.forced.power[self.t] > 0 && windows.iter().any(|window| lies(window, self.span()))
    }

    fn switches_first_and_just_late_enough(&self) -> bool {
        let device = self.unit.device;
        let minimum = if device.initially_on {
            device.minimum_up
        } else {
            device.minimum_down
        };
        let on = &self.unit.forced.commitment.on;
        let first_switch = on.iter().position(|&on| on != device.initially_on);
        first_switch == Some(self.t)
            && minimum > 0
            && self.span().start + device.minutes_already_so == minimum
    }

    fn is_just_after(&self, switches: bool, earlier: &[bool], minimum: i128) -> bool {
        let spans = self.unit.day.spans;
        switches
            && minimum > 0
            && (0..self.t)
                .any(|before| earlier[before] && self.span().start - spans[before].start == minimum)
    }

    /// Whether rule `rule` of 7 to 14 holds with equality to a limit above 0.
    fn reserve_at_limit(&self, rule: u8) -> bool {
        let r = &self.unit.day.plan.intervals[self.t][self.unit.j].reserves;
        let limits = &self.unit.device.reserve_limits;
        let (sum, limit) = match rule {
            7 => (r.rgu, limits.rgu),
            8 => (r.rgd, limits.rgd),
            9 => (r.rgu + r.scr, limits.scr),
            10 => (r.rgu + r.scr + r.rru_on, limits.rru_on),
            11 => (r.rgd + r.rrd_on, limits.rrd_on),
            12 => (r.nsc, limits.nsc),
            13 => (r.nsc + r.rru_off, limits.rru_off),
            _ => (r.rrd_off, limits.rrd_off),
        };
        sum == limit && limit > 0
    }

    fn consumes_with_up_reserves_above_pmax(&self) -> bool {
        let setting = &self.unit.day.plan.intervals[self.t][self.unit.j];
        let r = &setting.reserves;
        let pmax = self.unit.device.terms[self.t].pmax;
        self.unit.device.side == Side::Consuming
            && setting.online_power + r.rgu + r.scr + r.rru_on > pmax
    }

    fn reserves_fill_room(&self, side: Side, toward_pmax: bool) -> bool {
        let setting = &self.unit.day.plan.intervals[self.t][self.unit.j];
        let terms = &self.unit.device.terms[self.t];
        let r = &setting.reserves;
        let up = r.rgu + r.scr + r.rru_on;
        let down = r.rgd + r.rrd_on;
        let (toward, away) = match side {
            Side::Producing => (up, down),
            Side::Consuming => (down, up),
        };
        self.unit.device.side == side
            && setting.on
            && if toward_pmax {
                toward > 0 && setting.online_power + toward == terms.pmax
            } else {
                away > 0 && setting.online_power - away == terms.pmin
            }
    }

    fn off_power_and_reserves_at_pmax(&self) -> bool {
        let r = &self.unit.day.plan.intervals[self.t][self.unit.j].reserves;
        let reserves = r.nsc + r.rru_off + r.rrd_off;
        let trajectory = self.unit.forced.commitment.trajectory(self.t);
        !self.is_on()
            && reserves > 0
            && trajectory > 0
            && trajectory + reserves == self.unit.device.terms[self.t].pmax
    }
}

type AcceptedEdge = (&'static str, fn(&Day) -> bool);

/// What accepted plans can show.
const ACCEPTED_EDGES: &[AcceptedEdge] = &[
    ("surplus above 0", |day| day.surplus > 0),
    ("surplus below 0", |day| day.surplus < 0),
    ("several starts of one device", |day| {
        day.any_unit(|unit| unit.starts() > 1)
    }),
    ("several stops of one device", |day| {
        day.any_unit(|unit| unit.stops() > 1)
    }),
    ("startup power over several intervals", |day| {
        day.any_unit(|unit| runs_over_two(&unit.forced.commitment.psu))
    }),
    ("shutdown power over several intervals", |day| {
        day.any_unit(|unit| runs_over_two(&unit.forced.commitment.psd))
    }),
    ("startup and shutdown power in one interval", |day| {
        day.any_spot(|spot| {
            let commitment = &spot.unit.forced.commitment;
            commitment.psu[spot.t] > 0 && commitment.psd[spot.t] > 0
        })
    }),
    ("start in interval 1", |day| {
        day.any_unit(|unit| unit.forced.commitment.started[0])
    }),
    ("stop in interval 1", |day| {
        day.any_unit(|unit| unit.forced.commitment.stopped[0])
    }),
    ("stop in interval 1 with shutdown power", |day| {
        day.any_unit(|unit| unit.forced.commitment.stopped[0] && unit.forced.commitment.psd[0] > 0)
    }),
    ("initial power while initially off", |day| {
        day.any_unit(|unit| !unit.device.initially_on && unit.device.initial_power > 0)
    }),
    ("equal block prices decide", |day| {
        day.any_spot(|spot| spot.tied_blocks_decide())
    }),
    ("power in a producing block of negative price", |day| {
        day.any_spot(|spot| spot.fills_negative_block(Side::Producing))
    }),
    ("power in a consuming block of negative price", |day| {
        day.any_spot(|spot| spot.fills_negative_block(Side::Consuming))
    }),
    ("equal state costs decide", |day| {
        day.any_spot(|spot| spot.tied_states_decide())
    }),
    ("cheapest fitting state costs exactly 0", |day| {
        day.any_spot(|spot| spot.cheapest_state_costs_nothing())
    }),
    ("cheapest state is not the first that fits", |day| {
        day.any_spot(|spot| spot.passes_over_first_fitting_state())
    }),
    ("third of three states taken", |day| {
        day.any_spot(|spot| spot.taken_state() == Some(MOST_STATES - 1))
    }),
    ("downtime exactly the longest of the state taken", |day| {
        day.any_spot(|spot| spot.takes_state_at_its_longest_downtime())
    }),
    ("state taken after an on interval of the day", |day| {
        day.any_spot(|spot| {
            let commitment = &spot.unit.forced.commitment;
            spot.taken_state().is_some() && commitment.last_on_before(spot.t).is_some()
        })
    }),
    ("zone without producing members", |day| {
        day.any_zone(|members| {
            !members.is_empty() && members.iter().all(|device| device.side == Side::Consuming)
        })
    }),
    ("zone without consuming members", |day| {
        day.any_zone(|members| {
            !members.is_empty() && members.iter().all(|device| device.side == Side::Producing)
        })
    }),
    ("zone without members", |day| {
        day.any_zone(|members| members.is_empty())
    }),
    ("device in several zones", |day| {
        day.any_unit(|unit| count(&unit.device.zone_bits) > 1)
    }),
    ("shortfall not a whole number of kW", |day| {
        day.any_shortfalls(|shortfalls| shortfalls.iter().any(|shortfall| shortfall % 1_000 != 0))
    }),
    ("rgu shortage counts in scr and nsc too", |day| {
        day.any_shortfalls(|shortfalls| shortfalls[0] > 0 && shortfalls[2] > 0 && shortfalls[3] > 0)
    }),
    ("start at a start window's start", |day| {
        day.any_spot(|spot| spot.starts_at_window(|start, end, at| start == at && at < end))
    }),
    ("start at a start window's end", |day| {
        day.any_spot(|spot| spot.starts_at_window(|start, end, at| start < at && at == end))
    }),
    (
        "energy window begins inside an interval with power",
        |day| {
            day.any_spot(|spot| {
                spot.has_power_at_window(|window, span| {
                    span.start < window.start && window.start < span.end && span.end <= window.end
                })
            })
        },
    ),
    ("energy window ends inside an interval with power", |day| {
        day.any_spot(|spot| {
            spot.has_power_at_window(|window, span| {
                window.start <= span.start && span.start < window.end && window.end < span.end
            })
        })
    }),
    ("energy window within one interval with power", |day| {
        day.any_spot(|spot| {
            spot.has_power_at_window(|window, span| {
                span.start < window.start && window.start < window.end && window.end < span.end
            })
        })
    }),
    ("energy window is one interval with power", |day| {
        day.any_spot(|spot| {
            spot.has_power_at_window(|window, span| {
                (window.start, window.end) == (span.start, span.end)
            })
        })
    }),
    ("energy window over several intervals with power", |day| {
        day.any_unit(|unit| unit.has_energy_window_over_several())
    }),
    ("empty energy window inside an interval with power", |day| {
        day.any_spot(|spot| {
            spot.has_power_at_window(|window, span| {
                window.start == window.end && span.start < window.start && window.end < span.end
            })
        })
    }),
    (
        "energy window ends where an interval with power begins",
        |day| {
            day.any_spot(|spot| {
                spot.has_power_at_window(|window, span| {
                    window.start < window.end && window.end == span.start
                })
            })
        },
    ),
    (
        "energy window begins where an interval with power ends",
        |day| {
            day.any_spot(|spot| {
                spot.has_power_at_window(|window, span| {
                    window.start < window.end && window.start == span.end
                })
            })
        },
    ),
    ("overruns other than by the midpoint rule", |day| {
        day.overruns_are_not_those_by_midpoint()
    }),
    ("overrun of a maximum", |day| {
        day.any_overrun(EnergyKind::Maximum)
    }),
    ("overrun of a minimum", |day| {
        day.any_overrun(EnergyKind::Minimum)
    }),
    ("rule 2 met exactly", |day| {
        day.any_spot(|spot| spot.switches_first_and_just_late_enough())
    }),
    ("rule 3 met exactly", |day| {
        day.any_spot(|spot| {
            let commitment = &spot.unit.forced.commitment;
            spot.is_just_after(
                spot.starts(),
                &commitment.stopped,
                spot.unit.device.minimum_down,
            )
        })
    }),
    ("rule 4 met exactly", |day| {
        day.any_spot(|spot| {
            let commitment = &spot.unit.forced.commitment;
            spot.is_just_after(
                spot.stops(),
                &commitment.started,
                spot.unit.device.minimum_up,
            )
        })
    }),
    ("rule 5 met exactly at a start", |day| {
        day.any_spot(|spot| spot.starts() && spot.rises_as_far_as_may_be())
    }),
    ("rule 5 met exactly while on", |day| {
        day.any_spot(|spot| spot.is_on() && !spot.starts() && spot.rises_as_far_as_may_be())
    }),
    ("rule 5 met exactly while off", |day| {
        day.any_spot(|spot| !spot.is_on() && spot.rises_as_far_as_may_be())
    }),
    ("rule 6 met exactly while on", |day| {
        day.any_spot(|spot| spot.is_on() && spot.falls_as_far_as_may_be())
    }),
    ("rule 6 met exactly while off", |day| {
        day.any_spot(|spot| !spot.is_on() && spot.falls_as_far_as_may_be())
    }),
    ("rule 7 met exactly", |day| {
        day.any_spot(|spot| spot.reserve_at_limit(7))
    }),
    ("rule 8 met exactly", |day| {
        day.any_spot(|spot| spot.reserve_at_limit(8))
    }),
    ("rule 9 met exactly", |day| {
        day.any_spot(|spot| spot.reserve_at_limit(9))
    }),
    ("rule 10 met exactly", |day| {
        day.any_spot(|spot| spot.reserve_at_limit(10))
    }),
    ("rule 11 met exactly", |day| {
        day.any_spot(|spot| spot.reserve_at_limit(11))
    }),
    ("rule 12 met exactly", |day| {
        day.any_spot(|spot| spot.reserve_at_limit(12))
    }),
    ("rule 13 met exactly", |day| {
        day.any_spot(|spot| spot.reserve_at_limit(13))
    }),
    ("rule 14 met exactly", |day| {
        day.any_spot(|spot| spot.reserve_at_limit(14))
    }),
    ("rule 16 met exactly with reserves, producing", |day| {
        day.any_spot(|spot| spot.reserves_fill_room(Side::Producing, true))
    }),
    ("rule 16 met exactly with reserves, consuming", |day| {
        day.any_spot(|spot| spot.reserves_fill_room(Side::Consuming, true))
    }),
    ("rule 17 met exactly with reserves, producing", |day| {
        day.any_spot(|spot| spot.reserves_fill_room(Side::Producing, false))
    }),
    ("rule 17 met exactly with reserves, consuming", |day| {
        day.any_spot(|spot| spot.reserves_fill_room(Side::Consuming, false))
    }),
    ("rule 18 met exactly with reserves on a trajectory", |day| {
        day.any_spot(|spot| spot.off_power_and_reserves_at_pmax())
    }),
    ("rule 19 met exactly", |day| {
        day.any_spot(|spot| {
            let power = spot.unit.forced.power[spot.t];
            power > 0 && power == spot.unit.device.terms[spot.t].sum_of_caps()
        })
    }),
    ("rule 19 met exactly while off", |day| {
        day.any_spot(|spot| {
            let power = spot.unit.forced.power[spot.t];
            let caps = spot.unit.device.terms[spot.t].sum_of_caps();
            !spot.is_on() && power > 0 && power == caps
        })
    }),
    ("consuming device with up reserves above pmax", |day| {
        day.any_spot(|spot| spot.consumes_with_up_reserves_above_pmax())
    }),
];

/// A plan that breaks rules, with all that follows from it.
struct BrokenDay<'a> {
    case: &'a Case,
    spans: &'a [Span],
    plan: &'a Plan,
    forced: &'a [Forced],
    /// Every broken rule, in the paper's order.
    breaches: Vec<Place>,
}

impl BrokenDay<'_> {
    fn any_device_interval(&self, shows: impl Fn(usize, usize) -> bool) -> bool {
        (0..self.forced.len()).any(|j| (0..self.spans.len()).any(|t| shows(j, t)))
    }

    fn keeps_all(&self, j: usize, t: usize) -> bool {
        let at = |place: &Place| (place.device, place.interval) == (j + 1, t + 1);
        !self.breaches.iter().any(at)
    }

    fn breaks(&self, rule: u8, j: usize, t: usize) -> bool {
        let at = |place: &Place| (place.rule, place.device, place.interval) == (rule, j + 1, t + 1);
        self.breaches.iter().any(at)
    }

    /// Whether two breaches that follow one another are related so.
    fn any_two_in_a_row(&self, related: impl Fn(&Place, &Place) -> bool) -> bool {
        self.breaches
            .windows(2)
            .any(|pair| related(&pair[0], &pair[1]))
    }

    /// How many earlier switches lie less than `minimum` minutes before interval `t`.
    fn too_near(&self, earlier: &[bool], t: usize, minimum: i128) -> usize {
        let start = |t: usize| self.spans[t].start;
        (0..t)
            .filter(|&before| earlier[before] && start(t) - start(before) < minimum)
            .count()
    }

    fn startup_powers(&self, j: usize, t: usize) -> usize {
        let device = &self.case.devices[j];
        let gives_power = |later: usize| {
            let lead = self.spans[later].end - self.spans[t].end;
            self.forced[j].commitment.started[later]
                && device.terms[later].pmin > device.ramps.starting * lead
        };
        (t + 1..self.spans.len())
            .filter(|&later| gives_power(later))
            .count()
    }

    fn shutdown_powers(&self, j: usize, t: usize) -> usize {
        let device = &self.case.devices[j];
        let gives_power = |stop: usize| {
            let before = match stop {
                0 => device.initial_power,
                _ => device.terms[stop - 1].pmin,
            };
            let lag = self.spans[t].end - self.spans[stop].start;
            self.forced[j].commitment.stopped[stop] && before > device.ramps.stopping * lag
        };
        (0..=t).filter(|&stop| gives_power(stop)).count()
    }
}

type BrokenEdge = (&'static str, fn(&BrokenDay) -> bool);

/// What only plans that break a rule can show; rule 18 lets no trajectory pass an on interval.
const BROKEN_EDGES: &[BrokenEdge] = &[
    ("(broken) psu of two starts in one interval", |day| {
        day.any_device_interval(|j, t| day.startup_powers(j, t) > 1)
    }),
    ("(broken) psd of two stops in one interval", |day| {
        day.any_device_interval(|j, t| day.shutdown_powers(j, t) > 1)
    }),
    ("(broken) at one rule alone", |day| day.breaches.len() == 1),
    ("(broken) several rules at one place", |day| {
        day.any_two_in_a_row(|a, b| {
            a.interval > 0 && (a.interval, a.device) == (b.interval, b.device)
        })
    }),
    ("(broken) a later device in an earlier interval", |day| {
        day.any_two_in_a_row(|a, b| a.interval < b.interval && a.device > b.device)
    }),
    ("(broken) at each device in each interval", |day| {
        !day.any_device_interval(|j, t| day.keeps_all(j, t))
    }),
    ("(broken) rule 20 behind other rules", |day| {
        day.any_two_in_a_row(|a, b| a.rule < 20 && b.rule == 20)
    }),
    ("(broken) rule 20 in two windows of a device", |day| {
        day.any_two_in_a_row(|a, b| a.interval == 0 && a.device == b.device)
    }),
    ("(broken) rule 20 at two devices", |day| {
        day.any_two_in_a_row(|a, b| a.interval == 0 && a.device < b.device)
    }),
    ("(broken) rule 3 by two earlier stops", |day| {
        day.any_device_interval(|j, t| {
            let minimum = day.case.devices[j].minimum_down;
            let stops = &day.forced[j].commitment.stopped;
            day.breaks(3, j, t) && day.too_near(stops, t, minimum) > 1
        })
    }),
    ("(broken) rule 4 by two earlier starts", |day| {
        day.any_device_interval(|j, t| {
            let minimum = day.case.devices[j].minimum_up;
            let starts = &day.forced[j].commitment.started;
            day.breaks(4, j, t) && day.too_near(starts, t, minimum) > 1
        })
    }),
    ("(broken) rule 15 by nsc and rru_off both", |day| {
        day.any_device_interval(|j, t| {
            let r = &day.plan.intervals[t][j].reserves;
            day.case.devices[j].side == Side::Consuming && r.nsc > 0 && r.rru_off > 0
        })
    }),
];
