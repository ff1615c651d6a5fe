//! Plans for mending (A.13): broken in one place, in several that one power mends, in several that
//! none does; with mends at 0 and at 100,000, by links of either slope, by rule 25, by ramps from
//! either side, and of sets that are off.
//!
//! A plan is made from one that keeps every rule, so that a plan with one power changed is mended at
//! the latest by changing it back.

use crate::batch::join;
use crate::bits::HIGHEST_POWER;
use crate::case::{
    Block, Case, Device, Link, LinkLine, Ramps, ReactiveReserves, Reserves, Side, Terms,
};
use crate::clock::Span;
use crate::edition::Edition;
use crate::encode::{encode_case, encode_plan};
use crate::form::{Form, Largest};
use crate::generate::breaks::{plan_breaking, plan_broken_severally};
use crate::generate::damage::damaged;
use crate::generate::plans::good_plan;
use crate::generate::sample::{random_sample, Sample};
use crate::generate::shape::Size;
use crate::plan::{Plan, Setting};
use crate::rng::Rng;

/// A case with plans to be broken and mended.
pub struct Mendable {
    pub edition: Edition,
    pub case: Case,
    /// The devices ahead of the edges.
    sample: Sample,
    edges: Vec<Edge>,
}

/// A device with settings that keep every rule, at an edge of what a mend depends on.
struct Edge {
    device: Device,
    settings: Vec<Setting>,
}

/// What an edge is about.
#[derive(Clone, Copy, PartialEq, Eq, Debug)]
enum About {
    /// On, and 0 is the only power.
    Zero,
    /// On, and 100,000 is the only power.
    Highest,
    /// Off all day: "rule 16 leaves 0 only".
    Off,
    /// Ramps that are used up, some of them.
    Ramps,
    /// Two lines of either slope, one of them close.
    Lines,
    /// An equality of either slope.
    Equality,
}

const OF_EVERY_EDITION: [About; 6] = [
    About::Zero,
    About::Highest,
    About::Off,
    About::Ramps,
    About::Ramps,
    About::Ramps,
];
const OF_REACTIVE_POWER: [About; 2] = [About::Lines, About::Equality];

/// The most edges of a case.
const MOST_EDGES: usize = 3;
/// The steepest slope that a line can say, in thousandths.
const STEEPEST_SLOPE: i128 = 10_000;
/// Thousandths in one.
const WHOLE: i128 = 1_000;
/// What a slope times a power comes to at most, in kvar.
const LARGEST_KVAR: i128 = 90_000;
/// The most plans of a batch with a large day.
const PLANS_OF_LARGE_DAYS: usize = 6;
/// How many plans in a hundred are damaged, for their refusals.
const PER_CENT_DAMAGED: usize = 2;

impl Mendable {
    /// A case of any edition that can say its size.
    pub fn random(rng: &mut Rng, size: Size) -> Mendable {
        let sample = random_sample(rng, size);
        Mendable::around(rng, sample)
    }

    /// A sample's case with a few edges behind its devices, as far as there is room.
    pub fn around(rng: &mut Rng, sample: Sample) -> Mendable {
        let edition = sample.edition;
        let mut case = sample.case.clone();
        let small = Largest::SMALL.holds(case.devices.len(), case.intervals());
        let most = if small {
            Largest::SMALL.devices
        } else {
            edition.largest().devices
        };
        let room = most.saturating_sub(case.devices.len()).min(MOST_EDGES);
        let edges: Vec<Edge> = (0..rng.below(room + 1))
            .map(|_| random_edge(rng, edition, &sample.spans))
            .collect();
        let devices = edges.iter().map(|edge| edge.device.clone());
        case.devices.extend(devices);
        Mendable {
            edition,
            case,
            sample,
            edges,
        }
    }

    /// A plan that keeps every rule.
    pub fn good_plan(&self, rng: &mut Rng) -> Plan {
        let plan = good_plan(rng, &self.sample);
        self.with_edges(plan)
    }

    fn with_edges(&self, mut plan: Plan) -> Plan {
        for (t, row) in plan.intervals.iter_mut().enumerate() {
            row.extend(self.edges.iter().map(|edge| edge.settings[t]));
        }
        plan
    }

    /// A plan to be mended, most of them broken.
    pub fn plan(&self, rng: &mut Rng) -> Plan {
        match rng.below(100) {
            0..=3 => self.good_plan(rng),
            4..=49 => self.plan_with_one_change(rng),
            50..=64 => self.plan_with_neighbours_changed(rng),
            65..=76 => self.plan_with_two_changes(rng),
            77..=89 => self.plan_with_another_breach(rng),
            90..=95 => self.plan_with_other_reactive_power(rng),
            _ => self.with_edges(plan_broken_severally(rng, &self.sample)),
        }
    }

    /// One power changed: whatever breaks, changing it back mends.
    pub fn plan_with_one_change(&self, rng: &mut Rng) -> Plan {
        let mut plan = self.good_plan(rng);
        let place = self.random_place(rng);
        change_power(rng, &mut plan, place);
        plan
    }

    /// Two powers of one set that follow one another, both changed: one power may mend both.
    fn plan_with_neighbours_changed(&self, rng: &mut Rng) -> Plan {
        let mut plan = self.good_plan(rng);
        let (t, j) = self.random_place(rng);
        change_power(rng, &mut plan, (t, j));
        change_power(rng, &mut plan, ((t + 1).min(self.case.intervals() - 1), j));
        plan
    }

    /// Two powers anywhere: none mends where both break a rule and the places are apart.
    fn plan_with_two_changes(&self, rng: &mut Rng) -> Plan {
        let mut plan = self.plan_with_one_change(rng);
        let place = self.random_place(rng);
        change_power(rng, &mut plan, place);
        plan
    }

    /// A rule of any number broken, which most powers do not move, and now and then a power changed
    /// besides.
    fn plan_with_another_breach(&self, rng: &mut Rng) -> Plan {
        let rule = rng.from_to(1, i128::from(self.edition.last_rule())) as u8;
        let plan = plan_breaking(rng, &self.sample, rule);
        let plan = plan.unwrap_or_else(|| good_plan(rng, &self.sample));
        let mut plan = self.with_edges(plan);
        if rng.chance(30) {
            let place = self.random_place(rng);
            change_power(rng, &mut plan, place);
        }
        plan
    }

    /// Another q of one setting: a line is crossed, or an equality asks for another power or none.
    fn plan_with_other_reactive_power(&self, rng: &mut Rng) -> Plan {
        if !self.edition.has_reactive_power() {
            return self.plan_with_one_change(rng);
        }
        let mut plan = self.good_plan(rng);
        let (t, j) = self.random_place(rng);
        let q = &mut plan.intervals[t][j].reactive_power;
        let changed = *q + rng.pick(&[-1, 1, -2, 2, -50, 50]);
        *q = changed.clamp(-HIGHEST_POWER, HIGHEST_POWER);
        plan
    }

    /// An interval and a device, an edge as often as not.
    fn random_place(&self, rng: &mut Rng) -> (usize, usize) {
        let t = rng.below(self.case.intervals());
        let ahead = self.sample.case.devices.len();
        if !self.edges.is_empty() && rng.chance(50) {
            return (t, ahead + rng.below(self.edges.len()));
        }
        (t, rng.below(ahead))
    }
}

/// Changes one power: by little, to either end of the range, or to any.
fn change_power(rng: &mut Rng, plan: &mut Plan, (t, j): (usize, usize)) {
    let power = &mut plan.intervals[t][j].online_power;
    let changed = match rng.below(10) {
        0..=3 => *power + rng.pick(&[-1, 1]),
        4 | 5 => *power + rng.from_to(-5, 5),
        6 => *power + rng.from_to(-200, 200),
        7 => rng.pick(&[0, HIGHEST_POWER]),
        _ => rng.from_to(0, HIGHEST_POWER),
    };
    *power = changed.clamp(0, HIGHEST_POWER);
}

fn random_edge(rng: &mut Rng, edition: Edition, spans: &[Span]) -> Edge {
    let about = if edition.has_reactive_power() && rng.chance(50) {
        rng.pick(&OF_REACTIVE_POWER)
    } else {
        rng.pick(&OF_EVERY_EDITION)
    };
    let mut edge = edge_about(rng, about, spans);
    if edition.has_floors() && rng.chance(30) {
        set_floors(rng, &mut edge);
    }
    if edition.has_bars() {
        edge.device.bar = rng.below(2);
    }
    edge
}

/// An edge whose powers lie in blocks without floors.
fn edge_about(rng: &mut Rng, about: About, spans: &[Span]) -> Edge {
    match about {
        About::Zero => steady(rng, spans, (0, 0)),
        About::Highest => highest(rng, spans),
        About::Off => off(rng, spans),
        About::Ramps => ramping(rng, spans),
        About::Lines => between_lines(rng, spans),
        About::Equality => on_equality(rng, spans),
    }
}

/// On all day at powers from `least` to `greatest`, which are pmin and pmax, with ramps that do not
/// bind and caps of 100,000.
fn steady(rng: &mut Rng, spans: &[Span], (least, greatest): (i128, i128)) -> Edge {
    let terms = Terms {
        pmin: least,
        pmax: greatest,
        blocks: vec![Block::plain(HIGHEST_POWER, 1)],
        ..Terms::default()
    };
    let side = rng.pick(&[Side::Producing, Side::Consuming]);
    let device = Device {
        initially_on: true,
        initial_power: rng.from_to(least, greatest),
        ramps: Ramps {
            up: HIGHEST_POWER,
            down: HIGHEST_POWER,
            starting: HIGHEST_POWER,
            stopping: HIGHEST_POWER,
        },
        ..Device::plain(side, vec![terms; spans.len()])
    };
    let settings = spans.iter().map(|_| Setting {
        on: true,
        online_power: rng.from_to(least, greatest),
        ..Setting::default()
    });
    Edge {
        settings: settings.collect(),
        device,
    }
}

/// 100,000 is the only power: by pmin, or by a reserve that it leaves room for.
fn highest(rng: &mut Rng, spans: &[Span]) -> Edge {
    let mut edge = steady(rng, spans, (HIGHEST_POWER, HIGHEST_POWER));
    let reserve = rng.pick(&[0, 7, 20]);
    for (terms, setting) in edge.device.terms.iter_mut().zip(&mut edge.settings) {
        terms.pmin -= reserve;
        setting.reserves = match edge.device.side {
            Side::Producing => Reserves {
                rgd: reserve,
                ..Reserves::default()
            },
            Side::Consuming => Reserves {
                rgu: reserve,
                ..Reserves::default()
            },
        };
    }
    edge
}

/// Off all day and before.
fn off(rng: &mut Rng, spans: &[Span]) -> Edge {
    let mut edge = steady(rng, spans, (0, HIGHEST_POWER));
    edge.device.initially_on = false;
    edge.device.initial_power = 0;
    edge.settings = vec![Setting::default(); spans.len()];
    edge
}

/// Powers that rise and fall by as much as the ramps allow, or by less; caps that some reach.
fn ramping(rng: &mut Rng, spans: &[Span]) -> Edge {
    let mut edge = steady(rng, spans, (0, HIGHEST_POWER));
    edge.device.ramps.up = rng.from_to(1, 9);
    edge.device.ramps.down = rng.from_to(1, 9);
    edge.device.initial_power = rng.pick(&[0, 500, HIGHEST_POWER]);
    let mut previous = edge.device.initial_power;
    let Ramps { up, down, .. } = edge.device.ramps;
    for ((setting, terms), span) in edge
        .settings
        .iter_mut()
        .zip(&mut edge.device.terms)
        .zip(spans)
    {
        let rise = span.duration() * up;
        let fall = span.duration() * down;
        let change = rng.pick(&[rise, -fall, 0, rise - 1, 1 - fall]);
        previous = (previous + change).clamp(0, HIGHEST_POWER);
        setting.online_power = previous;
        match rng.below(4) {
            0 => terms.pmax = previous,
            1 => terms.pmin = previous,
            _ => {}
        }
    }
    edge
}

/// Slopes that no q of this size puts out of range at powers up to `power`.
fn steepest_at(power: i128) -> i128 {
    (WHOLE * LARGEST_KVAR / power.max(1)).min(STEEPEST_SLOPE)
}

/// The steepest in range, a slight one, or any; of either sign, or none.
fn random_slope(rng: &mut Rng, power: i128) -> i128 {
    let steepest = steepest_at(power);
    match rng.below(4) {
        0 => rng.pick(&[-steepest, steepest]),
        1 => rng.pick(&[-1, 0, 1, -333, 333]).clamp(-steepest, steepest),
        _ => rng.from_to(-steepest, steepest),
    }
}

/// Two lines with kvar between them at some power, which lie close there or cross elsewhere, and q
/// with reserves up to the one, the other or both.
fn between_lines(rng: &mut Rng, spans: &[Span]) -> Edge {
    let highest = rng.pick(&[50, 3_000, HIGHEST_POWER]);
    let mut edge = steady(rng, spans, (0, highest));
    let power = rng.from_to(0, highest);
    let gap = rng.pick(&[1, 1, 3, 40]);
    let line = |rng: &mut Rng, kvar: i128| {
        let slope = random_slope(rng, power);
        LinkLine {
            offset: kvar - (slope * power).div_euclid(WHOLE),
            slope,
        }
    };
    let (upper, lower) = (line(rng, gap), line(rng, -gap));
    edge.device.link = Link::TwoLines { upper, lower };
    for (setting, terms) in edge.settings.iter_mut().zip(&mut edge.device.terms) {
        (terms.qmin, terms.qmax) = (-HIGHEST_POWER, HIGHEST_POWER);
        if open_kvar(&upper, &lower, setting.online_power).is_none() || rng.chance(30) {
            setting.online_power = power;
        }
        let open = open_kvar(&upper, &lower, setting.online_power);
        let open = open.expect("there is room at that power");
        set_kvar(rng, edge.device.side, open, setting);
    }
    edge
}

/// The least and the greatest q between two lines; none where there is none in range.
fn open_kvar(upper: &LinkLine, lower: &LinkLine, power: i128) -> Option<(i128, i128)> {
    let greatest = (WHOLE * upper.offset + upper.slope * power).div_euclid(WHOLE);
    let least = -(-(WHOLE * lower.offset + lower.slope * power)).div_euclid(WHOLE);
    let (least, greatest) = (least.max(-HIGHEST_POWER), greatest.min(HIGHEST_POWER));
    (least <= greatest).then_some((least, greatest))
}

/// A q in its range, with reserves that reach its ends or are none.
fn set_kvar(rng: &mut Rng, side: Side, (least, greatest): (i128, i128), setting: &mut Setting) {
    let q = match rng.below(3) {
        0 => least,
        1 => greatest,
        _ => rng.from_to(least, greatest),
    };
    let reserve = |rng: &mut Rng, room: i128| rng.pick(&[0, room]).min(HIGHEST_POWER);
    let (raising, lowering) = (reserve(rng, greatest - q), reserve(rng, q - least));
    setting.reactive_power = q;
    setting.reactive_reserves = ReactiveReserves::from_order(match side {
        Side::Producing => [raising, lowering],
        Side::Consuming => [lowering, raising],
    });
}

/// Powers at which an equality gives whole kvar, and these.
fn on_equality(rng: &mut Rng, spans: &[Span]) -> Edge {
    let highest = rng.pick(&[50, 3_000, HIGHEST_POWER]);
    let mut edge = steady(rng, spans, (0, highest));
    let steepest = steepest_at(highest);
    let slopes = [1, 8, 125, 200, 333, 500, 1_000, 2_000, STEEPEST_SLOPE];
    let slope = rng.pick(&slopes).min(steepest) * rng.pick(&[-1, 1, 1, -1, 0]);
    let line = LinkLine {
        offset: rng.from_to(-200, 200),
        slope,
    };
    edge.device.link = Link::Equality(line);
    for (setting, terms) in edge.settings.iter_mut().zip(&mut edge.device.terms) {
        (terms.qmin, terms.qmax) = (-HIGHEST_POWER, HIGHEST_POWER);
        let power = (0..=setting.online_power)
            .rev()
            .find(|power| power * slope % WHOLE == 0);
        setting.online_power = power.expect("0 gives whole kvar");
        setting.reactive_power = line.offset + slope * setting.online_power / WHOLE;
    }
    edge
}

/// Floors up to the powers of an edge; while it is off, as great as their caps.
fn set_floors(rng: &mut Rng, edge: &mut Edge) {
    for (terms, setting) in edge.device.terms.iter_mut().zip(&edge.settings) {
        let power = setting.online_power;
        let block = &mut terms.blocks[0];
        block.floor = match rng.below(3) {
            _ if !setting.on => block.cap,
            0 => 0,
            1 => power,
            _ => rng.from_to(0, power),
        };
    }
}

/// A batch of one case and so many plans for it, for a form: mostly small days.
pub fn mend_batch(rng: &mut Rng, form: Form, plans: usize) -> Vec<u8> {
    let size = match rng.below(1_000) {
        0..=299 => Size::Tiny,
        300..=899 => Size::Small,
        900..=979 => Size::Medium,
        980..=989 => Size::Large,
        990..=997 if form == Form::HOST => Size::Beyond,
        998 if form == Form::HOST => Size::Greatest,
        _ => Size::Full,
    };
    let mendable = Mendable::random(rng, size);
    let mut messages = vec![encode_case(mendable.edition, &mendable.case).bytes];
    let most = match size {
        Size::Tiny | Size::Small | Size::Medium => plans,
        _ => plans.min(PLANS_OF_LARGE_DAYS),
    };
    for _ in 0..most {
        let message = encode_plan(mendable.edition, &mendable.plan(rng));
        let is_damaged = rng.chance(PER_CENT_DAMAGED);
        messages.push(if is_damaged {
            damaged(rng, &message)
        } else {
            message.bytes
        });
    }
    join(&messages)
}
