//! A generated case with, per device, schedules that keep the rules and schedules that break
//! exactly one of rules 1 to 4 and 18 to 20.

use crate::bits::HIGHEST_POWER;
use crate::case::{
    Block, Case, Device, Reserves, Side, Status, Zone, MOST_ITEMS, MOST_MINIMA, MOST_SHORTFALLS,
};
use crate::clock::{spans, Span};
use crate::edition::Edition;
use crate::forced::{commit, Commitment};
use crate::generate::bars::{set_bars, set_bars_and_limit};
use crate::generate::device::{random_commitment, random_device, Built, Scale};
use crate::generate::floors::scramble_floors;
use crate::generate::reactive::{can_be_kept, scramble_reactive_power};
use crate::generate::schedule::{schedule, Schedule, Waived};
use crate::generate::shape::{Shape, Size};
use crate::rng::Rng;
use crate::rules::{
    holds_initial_state, keeps_start_window, keeps_status, starts_late_enough, stops_late_enough,
};

/// A case to plan for.
pub struct Sample {
    pub edition: Edition,
    pub case: Case,
    pub spans: Vec<Span>,
    /// Per device.
    pub pools: Vec<Pool>,
}

/// Schedules of one device.
pub struct Pool {
    /// Never empty.
    pub good: Vec<Schedule>,
    pub spoilt: Vec<Spoilt>,
}

/// A schedule that can be dispatched so that `rule` alone is broken.
pub struct Spoilt {
    pub rule: u8,
    pub schedule: Schedule,
}

/// A case of any edition that can say its size, whose devices can each follow some schedule.
pub fn random_sample(rng: &mut Rng, size: Size) -> Sample {
    let edition = rng.pick(&size.editions());
    sample_in(rng, edition, size)
}

/// A case of an edition whose devices can each follow some schedule.
pub fn sample_in(rng: &mut Rng, edition: Edition, size: Size) -> Sample {
    let shape = Shape::random(rng, size);
    let scale = match rng.below(20) {
        0 => Scale::Extreme,
        1..=5 => Scale::Wide,
        6..=11 => Scale::Calm,
        _ => Scale::Low,
    };
    sample_of(rng, edition, &shape, scale)
}

/// A case of a given edition, shape and scale; now and then with the content of an older edition.
pub fn sample_of(rng: &mut Rng, edition: Edition, shape: &Shape, scale: Scale) -> Sample {
    let older: Vec<Edition> = edition.older().collect();
    let content = if !older.is_empty() && rng.chance(6) {
        rng.pick(&older)
    } else {
        edition
    };
    Sample {
        edition,
        ..sample_of_devices(rng, content, shape, scale, |_| true)
    }
}

/// A case with the content of an edition, of devices that are drawn until each is wanted.
pub fn sample_of_devices(
    rng: &mut Rng,
    edition: Edition,
    shape: &Shape,
    scale: Scale,
    is_wanted: impl Fn(&Built) -> bool,
) -> Sample {
    let durations = random_durations(rng, shape.intervals);
    let spans = spans(&durations);
    let mut devices = Vec::new();
    let mut pools = Vec::new();
    for _ in 0..shape.devices {
        let mut draw = || random_device(rng, edition, shape, &spans, scale);
        let mut built = draw();
        while !is_wanted(&built) {
            built = draw();
        }
        pools.push(find_schedules(rng, &built.device, &spans, &built.on));
        devices.push(built.device);
    }
    set_zone_bits(rng, shape.zones, &mut devices);
    let link_limit = set_bars_and_limit(rng, edition, &mut devices, scale);
    let zones = (0..shape.zones)
        .map(|_| random_zone(rng, edition, shape.intervals, scale))
        .collect();
    Sample {
        edition,
        case: Case {
            mismatch_price: slack_price(rng, scale),
            overrun_price: slack_price(rng, scale),
            link_limit,
            durations,
            zones,
            devices,
        },
        spans,
        pools,
    }
}

fn random_durations(rng: &mut Rng, intervals: usize) -> Vec<i128> {
    let common = rng.pick(&[2, 14, 30, 60, 60, 120, 360]);
    let mixed = rng.below(3);
    (0..intervals)
        .map(|_| match mixed {
            0 => 2 * rng.from_to(1, 180),
            1 => rng.pick(&[10, 30, 60]),
            _ => common,
        })
        .collect()
}

fn random_zone(rng: &mut Rng, edition: Edition, intervals: usize, scale: Scale) -> Zone {
    let (share_scale, minimum_scale) = match scale {
        Scale::Calm => (rng.pick(&[0, 1]), 0),
        _ => (
            rng.pick(&[0, 30, 150, 1_000]),
            rng.pick(&[0, 20, 400, 60_000]),
        ),
    };
    let shares = [(); 4].map(|_| match scale {
        Scale::Extreme => 1_000,
        _ => rng.from_to(0, share_scale),
    });
    let mut shortfall_prices = [1; MOST_SHORTFALLS];
    for price in &mut shortfall_prices[..edition.shortfalls()] {
        *price = shortfall_price(rng, scale);
    }
    let mut minima = vec![[0; MOST_MINIMA]; intervals];
    for minimum in minima.iter_mut().flat_map(|m| &mut m[..edition.minima()]) {
        *minimum = match scale {
            Scale::Extreme => 6_400_000,
            Scale::Wide if rng.chance(10) => rng.from_to(0, 6_400_000),
            _ => rng.from_to(0, minimum_scale),
        };
    }
    Zone {
        shares,
        shortfall_prices,
        minima,
    }
}

/// A price of mismatch or overrun.
fn slack_price(rng: &mut Rng, scale: Scale) -> i128 {
    match scale {
        Scale::Calm => 1,
        Scale::Low => rng.pick(&[1, 2, 7, 1_000]),
        Scale::Wide => rng.from_to(1, 10_000),
        Scale::Extreme => 10_000,
    }
}

fn shortfall_price(rng: &mut Rng, scale: Scale) -> i128 {
    match scale {
        Scale::Calm => 1,
        Scale::Low => rng.from_to(1, 4),
        Scale::Wide => rng.from_to(1, 100),
        Scale::Extreme => 100,
    }
}

/// Zones of both sides, of one side alone, and empty ones.
fn set_zone_bits(rng: &mut Rng, zones: usize, devices: &mut [Device]) {
    for z in 0..zones {
        let sides: &[Side] = match rng.below(8) {
            0 => &[],
            1 => &[Side::Producing],
            2 => &[Side::Consuming],
            _ => &[Side::Producing, Side::Consuming],
        };
        for device in devices.iter_mut() {
            device.zone_bits[z] = sides.contains(&device.side) && rng.chance(70);
        }
    }
}

const PROPOSALS: usize = 30;
const MOST_GOOD: usize = 5;
const MOST_SPOILT_PER_RULE: usize = 2;

/// Sorts proposed commitments into good and spoilt ones; `base` is known to be good.
fn find_schedules(rng: &mut Rng, device: &Device, spans: &[Span], base: &[bool]) -> Pool {
    let base_schedule = schedule(device, spans, base.to_vec(), Waived::None);
    let mut pool = Pool {
        good: base_schedule.into_iter().collect(),
        spoilt: Vec::new(),
    };
    assert!(
        !pool.good.is_empty(),
        "a device can follow its own commitment"
    );
    for _ in 0..PROPOSALS {
        let on = propose(rng, base);
        pool.sort_in(device, spans, on);
    }
    pool
}

impl Pool {
    fn sort_in(&mut self, device: &Device, spans: &[Span], on: Vec<bool>) {
        let commitment = commit(device, spans, on.clone());
        let broken = broken_commitment_rules(device, spans, &commitment);
        let rule = match broken[..] {
            [] => None,
            [rule] => Some(rule),
            _ => return,
        };
        let kept = schedule(device, spans, on.clone(), Waived::None);
        match (rule, kept) {
            (None, Some(schedule)) => self.add_good(device, schedule),
            (None, None) => {
                for (rule, waived) in [(18, Waived::Rule18), (19, Waived::Rule19)] {
                    if let Some(schedule) = schedule(device, spans, on.clone(), waived) {
                        self.add_spoilt(device, rule, schedule);
                    }
                }
            }
            (Some(rule), Some(schedule)) => self.add_spoilt(device, rule, schedule),
            _ => {}
        }
    }

    fn add_good(&mut self, device: &Device, schedule: Schedule) {
        if self.good.len() < MOST_GOOD && can_be_kept(device, &schedule) {
            self.good.push(schedule);
        }
    }

    fn add_spoilt(&mut self, device: &Device, rule: u8, schedule: Schedule) {
        let already = self
            .spoilt
            .iter()
            .filter(|spoilt| spoilt.rule == rule)
            .count();
        if already < MOST_SPOILT_PER_RULE && can_be_kept(device, &schedule) {
            self.spoilt.push(Spoilt { rule, schedule });
        }
    }
}

/// Which of rules 1 to 4 and 20 a commitment breaks.
fn broken_commitment_rules(device: &Device, spans: &[Span], commitment: &Commitment) -> Vec<u8> {
    let everywhere = |holds: &dyn Fn(usize) -> bool| (0..spans.len()).all(holds);
    let kept = [
        (1, everywhere(&|t| keeps_status(device, commitment, t))),
        (
            2,
            everywhere(&|t| holds_initial_state(device, spans, commitment, t)),
        ),
        (
            3,
            everywhere(&|t| starts_late_enough(device, spans, commitment, t)),
        ),
        (
            4,
            everywhere(&|t| stops_late_enough(device, spans, commitment, t)),
        ),
        (
            20,
            device
                .start_windows
                .iter()
                .all(|window| keeps_start_window(window, spans, commitment)),
        ),
    ];
    kept.into_iter()
        .filter(|(_, kept)| !kept)
        .map(|(rule, _)| rule)
        .collect()
}

/// Another commitment: the base with a stretch switched, or any.
fn propose(rng: &mut Rng, base: &[bool]) -> Vec<bool> {
    if rng.chance(15) {
        return random_commitment(rng, base.len()).1;
    }
    let mut on = base.to_vec();
    let first = rng.below(on.len());
    let length = match rng.below(3) {
        0 => 1,
        _ => 1 + rng.below(on.len() - first),
    };
    let flips = rng.chance(50);
    let value = rng.chance(50);
    for state in &mut on[first..first + length] {
        *state = if flips { !*state } else { value };
    }
    on
}

/// A case of figures drawn without regard to one another; few plans of it keep the rules.
pub fn wild_case(rng: &mut Rng, size: Size) -> (Edition, Case) {
    let edition = rng.pick(&size.editions());
    let shape = Shape::random(rng, size);
    let mut case = sample_of(rng, edition, &shape, Scale::Wide).case;
    if edition.has_bars() {
        set_bars(rng, &mut case.devices);
        case.link_limit = rng.pick(&[0, 200, HIGHEST_POWER]);
    }
    for device in &mut case.devices {
        scramble(rng, device, shape.zones);
        if edition.has_reactive_power() {
            scramble_reactive_power(rng, device);
        }
        if edition.has_floors() {
            scramble_floors(rng, device);
        }
    }
    (edition, case)
}

fn scramble(rng: &mut Rng, device: &mut Device, zones: usize) {
    for member in &mut device.zone_bits[..zones] {
        *member = rng.chance(50);
    }
    device.initially_on = rng.chance(50);
    device.initial_power = rng.from_to(0, 100_000);
    device.minutes_already_so = rng.from_to(0, 60_000);
    device.minimum_up = rng.from_to(0, 60_000);
    device.minimum_down = rng.from_to(0, 60_000);
    device.ramps.up = rng.from_to(1, 100_000);
    device.ramps.down = rng.from_to(1, 100_000);
    device.ramps.starting = rng.from_to(1, 100_000);
    device.ramps.stopping = rng.from_to(1, 100_000);
    device.reserve_limits = Reserves::from_order([(); 8].map(|_| rng.from_to(0, 100_000)));
    for terms in &mut device.terms {
        terms.status = rng.pick(&[Status::Free, Status::On, Status::Off]);
        terms.pmax = rng.from_to(0, 100_000);
        terms.pmin = rng.from_to(0, terms.pmax);
        terms.blocks = (0..rng.below(MOST_ITEMS + 1))
            .map(|_| Block::plain(rng.from_to(0, 100_000), rng.from_to(-10_000, 10_000)))
            .collect();
    }
}
