//! A device built around a commitment that it can follow, with figures set at the edges of what
//! the rules compare: minima met exactly, ramps just steep enough, windows that end on a start, on
//! an interval's edge or a minute beside it, equal prices and costs.

use crate::case::{
    Block, Device, EnergyKind, EnergyWindow, Link, Ramps, Reserves, Side, StartWindow,
    StartupState, Status, Terms, MOST_ITEMS, MOST_STATES, MOST_ZONES,
};
use crate::clock::Span;
use crate::edition::Edition;
use crate::energy::EnergyRule;
use crate::forced::{commit, Commitment};
use crate::form::Largest;
use crate::generate::floors::{lower_floors_to_pmin, set_floors};
use crate::generate::reactive::{random_grid, set_reactive_power, snap_to_grid};
use crate::generate::schedule::{schedule, Schedule, Waived};
use crate::generate::shape::Shape;
use crate::ours::downtime;
use crate::rng::Rng;

/// How large the figures are that do not decide on any rule.
#[derive(Clone, Copy, PartialEq, Eq, Debug)]
pub enum Scale {
    /// Small figures, and next to nothing for shortfalls, mismatch and overruns: surpluses of
    /// either sign.
    Calm,
    /// Small figures, so that equal ones are frequent.
    Low,
    /// Anything in range.
    Wide,
    /// The greatest in range.
    Extreme,
}

/// A device and a commitment that it can follow.
pub struct Built {
    pub device: Device,
    pub on: Vec<bool>,
}

/// Builds a device for a day.
pub fn random_device(
    rng: &mut Rng,
    edition: Edition,
    shape: &Shape,
    spans: &[Span],
    scale: Scale,
) -> Built {
    let (initially_on, on) = random_commitment(rng, spans.len());
    let mut device = bare_device(rng, spans.len(), initially_on, scale);
    let grid = if edition.has_reactive_power() {
        random_grid(rng)
    } else {
        1
    };
    set_powers(rng, shape, &mut device, scale);
    if edition.has_floors() {
        set_floors(rng, &on, &mut device);
    }
    snap_to_grid(&mut device, grid);
    set_ramps(rng, spans, &on, &mut device);
    snap_to_grid(&mut device, grid);
    make_followable(spans, &on, &mut device);
    let commitment = commit(&device, spans, on);
    if rng.chance(25) {
        tighten_caps_while_off(&commitment, &mut device);
    }
    set_minima(rng, spans, &commitment, &mut device);
    set_statuses(rng, &commitment, &mut device);
    set_lists(rng, shape, spans, &commitment, &mut device, scale);
    raise_most_starts(rng, edition, &mut device);
    if edition.has_reactive_power() {
        let schedule = schedule_of(&device, spans, &commitment.on);
        set_reactive_power(rng, &mut device, &schedule, scale, grid);
    }
    Built {
        device,
        on: commitment.on,
    }
}

fn schedule_of(device: &Device, spans: &[Span], on: &[bool]) -> Schedule {
    let schedule = schedule(device, spans, on.to_vec(), Waived::None);
    schedule.expect("a device can follow its own commitment")
}

/// Startup states, start windows and energy windows.
fn set_lists(
    rng: &mut Rng,
    shape: &Shape,
    spans: &[Span],
    commitment: &Commitment,
    device: &mut Device,
    scale: Scale,
) {
    device.startup_states = (0..shape.items(rng, MOST_STATES))
        .map(|_| random_state(rng, spans, commitment, device, scale))
        .collect();
    device.start_windows = (0..shape.items(rng, MOST_ITEMS))
        .map(|_| random_start_window(rng, spans, commitment))
        .collect();
    device.energy_windows = (0..shape.items(rng, MOST_ITEMS))
        .map(|_| random_energy_window(rng, spans, device, scale))
        .collect();
}

/// An initial state and a commitment: steady, switched once, or switched often.
pub fn random_commitment(rng: &mut Rng, intervals: usize) -> (bool, Vec<bool>) {
    let initially_on = rng.chance(50);
    let switches_at_first = rng.chance(15);
    let percent_of_switches = rng.pick(&[0, 0, 8, 20, 30, 50]);
    let single_switch = rng.chance(30).then(|| rng.below(intervals));
    let mut state = initially_on;
    let on = (0..intervals)
        .map(|t| {
            let switches = match single_switch {
                Some(at) => t == at,
                None if t == 0 => switches_at_first,
                None => rng.chance(percent_of_switches),
            };
            state ^= switches;
            state
        })
        .collect();
    (initially_on, on)
}

fn bare_device(rng: &mut Rng, intervals: usize, initially_on: bool, scale: Scale) -> Device {
    Device {
        side: rng.pick(&[Side::Producing, Side::Consuming]),
        zone_bits: [false; MOST_ZONES],
        initially_on,
        initial_power: 0,
        minutes_already_so: 0,
        minimum_up: 0,
        minimum_down: 0,
        ramps: STEEPEST,
        on_cost: cost(rng, scale, 100, 100_000),
        start_cost: cost(rng, scale, 10_000, 1_000_000_000),
        stop_cost: cost(rng, scale, 1_000, 1_000_000_000),
        reserve_limits: Reserves::default(),
        startup_states: Vec::new(),
        start_windows: Vec::new(),
        energy_windows: Vec::new(),
        link: Link::None,
        bar: 0,
        terms: vec![Terms::default(); intervals],
    }
}

const STEEPEST: Ramps = Ramps {
    up: 100_000,
    down: 100_000,
    starting: 100_000,
    stopping: 100_000,
};

fn cost(rng: &mut Rng, scale: Scale, low_scale: i128, greatest: i128) -> i128 {
    match scale {
        Scale::Calm => rng.from_to(0, low_scale / 50),
        Scale::Low => rng.from_to(0, low_scale),
        Scale::Wide => rng.from_to(0, greatest),
        Scale::Extreme => greatest,
    }
}

/// pmin, pmax, blocks, reserve limits and reserve prices.
fn set_powers(rng: &mut Rng, shape: &Shape, device: &mut Device, scale: Scale) {
    let highest = match scale {
        Scale::Extreme => 100_000,
        _ => rng.pick(&[4, 20, 150, 2_000, 30_000, 100_000]),
    };
    let pmin = rng.pick(&[0, highest / 5, highest / 2, highest * 3 / 4, highest]);
    let varies = rng.chance(40);
    let block_count = shape.items(rng, MOST_ITEMS).max(1);
    let gives_every_block = rng.chance(70);
    for terms in &mut device.terms {
        (terms.pmin, terms.pmax) = (pmin, highest);
        if varies {
            terms.pmin = rng.from_to(pmin * 4 / 5, pmin);
            terms.pmax = rng.from_to(terms.pmin.max(highest * 4 / 5), highest);
        }
        let count = if gives_every_block {
            block_count
        } else {
            1 + rng.below(block_count)
        };
        let idles = terms.pmin == 0 && !shape.is_full() && rng.chance(5);
        terms.blocks = if idles {
            Vec::new()
        } else {
            random_blocks(rng, count, terms.pmin, terms.pmax, scale)
        };
        terms.reserve_prices = Reserves::from_order([(); 8].map(|_| reserve_price(rng, scale)));
    }
    let limit_scale = rng.pick(&[0, highest / 4, highest / 4, highest, 100_000]);
    device.reserve_limits = Reserves::from_order([(); 8].map(|_| match scale {
        Scale::Extreme => 100_000,
        _ => rng.from_to(limit_scale / 3, limit_scale),
    }));
}

pub fn reserve_price(rng: &mut Rng, scale: Scale) -> i128 {
    match scale {
        Scale::Calm => rng.from_to(0, 1),
        Scale::Low => rng.from_to(0, 9),
        Scale::Wide => rng.from_to(0, 10_000),
        Scale::Extreme => 10_000,
    }
}

/// Blocks whose caps mostly reach pmax, sometimes less, never less than pmin.
fn random_blocks(rng: &mut Rng, count: usize, pmin: i128, pmax: i128, scale: Scale) -> Vec<Block> {
    let total = match rng.below(10) {
        0 | 1 => rng.from_to(pmin, pmax),
        2..=4 => pmax,
        _ => pmax + rng.from_to(0, pmax / 2 + 1),
    };
    let mut left = total;
    let mut blocks: Vec<Block> = (0..count)
        .map(|m| {
            let share = if m + 1 == count {
                left
            } else {
                rng.from_to(0, left)
            };
            let cap = share.min(100_000);
            left -= cap;
            Block::plain(cap, block_price(rng, scale))
        })
        .collect();
    if rng.chance(50) {
        blocks.reverse();
    }
    if blocks.iter().map(|block| block.cap).sum::<i128>() < pmin {
        blocks[0].cap = 100_000;
    }
    blocks
}

fn block_price(rng: &mut Rng, scale: Scale) -> i128 {
    match scale {
        Scale::Calm | Scale::Low => rng.pick(&[-4, -1, 0, 3, 3, 5, 5, 20]),
        Scale::Wide => rng.from_to(-10_000, 10_000),
        Scale::Extreme => rng.pick(&[-10_000, 10_000]),
    }
}

/// Ramps that the commitment can be followed with, often only just, and the initial power.
fn set_ramps(rng: &mut Rng, spans: &[Span], on: &[bool], device: &mut Device) {
    let highest = device
        .terms
        .iter()
        .map(|terms| terms.pmax)
        .max()
        .unwrap_or(0);
    let ramp = |rng: &mut Rng| match rng.below(3) {
        0 => rng.from_to(1, 1 + highest / 20),
        1 => rng.from_to(1, 1 + highest / 2),
        _ => 100_000,
    };
    (device.ramps.up, device.ramps.down) = (ramp(rng), ramp(rng));
    if device.initially_on {
        device.initial_power = rng.from_to(device.terms[0].pmin, device.terms[0].pmax);
    }
    let least_starting = least_starting_ramp(rng, device, spans, on);
    device.ramps.starting = ramp_from(rng, least_starting);
    let least_stopping = least_stopping_ramp(rng, device, spans, on);
    device.ramps.stopping = ramp_from(rng, least_stopping);
    if !device.initially_on {
        device.initial_power = initial_power_while_off(rng, device, spans, on);
    }
}

fn ramp_from(rng: &mut Rng, least: i128) -> i128 {
    let ramp = match rng.below(10) {
        0..=3 => least,
        4..=6 => least + rng.from_to(0, 1 + least / 2),
        7 => least * 3,
        _ => 100_000,
    };
    ramp.clamp(1, 100_000)
}

/// The least starting ramp that keeps every startup trajectory out of earlier on intervals.
fn least_starting_ramp(rng: &mut Rng, device: &Device, spans: &[Span], on: &[bool]) -> i128 {
    let commitment = commit(device, spans, on.to_vec());
    (0..spans.len())
        .filter(|&t| commitment.started[t])
        .filter_map(|t| {
            let last_on = commitment.last_on_before(t)?;
            let minutes = spans[t].end - spans[last_on].end;
            Some(ceiling_of_quotient(device.terms[t].pmin, minutes))
        })
        .max()
        .unwrap_or_else(|| some_trajectory_ramp(rng, device, spans))
}

/// The least stopping ramp that keeps every shutdown trajectory out of later on intervals.
fn least_stopping_ramp(rng: &mut Rng, device: &Device, spans: &[Span], on: &[bool]) -> i128 {
    let commitment = commit(device, spans, on.to_vec());
    (0..spans.len())
        .filter(|&t| commitment.stopped[t])
        .filter_map(|t| {
            let next_on = (t..spans.len()).find(|&later| on[later])?;
            let before = match t {
                0 => device.initial_power,
                _ => device.terms[t - 1].pmin,
            };
            let minutes = spans[next_on].end - spans[t].start;
            Some(ceiling_of_quotient(before, minutes))
        })
        .max()
        .unwrap_or_else(|| some_trajectory_ramp(rng, device, spans))
}

/// A ramp whose trajectories last a few intervals, for want of another bound.
fn some_trajectory_ramp(rng: &mut Rng, device: &Device, spans: &[Span]) -> i128 {
    let intervals = rng.from_to(1, 6);
    ceiling_of_quotient(device.terms[0].pmin, intervals * spans[0].duration())
}

fn ceiling_of_quotient(power: i128, minutes: i128) -> i128 {
    (power + minutes - 1) / minutes
}

/// Initial power of a device that is initially off: mostly none, else near the trajectory.
fn initial_power_while_off(rng: &mut Rng, device: &Device, spans: &[Span], on: &[bool]) -> i128 {
    let first_power = if on[0] {
        device.terms[0].pmin
    } else {
        commit(device, spans, on.to_vec()).trajectory(0)
    };
    let least = first_power - spans[0].duration() * device.ramps.starting;
    let greatest = first_power + spans[0].duration() * device.ramps.stopping;
    let power = match rng.below(8) {
        0 => greatest,
        1 => first_power,
        2 => first_power + rng.from_to(0, 20),
        _ => least,
    };
    power.clamp(0, 100_000)
}

/// Loosens ramps, floors and at last pmin until the commitment can be followed.
fn make_followable(spans: &[Span], on: &[bool], device: &mut Device) {
    let can_follow = |device: &Device| schedule(device, spans, on.to_vec(), Waived::None).is_some();
    if can_follow(device) {
        return;
    }
    (device.ramps.up, device.ramps.down) = (100_000, 100_000);
    if can_follow(device) {
        return;
    }
    lower_floors_to_pmin(device);
    if can_follow(device) {
        return;
    }
    device.ramps = STEEPEST;
    if can_follow(device) {
        return;
    }
    for terms in &mut device.terms {
        terms.pmin = 0;
    }
    lower_floors_to_pmin(device);
    assert!(can_follow(device), "a device that may idle can follow all");
}

/// Leaves the blocks of every off interval just the caps that its trajectory needs.
fn tighten_caps_while_off(commitment: &Commitment, device: &mut Device) {
    for (t, terms) in device.terms.iter_mut().enumerate() {
        if !commitment.on[t] {
            let mut left = commitment.trajectory(t);
            for block in &mut terms.blocks {
                block.cap = block.cap.min(left);
                block.floor = block.floor.min(block.cap);
                left -= block.cap;
            }
        }
    }
}

/// Minima that the commitment meets, often exactly.
fn set_minima(rng: &mut Rng, spans: &[Span], commitment: &Commitment, device: &mut Device) {
    let shortest = |from: &[bool], to: &[bool]| {
        (0..spans.len())
            .filter(|&t| to[t])
            .filter_map(|t| {
                let before = (0..t).rev().find(|&earlier| from[earlier])?;
                Some(spans[t].start - spans[before].start)
            })
            .min()
    };
    let shortest_down = shortest(&commitment.stopped, &commitment.started);
    let shortest_up = shortest(&commitment.started, &commitment.stopped);
    device.minimum_down = minimum_up_to(rng, spans, shortest_down);
    device.minimum_up = minimum_up_to(rng, spans, shortest_up);
    let minimum = if device.initially_on {
        device.minimum_up
    } else {
        device.minimum_down
    };
    let first_switch = (0..spans.len()).find(|&t| commitment.on[t] != device.initially_on);
    let least_minutes = first_switch.map_or(0, |t| (minimum - spans[t].start).max(0));
    let spare = match rng.below(4) {
        0 | 1 => 0,
        2 => rng.from_to(0, 120),
        _ => rng.from_to(0, 60_000 - least_minutes),
    };
    device.minutes_already_so = least_minutes + spare;
}

fn minimum_up_to(rng: &mut Rng, spans: &[Span], bound: Option<i128>) -> i128 {
    let day = spans[spans.len() - 1].end;
    match (bound, rng.below(4)) {
        (_, 0) => 0,
        (Some(bound), 1) => rng.from_to(0, bound),
        (Some(bound), _) => bound,
        (None, 1) => rng.pick(spans).end,
        (None, _) => rng.from_to(0, day),
    }
}

fn set_statuses(rng: &mut Rng, commitment: &Commitment, device: &mut Device) {
    let percent_fixed = rng.pick(&[0, 0, 10, 30]);
    for (terms, &on) in device.terms.iter_mut().zip(&commitment.on) {
        if rng.chance(percent_fixed) {
            terms.status = if on { Status::On } else { Status::Off };
        }
    }
}

/// A startup state whose longest downtime is often exactly one of the commitment's downtimes.
fn random_state(
    rng: &mut Rng,
    spans: &[Span],
    commitment: &Commitment,
    device: &Device,
    scale: Scale,
) -> StartupState {
    let downtimes: Vec<i128> = (0..spans.len())
        .filter(|&t| commitment.started[t])
        .map(|t| downtime(device, spans, commitment, t))
        .collect();
    let longest_downtime = if downtimes.is_empty() || rng.chance(30) {
        rng.from_to(0, 60_000)
    } else {
        let beside = rng.pick(&[-1, 0, 0, 1, 60]);
        (rng.pick(&downtimes) + beside).clamp(0, 60_000)
    };
    let cost = match scale {
        Scale::Calm | Scale::Low => rng.pick(&[-700, -500, -500, -1, 0, 0, 1, 200]),
        Scale::Wide => rng.from_to(-1_000_000_000, 1_000_000_000),
        Scale::Extreme => rng.pick(&[-1_000_000_000, 1_000_000_000]),
    };
    StartupState {
        longest_downtime,
        cost,
    }
}

/// A start and an end among the day's marks or one minute beside them.
fn window_among(rng: &mut Rng, marks: &[i128], last_end: i128) -> (i128, i128) {
    let mut mark = || {
        let beside = rng.pick(&[-1, 0, 0, 0, 1]);
        (rng.pick(marks) + beside).clamp(0, last_end)
    };
    in_order(mark(), mark())
}

fn in_order(a: i128, b: i128) -> (i128, i128) {
    (a.min(b), a.max(b))
}

/// The most starts that every edition can allow in a window.
const SMALL_MOST_STARTS: i128 = Largest::SMALL.intervals as i128;

/// From edition 4 on, lets one window in three allow more starts than older editions can say.
fn raise_most_starts(rng: &mut Rng, edition: Edition, device: &mut Device) {
    let greatest = Largest::LARGE.intervals as i128;
    for window in &mut device.start_windows {
        if edition.has_large_counts() && rng.chance(33) {
            let any = rng.from_to(SMALL_MOST_STARTS + 1, greatest);
            window.most_starts = rng.pick(&[SMALL_MOST_STARTS + 1, any, greatest]);
        }
    }
}

/// A window over starts that allows what the commitment does, often exactly.
fn random_start_window(rng: &mut Rng, spans: &[Span], commitment: &Commitment) -> StartWindow {
    let last_end = spans[spans.len() - 1].end;
    let mut marks: Vec<i128> = spans.iter().map(|span| span.start).collect();
    marks.push(last_end);
    let (start, end) = window_among(rng, &marks, last_end);
    let starts = (0..spans.len())
        .filter(|&t| commitment.started[t] && start <= spans[t].start && spans[t].start < end)
        .count() as i128;
    let most_starts = (starts + rng.pick(&[0, 0, 1, 40])).min(SMALL_MOST_STARTS);
    StartWindow {
        start,
        end,
        most_starts,
    }
}

/// The highest energy that a window can say.
const HIGHEST_ENERGY: i128 = 4_000_000_000;

/// A window over energy whose bound lies near what the device can do in it.
fn random_energy_window(
    rng: &mut Rng,
    spans: &[Span],
    device: &Device,
    scale: Scale,
) -> EnergyWindow {
    let (start, end) = energy_window_edges(rng, spans);
    let mut window = EnergyWindow {
        kind: rng.pick(&[EnergyKind::Maximum, EnergyKind::Minimum]),
        start,
        end,
        energy: 0,
    };
    let most: i128 = spans
        .iter()
        .zip(&device.terms)
        .map(|(span, terms)| EnergyRule::ByMinute.minutes(span, &window) * terms.pmax)
        .sum();
    window.energy = match rng.below(4) {
        0 => 0,
        1 if scale == Scale::Wide => rng.from_to(0, HIGHEST_ENERGY),
        1 if scale == Scale::Extreme => HIGHEST_ENERGY,
        _ => rng.from_to(0, most.min(HIGHEST_ENERGY)),
    };
    window
}

/// From an interval's edge to an interval's edge, within one interval, any minutes of the day, or
/// edges and midpoints of intervals and what lies beside them; some are empty.
fn energy_window_edges(rng: &mut Rng, spans: &[Span]) -> (i128, i128) {
    let last_end = spans[spans.len() - 1].end;
    let mut marks: Vec<i128> = spans.iter().map(|span| span.start).collect();
    marks.push(last_end);
    match rng.below(6) {
        0 => in_order(rng.pick(&marks), rng.pick(&marks)),
        1 => {
            let Span { start, end } = rng.pick(spans);
            in_order(rng.from_to(start, end), rng.from_to(start, end))
        }
        2 => in_order(rng.from_to(0, last_end), rng.from_to(0, last_end)),
        _ => {
            marks.extend(spans.iter().map(Span::midpoint));
            window_among(rng, &marks, last_end)
        }
    }
}
