//! An ordinary day with every count at its largest: drawn as random days are, of devices that are
//! on for most of the day and are switched a few times. From edition 2 on each has two link lines
//! and reactive power.

use crate::batch::join;
use crate::case::{Link, MOST_ITEMS, MOST_ZONES};
use crate::edition::Edition;
use crate::encode::{encode_case, encode_plan};
use crate::generate::device::{Built, Scale};
use crate::generate::plans::plan_of;
use crate::generate::sample::sample_of_devices;
use crate::generate::schedule::Schedule;
use crate::generate::shape::{Shape, Size};
use crate::rng::Rng;

const SEED: u64 = 96;
/// How often a device is switched on a day of that many intervals or more.
const LEAST_SWITCHES: usize = 2;
const MOST_SWITCHES: usize = 6;

/// The case, then the plan so many times.
pub fn ordinary_batch(edition: Edition, times: usize, devices: usize, intervals: usize) -> Vec<u8> {
    let shape = Shape {
        size: Size::Greatest,
        devices,
        intervals,
        zones: MOST_ZONES,
    };
    let mut rng = Rng::new(SEED);
    let is_ordinary = |built: &Built| is_ordinary(edition, built);
    let sample = sample_of_devices(&mut rng, edition, &shape, Scale::Low, is_ordinary);
    let own: Vec<&Schedule> = sample.pools.iter().map(|pool| &pool.good[0]).collect();
    let plan = plan_of(&mut rng, &sample, &own);
    let mut messages = vec![encode_case(edition, &sample.case).bytes];
    messages.resize(1 + times, encode_plan(edition, &plan).bytes);
    join(&messages)
}

/// On for most of the day and switched a few times, with four blocks in every interval and two
/// lines where the edition has any.
fn is_ordinary(edition: Edition, built: &Built) -> bool {
    let Built { device, on } = built;
    let intervals = on.len();
    let before = std::iter::once(&device.initially_on).chain(on);
    let switches = before.zip(on).filter(|(before, on)| before != on).count();
    let least_switches = LEAST_SWITCHES.min(intervals - 1);
    let on_for = on.iter().filter(|&&on| on).count();
    (least_switches..=MOST_SWITCHES).contains(&switches)
        && 2 * on_for > intervals
        && device
            .terms
            .iter()
            .all(|terms| terms.blocks.len() == MOST_ITEMS)
        && (matches!(device.link, Link::TwoLines { .. }) || !edition.has_reactive_power())
}
