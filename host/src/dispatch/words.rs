//! The desk program's question for a dispatch, with the list of offers made from the case, and the
//! answer in words: powers, blocks and cost.
//!
//! The powers are the plan unit's. Bounds, block powers and cost are worked out beside it, and `None`
//! means that they do not bear out its answer.

use crate::dispatch::Offer;
use crate::explain::place_words;
use crate::messages::{Block, Case, Cell, Device};

/// What is asked at the desk.
#[derive(Clone, PartialEq, Eq, Debug)]
pub struct Asked {
    pub interval: u64,
    pub target: u64,
    /// Devices and their earlier powers, in the order named.
    pub named: Vec<(u64, u64)>,
}

impl Asked {
    pub fn sets(&self) -> Vec<u64> {
        self.named.iter().map(|named| named.0).collect()
    }

    pub fn earlier_powers(&self) -> Vec<u64> {
        self.named.iter().map(|named| named.1).collect()
    }

    /// From the words behind the case: the interval, the target, and for each device its number or
    /// its name in the case and its earlier power, as in `2 160 1=150` or `2 160 Diesel=150`.
    pub fn parse(case: &Case, words: &[&str]) -> Option<Asked> {
        let (interval, rest) = words.split_first()?;
        let (target, sets) = rest.split_first()?;
        let named = |word: &&str| {
            let (set, power) = word.rsplit_once('=')?;
            let number = set.parse().ok().or_else(|| number_of(case, set));
            Some((number?, power.parse().ok()?))
        };
        Some(Asked {
            interval: interval.parse().ok()?,
            target: target.parse().ok()?,
            named: sets.iter().map(named).collect::<Option<_>>()?,
        })
    }

    /// The blocks of the devices named, as far as they are in the case.
    pub fn offers(&self, case: &Case) -> Vec<Offer> {
        let of_set = |&(set, _): &(u64, u64)| {
            let cell = device(case, set).and_then(|device| cell(case, device, self.interval));
            let blocks = cell.map_or(&[][..], |cell| &cell.blocks);
            (1..)
                .zip(blocks)
                .map(move |(block, offered)| offer(set, block, offered))
        };
        self.named.iter().flat_map(of_set).collect()
    }

    /// Why the question is not one of the case (number 8).
    pub fn not_of_case(&self, case: &Case) -> Option<String> {
        let intervals = case.intervals.len();
        if interval_place(case, self.interval).is_none() {
            let interval = self.interval;
            return Some(format!(
                "interval {interval} is not among the case's {intervals}"
            ));
        }
        let sets = self.sets();
        let complaint = |(at, &set): (usize, &u64)| match device(case, set) {
            None => Some(format!(
                "device {set} is not among the case's {}",
                case.devices.len()
            )),
            Some(device) if device.consuming => {
                Some(format!("{} consumes", device_words(case, set)))
            }
            Some(_) if sets[..at].contains(&set) => {
                Some(format!("{} is named twice", device_words(case, set)))
            }
            Some(_) => None,
        };
        sets.iter().enumerate().find_map(complaint)
    }

    /// Why no powers add up to the target (number 9).
    pub fn no_such_powers(&self, case: &Case) -> Option<String> {
        let bounds = self.bounds(case)?;
        for ((set, _), bound) in self.named.iter().zip(&bounds) {
            if bound.low > bound.high {
                let (Bound { low, high }, device) = (bound, device_words(case, *set));
                return Some(format!(
                    "{device} needs at least {low} kW and has at most {high} kW"
                ));
            }
        }
        let (low, high) = sums(&bounds);
        let target = i128::from(self.target);
        (target < low || high < target)
            .then(|| format!("the devices have from {low} to {high} kW together"))
    }

    /// The bounds of each device named.
    fn bounds(&self, case: &Case) -> Option<Vec<Bound>> {
        let place = interval_place(case, self.interval)?;
        let minutes = minutes(case, place);
        let bound = |&(set, earlier): &(u64, u64)| {
            let device = device(case, set)?;
            let cell = device.cells.get(place)?;
            Some(Bound::of(device, cell, minutes, i128::from(earlier)))
        };
        self.named.iter().map(bound).collect()
    }

    /// The lines of an answer, each with its end: the total, each device's power in the order named,
    /// each block in merit order, the cost.
    pub fn tell(&self, case: &Case, powers: &[u64], offers: &[Offer]) -> Option<String> {
        let bounds = self.bounds(case)?;
        self.bears_out(case, &bounds, powers, offers)
            .then_some(())?;
        let blocks = self.block_powers(powers, offers)?;
        let minutes = minutes(case, interval_place(case, self.interval)?);
        let mut lines = vec![format!(
            "interval {}, {minutes} min: {} kW",
            self.interval, self.target
        )];
        for (((set, earlier), bound), power) in self.named.iter().zip(&bounds).zip(powers) {
            let (Bound { low, high }, device) = (bound, device_words(case, *set));
            lines.push(format!(
                "{device}: {power} kW (from {low} to {high} kW, earlier {earlier} kW)"
            ));
        }
        let mut cost = 0;
        for (offer, power) in offers.iter().zip(blocks) {
            lines.push(block_line(case, offer, power));
            cost += i128::from(offer.price) * power;
        }
        let in_all = cost * i128::from(minutes);
        lines.push(format!("cost {cost} grains a minute, {in_all} grains"));
        Some(lines.join("\n") + "\n")
    }

    /// Whether the powers lie within the bounds and add up to the target, and the list is the one that
    /// was made, in merit order.
    fn bears_out(&self, case: &Case, bounds: &[Bound], powers: &[u64], offers: &[Offer]) -> bool {
        let mut list = self.offers(case);
        list.sort_by_key(Offer::merit);
        let holds = |(bound, power): (&Bound, &u64)| {
            let power = i128::from(*power);
            bound.low <= power && power <= bound.high
        };
        let sum: i128 = powers.iter().map(|&power| i128::from(power)).sum();
        powers.len() == self.named.len()
            && bounds.iter().zip(powers).all(holds)
            && sum == i128::from(self.target)
            && offers == list
    }

    /// The power of each block: its floor, then in merit order what is left of its device's power.
    fn block_powers(&self, powers: &[u64], offers: &[Offer]) -> Option<Vec<i128>> {
        let mut blocks: Vec<i128> = offers.iter().map(|offer| offer.floor.into()).collect();
        for (&(set, _), &power) in self.named.iter().zip(powers) {
            let own = |at: &usize| offers[*at].set == set;
            let own: Vec<usize> = (0..offers.len()).filter(own).collect();
            let floors: i128 = own.iter().map(|&at| blocks[at]).sum();
            let mut left = i128::from(power) - floors;
            for at in own {
                let more = left.min(i128::from(offers[at].cap) - blocks[at]);
                blocks[at] += more;
                left -= more;
            }
            (left == 0).then_some(())?;
        }
        Some(blocks)
    }
}

/// The least and the greatest power of a device.
struct Bound {
    low: i128,
    high: i128,
}

impl Bound {
    /// pmin, floors and the ramp down; pmax, caps and the ramp up.
    fn of(device: &Device, cell: &Cell, minutes: i64, earlier: i128) -> Bound {
        let ramp = |kw_per_min: i64| i128::from(minutes * kw_per_min);
        let floors: i64 = cell.floors().iter().sum();
        let caps: i64 = cell.caps().iter().sum();
        Bound {
            low: i128::from(cell.pmin.max(floors)).max(earlier - ramp(device.down_ramp)),
            high: i128::from(cell.pmax.min(caps)).min(earlier + ramp(device.up_ramp)),
        }
    }
}

fn sums(bounds: &[Bound]) -> (i128, i128) {
    let low = bounds.iter().map(|bound| bound.low).sum();
    (low, bounds.iter().map(|bound| bound.high).sum())
}

fn offer(set: u64, block: u64, offered: &Block) -> Offer {
    Offer {
        set,
        block,
        cap: offered.cap.unsigned_abs(),
        floor: offered.floor.unsigned_abs(),
        price: offered.price,
    }
}

/// The number of the device that has a name in the case.
fn number_of(case: &Case, name: &str) -> Option<u64> {
    let mut numbered = (1..).zip(&case.devices);
    let found = numbered.find(|(_, device)| !name.is_empty() && device.name == name);
    found.map(|(number, _)| number)
}

/// A device of the case by its number, with its name where it has one.
fn device_words(case: &Case, set: u64) -> String {
    place_words(case, 0, set as usize, 0)
}

fn block_line(case: &Case, offer: &Offer, power: i128) -> String {
    let Offer {
        set,
        block,
        cap,
        floor,
        price,
    } = offer;
    let least = match floor {
        0 => String::new(),
        floor => format!(", at least {floor} kW"),
    };
    let device = device_words(case, *set);
    format!("{device}, block {block}: {power} kW of {cap} kW{least}, at {price} grains per kW min")
}

/// The place from 0 of a number from 1, if there is one of so many.
fn place(number: u64, count: usize) -> Option<usize> {
    let place = usize::try_from(number).ok()?.checked_sub(1)?;
    (place < count).then_some(place)
}

fn interval_place(case: &Case, interval: u64) -> Option<usize> {
    place(interval, case.intervals.len())
}

fn device(case: &Case, set: u64) -> Option<&Device> {
    case.devices.get(place(set, case.devices.len())?)
}

fn cell<'a>(case: &Case, device: &'a Device, interval: u64) -> Option<&'a Cell> {
    device.cells.get(interval_place(case, interval)?)
}

/// The duration of the interval at a place.
fn minutes(case: &Case, place: usize) -> i64 {
    case.intervals[place].end - case.intervals[place].start
}
