//! Messages damaged in every way that numbers 1 to 6 name.

use crate::bits::{overwrite, HIGHEST_POWER};
use crate::case::{Block, Case, StartupState, Terms, MOST_STATES};
use crate::edition::{CountField, Edition};
use crate::encode::{Class, Encoded, Field};
use crate::form::Largest;
use crate::rng::Rng;
use crate::worked_day::Day;

/// Cuts a message so that it ends before or inside `field`, the fields before it being whole;
/// none if no byte ends there.
pub fn cut_at(rng: &mut Rng, message: &Encoded, field: &Field) -> Option<Vec<u8>> {
    let lengths: Vec<usize> = (0..=message.bytes.len())
        .filter(|length| (field.place..field.end()).contains(&(8 * length)))
        .collect();
    if lengths.is_empty() {
        return None;
    }
    Some(message.bytes[..rng.pick(&lengths)].to_vec())
}

/// The values just outside a field's range, and the outermost ones that its bits can say.
pub fn values_out_of_range(field: &Field) -> Vec<i128> {
    let (least, greatest) = field.sayable();
    let mut values = Vec::new();
    if least < field.low {
        values.extend([least, field.low - 1]);
    }
    if field.high < greatest {
        values.extend([field.high + 1, greatest]);
    }
    values.dedup();
    values
}

/// The message with `value` in `field`.
pub fn with_value(message: &Encoded, field: &Field, value: i128) -> Vec<u8> {
    let mut bytes = message.bytes.clone();
    overwrite(&mut bytes, field.place, field.width, value);
    bytes
}

/// Puts a field out of range; none if every value is in range.
pub fn out_of_range(rng: &mut Rng, message: &Encoded, field: &Field) -> Option<Vec<u8>> {
    let values = values_out_of_range(field);
    if values.is_empty() {
        return None;
    }
    Some(with_value(message, field, rng.pick(&values)))
}

/// Puts any field of a class out of range.
pub fn any_out_of_range(rng: &mut Rng, message: &Encoded, class: Class) -> Option<Vec<u8>> {
    let fields: Vec<&Field> = message
        .fields
        .iter()
        .filter(|field| field.class == class && !values_out_of_range(field).is_empty())
        .collect();
    if fields.is_empty() {
        return None;
    }
    let field = rng.pick(&fields);
    out_of_range(rng, message, field)
}

/// Sets one or more fill bits; none if the last byte is full.
pub fn with_fill_bit(rng: &mut Rng, message: &Encoded) -> Option<Vec<u8>> {
    let fields_end = message.fields.last()?.end();
    let fill = 8 * message.bytes.len() - fields_end;
    if fill == 0 {
        return None;
    }
    let mut bytes = message.bytes.clone();
    let value = rng.from_to(1, (1 << fill) - 1);
    overwrite(&mut bytes, fields_end, fill, value);
    Some(bytes)
}

/// Appends one or more bytes, of zeros or not.
pub fn with_surplus_bytes(rng: &mut Rng, bytes: &[u8]) -> Vec<u8> {
    let mut longer = bytes.to_vec();
    for _ in 0..1 + rng.below(3) {
        longer.push(rng.pick(&[0, 0, 1, 255]));
    }
    longer
}

/// Where a message of any kind has its edition.
const EDITION_PLACE: usize = 4;
const EDITION_WIDTH: usize = 4;

/// The message with the number of another edition in its header: a plan is refused for it, a case
/// is read with that edition's fields.
pub fn with_other_edition(rng: &mut Rng, message: &Encoded) -> Vec<u8> {
    let stated = i128::from(message.bytes[0] & 15);
    let others: Vec<Edition> = Edition::ALL
        .into_iter()
        .filter(|edition| edition.figure() != stated)
        .collect();
    let mut bytes = message.bytes.clone();
    let other = rng.pick(&others).figure();
    overwrite(&mut bytes, EDITION_PLACE, EDITION_WIDTH, other);
    bytes
}

/// The kinds of contradiction that number 5 names, "A qmin above qmax is a contradiction" and "A
/// floor above its cap is a contradiction".
#[derive(Clone, Copy, PartialEq, Eq, Debug)]
pub enum Contradiction {
    PminAbovePmax,
    StartWindowBackward,
    StartWindowBeyondDay,
    EnergyWindowBackward,
    EnergyWindowBeyondDay,
    ZoneBitAboveCount,
    QminAboveQmax,
    FloorAboveCap,
}

/// Every kind, those of older editions first.
const CONTRADICTIONS: [Contradiction; 8] = [
    Contradiction::PminAbovePmax,
    Contradiction::StartWindowBackward,
    Contradiction::StartWindowBeyondDay,
    Contradiction::EnergyWindowBackward,
    Contradiction::EnergyWindowBeyondDay,
    Contradiction::ZoneBitAboveCount,
    Contradiction::QminAboveQmax,
    Contradiction::FloorAboveCap,
];

/// The kinds of contradiction that a case of an edition can hold.
pub fn contradictions(edition: Edition) -> &'static [Contradiction] {
    if edition.has_floors() {
        &CONTRADICTIONS
    } else if edition.has_reactive_power() {
        &CONTRADICTIONS[..7]
    } else {
        &CONTRADICTIONS[..6]
    }
}

/// Makes a case contradict itself at a place drawn by chance, in a way that its edition can say;
/// false if nothing there can.
pub fn contradict(rng: &mut Rng, case: &mut Case, contradiction: Contradiction) -> bool {
    let last_end: i128 = case.durations.iter().sum();
    let after_day = rng.pick(&[last_end + 1, LATEST]);
    let zones = case.zones.len();
    let t = rng.below(case.intervals());
    let j = rng.below(case.devices.len());
    let device = &mut case.devices[j];
    match contradiction {
        Contradiction::PminAbovePmax => part_pmin_and_pmax(rng, &mut device.terms[t]),
        Contradiction::StartWindowBackward => any_of(rng, &mut device.start_windows)
            .map(|window| window.start = after(window.end))
            .is_some(),
        Contradiction::StartWindowBeyondDay => any_of(rng, &mut device.start_windows)
            .map(|window| window.end = after_day)
            .is_some(),
        Contradiction::EnergyWindowBackward => any_of(rng, &mut device.energy_windows)
            .map(|window| window.start = after(window.end))
            .is_some(),
        Contradiction::EnergyWindowBeyondDay => any_of(rng, &mut device.energy_windows)
            .map(|window| window.end = after_day)
            .is_some(),
        Contradiction::ZoneBitAboveCount => any_of(rng, &mut device.zone_bits[zones..])
            .map(|member| *member = true)
            .is_some(),
        Contradiction::QminAboveQmax => part_qmin_and_qmax(rng, &mut device.terms[t]),
        Contradiction::FloorAboveCap => match any_of(rng, &mut device.terms[t].blocks) {
            Some(block) => part_floor_and_cap(rng, block),
            None => false,
        },
    }
}

/// The most startup states that their count's three bits can say.
pub const MOST_STATES_SAID: usize = 7;

/// Gives the device at `j` so many startup states, each whole: what it has, and more like it.
///
/// "Three becomes the limit in every edition. It refuses a count of four with the existing 3 at
/// that field."
pub fn give_states(case: &mut Case, j: usize, count: usize) {
    let another = StartupState {
        longest_downtime: 600,
        cost: -100,
    };
    case.devices[j].startup_states.resize(count, another);
}

/// Gives a device drawn by chance more startup states than three, mostly four.
pub fn give_too_many_states(rng: &mut Rng, case: &mut Case) {
    let j = rng.below(case.devices.len());
    let least = MOST_STATES + 1;
    let count = rng.pick(&[least, least, MOST_STATES_SAID]);
    give_states(case, j, count);
}

/// Gives a day so many devices: those that it has, over and over.
pub fn give_devices(day: &mut Day, count: usize) {
    over_and_over(&mut day.case.devices, count);
    for settings in &mut day.plan.intervals {
        over_and_over(settings, count);
    }
}

/// Gives a day so many intervals: those that it has, over and over.
pub fn give_intervals(day: &mut Day, count: usize) {
    over_and_over(&mut day.case.durations, count);
    for zone in &mut day.case.zones {
        over_and_over(&mut zone.minima, count);
    }
    for device in &mut day.case.devices {
        over_and_over(&mut device.terms, count);
    }
    over_and_over(&mut day.plan.intervals, count);
    over_and_over(&mut day.plan.flows, count);
}

fn over_and_over<T: Clone>(items: &mut Vec<T>, count: usize) {
    *items = items.iter().cycle().take(count).cloned().collect();
}

/// Gives a day more devices or more intervals, or both, than editions 1 to 3 and the batch form
/// take, as many as its counts' bits can say or fewer.
pub fn overgrow(rng: &mut Rng, day: &mut Day) {
    let (more_devices, more_intervals) = match rng.below(5) {
        0 | 1 => (true, false),
        2 | 3 => (false, true),
        _ => (true, true),
    };
    if more_devices {
        let count = count_above(rng, day.edition.devices(), Largest::SMALL.devices);
        give_devices(day, count);
    }
    if more_intervals {
        let count = count_above(rng, day.edition.intervals(), Largest::SMALL.intervals);
        give_intervals(day, count);
    }
}

/// A count above `small`, at the edges of what the edition takes and what its bits can say, or any.
fn count_above(rng: &mut Rng, field: CountField, small: usize) -> usize {
    let greatest = (1 << field.width) - 1;
    let any = rng.from_to(small as i128 + 1, greatest as i128) as usize;
    let edges = [small + 1, field.most, field.most + 1, greatest, any, any];
    rng.pick(&edges).max(small + 1)
}

/// Puts a field of a name, drawn by chance, above its range by any value that its bits can say;
/// none where the message has no such field.
pub fn any_above_range(rng: &mut Rng, message: &Encoded, name: &str) -> Option<Vec<u8>> {
    let named = message.fields.iter().filter(|field| field.name == name);
    let fields: Vec<&Field> = named.collect();
    if fields.is_empty() {
        return None;
    }
    let field = rng.pick(&fields);
    let (_, greatest) = field.sayable();
    let value = rng.from_to(field.high + 1, greatest);
    Some(with_value(message, field, value))
}

/// The latest minute that a window can say.
const LATEST: i128 = 65_535;

fn after(minute: i128) -> i128 {
    (minute + 1).min(LATEST)
}

fn any_of<'a, T>(rng: &mut Rng, items: &'a mut [T]) -> Option<&'a mut T> {
    match items.len() {
        0 => None,
        count => Some(&mut items[rng.below(count)]),
    }
}

/// Puts pmin above pmax; false where pmin is the least and pmax the greatest power.
fn part_pmin_and_pmax(rng: &mut Rng, terms: &mut Terms) -> bool {
    if terms.pmax < HIGHEST_POWER {
        terms.pmin = rng.pick(&[terms.pmax + 1, HIGHEST_POWER]);
    } else if terms.pmin > 0 {
        terms.pmax = terms.pmin - 1;
    }
    terms.pmin > terms.pmax
}

/// Puts qmin above qmax; false where qmin is the least and qmax the greatest reactive power.
fn part_qmin_and_qmax(rng: &mut Rng, terms: &mut Terms) -> bool {
    if terms.qmax < HIGHEST_POWER {
        terms.qmin = rng.pick(&[terms.qmax + 1, HIGHEST_POWER]);
    } else if terms.qmin > -HIGHEST_POWER {
        terms.qmax = rng.pick(&[terms.qmin - 1, -HIGHEST_POWER]);
    }
    terms.qmin > terms.qmax
}

/// Puts a floor above its cap; false where the floor is the least and the cap the greatest power.
fn part_floor_and_cap(rng: &mut Rng, block: &mut Block) -> bool {
    if block.cap < HIGHEST_POWER {
        block.floor = rng.pick(&[block.cap + 1, HIGHEST_POWER]);
    } else if block.floor > 0 {
        block.cap = rng.pick(&[block.floor - 1, 0]);
    }
    block.floor > block.cap
}

/// Damages a message in one of the ways of numbers 1, 2, 3, 4 and 6, or several at once, or by
/// bits turned at random.
pub fn damaged(rng: &mut Rng, message: &Encoded) -> Vec<u8> {
    let field = message.fields[rng.below(message.fields.len())];
    let damaged = match rng.below(13) {
        0 | 1 => cut_at(rng, message, &field),
        2 => any_out_of_range(rng, message, Class::Kind),
        3 | 4 => any_out_of_range(rng, message, Class::Count),
        5 | 6 => any_out_of_range(rng, message, Class::Figure),
        7 => with_fill_bit(rng, message),
        8 => Some(with_surplus_bytes(rng, &message.bytes)),
        9 => with_fill_bit(rng, message).map(|bytes| with_surplus_bytes(rng, &bytes)),
        10 => any_out_of_range(rng, message, Class::Figure)
            .map(|bytes| with_surplus_bytes(rng, &bytes)),
        11 => Some(with_other_edition(rng, message)),
        _ => Some(with_turned_bits(rng, &message.bytes)),
    };
    damaged.unwrap_or_else(|| cut_anywhere(rng, &message.bytes))
}

/// Turns one to three bits.
pub fn with_turned_bits(rng: &mut Rng, bytes: &[u8]) -> Vec<u8> {
    let mut turned = bytes.to_vec();
    for _ in 0..1 + rng.below(3) {
        let bit = rng.below(8 * turned.len());
        turned[bit / 8] ^= 1 << (bit % 8);
    }
    turned
}

/// Cuts a message at any byte.
pub fn cut_anywhere(rng: &mut Rng, bytes: &[u8]) -> Vec<u8> {
    bytes[..rng.below(bytes.len())].to_vec()
}
