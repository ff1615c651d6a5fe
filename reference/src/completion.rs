//! The completion message and the market's copy of it: their fields and their bytes ("Messages",
//! paragraph **Completion**, A.1, A.12 and A.7).

use crate::bits::BitWriter;
use crate::case::{Case, BARS, MOST_ITEMS, MOST_SHORTFALLS};
use crate::edition::Edition;

pub const KIND_COMPLETION: i128 = 3;
pub const KIND_MARKET_COPY: i128 = 4;

/// Who a message is for: "The desk may see a whole completion; the market may not learn offers."
#[derive(Clone, Copy, PartialEq, Eq, Debug)]
pub enum Audience {
    Desk,
    Market,
}

impl Audience {
    pub const ALL: [Audience; 2] = [Audience::Desk, Audience::Market];

    /// "The market copy, kind 4".
    pub fn kind(self) -> i128 {
        match self {
            Audience::Desk => KIND_COMPLETION,
            Audience::Market => KIND_MARKET_COPY,
        }
    }

    /// Whether the message has what follows from offers: the market's "lacks block powers, startup
    /// states and surplus".
    pub fn sees_offers(self) -> bool {
        self == Audience::Desk
    }
}

/// "A completion of a plan for a case is any choice of whole numbers, of whatever size or sign,
/// one for each field of the completion message between the zone count and the surplus."
///
/// Where an edition's messages lack a field, its choice is 0.
#[derive(Clone, PartialEq, Eq, Debug)]
pub struct Completion {
    pub intervals: Vec<IntervalChoices>,
    /// Per device, per energy window, in kW·min.
    pub overruns: Vec<Vec<i128>>,
}

#[derive(Clone, PartialEq, Eq, Debug)]
pub struct IntervalChoices {
    pub devices: Vec<DeviceChoices>,
    /// Per zone, in W: rgu, rgd, scr, nsc, rru, rrd; then in var: qru, qrd.
    pub shortfalls: Vec<[i128; MOST_SHORTFALLS]>,
    /// Of each bar, in kW; of bar 0 alone where the edition has one busbar.
    pub mismatches: [i128; BARS],
    /// Of each bar, in kvar.
    pub reactive_mismatches: [i128; BARS],
}

impl IntervalChoices {
    /// The mismatches that an edition's messages have, in their order.
    pub fn stated_mismatches(&self, edition: Edition) -> impl Iterator<Item = &i128> {
        let real = &self.mismatches[..edition.bars()];
        let reactive = &self.reactive_mismatches[..edition.bars()];
        real.iter().chain(reactive).take(edition.mismatches())
    }
}

#[derive(Clone, Copy, PartialEq, Eq, Debug)]
pub struct DeviceChoices {
    pub started: i128,
    pub stopped: i128,
    /// "0 none", else the state's number from 1.
    pub startup_state: i128,
    /// "absent blocks 0".
    pub blocks: [i128; MOST_ITEMS],
}

pub const STATE_BITS: usize = 3;
pub const POWER_BITS: usize = 17;
pub const SHORTFALL_BITS: usize = 33;
pub const MISMATCH_BITS: usize = 23;
/// A device's choices in one interval of a completion.
pub const DEVICE_BITS: usize = 1 + 1 + STATE_BITS + MOST_ITEMS * POWER_BITS;
pub const OVERRUN_BITS: usize = 32;
pub const SURPLUS_BITS: usize = 64;

/// What stands ahead of the intervals: kind, edition and counts.
pub fn header_bits(edition: Edition) -> usize {
    let counts = [edition.devices(), edition.intervals(), edition.zones()];
    4 + 4 + counts.iter().map(|count| count.width).sum::<usize>()
}

/// What stands behind an interval's devices: shortfalls and mismatches.
pub fn needs_bits(edition: Edition, case: &Case) -> usize {
    case.zones.len() * edition.shortfalls() * SHORTFALL_BITS + edition.mismatches() * MISMATCH_BITS
}

/// The size in bits of a completion for a case of an edition, fill bits left out.
pub fn completion_bits(edition: Edition, case: &Case) -> usize {
    message_bits(Audience::Desk, edition, case)
}

/// The size in bits of the message for an audience, fill bits left out.
pub fn message_bits(audience: Audience, edition: Edition, case: &Case) -> usize {
    let (per_device, surplus) = if audience.sees_offers() {
        (DEVICE_BITS, SURPLUS_BITS)
    } else {
        (1 + 1, 0)
    };
    let per_interval = case.devices.len() * per_device + needs_bits(edition, case);
    let energy_windows: usize = case
        .devices
        .iter()
        .map(|device| device.energy_windows.len())
        .sum();
    header_bits(edition) + case.intervals() * per_interval + energy_windows * OVERRUN_BITS + surplus
}

/// The completion message, in its case's edition.
pub fn completion_bytes(
    edition: Edition,
    case: &Case,
    completion: &Completion,
    surplus: i128,
) -> Vec<u8> {
    let mut message = choices_message(Audience::Desk, edition, case, completion);
    message.put_signed(SURPLUS_BITS, surplus);
    message.into_bytes()
}

/// "The market copy, kind 4, has the header, starts and stops, shortfalls, mismatches and overruns,
/// in the completion's order"; it is given no surplus.
pub fn market_bytes(edition: Edition, case: &Case, completion: &Completion) -> Vec<u8> {
    choices_message(Audience::Market, edition, case, completion).into_bytes()
}

/// A message up to its last overrun.
fn choices_message(
    audience: Audience,
    edition: Edition,
    case: &Case,
    completion: &Completion,
) -> BitWriter {
    let mut message = BitWriter::new();
    message.put(4, audience.kind());
    message.put(4, edition.figure());
    message.put(edition.devices().width, case.devices.len() as i128);
    message.put(edition.intervals().width, case.intervals() as i128);
    message.put(edition.zones().width, case.zones.len() as i128);
    for interval in &completion.intervals {
        put_interval(&mut message, audience, edition, interval);
    }
    for &overrun in completion.overruns.iter().flatten() {
        message.put(OVERRUN_BITS, overrun);
    }
    message
}

/// "the reactive shortfalls (var, 33 bits each, after the zone's six) and mismatch (23 bits, after
/// the real one) too"; "the real mismatches, bar 0 first, then the reactive alike".
fn put_interval(
    message: &mut BitWriter,
    audience: Audience,
    edition: Edition,
    interval: &IntervalChoices,
) {
    for device in &interval.devices {
        message.put(1, device.started);
        message.put(1, device.stopped);
        if audience.sees_offers() {
            message.put(STATE_BITS, device.startup_state);
            for power in device.blocks {
                message.put(POWER_BITS, power);
            }
        }
    }
    for shortfalls in &interval.shortfalls {
        for &shortfall in &shortfalls[..edition.shortfalls()] {
            message.put(SHORTFALL_BITS, shortfall);
        }
    }
    for &mismatch in interval.stated_mismatches(edition) {
        message.put(MISMATCH_BITS, mismatch);
    }
}
