//! "The market's copy of a completion" (A.7), and the readers of completions and copies.

use crate::bits::FieldReader;
use crate::case::{read_case, Case, BARS, MOST_ITEMS, MOST_SHORTFALLS};
use crate::completion::{
    market_bytes, Audience, Completion, DeviceChoices, IntervalChoices, MISMATCH_BITS,
    OVERRUN_BITS, POWER_BITS, SHORTFALL_BITS, STATE_BITS, SURPLUS_BITS,
};
use crate::edition::Edition;
use crate::fault::Fault;
use crate::judge::{our_completion, Refusal};
use crate::plan::read_plan;
use crate::rules::Place;

/// What asking for a copy comes to: "written (with the number of bytes), broken with its place, or
/// refused as judging is, 7 with the copy's own length. Nothing it answers depends on a price, so it
/// does not answer the surplus."
#[derive(Clone, Copy, PartialEq, Eq, Debug)]
pub enum Copied {
    Written { bytes: usize },
    Broken(Place),
    Refused(Refusal),
}

/// Writes the market's copy of a plan's completion to the front of `buffer`. Reading is that of the
/// host form.
pub fn market_copy(case_message: &[u8], plan_message: &[u8], buffer: &mut [u8]) -> Copied {
    let (edition, case) = match read_case(case_message) {
        Err(fault) => return Copied::Refused(Refusal::Case(fault)),
        Ok(read) => read,
    };
    let plan = match read_plan(edition, &case, plan_message) {
        Err(fault) => return Copied::Refused(Refusal::Plan(fault)),
        Ok(plan) => plan,
    };
    match our_completion(&case, &plan) {
        Err(place) => Copied::Broken(place),
        Ok(ours) => put(&market_bytes(edition, &case, &ours.completion), buffer),
    }
}

/// "A short buffer gets 7; here and later, bytes past what is written stay."
fn put(copy: &[u8], buffer: &mut [u8]) -> Copied {
    let bytes = copy.len();
    match buffer.get_mut(..bytes) {
        None => Copied::Refused(Refusal::BufferTooShort {
            bytes_needed: bytes,
        }),
        Some(room) => {
            room.copy_from_slice(copy);
            Copied::Written { bytes }
        }
    }
}

/// "A refusal names the message it concerns: case, plan, and for A.7's readers the completion or
/// copy that was read"; 7 with the bytes of the table needed.
#[derive(Clone, Copy, PartialEq, Eq, Debug)]
pub enum ReadingRefusal {
    Case(Fault),
    Message(Fault),
    TableTooShort { bytes_needed: usize },
}

/// The figures of a message that was read. What its edition lacks is 0, and so are the startup
/// states and block powers of a copy.
#[derive(Clone, PartialEq, Eq, Debug)]
pub struct Figures {
    pub completion: Completion,
    /// None in a copy.
    pub surplus: Option<i128>,
}

/// The bytes of a number in a lent table.
pub const NUMBER_BYTES: usize = 8;

/// The desk reader: the figures of a completion in `table`, in the message's order, the surplus in
/// two's complement. It answers how many there are.
pub fn read_completion(
    case_message: &[u8],
    message: &[u8],
    table: &mut [u64],
) -> Result<usize, ReadingRefusal> {
    read_into(Audience::Desk, case_message, message, table)
}

/// The market reader: those of a copy.
pub fn read_market(
    case_message: &[u8],
    message: &[u8],
    table: &mut [u64],
) -> Result<usize, ReadingRefusal> {
    read_into(Audience::Market, case_message, message, table)
}

/// "the case's own refusals first", then the message's, then 7.
fn read_into(
    audience: Audience,
    case_message: &[u8],
    message: &[u8],
    table: &mut [u64],
) -> Result<usize, ReadingRefusal> {
    let (edition, case) = read_case(case_message).map_err(ReadingRefusal::Case)?;
    let figures = read_for(audience, edition, &case, message).map_err(ReadingRefusal::Message)?;
    let numbers = figures.numbers(audience, edition);
    let room = table
        .get_mut(..numbers.len())
        .ok_or(ReadingRefusal::TableTooShort {
            bytes_needed: NUMBER_BYTES * numbers.len(),
        })?;
    room.copy_from_slice(&numbers);
    Ok(numbers.len())
}

/// Reads a message for a case that passed reading: "kind other than 3 (desk) or 4 (market): 2 at bit
/// 0; edition unlike the case's: 2 at bit 4; devices, intervals, zones unlike the case's: 3 at that
/// field; 1 where cut; then 6. There is no 4 and no 5".
pub fn read_for(
    audience: Audience,
    edition: Edition,
    case: &Case,
    message: &[u8],
) -> Result<Figures, Fault> {
    let mut fields = FieldReader::new(message);
    fields.fixed(4, audience.kind())?;
    fields.fixed(4, edition.figure())?;
    let (devices, intervals, zones) = (case.devices.len(), case.intervals(), case.zones.len());
    fields.count(edition.devices().width, devices, devices)?;
    fields.count(edition.intervals().width, intervals, intervals)?;
    fields.count(edition.zones().width, zones, zones)?;
    let mut completion = Completion {
        intervals: Vec::with_capacity(intervals),
        overruns: Vec::with_capacity(devices),
    };
    for _ in 0..intervals {
        let choices = read_interval(&mut fields, audience, edition, case)?;
        completion.intervals.push(choices);
    }
    for device in &case.devices {
        let overruns = device.energy_windows.iter();
        let overruns = overruns.map(|_| fields.unbounded(OVERRUN_BITS));
        completion
            .overruns
            .push(overruns.collect::<Result<_, _>>()?);
    }
    let surplus = if audience.sees_offers() {
        Some(fields.signed(SURPLUS_BITS, 1 << (SURPLUS_BITS - 1))?)
    } else {
        None
    };
    fields.finish()?;
    Ok(Figures {
        completion,
        surplus,
    })
}

/// "every value of a later field's width is in range, and the figures come back".
fn read_interval(
    fields: &mut FieldReader,
    audience: Audience,
    edition: Edition,
    case: &Case,
) -> Result<IntervalChoices, Fault> {
    let mut choices = IntervalChoices {
        devices: Vec::with_capacity(case.devices.len()),
        shortfalls: vec![[0; MOST_SHORTFALLS]; case.zones.len()],
        mismatches: [0; BARS],
        reactive_mismatches: [0; BARS],
    };
    for _ in &case.devices {
        choices.devices.push(read_choices(fields, audience)?);
    }
    for shortfalls in &mut choices.shortfalls {
        for shortfall in &mut shortfalls[..edition.shortfalls()] {
            *shortfall = fields.unbounded(SHORTFALL_BITS)?;
        }
    }
    for mismatch in &mut choices.mismatches[..edition.bars()] {
        *mismatch = fields.unbounded(MISMATCH_BITS)?;
    }
    if edition.has_reactive_power() {
        for mismatch in &mut choices.reactive_mismatches[..edition.bars()] {
            *mismatch = fields.unbounded(MISMATCH_BITS)?;
        }
    }
    Ok(choices)
}

fn read_choices(fields: &mut FieldReader, audience: Audience) -> Result<DeviceChoices, Fault> {
    let mut choices = DeviceChoices {
        started: fields.unbounded(1)?,
        stopped: fields.unbounded(1)?,
        startup_state: 0,
        blocks: [0; MOST_ITEMS],
    };
    if audience.sees_offers() {
        choices.startup_state = fields.unbounded(STATE_BITS)?;
        for power in &mut choices.blocks {
            *power = fields.unbounded(POWER_BITS)?;
        }
    }
    Ok(choices)
}

impl Figures {
    /// Every figure that the message has, in its order.
    pub fn numbers(&self, audience: Audience, edition: Edition) -> Vec<u64> {
        let mut numbers = Vec::new();
        for interval in &self.completion.intervals {
            for device in &interval.devices {
                numbers.extend([device.started, device.stopped]);
                if audience.sees_offers() {
                    numbers.push(device.startup_state);
                    numbers.extend(device.blocks);
                }
            }
            for shortfalls in &interval.shortfalls {
                numbers.extend(&shortfalls[..edition.shortfalls()]);
            }
            numbers.extend(interval.stated_mismatches(edition));
        }
        numbers.extend(self.completion.overruns.iter().flatten());
        let signed = numbers.into_iter().chain(self.surplus);
        // Of the surplus the two's complement; no other figure is below 0.
        signed.map(|number| number as u64).collect()
    }
}
