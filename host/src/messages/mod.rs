//! The messages: what they hold, and one description of each, by which they are read, written and
//! their bits named.
//!
//! A message is read here after it passed the plan unit's reading: ranges and refusals are that
//! reading's alone, and `None` means that the two readings differ. What is written here goes to the
//! plan unit before anybody else.

mod fields;
mod layout;
mod model;

pub use fields::{Field, Misfit, Place};
pub use layout::{COSTS, RAMPS};
pub use model::*;

use fields::{Lister, Measure, Namer, Reader, Step, Walk, Writer};

/// The edition is one whose fields are described.
fn is_known(edition: i64) -> bool {
    (1..=NEWEST_EDITION).contains(&edition)
}

/// What somebody who goes over a whole message leaves, if it ends where the message does.
fn read<T: Default>(message: &[u8], over: impl FnOnce(&mut dyn Walk, &mut T) -> Step) -> Option<T> {
    let mut reader = Reader::new(message);
    let mut content = T::default();
    over(&mut reader, &mut content).ok()?;
    reader.is_at_end().then_some(content)
}

/// The figures of a case that passed reading.
pub fn read_case(message: &[u8]) -> Option<Case> {
    let case: Case = read(message, layout::case)?;
    is_known(case.edition).then_some(case)
}

/// The figures of a plan that passed reading for `case`.
pub fn read_plan(case: &Case, message: &[u8]) -> Option<Plan> {
    let plan = read_lone_plan(message)?;
    let devices = |row: &Row| row.settings.len() == case.devices.len();
    let fits = plan.edition == case.edition
        && plan.rows.len() == case.intervals.len()
        && plan.rows.iter().all(devices);
    fits.then_some(plan)
}

/// The figures of a plan whose case is not at hand: whole, of a known edition, and not empty.
pub fn read_lone_plan(message: &[u8]) -> Option<Plan> {
    let plan: Plan = read(message, layout::plan)?;
    let is_empty = plan.rows.first().is_none_or(|row| row.settings.is_empty());
    (is_known(plan.edition) && !is_empty).then_some(plan)
}

/// The figures of a completion or a market copy with so many overruns.
pub fn read_outcome(kind: Kind, windows: usize, message: &[u8]) -> Option<Outcome> {
    let mut reader = Reader::new(message);
    let mut outcome = with_windows(windows);
    layout::outcome(&mut reader, kind, &mut outcome).ok()?;
    (reader.is_at_end() && is_known(outcome.edition)).then_some(outcome)
}

/// The same where the case is not at hand: an overrun has more bits than the fill, so that the
/// message's length tells how many there are.
pub fn read_lone_outcome(kind: Kind, message: &[u8]) -> Option<Outcome> {
    let windows = windows_by_length(kind, message)?;
    let outcome = read_outcome(kind, windows, message)?;
    (!outcome.rows.is_empty()).then_some(outcome)
}

/// How many overruns a completion or a market copy has by its length.
fn windows_by_length(kind: Kind, message: &[u8]) -> Option<usize> {
    const OVERRUN: usize = 32;
    if !matches!(kind, Kind::Completion | Kind::MarketCopy) {
        return None;
    }
    let mut reader = Reader::new(message);
    let mut outcome = Outcome::default();
    layout::outcome(&mut reader, kind, &mut outcome).ok()?;
    Some(reader.left() / OVERRUN)
}

fn with_windows(windows: usize) -> Outcome {
    Outcome {
        overruns: vec![0; windows],
        ..Outcome::default()
    }
}

fn written(over: impl FnOnce(&mut dyn Walk) -> Step) -> Result<Vec<u8>, Misfit> {
    let mut writer = Writer::default();
    // A stop leaves its misfit with the writer.
    let _ = over(&mut writer);
    writer.finish()
}

/// The message of a case, or the first figure that its bits cannot say.
pub fn case_message(case: &Case) -> Result<Vec<u8>, Misfit> {
    written(|walk| layout::case(walk, &mut case.clone()))
}

/// That of a plan.
pub fn plan_message(plan: &Plan) -> Result<Vec<u8>, Misfit> {
    written(|walk| layout::plan(walk, &mut plan.clone()))
}

/// That of a completion or a market copy.
pub fn outcome_message(kind: Kind, outcome: &Outcome) -> Result<Vec<u8>, Misfit> {
    written(|walk| layout::outcome(walk, kind, &mut outcome.clone()))
}

/// How many bytes each completion of a case has.
pub fn completion_length(case: &Case) -> usize {
    let row = Chosen {
        choices: vec![Choice::default(); case.devices.len()],
        shortfalls: vec![Default::default(); case.zones.len()],
        ..Chosen::default()
    };
    let mut outcome = Outcome {
        edition: case.edition,
        rows: vec![row; case.intervals.len()],
        ..with_windows(case.energy_windows())
    };
    let mut measure = Measure::default();
    let _ = layout::outcome(&mut measure, Kind::Completion, &mut outcome);
    measure.bytes()
}

/// Goes over a message as one of a kind; what is left of it is not looked at.
fn go_over(walk: &mut dyn Walk, kind: Kind, windows: usize) {
    let _ = match kind {
        Kind::Case => layout::case(walk, &mut Case::default()),
        Kind::Plan => layout::plan(walk, &mut Plan::default()),
        _ => layout::outcome(walk, kind, &mut with_windows(windows)),
    };
}

/// How many overruns are gone over; where the case is not at hand, by the length.
fn windows_of(kind: Kind, message: &[u8], of_case: Option<usize>) -> usize {
    of_case
        .or_else(|| windows_by_length(kind, message))
        .unwrap_or(0)
}

/// The field that a bit of a message is in, taken for one of a kind; `None` behind the last field.
/// `windows` are the case's energy windows where it is at hand, for a completion or a market copy.
pub fn field_at(kind: Kind, message: &[u8], bit: usize, windows: Option<usize>) -> Option<Place> {
    let mut namer = Namer::new(message, bit);
    go_over(&mut namer, kind, windows_of(kind, message, windows));
    namer.found
}

/// The fields of a message, taken for one of a kind, as far as it goes.
pub fn fields_of(kind: Kind, message: &[u8], windows: Option<usize>) -> Vec<Place> {
    let mut lister = Lister::new(message);
    go_over(&mut lister, kind, windows_of(kind, message, windows));
    lister.places
}
