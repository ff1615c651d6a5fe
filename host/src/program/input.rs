//! Messages from files, which hold their bytes, their text or, of a plan, its rows.

use std::fs::File;
use std::io::{self, Read};
use std::path::{Path, PathBuf};

use super::arguments::is_stdin;
use super::trouble::{differs, file_trouble, shown_path, unknown_word, Done, Trouble};
use crate::messages::{case_message, plan_message, read_case, Case, Kind, Misfit};
use crate::text::{self, Lines, Mistake};
use crate::{inspect, judge, Inspected, Verdict};

/// More bytes than a text or a message has; what is longer is not read.
const LONGEST_INPUT: u64 = 8 << 20;
/// More than a batch that is split at the desk has.
const LONGEST_BATCH: u64 = 1 << 28;

/// What some editors put ahead of a text; no message begins with it.
const MARK: &[u8] = "\u{feff}".as_bytes();

/// The bytes of a file, or of standard input.
pub fn read(path: &Path) -> Done<Vec<u8>> {
    let bytes = read_up_to(path, LONGEST_INPUT)?;
    Ok(match bytes.strip_prefix(MARK) {
        Some(text) => text.to_vec(),
        None => bytes,
    })
}

/// The bytes of a batch.
pub fn read_batch(path: &Path) -> Done<Vec<u8>> {
    read_up_to(path, LONGEST_BATCH)
}

fn read_up_to(path: &Path, most: u64) -> Done<Vec<u8>> {
    let take = |source: &mut dyn Read| -> io::Result<Vec<u8>> {
        let mut bytes = Vec::new();
        source.take(most + 1).read_to_end(&mut bytes)?;
        Ok(bytes)
    };
    let bytes = if is_stdin(path) {
        take(&mut io::stdin().lock())
    } else {
        File::open(path).and_then(|mut file| take(&mut file))
    };
    let bytes = bytes.map_err(file_trouble("read", path))?;
    if bytes.len() as u64 > most {
        let error = io::Error::other(format!("longer than {most} bytes"));
        return Err(file_trouble("read", path)(error));
    }
    Ok(bytes)
}

/// A message, and which line of its text said what where it was one.
#[derive(Debug)]
pub struct Message {
    pub path: PathBuf,
    pub kind: Kind,
    pub bytes: Vec<u8>,
    pub lines: Option<Lines>,
    /// Of a completion or a copy whose case is at hand: the case's energy windows.
    pub windows: Option<usize>,
}

/// A case that passed reading, with the names of its text.
pub struct LoadedCase {
    pub message: Message,
    pub case: Case,
}

/// A text that is wrong at a line.
fn wrong_text(path: &Path, Mistake { line, what }: Mistake) -> Trouble {
    Trouble::Refused(format!("{}:{line}: {what}", shown_path(path)))
}

fn as_text(path: &Path, bytes: Vec<u8>) -> Done<String> {
    let not_text = |_| Trouble::Refused(format!("{}: this text is not UTF-8", shown_path(path)));
    String::from_utf8(bytes).map_err(not_text)
}

/// A message that was written from a text; a figure that its bits cannot say is told with its line.
fn from_text(
    path: &Path,
    kind: Kind,
    bytes: Result<Vec<u8>, Misfit>,
    lines: Lines,
) -> Done<Message> {
    let misfit = |Misfit { name, value, field }: Misfit| {
        let line = lines
            .of(&name)
            .map_or(String::new(), |line| format!(":{line}"));
        let path = shown_path(path);
        let range = field.range();
        Trouble::Refused(format!(
            "{path}{line}: {name}: {value} is out of its range, {range}"
        ))
    };
    Ok(Message {
        path: path.to_path_buf(),
        kind,
        bytes: bytes.map_err(misfit)?,
        lines: Some(lines),
        windows: None,
    })
}

fn from_bytes(path: &Path, kind: Kind, bytes: Vec<u8>) -> Message {
    Message {
        path: path.to_path_buf(),
        kind,
        bytes,
        lines: None,
        windows: None,
    }
}

/// Whether a file is the text of a message.
pub fn is_text_of(kind: Kind, bytes: &[u8]) -> bool {
    bytes.starts_with(kind.name().as_bytes())
}

/// A case as it stands, and the names of its text; it has not passed reading yet.
pub fn load_case_message(path: &Path) -> Done<(Message, Vec<String>)> {
    let bytes = read(path)?;
    if !is_text_of(Kind::Case, &bytes) {
        return Ok((from_bytes(path, Kind::Case, bytes), Vec::new()));
    }
    let text = as_text(path, bytes)?;
    let (case, lines) = text::read_case(&text).map_err(|wrong| wrong_text(path, wrong))?;
    let message = from_text(path, Kind::Case, case_message(&case), lines)?;
    let names = case.devices.into_iter().map(|device| device.name);
    Ok((message, names.collect()))
}

/// A case that passes reading.
pub fn load_case(path: &Path) -> Done<LoadedCase> {
    let (message, names) = load_case_message(path)?;
    read_in(message, names)
}

/// The figures of a case, which the plan unit must pass first.
pub fn read_in(message: Message, names: Vec<String>) -> Done<LoadedCase> {
    let inspected = match inspect(&message.bytes) {
        Inspected::Counts {
            devices,
            intervals,
            zones,
        } => [devices, intervals, zones],
        Inspected::CaseRefused(fault) => return Err(message.refused(fault)),
        Inspected::Unknown { word } => return Err(unknown_word(word)),
    };
    let mut case = read_case(&message.bytes).ok_or_else(differs)?;
    let counts = [case.devices.len(), case.intervals.len(), case.zones.len()];
    if counts != inspected {
        return Err(differs());
    }
    for (device, name) in case.devices.iter_mut().zip(names) {
        device.name = name;
    }
    Ok(LoadedCase { message, case })
}

/// A plan for a case, from its message, its text or its rows; whether it passes reading is not asked.
pub fn load_plan(case: &Case, path: &Path) -> Done<Message> {
    plan_of(case, path, read(path)?)
}

/// The same of a file that is read.
pub fn plan_of(case: &Case, path: &Path, bytes: Vec<u8>) -> Done<Message> {
    let is_rows = std::str::from_utf8(&bytes).is_ok_and(text::is_csv);
    if !is_text_of(Kind::Plan, &bytes) && !is_rows {
        return Ok(from_bytes(path, Kind::Plan, bytes));
    }
    let text = as_text(path, bytes)?;
    let read = if is_rows {
        text::read_csv(case, &text)
    } else {
        text::read_plan(case, &text)
    };
    let (plan, lines) = read.map_err(|wrong| wrong_text(path, wrong))?;
    from_text(path, Kind::Plan, plan_message(&plan), lines)
}

/// A plan that passes reading for a case; whether it breaks a rule is not asked.
pub fn load_whole_plan(case: &LoadedCase, path: &Path, bytes: Vec<u8>) -> Done<Message> {
    let plan = plan_of(&case.case, path, bytes)?;
    match judge(&case.message.bytes, &plan.bytes, &mut []) {
        Verdict::PlanRefused(fault) => Err(plan.refused(fault)),
        Verdict::CaseRefused(fault) => Err(case.message.refused(fault)),
        Verdict::Accepted { .. } | Verdict::Broken(_) | Verdict::TooShort { .. } => Ok(plan),
        Verdict::Unknown { word } => Err(unknown_word(word)),
    }
}

/// A message of a kind as it stands.
pub fn load_message(path: &Path, kind: Kind, bytes: Vec<u8>) -> Message {
    from_bytes(path, kind, bytes)
}

/// A completion or a copy of a case as it stands.
pub fn load_outcome(case: &LoadedCase, path: &Path, kind: Kind, bytes: Vec<u8>) -> Message {
    Message {
        windows: Some(case.case.energy_windows()),
        ..from_bytes(path, kind, bytes)
    }
}
