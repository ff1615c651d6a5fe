//! The market's copy of a completion, and the readers of completions and copies.

use crate::answers::{Lent, Refused};
use crate::explain::Breach;
use crate::{told_of_pair, word, Fault, Told};

extern "C" {
    fn kadunfo_market(
        case: *const u8,
        case_length: usize,
        plan: *const u8,
        plan_length: usize,
        result: *mut u8,
        result_length: usize,
        figures: *mut u64,
        figures_length: usize,
    ) -> u64;
    fn kadunfo_read_completion(
        case: *const u8,
        case_length: usize,
        message: *const u8,
        message_length: usize,
        table: *mut u64,
        table_length: usize,
        figures: *mut u64,
        figures_length: usize,
    ) -> u64;
    fn kadunfo_read_market(
        case: *const u8,
        case_length: usize,
        message: *const u8,
        message_length: usize,
        table: *mut u64,
        table_length: usize,
        figures: *mut u64,
        figures_length: usize,
    ) -> u64;
}

/// Bytes that hold every market copy: that of edition 5 with 64 devices, 96 intervals, 4 zones and 4
/// energy windows of each device.
pub const LONGEST_COPY: usize = 16_340;

/// Numbers that hold the figures of every completion and of every copy: those of the same day.
pub const MOST_NUMBERS: usize = 96 * (64 * 7 + 4 * 8 + 4) + 64 * 4 + 1;

/// What asking for a market copy comes to.
#[derive(Clone, Copy, PartialEq, Eq, Debug)]
pub enum Copied {
    /// So many bytes of it stand at the front of the buffer.
    Written {
        bytes: usize,
    },
    /// The first broken rule.
    Broken(Breach),
    CaseRefused(Fault),
    PlanRefused(Fault),
    /// The copy takes so many bytes.
    TooShort {
        bytes: usize,
    },
    /// A word, or figures with it, that the header does not have.
    Unknown {
        word: u64,
    },
}

/// What reading a completion or a copy comes to.
#[derive(Clone, Copy, PartialEq, Eq, Debug)]
pub enum Read {
    /// So many numbers stand at the front of the table, in the message's order.
    Figures {
        numbers: usize,
    },
    CaseRefused(Fault),
    /// Of the completion or copy.
    MessageRefused(Fault),
    /// The table takes so many bytes, eight for each number.
    TooShort {
        bytes: usize,
    },
    /// A word, or figures with it, that the header does not have.
    Unknown {
        word: u64,
    },
}

/// Writes the market's copy of a plan's completion to `result`; nothing is written where the plan is
/// broken, a message is refused or `result` is too short.
pub fn market(case: &[u8], plan: &[u8], result: &mut [u8]) -> Copied {
    told_of_pair(kadunfo_market, case, plan, result).into()
}

impl From<Told> for Copied {
    fn from(told: Told) -> Copied {
        match (told.word, told.figures) {
            (word::COPIED, [bytes, 0, 0, 0]) => Copied::Written {
                bytes: bytes as usize,
            },
            (word @ word::BROKEN, place) => {
                Breach::of(place).map_or(Copied::Unknown { word }, Copied::Broken)
            }
            _ => match told.refused() {
                Refused::Case(fault) => Copied::CaseRefused(fault),
                Refused::Message(fault) => Copied::PlanRefused(fault),
                Refused::TooShort { bytes } => Copied::TooShort { bytes },
                Refused::Unknown { word } => Copied::Unknown { word },
            },
        }
    }
}

impl Lent for Copied {
    fn needed(&self) -> Option<usize> {
        match *self {
            Copied::TooShort { bytes } => Some(bytes),
            _ => None,
        }
    }
}

/// The desk reader: the figures of a completion in `table`, the surplus in two's complement; nothing
/// is written where a message is refused or `table` is too short.
pub fn read_completion(case: &[u8], message: &[u8], table: &mut [u64]) -> Read {
    told_of_pair(kadunfo_read_completion, case, message, table).into()
}

/// The market reader: those of a market copy.
pub fn read_market(case: &[u8], message: &[u8], table: &mut [u64]) -> Read {
    told_of_pair(kadunfo_read_market, case, message, table).into()
}

impl From<Told> for Read {
    fn from(told: Told) -> Read {
        match (told.word, told.figures) {
            (word::READ, [numbers, 0, 0, 0]) => Read::Figures {
                numbers: numbers as usize,
            },
            _ => match told.refused() {
                Refused::Case(fault) => Read::CaseRefused(fault),
                Refused::Message(fault) => Read::MessageRefused(fault),
                Refused::TooShort { bytes } => Read::TooShort { bytes },
                Refused::Unknown { word } => Read::Unknown { word },
            },
        }
    }
}
