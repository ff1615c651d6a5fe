//! Safe wrappers of the plan unit's exported functions (`include/kadunfo.h`), and the figures and
//! sentences of the desk program.

mod answers;
pub mod balance;
mod batches;
pub mod bill;
pub mod compare;
mod comparison;
mod copies;
pub mod day;
pub mod describe;
pub mod dispatch;
pub mod explain;
pub mod files;
mod frames;
pub mod json;
pub mod judged;
mod mend;
pub mod messages;
pub mod offer;
pub mod page;
pub mod picture;
pub mod program;
mod reactive;
pub mod renumber;
pub mod rules;
pub mod show;
pub mod table;
pub mod text;

pub use answers::{with_buffer, Framed, Inspected, Lent, Listed, Verdict, Written};
pub use batches::{judge_batch, Batched, Turn, BATCH_NUMBERS};
pub use copies::{market, read_completion, read_market, Copied, Read, LONGEST_COPY, MOST_NUMBERS};
pub use frames::{framed, messages, Fault, Messages};
pub use mend::{mend, Mend, Mended};

extern "C" {
    fn kadunfo_judge(
        case: *const u8,
        case_length: usize,
        plan: *const u8,
        plan_length: usize,
        result: *mut u8,
        result_length: usize,
        figures: *mut u64,
        figures_length: usize,
    ) -> u64;
    fn kadunfo_breaches(
        case: *const u8,
        case_length: usize,
        plan: *const u8,
        plan_length: usize,
        list: *mut u8,
        list_length: usize,
        figures: *mut u64,
        figures_length: usize,
    ) -> u64;
    fn kadunfo_inspect(
        case: *const u8,
        case_length: usize,
        figures: *mut u64,
        figures_length: usize,
    ) -> u64;
    fn kadunfo_write_case(
        case: *const u8,
        case_length: usize,
        result: *mut u8,
        result_length: usize,
        figures: *mut u64,
        figures_length: usize,
    ) -> u64;
    fn kadunfo_write_plan(
        case: *const u8,
        case_length: usize,
        plan: *const u8,
        plan_length: usize,
        result: *mut u8,
        result_length: usize,
        figures: *mut u64,
        figures_length: usize,
    ) -> u64;
    fn kadunfo_split(
        batch: *const u8,
        batch_length: usize,
        at: u64,
        figures: *mut u64,
        figures_length: usize,
    ) -> u64;
}

/// The words of the header; that of too few figures is never met here.
mod word {
    pub const ACCEPTED: u64 = 0;
    /// The same word from `judge_batch`.
    pub const JUDGED: u64 = 0;
    /// The same word from `breaches`.
    pub const LISTED: u64 = 0;
    /// The same word from `write_case` and `write_plan`.
    pub const WRITTEN: u64 = 0;
    /// The same word from `market`.
    pub const COPIED: u64 = 0;
    /// The same word from `read_completion` and `read_market`.
    pub const READ: u64 = 0;
    /// The same word from `dispatch`.
    pub const DISPATCHED: u64 = 0;
    /// The same word from `inspect`.
    pub const INSPECTED: u64 = 0;
    /// The same word from `split`.
    pub const MESSAGE: u64 = 0;
    pub const BROKEN: u64 = 1;
    /// The same word from `mend`.
    pub const MENDED: u64 = 1;
    /// The same word from `split`.
    pub const END: u64 = 1;
    pub const CASE_REFUSED: u64 = 2;
    /// The same word from `split`.
    pub const FRAMING_REFUSED: u64 = 2;
    pub const PLAN_REFUSED: u64 = 3;
    /// The same word from `read_completion` and `read_market`.
    pub const MESSAGE_REFUSED: u64 = 3;
    /// The same word from `judge_batch`.
    pub const BATCH_REFUSED: u64 = 3;
    pub const RESULT_REFUSED: u64 = 4;
    /// From `mend` alone.
    pub const UNMENDABLE: u64 = 6;
    /// From `dispatch`: the question is not one of the case, or no powers add up to the target.
    pub const NOT_DISPATCHED: u64 = 7;
}

/// The most bytes of a message in a batch.
pub const LONGEST_MESSAGE: usize = 1_048_576;

/// Bytes that hold every list of breaches: four for each of 25 rules of 64 devices in 96 intervals,
/// of the DC link's in 96, and of 4 windows of each device.
pub const LONGEST_LIST: usize = 4 * (64 * 96 * 25 + 96 + 64 * 4);

/// Bytes that hold every completion: that of edition 5 with 64 devices, 96 intervals, 4 zones and 4
/// energy windows of each device.
pub const LONGEST_COMPLETION: usize = 70_876;

/// Bytes that hold every case that is written: one of edition 5 with every count at its most.
pub const LONGEST_CASE: usize = 328_113;

/// Bytes that hold every plan that is written: one of edition 5 with 64 devices and 96 intervals.
pub const LONGEST_PLAN: usize = 158_427;

/// Bytes of stack that a call takes at most; a thread has 2 MB of it unless told otherwise.
pub const STACK: usize = 1_500_000;

/// A word and four numbers, as the header lists them.
#[derive(Clone, Copy)]
struct Told {
    word: u64,
    figures: [u64; 4],
}

impl Told {
    /// What an exported function tells that is given the place of its figures and how many there are.
    fn by(call: impl FnOnce(*mut u64, usize) -> u64) -> Told {
        let mut figures = [0u64; 4];
        let word = call(figures.as_mut_ptr(), figures.len());
        Told { word, figures }
    }
}

/// Judges one plan against one case; acceptance alone writes to `result`.
pub fn judge(case: &[u8], plan: &[u8], result: &mut [u8]) -> Verdict {
    told_of_pair(kadunfo_judge, case, plan, result).into()
}

/// Lists every broken rule of one plan in `list`, four bytes each (rule, interval, device, window),
/// in the order of judging; nothing is written where `list` is too short or a message is refused.
pub fn breaches(case: &[u8], plan: &[u8], list: &mut [u8]) -> Listed {
    told_of_pair(kadunfo_breaches, case, plan, list).into()
}

/// Writes a plan, read with its case, to `result` in the newest edition; nothing is written where
/// `result` is too short or a message is refused.
pub fn write_plan(case: &[u8], plan: &[u8], result: &mut [u8]) -> Written {
    told_of_pair(kadunfo_write_plan, case, plan, result).into()
}

/// Writes a case to `result` in the newest edition, likewise.
pub fn write_case(case: &[u8], result: &mut [u8]) -> Written {
    // SAFETY: each pointer comes with the length of its slice, and the slices do not overlap.
    let told = Told::by(|figures, length| unsafe {
        let (case, case_length) = (case.as_ptr(), case.len());
        let (result, result_length) = (result.as_mut_ptr(), result.len());
        kadunfo_write_case(case, case_length, result, result_length, figures, length)
    });
    told.into()
}

/// An exported function of a case, a message of it, a lent buffer or table, and figures.
type OfPair<T> =
    unsafe extern "C" fn(*const u8, usize, *const u8, usize, *mut T, usize, *mut u64, usize) -> u64;

fn told_of_pair<T>(function: OfPair<T>, case: &[u8], message: &[u8], lent: &mut [T]) -> Told {
    // SAFETY: each pointer comes with the length of its slice, and the slices do not overlap.
    Told::by(|figures, length| unsafe {
        function(
            case.as_ptr(),
            case.len(),
            message.as_ptr(),
            message.len(),
            lent.as_mut_ptr(),
            lent.len(),
            figures,
            length,
        )
    })
}

/// A case's devices, intervals and zones, or its refusal.
pub fn inspect(case: &[u8]) -> Inspected {
    // SAFETY: as above.
    let told = Told::by(|figures, length| unsafe {
        kadunfo_inspect(case.as_ptr(), case.len(), figures, length)
    });
    told.into()
}

/// The message behind the length at byte `at` of a batch, by the bytes from and until which it
/// stands; the end; or the refusal of the length.
pub fn split(batch: &[u8], at: u64) -> Framed {
    // SAFETY: as above.
    let told = Told::by(|figures, length| unsafe {
        kadunfo_split(batch.as_ptr(), batch.len(), at, figures, length)
    });
    told.into()
}
