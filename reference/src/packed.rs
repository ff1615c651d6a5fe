//! Many batches in one stream, and the output that both sides are held to.
//!
//! A packed stream holds each batch behind a 32-bit byte length, most significant byte first. The
//! output is, for batch K from 0, a line `batch K`, then the batch program's lines; directly after
//! each accepted plan comes `completion BYTES CRC`, the length and the CRC-32 of its completion
//! message, and directly after each broken one `breaches N CRC`, the length of the list of its
//! breaches (A.5) and the CRC-32 of the list's 4·N bytes. Behind these, and directly after the line
//! of a case that passes reading, comes `rewritten BYTES CRC`, the length and the CRC-32 of the
//! message in the newest edition (A.9).
//!
//! With copies (A.7), `copy BYTES CRC` stands behind the completion's line: the length and the
//! CRC-32 of the market's copy; and behind each refused message but the case what the two readers
//! make of it, the desk's first: `desk read N CRC`, the number of its figures and the CRC-32 of
//! these, each in eight bytes, most significant first; or `desk refused NUMBER BIT`; then the same
//! with `market`. With these goes what A.13 answers: `mend accepted SURPLUS`, `mend refused NUMBER
//! BIT`, of a broken plan `mend INTERVAL DEVICE POWER SURPLUS` with the surplus of the mended plan, or
//! `mend none`.

mod mends;

use std::fmt::Write;

use crate::batch::{run, Line};
use crate::breaches::BREACH_BYTES;
use crate::crc::crc32;
use crate::fault::Fault;
use crate::form::Form;

/// How much an output tells.
#[derive(Clone, Copy, PartialEq, Eq, Debug)]
pub enum Extent {
    /// What the corpora hold.
    Corpus,
    /// The market's copies, the readers' answers and mends besides.
    WithCopies,
}

impl Extent {
    /// What the long run asks of a form: "the larger form is for the host library", and so are copies.
    pub fn of_run(form: Form) -> Extent {
        if form == Form::HOST {
            Extent::WithCopies
        } else {
            Extent::Corpus
        }
    }
}

/// Appends one batch behind its length.
pub fn append_batch(packed: &mut Vec<u8>, batch: &[u8]) {
    let length = u32::try_from(batch.len()).expect("a batch's length has 32 bits");
    packed.extend_from_slice(&length.to_be_bytes());
    packed.extend_from_slice(batch);
}

pub fn pack<B: AsRef<[u8]>>(batches: &[B]) -> Vec<u8> {
    let mut packed = Vec::new();
    for batch in batches {
        append_batch(&mut packed, batch.as_ref());
    }
    packed
}

/// The batches of a packed stream, or why it is not one.
pub fn unpack(packed: &[u8]) -> Result<Vec<&[u8]>, String> {
    let mut batches = Vec::new();
    let mut rest = packed;
    while !rest.is_empty() {
        let Some((length, behind)) = rest.split_first_chunk::<4>() else {
            return Err(format!("the length of batch {} is cut", batches.len()));
        };
        let length = u32::from_be_bytes(*length) as usize;
        let Some((batch, next)) = behind.split_at_checked(length) else {
            return Err(format!("batch {} is cut", batches.len()));
        };
        batches.push(batch);
        rest = next;
    }
    Ok(batches)
}

/// Appends the output of batch `number`, whose lines are `lines`.
pub fn append_output(extent: Extent, output: &mut String, number: usize, lines: &[Line]) {
    let mut print = |line: &dyn std::fmt::Display| {
        writeln!(output, "{line}").expect("a string takes every line");
    };
    print(&format_args!("batch {number}"));
    for line in lines {
        print(line);
        match line {
            Line::Accepted { message, .. } => {
                let bytes = message.len();
                print(&format_args!("completion {bytes} {}", crc32(message)));
            }
            Line::Broken { breaches, .. } => {
                let count = breaches.len() / BREACH_BYTES;
                print(&format_args!("breaches {count} {}", crc32(breaches)));
            }
            Line::Case { .. } | Line::Refused { .. } | Line::Framing { .. } => {}
        }
        if extent == Extent::WithCopies {
            copy_lines(line).iter().for_each(|line| print(line));
            mends::mend_line(line).iter().for_each(|line| print(line));
        }
        if let Some(message) = line.rewritten() {
            let bytes = message.len();
            print(&format_args!("rewritten {bytes} {}", crc32(message)));
        }
    }
}

/// The lines of A.7 behind a line.
fn copy_lines(line: &Line) -> Vec<String> {
    match line {
        Line::Accepted { copy, .. } => vec![format!("copy {} {}", copy.len(), crc32(copy))],
        Line::Refused { readings, .. } => {
            let readers = ["desk", "market"].into_iter().zip(readings);
            readers.map(reading_line).collect()
        }
        Line::Case { .. } | Line::Broken { .. } | Line::Framing { .. } => Vec::new(),
    }
}

fn reading_line((reader, reading): (&str, &Result<Vec<u64>, Fault>)) -> String {
    match reading {
        Ok(numbers) => {
            let bytes: Vec<u8> = numbers
                .iter()
                .flat_map(|number| number.to_be_bytes())
                .collect();
            format!("{reader} read {} {}", numbers.len(), crc32(&bytes))
        }
        Err(fault) => format!("{reader} refused {} {}", fault.number.figure(), fault.bit),
    }
}

/// The output of a list of batches in a form, as the corpora hold it.
pub fn output<B: AsRef<[u8]>>(form: Form, batches: &[B]) -> String {
    output_to(Extent::Corpus, form, batches)
}

/// The same as far as told.
pub fn output_to<B: AsRef<[u8]>>(extent: Extent, form: Form, batches: &[B]) -> String {
    let mut output = String::new();
    for (number, batch) in batches.iter().enumerate() {
        append_output(extent, &mut output, number, &run(form, batch.as_ref()));
    }
    output
}
