//! The splitter and the batch program ("Messages", paragraph **Batch**, and "A two-set day"), in
//! either form.

use std::fmt;

use crate::breaches::{breaches_of, bytes_of};
use crate::case::{read_case_in, Case};
use crate::completion::{completion_bytes, market_bytes, Audience};
use crate::edition::Edition;
use crate::fault::{Fault, Number};
use crate::form::Form;
use crate::judge::our_completion;
use crate::market::read_for;
use crate::mend::{mend_of, Mend};
use crate::plan::read_plan;
use crate::rewrite::{newest_case, newest_plan};
use crate::rules::Place;

const LENGTH_BYTES: usize = 3;

/// What the splitter answers.
#[derive(Clone, Copy, PartialEq, Eq, Debug)]
pub enum Split<'a> {
    /// "end where no byte is left".
    End,
    /// "the message as that part of the caller's own bytes", and the place of what follows it.
    Message { message: &'a [u8], next: usize },
    /// A refusal "at the length's first bit".
    Refused(Fault),
}

/// Takes the message whose length starts at byte `at`: "1 for a length cut short, 4 for a length
/// above" the form's longest, "1 for a message cut short, tested in that sequence." A place past the
/// end is answered like the end itself.
pub fn split(form: Form, batch: &[u8], at: usize) -> Split<'_> {
    let rest = batch.get(at..).unwrap_or(&[]);
    if rest.is_empty() {
        return Split::End;
    }
    let refused = |number| Split::Refused(Fault::new(number, 8 * at));
    let Some((length, rest)) = rest.split_at_checked(LENGTH_BYTES) else {
        return refused(Number::Cut);
    };
    let length = length
        .iter()
        .fold(0, |length, &byte| 256 * length + usize::from(byte));
    if length > form.longest_message {
        return refused(Number::Range);
    }
    if length > rest.len() {
        return refused(Number::Cut);
    }
    Split::Message {
        message: &rest[..length],
        next: at + LENGTH_BYTES + length,
    }
}

/// A batch's messages, up to its end or to what the host splitter refuses.
pub fn messages(batch: &[u8]) -> Vec<&[u8]> {
    let mut messages = Vec::new();
    let mut at = 0;
    while let Split::Message { message, next } = split(Form::HOST, batch, at) {
        messages.push(message);
        at = next;
    }
    messages
}

/// One line of the batch program's output; `index` is the message's, from 0.
#[derive(Clone, PartialEq, Eq, Debug)]
pub enum Line {
    Case {
        index: usize,
        /// No part of the printed line.
        edition: Edition,
        devices: usize,
        intervals: usize,
        zones: usize,
        /// The message in the newest edition; no part of the printed line, here and below.
        rewritten: Vec<u8>,
    },
    Accepted {
        index: usize,
        surplus: i128,
        message: Vec<u8>,
        /// The market's copy; no part of the printed line.
        copy: Vec<u8>,
        rewritten: Vec<u8>,
    },
    Broken {
        index: usize,
        place: Place,
        /// The list of every broken rule, in bytes; no part of the printed line.
        breaches: Vec<u8>,
        /// The power that mends the plan, if any does, and the surplus of the mended plan; no part of
        /// the printed line.
        mend: Option<(Mend, i128)>,
        rewritten: Vec<u8>,
    },
    Refused {
        index: usize,
        fault: Fault,
        /// Behind a case that passes reading, what the desk reader and the market reader make of the
        /// message: its numbers or their refusal. No part of the printed line.
        readings: Vec<Result<Vec<u64>, Fault>>,
    },
    Framing {
        number: Number,
    },
}

impl Line {
    /// The message in the newest edition, where it passes reading.
    pub fn rewritten(&self) -> Option<&[u8]> {
        match self {
            Line::Case { rewritten, .. }
            | Line::Accepted { rewritten, .. }
            | Line::Broken { rewritten, .. } => Some(rewritten),
            Line::Refused { .. } | Line::Framing { .. } => None,
        }
    }
}

impl fmt::Display for Line {
    fn fmt(&self, out: &mut fmt::Formatter) -> fmt::Result {
        match self {
            Line::Case {
                index,
                devices,
                intervals,
                zones,
                ..
            } => write!(out, "{index} case {devices} {intervals} {zones}"),
            Line::Accepted { index, surplus, .. } => write!(out, "{index} accepted {surplus}"),
            Line::Broken { index, place, .. } => write!(
                out,
                "{index} broken {} {} {} {}",
                place.rule, place.interval, place.device, place.window
            ),
            Line::Refused { index, fault, .. } => {
                write!(
                    out,
                    "{index} refused {} {}",
                    fault.number.figure(),
                    fault.bit
                )
            }
            Line::Framing { number } => write!(out, "framing {}", number.figure()),
        }
    }
}

/// Runs the batch program on a batch, "case first"; in the host form, what its lines would be with
/// the host library.
pub fn run(form: Form, batch: &[u8]) -> Vec<Line> {
    let mut lines = Vec::new();
    let mut case = None;
    let mut at = 0;
    loop {
        let index = lines.len();
        match split(form, batch, at) {
            Split::End => return lines,
            Split::Refused(fault) => {
                lines.push(Line::Framing {
                    number: fault.number,
                });
                return lines;
            }
            Split::Message { message, next } => {
                match &case {
                    Some((edition, case)) => {
                        lines.push(judge_message(*edition, case, index, message));
                    }
                    None => match read_case_in(form, message) {
                        Ok((edition, read)) => {
                            lines.push(case_line(index, edition, &read));
                            case = Some((edition, read));
                        }
                        // "A refused case ends the run after its line."
                        Err(fault) => {
                            let readings = Vec::new();
                            lines.push(Line::Refused {
                                index,
                                fault,
                                readings,
                            });
                            return lines;
                        }
                    },
                }
                at = next;
            }
        }
    }
}

/// The line of a case that passes reading.
pub fn case_line(index: usize, edition: Edition, case: &Case) -> Line {
    Line::Case {
        index,
        edition,
        devices: case.devices.len(),
        intervals: case.intervals(),
        zones: case.zones.len(),
        rewritten: newest_case(case),
    }
}

fn judge_message(edition: Edition, case: &Case, index: usize, message: &[u8]) -> Line {
    match read_plan(edition, case, message) {
        Err(fault) => Line::Refused {
            index,
            fault,
            readings: readings(edition, case, message),
        },
        Ok(plan) => match our_completion(case, &plan) {
            Err(place) => Line::Broken {
                index,
                place,
                breaches: bytes_of(&breaches_of(case, &plan)),
                mend: mend_of(case, &plan),
                rewritten: newest_plan(&plan),
            },
            Ok(ours) => Line::Accepted {
                index,
                surplus: ours.surplus,
                message: completion_bytes(edition, case, &ours.completion, ours.surplus),
                copy: market_bytes(edition, case, &ours.completion),
                rewritten: newest_plan(&plan),
            },
        },
    }
}

/// The answers of both readers of A.7 to a message.
fn readings(edition: Edition, case: &Case, message: &[u8]) -> Vec<Result<Vec<u64>, Fault>> {
    let reading = |audience| {
        let figures = read_for(audience, edition, case, message)?;
        Ok(figures.numbers(audience, edition))
    };
    Audience::ALL.map(reading).into()
}

/// Joins messages to a batch, each behind its length.
pub fn join<M: AsRef<[u8]>>(messages: &[M]) -> Vec<u8> {
    let mut batch = Vec::new();
    for message in messages {
        append_message(&mut batch, message.as_ref());
    }
    batch
}

/// Appends one message behind its length.
pub fn append_message(batch: &mut Vec<u8>, message: &[u8]) {
    append_length(batch, message.len());
    batch.extend_from_slice(message);
}

/// Appends a length of 24 bits, whatever follows it.
pub fn append_length(batch: &mut Vec<u8>, length: usize) {
    assert!(length < 1 << 24, "a length has 24 bits");
    batch.extend_from_slice(&(length as u32).to_be_bytes()[1..]);
}
