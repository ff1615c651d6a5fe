//! The copies beside the corpora (A.7): a line for each accepted plan, in the host form.

use std::fmt::Write;

use crate::batch::{messages, run, Line};
use crate::case::{read_case, Case};
use crate::completion::Audience;
use crate::crc::crc32;
use crate::edition::Edition;
use crate::form::Form;
use crate::market::read_for;

/// For each accepted plan of each batch, numbered from 0, `batch K plan I: copy BYTES CRC; desk N CRC;
/// market N CRC`: the plan's index among the batch's messages, the length and the CRC-32 of its market
/// copy; and how many numbers the desk reader gives of its completion and the market reader of its
/// copy, with the CRC-32 of these, each in eight bytes, most significant first.
pub fn copies_of<B: AsRef<[u8]>>(batches: &[B]) -> String {
    let mut output = String::new();
    for (number, batch) in batches.iter().map(AsRef::as_ref).enumerate() {
        for line in run(Form::HOST, batch) {
            let Line::Accepted {
                index,
                message,
                copy,
                ..
            } = line
            else {
                continue;
            };
            let (edition, case) = read_case(messages(batch)[0]).expect("its plan is accepted");
            let read = |audience, message| reading(audience, edition, &case, message);
            writeln!(
                output,
                "batch {number} plan {index}: copy {} {}; desk {}; market {}",
                copy.len(),
                crc32(&copy),
                read(Audience::Desk, &message),
                read(Audience::Market, &copy)
            )
            .expect("a string takes every line");
        }
    }
    output
}

/// `N CRC` of a message's numbers.
fn reading(audience: Audience, edition: Edition, case: &Case, message: &[u8]) -> String {
    let figures = read_for(audience, edition, case, message).expect("it is our own");
    let numbers = figures.numbers(audience, edition);
    let bytes: Vec<u8> = numbers.iter().flat_map(|n| n.to_be_bytes()).collect();
    format!("{} {}", numbers.len(), crc32(&bytes))
}
