//! A batch, message by message, as the plan unit splits it, and what it is joined of.

use crate::{split, Framed};

/// A refusal's number, and the bit that it is at.
#[derive(Clone, Copy, PartialEq, Eq, Debug)]
pub struct Fault {
    pub number: u64,
    pub bit: u64,
}

/// A batch's messages in their order, then the refusal that ends it, if one does.
pub struct Messages<'a> {
    batch: &'a [u8],
    at: u64,
}

pub fn messages(batch: &[u8]) -> Messages<'_> {
    Messages { batch, at: 0 }
}

impl<'a> Messages<'a> {
    /// What is behind the messages that were taken, a batch itself.
    pub fn rest(&self) -> &'a [u8] {
        &self.batch[self.at as usize..]
    }
}

impl<'a> Iterator for Messages<'a> {
    type Item = Result<&'a [u8], Fault>;

    fn next(&mut self) -> Option<Self::Item> {
        let fault = match split(self.batch, self.at) {
            Framed::Message { from, until } => {
                self.at = until as u64;
                return Some(Ok(&self.batch[from..until]));
            }
            Framed::End => return None,
            Framed::Refused(fault) => fault,
            // No refusal has this number.
            Framed::Unknown { .. } => Fault { number: 0, bit: 0 },
        };
        self.at = self.batch.len() as u64;
        Some(Err(fault))
    }
}

/// A message behind its length of 24 bits, as it stands in a batch.
pub fn framed(message: &[u8]) -> Vec<u8> {
    let length = (message.len() as u32).to_be_bytes();
    [&length[1..], message].concat()
}
