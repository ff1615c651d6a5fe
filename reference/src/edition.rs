//! Editions: which fields a message has, and how wide its counts are.
//!
//! The edition stands beside the content of a message, never in it: figures that an edition's
//! messages lack have their neutral values in the content, and "nothing may depend on which of the
//! two is the case" but reading and writing.

use crate::bits::FieldReader;
use crate::case::{BARS, MOST_ZONES};
use crate::fault::Fault;
use crate::form::Largest;

/// An edition of the messages.
#[derive(Clone, Copy, PartialEq, Eq, PartialOrd, Ord, Debug)]
pub enum Edition {
    /// Paper 01.
    One,
    /// "Edition 2 adds the rules of document 000, section 4.6.7, equations 114 to 118, and all
    /// reactive ones of 4.6.8, with the plain limits for producing sets symmetrical to 122 and
    /// 123." (A.1)
    Two,
    /// "Edition 3, on top of 2, puts a floor (17 bits) after each block's cap." (A.6)
    Three,
    /// "Edition 4 holds all of 3, has 7-bit device and interval counts and 7-bit most starts
    /// (0..96), and raises the limits to 64 and 96." (A.8)
    Four,
    /// "Edition 5 adds to 4: it gives each device a bar [...], the case a link limit [...], and the
    /// plan, after each interval's devices, a flow from bar 0 to bar 1". (A.12)
    Five,
}

/// A count's width in bits, and the most that it may say.
#[derive(Clone, Copy, PartialEq, Eq, Debug)]
pub struct CountField {
    pub width: usize,
    pub most: usize,
}

impl Edition {
    /// Every edition, oldest first.
    pub const ALL: [Edition; 5] = [
        Edition::One,
        Edition::Two,
        Edition::Three,
        Edition::Four,
        Edition::Five,
    ];
    pub const NEWEST: Edition = Edition::Five;

    /// The number that stands in a message.
    pub fn figure(self) -> i128 {
        match self {
            Edition::One => 1,
            Edition::Two => 2,
            Edition::Three => 3,
            Edition::Four => 4,
            Edition::Five => 5,
        }
    }

    /// The edition of a number, if there is one.
    pub fn numbered(figure: i128) -> Option<Edition> {
        let mut all = Edition::ALL.into_iter();
        all.find(|edition| edition.figure() == figure)
    }

    /// Whether messages have the fields of A.1.
    pub fn has_reactive_power(self) -> bool {
        self >= Edition::Two
    }

    /// Whether blocks have the floors of A.6.
    pub fn has_floors(self) -> bool {
        self >= Edition::Three
    }

    /// Whether counts and most starts are as wide and as great as A.8 has them.
    pub fn has_large_counts(self) -> bool {
        self >= Edition::Four
    }

    /// Whether messages have the bars, the link's limit and the flows of A.12.
    pub fn has_bars(self) -> bool {
        self >= Edition::Five
    }

    /// The editions before it, oldest first.
    pub fn older(self) -> impl Iterator<Item = Edition> {
        let all = Edition::ALL.into_iter();
        all.filter(move |&edition| edition < self)
    }

    /// The largest day that its messages may say.
    pub fn largest(self) -> Largest {
        if self.has_large_counts() {
            Largest::LARGE
        } else {
            Largest::SMALL
        }
    }

    /// "devices 5 (1..16)", from edition 4 on "7-bit".
    pub fn devices(self) -> CountField {
        CountField {
            width: if self.has_large_counts() { 7 } else { 5 },
            most: self.largest().devices,
        }
    }

    /// "intervals 6 (1..48)", from edition 4 on "7-bit".
    pub fn intervals(self) -> CountField {
        CountField {
            width: if self.has_large_counts() { 7 } else { 6 },
            most: self.largest().intervals,
        }
    }

    /// "zones 3 (0..4)".
    pub fn zones(self) -> CountField {
        CountField {
            width: 3,
            most: MOST_ZONES,
        }
    }

    /// "most starts 6 (0..48)", from edition 4 on "7-bit most starts (0..96)": a figure that goes
    /// with the interval count, whatever form reads it.
    pub fn most_starts(self) -> CountField {
        self.intervals()
    }

    /// How many shortfalls a zone has, and prices for them: "rgu, rgd, scr, nsc, rru, rrd", and the
    /// two of A.1.
    pub fn shortfalls(self) -> usize {
        if self.has_reactive_power() {
            8
        } else {
            6
        }
    }

    /// How many minima a zone has in an interval: "rru and rrd minima", and the two of A.1.
    pub fn minima(self) -> usize {
        if self.has_reactive_power() {
            4
        } else {
            2
        }
    }

    /// How many bars have mismatches of their own: "Item 2's one busbar then stands for editions 1
    /// to 4".
    pub fn bars(self) -> usize {
        if self.has_bars() {
            BARS
        } else {
            1
        }
    }

    /// How many mismatches an interval has: of each bar the real one and, from edition 2 on, the
    /// reactive one, which "is priced like the real one."
    pub fn mismatches(self) -> usize {
        if self.has_reactive_power() {
            2 * self.bars()
        } else {
            self.bars()
        }
    }

    /// The greatest number of a rule: "Rules 21 to 26 [...] come after 19 and before 20"; "Rule 27,
    /// flow within the limit either way".
    pub fn last_rule(self) -> u8 {
        if self.has_bars() {
            27
        } else if self.has_reactive_power() {
            26
        } else {
            20
        }
    }
}

/// Reads a case's edition: one that exists, "else 2 at bit 4".
pub fn read_edition(fields: &mut FieldReader) -> Result<Edition, Fault> {
    let oldest = Edition::ALL[0].figure();
    let figure = fields.one_of(4, oldest, Edition::NEWEST.figure())?;
    Ok(Edition::numbered(figure).expect("editions are numbered without gaps"))
}
