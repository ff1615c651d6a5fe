//! The faults a message can show, and where: the table of "What the unit gives back".

/// The paper's numbers 1 to 6. Number 7 concerns no message and stands in [`crate::judge::Refusal`].
#[derive(Clone, Copy, PartialEq, Eq, PartialOrd, Ord, Debug)]
pub enum Number {
    /// 1: "message ends before or inside the field".
    Cut,
    /// 2: "kind or edition wrong".
    Kind,
    /// 3: "count [...] out of range, or plan count unlike the case's".
    Count,
    /// 4: "other field out of range".
    Range,
    /// 5: "pmin above pmax; window start after end; window end after the last E; zone bit above
    /// the zone count"; and "A qmin above qmax is a contradiction at qmax."
    Contradiction,
    /// 6: "fill bit not 0, or first bit of a surplus byte".
    Fill,
}

impl Number {
    /// The number the paper's table gives.
    pub fn figure(self) -> u8 {
        match self {
            Number::Cut => 1,
            Number::Kind => 2,
            Number::Count => 3,
            Number::Range => 4,
            Number::Contradiction => 5,
            Number::Fill => 6,
        }
    }
}

/// One fault: its number and the bit it is reported at, counted from 0.
#[derive(Clone, Copy, PartialEq, Eq, Debug)]
pub struct Fault {
    pub number: Number,
    pub bit: usize,
}

impl Fault {
    pub fn new(number: Number, bit: usize) -> Fault {
        Fault { number, bit }
    }
}
