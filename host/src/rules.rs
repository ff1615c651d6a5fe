//! The 27 rules in words.

use crate::explain::RULES;

/// What each rule asks, from rule 1. S is an interval's start, d its minutes, p a set's power with
/// start-up and shut-down power, n how often a reactive limit counts.
const SENTENCES: [&str; RULES.len()] = [
    "where the case fixes a set on or off, the plan has it so",
    "a set keeps its initial state while S and the minutes that it was so before are fewer than its minimum up or down time",
    "a set starts no sooner after a stop than its minimum down time, from start of interval to start of interval",
    "a set stops no sooner after a start than its minimum up time, likewise",
    "p rises by at most d times the up ramp, while starting or off d times the starting ramp; in interval 1 from the initial power",
    "p falls by at most d times the down ramp, while off d times the stopping ramp",
    "rgu is at most its limit while on, 0 while off",
    "rgd is at most its limit while on, 0 while off",
    "rgu + scr is at most the limit of scr while on, 0 while off",
    "rgu + scr + rru_on is at most the limit of rru_on while on, 0 while off",
    "rgd + rrd_on is at most the limit of rrd_on while on, 0 while off",
    "nsc is at most its limit while off, 0 while on",
    "nsc + rru_off is at most the limit of rru_off while off, 0 while on",
    "rrd_off is at most its limit while off, 0 while on",
    "a producing set holds no rrd_off, a consuming set neither nsc nor rru_off",
    "online power with the reserves that raise it is at most pmax while on, 0 while off: rgu, scr, rru_on of a producing set, rgd, rrd_on of a consuming one",
    "online power less the reserves that lower it is at least pmin while on, 0 while off: rgd, rrd_on of a producing set, rgu, scr, rru_on of a consuming one",
    "start-up and shut-down power with nsc and rru_off, of a consuming set with rrd_off, is at most pmax while off, 0 while on",
    "p is at most the sum of the blocks' caps and, while on, at least the sum of their floors",
    "the starts whose S is in a window, from its start to before its end, are at most the window's number",
    "q with qru, of a consuming set with qrd, is at most n times qmax",
    "q less qrd, of a consuming set less qru, is at least n times qmin",
    "of a p-q link by two lines: q with the reserve that raises it is at most n times the upper offset and the upper slope times p",
    "of a p-q link by two lines: q less the reserve that lowers it is at least n times the lower offset and the lower slope times p",
    "of a p-q link by an equality: q is n times the offset and the slope times p",
    "beside a p-q link by an equality a set holds no reactive reserve",
    "the flow over the DC link is at most its limit, either way",
];

/// A rule by its number, with its name and what it asks.
pub fn rule(number: usize) -> Option<String> {
    let index = number.checked_sub(1)?;
    let (name, sentence) = (RULES.get(index)?, SENTENCES.get(index)?);
    Some(format!("{number} {name}: {sentence}"))
}

/// How many there are.
pub const COUNT: usize = RULES.len();
