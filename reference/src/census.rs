//! Counts of verdicts: what a set of batches reaches.

mod mends;

use std::fmt;

use crate::batch::Line;
use crate::breaches::BREACH_BYTES;
use crate::edition::Edition;
use crate::form::Largest;

pub use mends::MendCounts;

/// One more than the greatest number of a rule.
const RULES: usize = 28;
/// One more than the greatest number of an edition.
const EDITIONS: usize = Edition::ALL.len() + 1;

/// Counts of cases of one kind and of plans for them.
#[derive(Clone, Copy, PartialEq, Eq, Debug, Default)]
pub struct CaseCounts {
    pub cases: usize,
    pub accepted: usize,
    pub broken: usize,
    pub refused: usize,
}

/// Copies and readings (A.7) of all that a run sends, batches behind a batch included.
#[derive(Clone, Copy, PartialEq, Eq, Debug, Default)]
pub struct CopyCounts {
    pub copies: usize,
    /// Messages that the desk reader and the market reader gave back.
    pub read: [usize; 2],
    /// By number, of both readers.
    pub refused: [usize; 7],
}

/// Counts of lines.
#[derive(Clone, PartialEq, Eq, Debug, Default)]
pub struct Census {
    pub batches: usize,
    pub empty_batches: usize,
    pub cases: usize,
    pub accepted: usize,
    /// Plans by the first rule that they break, 1 to 27.
    pub broken: [usize; RULES],
    /// Entries in the lists of breaches, by rule.
    pub listed: [usize; RULES],
    pub longest_list: usize,
    /// By number, 1 to 6.
    pub refused_cases: [usize; 7],
    pub refused_plans: [usize; 7],
    /// By number, 1 and 4.
    pub framing: [usize; 7],
    /// Greatest counts of devices, intervals and zones, each by itself.
    pub greatest: [usize; 3],
    pub least_surplus: Option<i128>,
    pub greatest_surplus: Option<i128>,
    /// Days with more devices or intervals than the batch form takes.
    pub large: CaseCounts,
    /// What becomes of the broken plans.
    pub mends: MendCounts,
    /// Of a run with copies.
    pub copies: CopyCounts,
    /// By the number of the edition.
    by_edition: [CaseCounts; EDITIONS],
}

impl CaseCounts {
    fn add(&mut self, plans: &[Line]) {
        self.cases += 1;
        for line in plans {
            match line {
                Line::Accepted { .. } => self.accepted += 1,
                Line::Broken { .. } => self.broken += 1,
                Line::Refused { .. } => self.refused += 1,
                Line::Case { .. } | Line::Framing { .. } => {}
            }
        }
    }
}

impl CopyCounts {
    /// Counts the copies and readings of one batch.
    pub fn add(&mut self, lines: &[Line]) {
        for line in lines {
            match line {
                Line::Accepted { .. } => self.copies += 1,
                Line::Refused { readings, .. } => {
                    for (read, reading) in self.read.iter_mut().zip(readings) {
                        match reading {
                            Ok(_) => *read += 1,
                            Err(fault) => self.refused[usize::from(fault.number.figure())] += 1,
                        }
                    }
                }
                Line::Case { .. } | Line::Broken { .. } | Line::Framing { .. } => {}
            }
        }
    }
}

impl Census {
    /// Counts the lines of one batch.
    pub fn add(&mut self, lines: &[Line]) {
        self.batches += 1;
        self.empty_batches += usize::from(lines.is_empty());
        for line in lines {
            self.add_line(line);
        }
        if let Some(Line::Case {
            edition,
            devices,
            intervals,
            ..
        }) = lines.first()
        {
            let plans = &lines[1..];
            self.by_edition[edition.figure() as usize].add(plans);
            if !Largest::SMALL.holds(*devices, *intervals) {
                self.large.add(plans);
            }
        }
    }

    /// Counts of an edition.
    pub fn of(&self, edition: Edition) -> &CaseCounts {
        &self.by_edition[edition.figure() as usize]
    }

    fn add_line(&mut self, line: &Line) {
        match line {
            Line::Case {
                devices,
                intervals,
                zones,
                ..
            } => {
                self.cases += 1;
                for (greatest, count) in self.greatest.iter_mut().zip([devices, intervals, zones]) {
                    *greatest = (*greatest).max(*count);
                }
            }
            Line::Accepted { surplus, .. } => {
                self.accepted += 1;
                let least = self.least_surplus.get_or_insert(*surplus);
                *least = (*least).min(*surplus);
                let greatest = self.greatest_surplus.get_or_insert(*surplus);
                *greatest = (*greatest).max(*surplus);
            }
            Line::Broken {
                place, breaches, ..
            } => {
                self.broken[usize::from(place.rule)] += 1;
                self.add_list(breaches);
                self.mends.add(line);
            }
            Line::Refused {
                index: 0, fault, ..
            } => {
                self.refused_cases[usize::from(fault.number.figure())] += 1;
            }
            Line::Refused { fault, .. } => {
                self.refused_plans[usize::from(fault.number.figure())] += 1;
            }
            Line::Framing { number } => self.framing[usize::from(number.figure())] += 1,
        }
    }

    fn add_list(&mut self, breaches: &[u8]) {
        let entries = breaches.chunks_exact(BREACH_BYTES);
        self.longest_list = self.longest_list.max(entries.len());
        for entry in entries {
            self.listed[usize::from(entry[0])] += 1;
        }
    }

    /// How many plans were judged, refused ones included.
    pub fn plans(&self) -> usize {
        let broken: usize = self.broken.iter().sum();
        let refused: usize = self.refused_plans.iter().sum();
        self.accepted + broken + refused
    }
}

impl fmt::Display for CaseCounts {
    fn fmt(&self, out: &mut fmt::Formatter) -> fmt::Result {
        write!(
            out,
            "cases {}; plans accepted {}, broken {}, refused {}",
            self.cases, self.accepted, self.broken, self.refused
        )
    }
}

impl fmt::Display for CopyCounts {
    fn fmt(&self, out: &mut fmt::Formatter) -> fmt::Result {
        let [desk, market] = self.read;
        write!(
            out,
            "copies {}; read by the desk reader {desk}, by the market reader {market}; refused by \
             number: {}",
            self.copies,
            numbered(&self.refused[1..])
        )
    }
}

impl fmt::Display for Census {
    fn fmt(&self, out: &mut fmt::Formatter) -> fmt::Result {
        writeln!(
            out,
            "batches {}, of these empty {}; cases read {}; plans {}",
            self.batches,
            self.empty_batches,
            self.cases,
            self.plans()
        )?;
        for edition in Edition::ALL {
            writeln!(out, "edition {}: {}", edition.figure(), self.of(edition))?;
        }
        writeln!(out, "beyond the batch form: {}", self.large)?;
        if self.copies != CopyCounts::default() {
            writeln!(out, "{}", self.copies)?;
        }
        writeln!(out, "accepted {}", self.accepted)?;
        writeln!(out, "broken by rule: {}", numbered(&self.broken[1..]))?;
        writeln!(
            out,
            "breaches by rule: {}; at most {} of a plan",
            numbered(&self.listed[1..]),
            self.longest_list
        )?;
        writeln!(
            out,
            "cases refused by number: {}",
            numbered(&self.refused_cases[1..])
        )?;
        writeln!(
            out,
            "plans refused by number: {}",
            numbered(&self.refused_plans[1..])
        )?;
        writeln!(out, "framing by number: {}", numbered(&self.framing[1..]))?;
        write!(out, "{}", self.mends)
    }
}

fn numbered(counts: &[usize]) -> String {
    let items: Vec<String> = counts
        .iter()
        .zip(1..)
        .map(|(count, number)| format!("{number}: {count}"))
        .collect();
    items.join(", ")
}
