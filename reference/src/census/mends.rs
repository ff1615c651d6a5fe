//! Counts of what mends broken plans (A.13).

use std::fmt;

use crate::batch::Line;
use crate::bits::HIGHEST_POWER;
use crate::breaches::breaches_in;
use crate::mend::Mend;
use crate::rules::Place;

/// One more than the greatest number of a rule.
const RULES: usize = 28;

/// Counts of broken plans.
#[derive(Clone, PartialEq, Eq, Debug, Default)]
pub struct MendCounts {
    /// Plans that one power mends.
    pub mended: usize,
    /// Of these, plans with more than one breach.
    pub several: usize,
    /// Of these, plans mended in the interval before that of the first breach.
    pub earlier: usize,
    pub at_zero: usize,
    pub at_highest: usize,
    /// Of the mended plans, by each rule that they break.
    pub by_rule: [usize; RULES],
    /// Plans that none mends, with one breach and with more.
    pub unmended_one: usize,
    pub unmended_several: usize,
}

impl MendCounts {
    /// Counts the line of a broken plan, and no other.
    pub fn add(&mut self, line: &Line) {
        let Line::Broken { breaches, mend, .. } = line else {
            return;
        };
        let breaches = breaches_in(breaches);
        match mend {
            Some((mend, _)) => self.add_mended(mend, &breaches),
            None if breaches.len() == 1 => self.unmended_one += 1,
            None => self.unmended_several += 1,
        }
    }

    fn add_mended(&mut self, mend: &Mend, breaches: &[Place]) {
        self.mended += 1;
        self.several += usize::from(breaches.len() > 1);
        self.earlier += usize::from(mend.interval < breaches[0].interval);
        self.at_zero += usize::from(mend.power == 0);
        self.at_highest += usize::from(mend.power == HIGHEST_POWER);
        for breach in breaches {
            self.by_rule[usize::from(breach.rule)] += 1;
        }
    }
}

impl fmt::Display for MendCounts {
    fn fmt(&self, out: &mut fmt::Formatter) -> fmt::Result {
        let by_rule: Vec<String> = (1..RULES)
            .filter(|&rule| self.by_rule[rule] > 0)
            .map(|rule| format!("{rule}: {}", self.by_rule[rule]))
            .collect();
        write!(
            out,
            "mended {}, of these with more breaches than one {}, in the interval before {}, at 0 {}, \
             at 100000 {}; mended breaches by rule: {}; not mended with one breach {}, with more {}",
            self.mended,
            self.several,
            self.earlier,
            self.at_zero,
            self.at_highest,
            by_rule.join(", "),
            self.unmended_one,
            self.unmended_several
        )
    }
}
