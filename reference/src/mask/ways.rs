//! The ways that conditional jumps go, added up over runs and over programs that hold their code.

use std::collections::{BTreeMap, BTreeSet};

use crate::mask::dump::{Count, Counts};
use crate::mask::listing::{Function, Instruction};
use crate::mask::symbols::{place, Symbols};

#[derive(Clone, Copy, PartialEq, Eq, Debug)]
pub enum Ways {
    Both,
    /// Always taken.
    Taken,
    /// Never taken, but run.
    Passed,
    /// Never run.
    Never,
}

impl Count {
    pub fn ways(self) -> Ways {
        match (self.taken > 0, self.executed > self.taken) {
            (true, true) => Ways::Both,
            (true, false) => Ways::Taken,
            (false, true) => Ways::Passed,
            (false, false) => Ways::Never,
        }
    }
}

/// What runs did at the instructions of some functions.
pub struct Tally {
    pub functions: Vec<Function>,
    /// By function and offset.
    counts: BTreeMap<(usize, u64), Count>,
    /// The functions that some program holds.
    held: BTreeSet<usize>,
}

/// A conditional jump and what was seen of it.
pub struct Jump<'a> {
    pub function: &'a Function,
    /// Its number among the function's instructions.
    pub at: usize,
    pub count: Count,
}

impl Jump<'_> {
    pub fn ways(&self) -> Ways {
        self.count.ways()
    }

    pub fn instruction(&self) -> &Instruction {
        &self.function.instructions[self.at]
    }
}

impl Tally {
    pub fn new(functions: Vec<Function>) -> Tally {
        Tally {
            functions,
            counts: BTreeMap::new(),
            held: BTreeSet::new(),
        }
    }

    /// Adds a run of the program whose listing this is.
    pub fn add_own(&mut self, counts: &Counts) {
        for number in 0..self.functions.len() {
            self.add_function(number, self.functions[number].address, counts);
        }
    }

    /// Adds a run of a program that holds some of the functions.
    pub fn add(&mut self, symbols: &Symbols, counts: &Counts) -> Result<(), String> {
        for number in 0..self.functions.len() {
            if let Some(address) = place(symbols, &self.functions[number].name)? {
                self.add_function(number, address, counts);
            }
        }
        Ok(())
    }

    fn add_function(&mut self, number: usize, address: u64, counts: &Counts) {
        self.held.insert(number);
        for instruction in &self.functions[number].instructions {
            if let Some(&count) = counts.get(&(address + instruction.offset)) {
                let place = (number, instruction.offset);
                self.counts.entry(place).or_default().add(count);
            }
        }
    }

    pub fn is_held(&self, number: usize) -> bool {
        self.held.contains(&number)
    }

    pub fn jumps(&self, number: usize) -> impl Iterator<Item = Jump<'_>> {
        let function = &self.functions[number];
        function.jumps().map(move |at| {
            let place = (number, function.instructions[at].offset);
            let count = self.counts.get(&place).copied().unwrap_or_default();
            Jump {
                function,
                at,
                count,
            }
        })
    }
}
