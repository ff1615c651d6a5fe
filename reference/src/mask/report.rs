//! What is told of the jumps: a table by function, each jump that does not go both ways, and one
//! line on them all.

use std::fmt::{self, Write};

use crate::mask::ways::{Jump, Tally, Ways};

/// Jumps by their ways.
#[derive(Clone, Copy, PartialEq, Eq, Debug, Default)]
pub struct Sum {
    pub both: usize,
    pub taken: usize,
    pub passed: usize,
    pub never: usize,
    pub moves: usize,
}

impl Sum {
    fn of(tally: &Tally, number: usize) -> Sum {
        let mut sum = Sum {
            moves: tally.functions[number].conditional_moves(),
            ..Sum::default()
        };
        for jump in tally.jumps(number) {
            match jump.ways() {
                Ways::Both => sum.both += 1,
                Ways::Taken => sum.taken += 1,
                Ways::Passed => sum.passed += 1,
                Ways::Never => sum.never += 1,
            }
        }
        sum
    }

    pub fn jumps(self) -> usize {
        self.both + self.taken + self.passed + self.never
    }

    fn add(&mut self, other: Sum) {
        self.both += other.both;
        self.taken += other.taken;
        self.passed += other.passed;
        self.never += other.never;
        self.moves += other.moves;
    }
}

impl fmt::Display for Sum {
    fn fmt(&self, out: &mut fmt::Formatter) -> fmt::Result {
        write!(
            out,
            "{} conditional jumps: {} both ways, {} one way ({} always taken, {} never taken), \
             {} never run; {} conditional moves",
            self.jumps(),
            self.both,
            self.taken + self.passed,
            self.taken,
            self.passed,
            self.never,
            self.moves
        )
    }
}

fn row(name: &str, sum: Sum) -> String {
    format!(
        "| {name} | {} | {} | {} | {} | {} | {} |\n",
        sum.jumps(),
        sum.both,
        sum.taken,
        sum.passed,
        sum.never,
        sum.moves
    )
}

/// A row for each function with jumps, those with fewer than `least` of them in one.
pub fn table(tally: &Tally, least: usize) -> String {
    let mut text = "| Function | jumps | both ways | always taken | never taken | never run | \
                    moves |\n|---|---|---|---|---|---|---|\n"
        .to_string();
    let (mut others, mut rest) = (0, Sum::default());
    for number in 0..tally.functions.len() {
        let sum = Sum::of(tally, number);
        let name = &tally.functions[number].name;
        if sum.jumps() + sum.moves == 0 {
            continue;
        }
        if sum.jumps() < least {
            others += 1;
            rest.add(sum);
        } else if tally.is_held(number) {
            text += &row(&format!("`{name}`"), sum);
        } else {
            text += &row(&format!("`{name}`, in no program"), sum);
        }
    }
    if others > 0 {
        text += &row(&format!("{others} others"), rest);
    }
    text
}

/// How many instructions before a jump are told.
const BEFORE: usize = 4;

fn seen(jump: &Jump) -> String {
    let count = jump.count;
    match jump.ways() {
        Ways::Both => format!("taken {} of {} times", count.taken, count.executed),
        Ways::Taken => format!("always taken, {} times", count.taken),
        Ways::Passed => format!("never taken, run {} times", count.executed),
        Ways::Never => "never run".to_string(),
    }
}

fn entry(jump: &Jump) -> String {
    let instruction = jump.instruction();
    let address = jump.function.address + instruction.offset;
    let mut text = format!(
        "{address:#x} {}+{:#x}: {}",
        jump.function.name,
        instruction.offset,
        seen(jump)
    );
    if let Some(source) = &instruction.source {
        text += &format!("; {source}");
    }
    text.push('\n');
    let first = jump.at.saturating_sub(BEFORE);
    for before in &jump.function.instructions[first..=jump.at] {
        writeln!(text, "    {}", before.text).expect("a text takes all");
    }
    text
}

/// Each jump that does not go both ways, with the instructions before it.
pub fn list(tally: &Tally) -> String {
    let numbers = 0..tally.functions.len();
    let jumps = numbers.flat_map(|number| tally.jumps(number));
    let left = jumps.filter(|jump| jump.ways() != Ways::Both);
    left.map(|jump| entry(&jump)).collect()
}

/// All jumps together.
pub fn sum(tally: &Tally) -> Sum {
    let mut sum = Sum::default();
    for number in 0..tally.functions.len() {
        sum.add(Sum::of(tally, number));
    }
    sum
}
