//! How far long work is, on standard error where that is a terminal.

use std::io::{self, IsTerminal, Write};

/// Plans up to which work is short.
const SHORT: usize = 20;

pub struct Progress {
    of: usize,
    done: usize,
    is_seen: bool,
}

impl Progress {
    /// Of so many plans.
    pub fn new(of: usize) -> Progress {
        Progress {
            of,
            done: 0,
            is_seen: of > SHORT && io::stderr().is_terminal(),
        }
    }

    /// The next plan is taken up.
    pub fn step(&mut self) {
        self.done += 1;
        self.show(&format!("\rplan {} of {}", self.done, self.of));
    }

    /// Whether it can be written does not matter.
    fn show(&self, text: &str) {
        if self.is_seen {
            let _ = io::stderr().write_all(text.as_bytes());
        }
    }
}

/// What comes behind, an answer or a complaint, begins a line.
impl Drop for Progress {
    fn drop(&mut self) {
        self.show("\n");
    }
}
