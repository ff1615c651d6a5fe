//! Command lines of the programs: words, `--name value` and `--name`.

use std::fs;
use std::process::ExitCode;

use crate::edition::Edition;
use crate::form::Largest;

/// Success, or failure with its message on standard error.
pub fn exit_code(result: Result<(), String>) -> ExitCode {
    match result {
        Ok(()) => ExitCode::SUCCESS,
        Err(message) => {
            eprintln!("{message}");
            ExitCode::FAILURE
        }
    }
}

/// The arguments that were not taken yet.
pub struct Arguments {
    left: Vec<String>,
    complaint: Option<String>,
}

impl Arguments {
    pub fn of_program() -> Arguments {
        Arguments::new(std::env::args().skip(1).collect())
    }

    pub fn new(left: Vec<String>) -> Arguments {
        Arguments {
            left,
            complaint: None,
        }
    }

    /// Takes the first word, unless it is an option.
    pub fn word(&mut self) -> Option<String> {
        let first = self.left.first()?;
        (!first.starts_with("--")).then(|| self.left.remove(0))
    }

    /// Takes `name` and reports whether it was there.
    pub fn flag(&mut self, name: &str) -> bool {
        self.position(name).map(|at| self.left.remove(at)).is_some()
    }

    /// Takes `name` and the value behind it.
    pub fn value(&mut self, name: &str) -> Option<String> {
        let at = self.position(name)?;
        self.left.remove(at);
        if at < self.left.len() {
            Some(self.left.remove(at))
        } else {
            self.complaint = Some(format!("{name} needs a value"));
            None
        }
    }

    /// Takes `name` with the value behind it as often as it is there.
    pub fn values(&mut self, name: &str) -> Vec<String> {
        std::iter::from_fn(|| self.value(name)).collect()
    }

    /// Takes `name` and the number behind it.
    pub fn number(&mut self, name: &str) -> Option<u64> {
        let value = self.value(name)?;
        let number = value.parse().ok();
        if number.is_none() {
            self.complaint = Some(format!("{name} needs a number, not {value}"));
        }
        number
    }

    fn position(&self, name: &str) -> Option<usize> {
        self.left.iter().position(|argument| argument == name)
    }

    /// Complains of what could not be used.
    pub fn finish(self) -> Result<(), String> {
        match (self.complaint, self.left.first()) {
            (Some(complaint), _) => Err(complaint),
            (None, Some(unknown)) => Err(format!("unknown argument {unknown}")),
            (None, None) => Ok(()),
        }
    }
}

/// Makes a batch of a day of an edition, its plan so many times, of so many devices and intervals.
pub type MakeDay = fn(Edition, usize, usize, usize) -> Vec<u8>;

/// Writes a day as a batch: `TIMES FILE [--devices N] [--intervals N] [--edition E]`, of edition 1
/// and the most devices and intervals of the batch form unless told.
pub fn write_day(program: &str, make: MakeDay) -> Result<(), String> {
    let usage = format!("usage: {program} TIMES FILE [--devices N] [--intervals N] [--edition E]");
    let mut arguments = Arguments::of_program();
    let (times, file) = (arguments.word(), arguments.word());
    let devices = arguments.number("--devices");
    let intervals = arguments.number("--intervals");
    let edition = arguments.number("--edition").unwrap_or(1);
    arguments
        .finish()
        .map_err(|complaint| format!("{complaint}\n{usage}"))?;
    let times = times.and_then(|word| word.parse().ok()).ok_or(&usage)?;
    let file = file.ok_or(&usage)?;
    let edition = Edition::numbered(i128::from(edition)).ok_or("there is no such edition")?;
    let count = |told: Option<u64>, most| told.map_or(most, |count| count as usize);
    let devices = count(devices, Largest::SMALL.devices);
    let intervals = count(intervals, Largest::SMALL.intervals);
    if devices == 0 || intervals == 0 || !edition.largest().holds(devices, intervals) {
        return Err("the edition has no such day".to_string());
    }
    fs::write(&file, make(edition, times, devices, intervals))
        .map_err(|error| format!("{file}: {error}"))
}
