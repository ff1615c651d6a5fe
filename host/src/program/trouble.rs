//! What goes wrong, in one line each, with its exit status.

use std::fmt;
use std::io;
use std::path::{Path, PathBuf};

/// A letter that a terminal would act on is shown as its number.
pub fn shown(text: &str) -> String {
    let mut out = String::with_capacity(text.len());
    for letter in text.chars() {
        if letter.is_control() {
            out.extend(letter.escape_unicode());
        } else {
            out.push(letter);
        }
    }
    out
}

/// A path as it may be printed.
pub fn shown_path(path: &Path) -> String {
    shown(&path.to_string_lossy())
}

/// What goes to standard error.
#[derive(Debug)]
pub enum Trouble {
    Usage(String),
    /// The verb's words are not as its usage has them.
    WrongUse,
    File {
        doing: &'static str,
        path: PathBuf,
        error: io::Error,
    },
    /// A text that is wrong, or a message that is refused, as it is told.
    Refused(String),
    Defect(String),
}

pub type Done<T> = Result<T, Trouble>;

impl Trouble {
    pub fn usage<T>(complaint: impl Into<String>) -> Done<T> {
        Err(Trouble::Usage(complaint.into()))
    }

    pub fn status(&self) -> u8 {
        match self {
            Trouble::Refused(_) => 2,
            Trouble::Usage(_) | Trouble::WrongUse | Trouble::File { .. } => 3,
            Trouble::Defect(_) => 4,
        }
    }

    /// The line that a program of a name tells it by; a wrong use by the verb's usage.
    pub fn line(&self, program: &str, usage: &str) -> String {
        let line = match self {
            Trouble::WrongUse => format!("{program}: usage: {program} {usage}{}", see(program)),
            Trouble::Usage(complaint) => format!("{program}: {complaint}{}", see(program)),
            Trouble::Refused(told) => told.clone(),
            other => format!("{program}: {other}"),
        };
        shown(&line)
    }
}

fn see(program: &str) -> String {
    format!(" (see {program} --help)")
}

impl fmt::Display for Trouble {
    fn fmt(&self, out: &mut fmt::Formatter) -> fmt::Result {
        match self {
            Trouble::File { doing, path, error } => {
                write!(out, "cannot {doing} {}: {error}", path.display())
            }
            Trouble::Defect(what) => write!(out, "defect: {what}"),
            Trouble::Usage(what) | Trouble::Refused(what) => write!(out, "{what}"),
            Trouble::WrongUse => write!(out, "wrong use"),
        }
    }
}

pub fn file_trouble(doing: &'static str, path: &Path) -> impl FnOnce(io::Error) -> Trouble {
    let path = path.to_path_buf();
    move |error| Trouble::File { doing, path, error }
}

/// Where the figures of this program are not those of the plan unit.
pub fn differs() -> Trouble {
    Trouble::Defect("this program does not read what the plan unit reads".to_string())
}

pub fn unknown_word(word: u64) -> Trouble {
    Trouble::Defect(format!("the plan unit answered {word}"))
}

/// Where the length that the plan unit tells is not that which it told before.
pub fn not_as_long() -> Trouble {
    Trouble::Defect("the plan unit's message is not as long as it says".to_string())
}
