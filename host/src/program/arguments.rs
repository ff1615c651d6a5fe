//! The words behind a verb: files, and options with what stands behind them.

use std::ffi::{OsStr, OsString};
use std::path::{Path, PathBuf};

use super::trouble::{shown, Done, Trouble};

/// An option, and what must stand behind it, if anything.
pub struct Opt {
    pub name: &'static str,
    pub needs: Option<&'static str>,
}

pub const fn flag(name: &'static str) -> Opt {
    Opt { name, needs: None }
}

pub const fn value(name: &'static str, needs: &'static str) -> Opt {
    let needs = Some(needs);
    Opt { name, needs }
}

/// The words behind a verb.
#[derive(Default, Debug)]
pub struct Arguments {
    pub files: Vec<PathBuf>,
    options: Vec<(&'static str, OsString)>,
}

impl Arguments {
    /// Takes words apart by the options of a verb; `--` ends options, and one of another verb is a
    /// wrong use.
    pub fn parse(words: &[OsString], options: &[Opt], all: &[&'static str]) -> Done<Arguments> {
        let mut arguments = Arguments::default();
        let mut rest = words.iter();
        while let Some(word) = rest.next() {
            if word == "--" {
                arguments.files.extend(rest.by_ref().map(PathBuf::from));
            } else if is_option(word) {
                arguments.option(word, options, all, &mut rest)?;
            } else {
                arguments.files.push(word.into());
            }
        }
        let inputs = arguments.files.iter().filter(|file| is_stdin(file));
        if inputs.count() > 1 {
            return Trouble::usage("'-' is standard input, which is read once");
        }
        Ok(arguments)
    }

    fn option<'a>(
        &mut self,
        word: &OsStr,
        options: &[Opt],
        all: &[&'static str],
        rest: &mut impl Iterator<Item = &'a OsString>,
    ) -> Done<()> {
        let told = shown(&word.to_string_lossy());
        let Some(option) = options.iter().find(|option| word == option.name) else {
            return match all.iter().any(|known| word == *known) {
                true => Err(Trouble::WrongUse),
                false => Trouble::usage(format!("unknown option {told}")),
            };
        };
        if self.has(option.name) {
            return Trouble::usage(format!("{told} twice"));
        }
        let value = match option.needs {
            None => OsString::new(),
            Some(needs) => match rest.next() {
                Some(value) => value.clone(),
                None => return Trouble::usage(format!("{told} needs {needs}")),
            },
        };
        self.options.push((option.name, value));
        Ok(())
    }

    pub fn has(&self, name: &str) -> bool {
        self.value(name).is_some()
    }

    /// What stands behind an option that is there.
    pub fn value(&self, name: &str) -> Option<&OsStr> {
        let found = self.options.iter().find(|(option, _)| *option == name);
        found.map(|(_, value)| value.as_os_str())
    }

    /// A file behind an option.
    pub fn file(&self, name: &str) -> Option<&Path> {
        self.value(name).map(Path::new)
    }

    /// A whole number behind an option.
    pub fn number(&self, name: &str) -> Done<Option<usize>> {
        let Some(value) = self.value(name) else {
            return Ok(None);
        };
        let number = value.to_str().and_then(|digits| digits.parse().ok());
        match number {
            Some(number) => Ok(Some(number)),
            None => {
                let value = shown(&value.to_string_lossy());
                Trouble::usage(format!("{name} {value} is not a number"))
            }
        }
    }

    /// Where `-o` puts what is made.
    pub fn output(&self) -> Done<&Path> {
        self.file("-o").ok_or(Trouble::WrongUse)
    }
}

/// Whether a path is standard input, or standard output.
pub fn is_stdin(path: &Path) -> bool {
    path == Path::new("-")
}

fn is_option(word: &OsStr) -> bool {
    let bytes = word.as_encoded_bytes();
    bytes.starts_with(b"-") && bytes.len() > 1
}
