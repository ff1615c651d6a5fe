//! Words, figures and series of a line.

use std::collections::HashMap;

/// What is wrong at a line, from 1.
#[derive(Clone, PartialEq, Eq, Debug)]
pub struct Mistake {
    pub line: usize,
    pub what: String,
}

pub type Read<T> = Result<T, Mistake>;

/// A line, by its number from 1.
#[derive(Clone, Copy, PartialEq, Eq, Debug)]
pub struct At(pub usize);

impl At {
    pub fn mistake(self, what: impl Into<String>) -> Mistake {
        let (line, what) = (self.0, what.into());
        Mistake { line, what }
    }

    pub fn wrong<T>(self, what: impl Into<String>) -> Read<T> {
        Err(self.mistake(what))
    }

    /// Refuses what came with a later edition.
    pub fn since(self, brought: i64, edition: i64, what: &str) -> Read<()> {
        if edition < brought {
            let complaint = format!("'{what}' is of edition {brought} on, and this is {edition}");
            return self.wrong(complaint);
        }
        Ok(())
    }
}

/// Which line said a figure, by its field's name without the interval, which may be longer by words
/// at its end; in rows by the place that a row is of.
#[derive(Default, Debug)]
pub struct Lines(HashMap<String, usize>);

impl Lines {
    /// For what is said once.
    pub fn once(&mut self, at: At, key: impl Into<String>) -> Read<()> {
        let key = key.into();
        match self.0.insert(key.clone(), at.0) {
            Some(earlier) => at.wrong(format!("'{key}' was said in line {earlier} already")),
            None => Ok(()),
        }
    }

    /// For what may be said again: the last line counts.
    pub fn again(&mut self, at: At, key: impl Into<String>) {
        self.0.insert(key.into(), at.0);
    }

    /// The line of a field, by its name.
    pub fn of(&self, name: &str) -> Option<usize> {
        let place = name.split_once(": ").map_or(name, |(place, _)| place);
        if let (true, Some(line)) = (place.contains(", interval "), self.0.get(place)) {
            return Some(*line);
        }
        let mut key = without_interval(name);
        if let Some(list) = key.strip_suffix(" count") {
            if let Some(last) = self.last_of(list) {
                return Some(last);
            }
        }
        loop {
            if let Some(line) = self.0.get(&key) {
                return Some(*line);
            }
            let cut = key.rfind([' ', ':'])?;
            key.truncate(cut);
        }
    }

    /// The last line of a list's items.
    fn last_of(&self, list: &str) -> Option<usize> {
        let is_item = |key: &str| {
            key.strip_prefix(list)
                .is_some_and(|item| item.starts_with(' '))
        };
        let items = self.0.iter().filter(|(key, _)| is_item(key));
        items.map(|(_, line)| *line).max()
    }
}

fn without_interval(name: &str) -> String {
    match name.split_once(", interval ") {
        Some((ahead, behind)) => {
            let behind = behind.trim_start_matches(|letter: char| letter.is_ascii_digit());
            format!("{ahead}{behind}")
        }
        None => name.to_string(),
    }
}

/// Words that are there for the reader alone, behind a figure.
const UNITS: [&str; 8] = [
    "min",
    "kW",
    "kvar",
    "grains",
    "at",
    "kW/min",
    "kW·min",
    "kvar·min",
];

/// Whether a word can stand ahead of a unit.
fn is_figure(word: &str) -> bool {
    word.starts_with(|letter: char| letter.is_ascii_digit() || letter == '-')
}

/// The words of a line: `#` ends it, quotes keep one together, units behind a figure are passed over.
pub fn words(at: At, line: &str) -> Read<Vec<&str>> {
    let mut words = Vec::new();
    let mut rest = line.trim_start();
    let mut is_behind_figure = false;
    while !rest.is_empty() && !rest.starts_with('#') {
        let end = match rest.strip_prefix('"') {
            Some(inside) => match inside.find('"') {
                Some(quote) => quote + 2,
                None => return at.wrong("a quote is not closed"),
            },
            None => rest
                .find(|letter: char| letter.is_whitespace() || letter == '#')
                .unwrap_or(rest.len()),
        };
        let (word, behind) = rest.split_at(end);
        if !is_behind_figure || !UNITS.contains(&word) {
            is_behind_figure = is_figure(word);
            words.push(word);
        }
        rest = behind.trim_start();
    }
    Ok(words)
}

/// Minutes as h:mm.
pub fn clock(minutes: i64) -> String {
    format!("{}:{:02}", minutes / 60, minutes % 60)
}

/// The latest hour of a time; a window may end at minute 65,535.
const LATEST_HOUR: i64 = 1_092;

/// A whole number, `_` between digits; h:mm is minutes.
pub fn figure(at: At, word: &str) -> Read<i64> {
    let not_whole = || at.mistake(format!("'{word}' is not a whole number"));
    if let Some((hours, minutes)) = word.split_once(':') {
        let part = |digits: &str| digits.parse::<i64>().map_err(|_| not_whole());
        let (hours, minutes) = (part(hours)?, part(minutes)?);
        if !(0..=LATEST_HOUR).contains(&hours) || !(0..60).contains(&minutes) {
            return at.wrong(format!("'{word}' is not a time"));
        }
        return Ok(60 * hours + minutes);
    }
    if word.starts_with('_') || word.ends_with('_') {
        return Err(not_whole());
    }
    word.replace('_', "").parse().map_err(|_| not_whole())
}

/// The most intervals of a day.
const MOST_INTERVALS: i64 = 96;
/// More figures than any day has; beyond them a list is not read on.
const TOO_MANY: usize = 1_000;

/// `V`, or `NxV`: how often, and the figure.
fn repeated(at: At, word: &str) -> Read<(usize, i64)> {
    let Some((times, value)) = word.split_once('x') else {
        return Ok((1, figure(at, word)?));
    };
    match figure(at, times)? {
        times @ 1..=MOST_INTERVALS => Ok((times as usize, figure(at, value)?)),
        times => at.wrong(format!(
            "'{word}': {times} times; a day has up to {MOST_INTERVALS} intervals"
        )),
    }
}

/// Figures in turn, `NxV` for N of them.
pub fn list(at: At, words: &[&str]) -> Read<Vec<i64>> {
    let mut figures = Vec::new();
    for word in words {
        append(at, word, &mut figures)?;
    }
    Ok(figures)
}

fn append(at: At, word: &str, figures: &mut Vec<i64>) -> Read<()> {
    let (times, value) = repeated(at, word)?;
    figures.resize(figures.len() + times, value);
    if figures.len() > TOO_MANY {
        return at.wrong(format!("a day has up to {MOST_INTERVALS} intervals"));
    }
    Ok(())
}

/// One figure for all intervals; one for each, `NxV` for N of them; or `V h:mm V ..`, each from its
/// time on. `moments` are the minutes at which intervals start, and the day's end.
pub fn series(at: At, moments: &[i64], what: &str, words: &[&str]) -> Read<Vec<i64>> {
    let intervals = moments.len() - 1;
    let mut figures: Vec<i64> = Vec::new();
    let mut has_times = false;
    for word in words {
        if word.contains(':') {
            fill_until(at, &moments[..intervals], word, &mut figures)?;
            has_times = true;
        } else {
            append(at, word, &mut figures)?;
        }
    }
    let is_one = matches!(words, [word] if !word.contains('x'));
    if let (true, Some(last)) = (is_one || has_times, figures.last().copied()) {
        figures.resize(intervals.max(figures.len()), last);
    }
    if figures.len() != intervals {
        let there = figures.len();
        return at.wrong(format!(
            "{what} has {there} figures, the day has {intervals} intervals"
        ));
    }
    Ok(figures)
}

/// The last figure holds until a time.
fn fill_until(at: At, starts: &[i64], time: &str, figures: &mut Vec<i64>) -> Read<()> {
    let minute = figure(at, time)?;
    let Some(interval) = starts.iter().position(|start| *start == minute) else {
        return at.wrong(format!("no interval starts at {time}"));
    };
    let Some(last) = figures.last().copied() else {
        return at.wrong(format!("what holds before {time}?"));
    };
    if interval < figures.len() {
        let ahead = figures.len();
        return at.wrong(format!(
            "{time} comes too late: {ahead} figures stand ahead of it"
        ));
    }
    figures.resize(interval, last);
    Ok(())
}

/// The words of a series by what each figure means: `3xon` is `3x1`.
pub fn coded(at: At, words: &[&str], codes: &[(&str, &str)]) -> Read<Vec<String>> {
    let code = |word: &&str| {
        let (times, name) = match word.split_once('x') {
            Some((times, name)) => (format!("{times}x"), name),
            None => (String::new(), *word),
        };
        if name.contains(':') {
            return Ok(word.to_string());
        }
        match codes.iter().find(|(known, _)| *known == name) {
            Some((_, code)) => Ok(format!("{times}{code}")),
            None => {
                let known: Vec<&str> = codes.iter().map(|(name, _)| *name).collect();
                at.wrong(format!("'{word}'; one of: {}", known.join(" ")))
            }
        }
    };
    words.iter().map(code).collect()
}

/// The same words as slices.
pub fn slices(words: &[String]) -> Vec<&str> {
    words.iter().map(String::as_str).collect()
}

/// A word and the figures behind it.
pub type Group<'a> = (&'a str, Vec<&'a str>);

/// Words with the figures behind each.
pub fn groups<'a>(at: At, words: &[&'a str]) -> Read<Vec<Group<'a>>> {
    let mut groups: Vec<Group> = Vec::new();
    for word in words {
        if word.starts_with(|letter: char| letter.is_ascii_alphabetic()) {
            if groups.iter().any(|(known, _)| known == word) {
                return at.wrong(format!("'{word}' twice"));
            }
            groups.push((word, Vec::new()));
        } else if let Some((_, figures)) = groups.last_mut() {
            figures.push(word);
        } else {
            return at.wrong(format!("'{word}': a word must stand ahead of it"));
        }
    }
    Ok(groups)
}

/// `up 1 down 2`: each of the names at most once with one figure; `all`, which comes first, is for each
/// of them.
pub fn named(at: At, names: &[&str], words: &[&str], into: &mut [i64]) -> Read<()> {
    for (index, (word, figures)) in groups(at, words)?.into_iter().enumerate() {
        let [value] = figures.as_slice() else {
            return at.wrong(format!("'{word}' needs one figure"));
        };
        if word == "all" && index > 0 {
            return at.wrong("'all' comes first");
        }
        match names.iter().position(|name| *name == word) {
            Some(index) => into[index] = figure(at, value)?,
            None if word == "all" => into.fill(figure(at, value)?),
            None => {
                let names = names.join(" ");
                return at.wrong(format!("unknown word '{word}'; one of: {names}"));
            }
        }
    }
    Ok(())
}

/// Where a name stands among those that are known.
pub fn index_of(at: At, names: &[&str], name: &str, what: &str) -> Read<usize> {
    let index = names.iter().position(|known| *known == name);
    index.ok_or_else(|| {
        let names = names.join(" ");
        at.mistake(format!("unknown {what} '{name}'; one of: {names}"))
    })
}
