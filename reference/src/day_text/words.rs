//! Words, figures and series of a text.

pub type Told<T> = Result<T, String>;

/// What stands behind a figure for the reader alone.
const UNITS: [&str; 8] = [
    "min",
    "kW",
    "kvar",
    "grains",
    "kW/min",
    "kW·min",
    "kvar·min",
    "at",
];

/// The lines of a text that say something: their numbers and their words.
pub fn lines(text: &str) -> impl Iterator<Item = (usize, Vec<&str>)> {
    let numbered = (1..).zip(text.lines().map(words));
    numbered.filter(|(_, words)| !words.is_empty())
}

/// The words of a line up to `#`, units left out; one in quotes keeps the first of them.
fn words(line: &str) -> Vec<&str> {
    let mut words = Vec::new();
    let mut rest = line.trim_start();
    while let Some(first) = rest.chars().next().filter(|first| *first != '#') {
        let end = match first {
            '"' => rest[1..].find('"').map(|end| 1 + end),
            _ => rest.find([' ', '\t', '#']),
        };
        let (word, behind) = rest.split_at(end.unwrap_or(rest.len()));
        words.extend(Some(word).filter(|word| !UNITS.contains(word)));
        rest = behind.trim_start_matches('"').trim_start();
    }
    words
}

/// "whole number, `_` between digits; h:mm is minutes".
pub fn figure(word: &str) -> Option<i128> {
    match word.split_once(':') {
        Some((hours, minutes)) => Some(60 * figure(hours)? + figure(minutes)?),
        None => word.replace('_', "").parse().ok(),
    }
}

/// `V`, or `NxV` for N of them.
fn times<T: Clone>(word: &str, read: impl Fn(&str) -> Option<T>) -> Option<Vec<T>> {
    let (times, value) = word.split_once('x').unwrap_or(("1", word));
    Some(vec![read(value)?; times.parse().ok()?])
}

/// Figures in turn.
pub fn figures(words: &[&str]) -> Option<Vec<i128>> {
    let each: Option<Vec<_>> = words.iter().map(|word| times(word, figure)).collect();
    Some(each?.concat())
}

/// A value for each interval: one for all, one for each in turn, or each from a time on.
pub fn series<T: Clone>(
    durations: &[i128],
    words: &[&str],
    read: impl Fn(&str) -> Option<T>,
) -> Option<Vec<T>> {
    let mut row: Vec<T> = Vec::new();
    let mut holds_on = matches!(words, [word] if !word.contains('x'));
    for word in words {
        if word.contains(':') {
            let interval = interval_at(durations, figure(word)?)?;
            let last = row.last()?.clone();
            row.resize((row.len() <= interval).then_some(interval)?, last);
            holds_on = true;
        } else {
            row.extend(times(word, &read)?);
        }
    }
    if holds_on {
        let last = row.last()?.clone();
        row.resize(durations.len(), last);
    }
    (row.len() == durations.len()).then_some(row)
}

/// The interval that starts at a minute.
fn interval_at(durations: &[i128], minute: i128) -> Option<usize> {
    let starts = |interval: &usize| durations[..*interval].iter().sum::<i128>() == minute;
    (0..durations.len()).find(starts)
}

/// `up 1 down 2` by their names; `all` is for each.
pub fn pairs(names: &[&str], words: &[&str], into: &mut [i128]) -> Option<()> {
    for pair in words.chunks(2) {
        let [name, word] = pair else {
            return None;
        };
        let value = figure(word)?;
        match names.iter().position(|known| known == name) {
            Some(index) => into[index] = value,
            None if *name == "all" => into.fill(value),
            None => return None,
        }
    }
    Some(())
}

/// The words behind each name, none behind one that is not there.
pub fn parts<'a, 'b, const N: usize>(
    names: [&str; N],
    words: &'a [&'b str],
) -> Option<[&'a [&'b str]; N]> {
    let mut parts: [&[&str]; N] = [&[]; N];
    let mut rest = words;
    while let [name, behind @ ..] = rest {
        let index = names.iter().position(|known| known == name)?;
        let is_name = |word: &&str| names.contains(word);
        let end = behind.iter().position(is_name).unwrap_or(behind.len());
        (parts[index], rest) = behind.split_at(end);
    }
    Some(parts)
}

#[cfg(test)]
mod tests {
    use super::{figure, parts, series, words};

    const HOURS: [i128; 4] = [60; 4];

    #[test]
    fn words_are_parted() {
        let line = "  set 1 \"Diesel # A\" at 1_000 kW  # a word";
        assert_eq!(words(line), ["set", "1", "\"Diesel # A", "1_000"]);
        assert!(words("# nothing").is_empty());
    }

    #[test]
    fn series_are_read() {
        let row = |text: &str| series(&HOURS, &words(text), figure);
        assert_eq!(row("-7"), Some(vec![-7; 4]));
        assert_eq!(row("1 2x5 3"), Some(vec![1, 5, 5, 3]));
        assert_eq!(row("1 2:00 5"), Some(vec![1, 1, 5, 5]));
        assert_eq!(row("1 1:00 2 3 4"), Some(vec![1, 2, 3, 4]));
        for wrong in [
            "",
            "1 2",
            "3x1",
            "1 1:30 2",
            "1 2 3 1:00 4",
            "1 2 3 4 5",
            "x",
        ] {
            assert_eq!(row(wrong), None, "{wrong}");
        }
    }

    #[test]
    fn parts_stand_behind_their_names() {
        let words = ["cap", "1", "2", "price", "3"];
        let found = parts(["cap", "floor", "price"], &words);
        assert_eq!(found, Some([&words[1..3], &[], &words[4..]]));
        assert_eq!(parts(["cap"], &words), None);
    }
}
