//! The tables of `docs/MESSAGES.md`, and a walk through a message by them.

use std::collections::HashMap;

const PAGE: &str = concat!(env!("CARGO_MANIFEST_DIR"), "/../docs/MESSAGES.md");

/// The page, as it stands.
pub fn page() -> String {
    std::fs::read_to_string(PAGE).expect("the page is committed")
}

/// What a cell of a table says from an edition on: `5 [4: 7]` has two of them.
#[derive(Debug)]
struct ByEdition<T>(Vec<(u64, T)>);

impl<T> ByEdition<T> {
    fn read(cell: &str, read: impl Fn(&str) -> T) -> Self {
        let mut parts = cell.split('[');
        let mut all = vec![(1, read(parts.next().unwrap().trim()))];
        for later in parts {
            let (edition, what) = later.trim_end_matches([']', ' ']).split_once(':').unwrap();
            all.push((edition.trim().parse().unwrap(), read(what.trim())));
        }
        Self(all)
    }

    fn of(&self, edition: u64) -> &T {
        let mut told = self.0.iter().rev();
        &told
            .find(|(from, _)| *from <= edition)
            .expect("from edition 1 on")
            .1
    }
}

/// The values that a field may have.
#[derive(Debug)]
enum Range {
    Any { signed: bool },
    OfTheCase,
    From(i128, i128),
}

fn number(text: &str) -> i128 {
    text.replace(',', "")
        .parse()
        .unwrap_or_else(|_| panic!("{text} is no number"))
}

fn range(cell: &str) -> Range {
    match cell.split_once("..") {
        Some((low, high)) => Range::From(number(low), number(high)),
        None if cell == "the case's" => Range::OfTheCase,
        None => Range::Any {
            signed: cell.ends_with("two's complement"),
        },
    }
}

/// How many fields of how many bits.
fn bits(cell: &str) -> (usize, usize) {
    let (times, width) = cell.split_once(" x ").unwrap_or(("1", cell));
    (times.parse().unwrap(), width.parse().unwrap())
}

/// A row of a message's table.
#[derive(Debug)]
pub struct Row {
    each: Vec<String>,
    name: String,
    bits: ByEdition<(usize, usize)>,
    range: ByEdition<Range>,
    since: u64,
    refused: Option<u64>,
}

fn row(line: &str) -> Row {
    let cells: Vec<&str> = line.trim_matches('|').split('|').map(str::trim).collect();
    let [each, name, width, values, _, since, refused] = cells[..] else {
        panic!("seven cells in {line}")
    };
    Row {
        each: each
            .split(", ")
            .filter(|e| !e.is_empty())
            .map(str::to_owned)
            .collect(),
        name: name.to_owned(),
        bits: ByEdition::read(width, bits),
        range: ByEdition::read(values, range),
        since: since.parse().unwrap(),
        refused: refused.parse().ok(),
    }
}

/// The table below a heading.
pub fn table(page: &str, heading: &str) -> Vec<Row> {
    let (_, below) = page
        .split_once(&format!("\n## {heading}\n"))
        .expect("a heading");
    let lines = below.lines().skip_while(|line| !line.starts_with('|'));
    lines
        .skip(2)
        .take_while(|line| line.starts_with('|'))
        .map(row)
        .collect()
}

/// Number and bit of a refusal.
pub type Fault = (u64, u64);

/// Fields of one row, as they were read: where they begin, for which of each, and their values.
#[derive(Debug)]
pub struct Read {
    pub bit: usize,
    pub each: Vec<(String, usize)>,
    pub name: String,
    pub values: Vec<i128>,
}

/// A message that is walked through, with what its case has.
pub struct Walk<'a> {
    message: &'a [u8],
    at: usize,
    edition: u64,
    stated: HashMap<String, i128>,
    known: HashMap<String, i128>,
    each: Vec<(String, usize)>,
    contradiction: Option<Fault>,
    pub read: Vec<Read>,
}

/// What later messages of a case are held to: its edition, its counts, its energy windows.
pub type Stated = HashMap<String, i128>;

impl<'a> Walk<'a> {
    pub fn new(message: &'a [u8], stated: &Stated) -> Self {
        Self {
            message,
            at: 0,
            edition: stated.get("edition").map_or(1, |&edition| edition as u64),
            stated: stated.clone(),
            known: stated.clone(),
            each: Vec::new(),
            contradiction: None,
            read: Vec::new(),
        }
    }

    /// Reads the whole message: its first refusal, or what it has stated.
    pub fn whole(&mut self, rows: &[Row]) -> Result<Stated, Fault> {
        self.rows(rows, 0)?;
        let end = self.at.div_ceil(8) * 8;
        if let Some(bit) = (self.at..end).find(|&bit| self.field(bit, 1) != Some(0)) {
            return Err((6, bit as u64));
        }
        if self.message.len() * 8 > end {
            return Err((6, end as u64));
        }
        self.contradiction.map_or(Ok(self.known.clone()), Err)
    }

    /// Rows one below another with the same words are repeated together.
    fn rows(&mut self, mut rows: &[Row], depth: usize) -> Result<(), Fault> {
        while let Some(first) = rows.first() {
            let Some(each) = first.each.get(depth) else {
                self.fields(first)?;
                rows = &rows[1..];
                continue;
            };
            let together = rows
                .iter()
                .take_while(|row| row.each.get(depth) == Some(each))
                .count();
            for k in 1..=self.count(each) {
                self.each.push((each.clone(), k));
                self.rows(&rows[..together], depth + 1)?;
                self.each.pop();
            }
            rows = &rows[together..];
        }
        Ok(())
    }

    fn count(&self, each: &str) -> usize {
        let known = |name: &str| self.known.get(name).copied().unwrap_or(0);
        match each {
            "two lines" => usize::from(known("kind of p-q link") == 1),
            "equality" => usize::from(known("kind of p-q link") == 2),
            "energy window of the case" => known(each) as usize,
            _ => known(&format!("{each}s")) as usize,
        }
    }

    fn fields(&mut self, row: &Row) -> Result<(), Fault> {
        if row.since > self.edition {
            return Ok(());
        }
        let bit = self.at;
        let (times, width) = *row.bits.of(self.edition);
        let values = (0..times)
            .map(|_| self.value(row, width))
            .collect::<Result<Vec<_>, _>>()?;
        self.note(&row.name, bit, values[0]);
        self.read.push(Read {
            bit,
            each: self.each.clone(),
            name: row.name.clone(),
            values,
        });
        Ok(())
    }

    fn value(&mut self, row: &Row, width: usize) -> Result<i128, Fault> {
        let bit = self.at as u64;
        let raw = self.field(self.at, width).ok_or((1, bit))?;
        let signed = |raw: i128| {
            if raw >> (width - 1) == 1 {
                raw - (1 << width)
            } else {
                raw
            }
        };
        let (value, fits) = match *row.range.of(self.edition) {
            Range::Any { signed: true } => (signed(raw), true),
            Range::Any { signed: false } => (raw, true),
            Range::OfTheCase => (raw, self.stated.get(&row.name) == Some(&raw)),
            Range::From(low, high) => {
                let value = if low < 0 { signed(raw) } else { raw };
                (value, (low..=high).contains(&value))
            }
        };
        if !fits {
            return Err((row.refused.expect("a number of refusal"), bit));
        }
        self.at += width;
        Ok(value)
    }

    fn field(&self, at: usize, width: usize) -> Option<i128> {
        (at..at + width).try_fold(0, |value, bit| {
            let byte = *self.message.get(bit / 8)?;
            Some(2 * value + i128::from(byte >> (7 - bit % 8) & 1))
        })
    }

    /// Keeps what later fields are held to, and the first contradiction.
    fn note(&mut self, name: &str, bit: usize, value: i128) {
        let known = |name: &str| self.known.get(name).copied().unwrap_or(0);
        let wrong = match name {
            "zone bits" => value % (1 << (4 - known("zones"))) != 0,
            "window end" => known("window start") > value || value > known("last end"),
            "pmax" => known("pmin") > value,
            "floor" => value > known("cap"),
            "qmax" => known("qmin") > value,
            _ => false,
        };
        if wrong && self.contradiction.is_none() {
            self.contradiction = Some((5, bit as u64));
        }
        let sum = |to: &str, more: i128| (to.to_owned(), known(to) + more);
        let (kept, kept_as) = match name {
            "half of the duration" => sum("last end", 2 * value),
            "energy windows" => sum("energy window of the case", value),
            _ => (name.to_owned(), value),
        };
        self.known.insert(kept, kept_as);
        self.known.insert(name.to_owned(), value);
        if name == "edition" {
            self.edition = value as u64;
        }
    }
}
