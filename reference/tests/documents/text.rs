//! Numbers, tables and sums as the documents write them.

use crate::day::Told;

/// The sign of a number below 0, as it is printed.
pub const MINUS: char = '−';

/// A number with or without commas between its thousands, below 0 with a minus of either form.
pub fn number(word: &str) -> Told<i128> {
    let plain = word.replace(MINUS, "-");
    let digits = plain.trim_start_matches('-');
    if digits.contains(',') && !commas_stand_well(digits) {
        return Err(format!("{word}: its commas do not part thousands"));
    }
    let parsed = plain.replace(',', "").parse();
    parsed.map_err(|e| format!("{word}: {e}"))
}

fn commas_stand_well(digits: &str) -> bool {
    let mut groups = digits.split(',');
    let first = groups.next().unwrap_or("");
    (1..=3).contains(&first.len()) && groups.all(|group| group.len() == 3)
}

pub fn numbers(words: &[&str]) -> Told<Vec<i128>> {
    words.iter().map(|word| number(word)).collect()
}

/// A number as the documents print it: commas between thousands.
pub fn printed(value: i128) -> String {
    let digits = value.unsigned_abs().to_string();
    let mut text = String::new();
    for (i, digit) in digits.chars().enumerate() {
        if i > 0 && (digits.len() - i).is_multiple_of(3) {
            text.push(',');
        }
        text.push(digit);
    }
    if value < 0 {
        text.insert(0, MINUS);
    }
    text
}

/// A table of a document, with the cells of its rows.
pub struct Table {
    pub header: Vec<String>,
    pub rows: Vec<Vec<String>>,
}

/// The tables of a document; lines in fenced blocks are none.
pub fn tables(document: &str) -> Vec<Table> {
    let mut tables: Vec<Table> = Vec::new();
    let mut inside = false;
    for line in unfenced(document) {
        let is_row = line.starts_with('|');
        match (is_row, inside) {
            (true, false) => tables.push(Table {
                header: cells(line),
                rows: Vec::new(),
            }),
            (true, true) if !line.starts_with("|---") => {
                tables
                    .last_mut()
                    .expect("a header stands ahead")
                    .rows
                    .push(cells(line));
            }
            _ => {}
        }
        inside = is_row;
    }
    tables
}

fn cells(line: &str) -> Vec<String> {
    let inner = line.trim().trim_start_matches('|').trim_end_matches('|');
    inner
        .split('|')
        .map(|cell| cell.trim().to_string())
        .collect()
}

/// The lines of a document outside fenced blocks.
pub fn unfenced(document: &str) -> impl Iterator<Item = &str> {
    let mut fenced = false;
    document.lines().filter(move |line| {
        let fence = line.starts_with("```");
        fenced ^= fence;
        !fence && !fenced
    })
}

/// The fenced blocks of a document.
pub fn blocks(document: &str) -> Vec<String> {
    let parts = document.split("\n```");
    parts.skip(1).step_by(2).map(str::to_string).collect()
}

/// What stands in backticks outside fenced blocks.
pub fn in_backticks(document: &str) -> Vec<String> {
    let lines = unfenced(document);
    let parts = lines.flat_map(|line| line.split('`').skip(1).step_by(2));
    parts.map(str::to_string).collect()
}

/// The places of the numbers of a text: from, until.
pub fn number_spans(text: &str) -> Vec<(usize, usize)> {
    let bytes = text.as_bytes();
    let digit = |i: usize| bytes.get(i).is_some_and(u8::is_ascii_digit);
    let mut spans = Vec::new();
    let mut at = 0;
    while at < bytes.len() {
        if !digit(at) {
            at += 1;
            continue;
        }
        let from = at;
        while digit(at)
            || (bytes.get(at) == Some(&b',') && [1, 2, 3].into_iter().all(|k| digit(at + k)))
        {
            at += 1;
        }
        spans.push((from, at));
    }
    spans
}

/// The text with each of its numbers, in turn, one greater.
pub fn with_a_number_changed(text: &str) -> Vec<String> {
    let spans = number_spans(text).into_iter();
    spans
        .map(|(from, until)| {
            let value = number(&text[from..until]).expect("a number");
            let grouped = text[from..until].contains(',');
            let next = if grouped {
                printed(value + 1)
            } else {
                (value + 1).to_string()
            };
            format!("{}{}{}", &text[..from], next, &text[until..])
        })
        .collect()
}

/// Whether a line begins with a number.
pub fn is_numbered(row: &str) -> bool {
    row.starts_with(|c: char| c.is_ascii_digit())
}

#[test]
fn numbers_are_read_as_they_are_printed() {
    for value in [0, 7, 999, 1_000, -1_452_140, 1_048_576] {
        assert_eq!(number(&printed(value)), Ok(value));
    }
    assert!(number("10,00").is_err());
}
