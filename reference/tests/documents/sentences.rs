//! The sentences of REPLY: short, numbered in turn, each with its row in PROOFS.

use crate::names::document;
use crate::text::{is_numbered, tables, unfenced};
use crate::{BASIS_GROUP, LAST_GROUP, PROOFS, REPLY};

const MOST_WORDS: usize = 35;
/// The most bytes of the reply up to the group of basis and limits, and of each group behind.
const MOST_BYTES: usize = 15 * 1024;
const MOST_BYTES_OF_A_REQUEST: usize = 1024;

/// The sentences of REPLY with their numbers.
pub fn sentences() -> Vec<(String, String)> {
    let reply = document(REPLY);
    let lines = unfenced(&reply).filter_map(|line| line.strip_prefix("- "));
    let numbered = lines.filter(|line| is_numbered(line));
    let parts = numbered.map(|line| line.split_once(' ').expect("a sentence"));
    parts
        .map(|(number, sentence)| (number.to_string(), sentence.to_string()))
        .collect()
}

/// The reply up to the group of basis and limits, then each group behind with its number.
fn parts(reply: &str) -> Vec<(usize, &str)> {
    let mut rest = reply;
    let mut parts = Vec::new();
    for group in BASIS_GROUP..LAST_GROUP {
        let title = format!("\n## {} ", group + 1);
        let (part, _) = rest.split_once(&title).expect("a group of this number");
        parts.push((group, part));
        rest = &rest[part.len()..];
    }
    parts.push((LAST_GROUP, rest));
    parts
}

#[test]
fn the_reply_is_short_and_its_sentences_stand_alone() {
    for (group, part) in parts(&document(REPLY)) {
        let most = match group {
            BASIS_GROUP => MOST_BYTES,
            _ => MOST_BYTES_OF_A_REQUEST,
        };
        let bytes = part.len();
        assert!(bytes <= most, "{REPLY} has {bytes} bytes up to {group}");
    }
    for (number, sentence) in sentences() {
        let words = sentence.split_whitespace().count();
        assert!(words <= MOST_WORDS, "{number} has {words} words");
        let bare: Vec<&str> = sentence.split(|c: char| !c.is_alphanumeric()).collect();
        assert!(
            !bare.contains(&"it") && !bare.contains(&"It"),
            "{number} does not stand alone"
        );
        assert!(sentence.ends_with('.'), "{number} has no end");
    }
}

#[test]
fn sentences_are_numbered_in_turn_and_every_group_has_an_example() {
    let reply = document(REPLY);
    let (mut group, mut sentence, mut has_example) = (0, 0, true);
    for line in unfenced(&reply) {
        if let Some(title) = line.strip_prefix("## ") {
            let needs_none = group == BASIS_GROUP;
            assert!(has_example || needs_none, "group {group} has no example");
            (group, sentence, has_example) = (group + 1, 0, false);
            assert!(title.starts_with(&format!("{group} ")), "{title}");
        } else if line.starts_with("- *Day ") {
            has_example = true;
        } else if let Some(rest) = line.strip_prefix("- ") {
            sentence += 1;
            assert!(rest.starts_with(&format!("{group}.{sentence} ")), "{line}");
        }
    }
    assert_eq!(group, LAST_GROUP);
    assert!(has_example || group == BASIS_GROUP, "{group}");
}

/// The numbers in the first column of the table of proofs.
fn proved_numbers(proofs: &str) -> Vec<String> {
    let all = tables(proofs)
        .into_iter()
        .filter(|table| table.header[0] == "No.");
    let rows: Vec<Vec<String>> = all.flat_map(|table| table.rows).collect();
    for row in &rows {
        assert!(
            row.iter().all(|cell| !cell.is_empty()),
            "{row:?} has an empty cell"
        );
    }
    rows.into_iter().map(|row| row[0].clone()).collect()
}

#[test]
fn every_sentence_has_its_line_of_proofs_and_no_line_is_without_its_sentence() {
    let numbers: Vec<String> = sentences().into_iter().map(|(number, _)| number).collect();
    assert_eq!(proved_numbers(&document(PROOFS)), numbers);
}

#[test]
fn a_sentence_without_its_line_fails() {
    let proofs = document(PROOFS);
    let lost: String = proofs
        .lines()
        .filter(|line| !line.starts_with("| 4.1 |"))
        .collect::<Vec<_>>()
        .join("\n");
    assert_ne!(proved_numbers(&lost), proved_numbers(&proofs));
}
