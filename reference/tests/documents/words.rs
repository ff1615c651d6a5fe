//! Words and names of the documents.

use crate::names::{document, Tree};
use crate::text::{in_backticks, tables, unfenced};
use crate::{no_errors, AUDIT, CHANGES, FIGURES, PROOFS, REPLY, RULES};

/// Words of the trade that a tender's reader would stumble on.
const SLANG: [&str; 5] = ["lent", "lends", "rival", "rivals", "stead"];

#[test]
fn documents_use_plain_words_and_name_both_links() {
    for name in [REPLY, FIGURES, RULES, PROOFS, CHANGES, AUDIT] {
        let document = document(name);
        for line in unfenced(&document) {
            let plain: String = line.split('`').step_by(2).collect::<Vec<_>>().join("");
            let words: Vec<&str> = plain
                .split(|c: char| !(c.is_alphanumeric() || c == '-' || c == '*'))
                .collect();
            for slang in SLANG {
                assert!(!words.contains(&slang), "{name}: {slang} in: {line}");
            }
            for pair in words
                .windows(2)
                .filter(|pair| matches!(pair[1], "link" | "links"))
            {
                assert!(
                    matches!(pair[0], "p-q" | "DC"),
                    "{name}: a link without its name: {line}"
                );
            }
        }
    }
}

fn named_documents() -> [&'static str; 6] {
    [REPLY, PROOFS, AUDIT, RULES, CHANGES, FIGURES]
}

#[test]
fn every_name_in_backticks_is_of_the_tree() {
    let tree = Tree::read();
    let mut errors = Vec::new();
    for name in named_documents() {
        let unknown = in_backticks(&document(name))
            .into_iter()
            .filter(|quoted| !tree.has(quoted));
        errors.extend(unknown.map(|quoted| format!("{name}: `{quoted}`")));
    }
    no_errors(errors);
}

/// The wrong unit that AUDIT has tried: what is exchanged stands once in its file.
#[test]
fn the_wrong_unit_of_the_audit_can_be_made() {
    let audit = document(AUDIT);
    let command = audit
        .lines()
        .find_map(|line| line.strip_prefix("sed -i 's/"))
        .expect("a command");
    let (exchange, file) = command.split_once("/' ").expect("a file");
    let (old, new) = exchange.split_once('/').expect("two texts");
    assert_eq!(document(file).matches(old).count(), 1, "{old}");
    assert_ne!(old, new);
}

#[test]
fn a_name_changed_by_hand_fails() {
    let tree = Tree::read();
    for quoted in in_backticks(&document(PROOFS)) {
        let wrong = format!("{quoted}x");
        assert!(!tree.has(&wrong), "{wrong}");
    }
}

/// RULES has each rule once, in the order in which they are checked.
#[test]
fn rules_stand_in_the_order_of_checking() {
    let all = tables(&document(RULES)).into_iter();
    let rules = all
        .filter(|table| table.header[0] == "Rule")
        .flat_map(|table| table.rows);
    let numbers: Vec<String> = rules.map(|row| row[0].clone()).collect();
    let order = (1..=19).chain(21..=27).chain([20]);
    assert_eq!(
        numbers,
        order.map(|n: usize| n.to_string()).collect::<Vec<_>>()
    );
}
