//! The corpora: the reference is held to the same files as the product, and the seed makes them
//! again byte for byte. `CORPUS_DIR` names another directory than `../crates/corpus`,
//! `HOST_CORPUS_DIR` another than `../host/corpus`.

use std::env;
use std::path::PathBuf;

use reference::corpus::{check, corpus_of, DEFAULT_SEED};
use reference::edges::Edges;
use reference::edition::Edition;
use reference::form::Form;
use reference::packed::{output, pack, unpack};
use reference::worked_day::example_batch;

fn directory(variable: &str, in_project: &str) -> PathBuf {
    match env::var_os(variable) {
        Some(directory) => PathBuf::from(directory),
        None => [env!("CARGO_MANIFEST_DIR"), "..", in_project]
            .iter()
            .collect(),
    }
}

#[test]
fn reference_is_held_to_the_corpus() {
    let directory = directory("CORPUS_DIR", "crates/corpus");
    let census = check(&directory, Form::BATCH, DEFAULT_SEED).expect("the corpus holds");
    println!("{census}");
    assert!(
        census.broken[1..].iter().all(|&count| count >= 10),
        "{census}"
    );
    assert!(
        census.listed[1..].iter().all(|&count| count >= 150),
        "{census}"
    );
    assert_eq!(census.longest_list, 15_840);
    assert!(
        census.refused_cases[1..].iter().all(|&count| count >= 5),
        "{census}"
    );
    for number in [1, 2, 3, 4, 6] {
        assert!(census.refused_plans[number] >= 20, "{census}");
    }
    assert!(census.framing[1] >= 5 && census.framing[4] >= 5, "{census}");
    assert!(
        census.accepted >= 500 && census.empty_batches >= 1,
        "{census}"
    );
    assert_eq!(census.greatest, [16, 48, 4]);
    for edition in Edition::ALL {
        let of = census.of(edition);
        assert!(of.cases >= 90 && of.accepted >= 200, "{census}");
        assert!(of.broken >= 250 && of.refused >= 250, "{census}");
    }
}

#[test]
fn reference_is_held_to_the_corpus_of_the_host_form() {
    let directory = directory("HOST_CORPUS_DIR", "host/corpus");
    let census = check(&directory, Form::HOST, DEFAULT_SEED).expect("the corpus holds");
    println!("{census}");
    assert_eq!(census.greatest, [64, 96, 4]);
    assert_eq!(census.longest_list, 126_240);
    assert!((20..=40).contains(&census.batches), "{census}");
    assert!(
        census.large.accepted >= 15 && census.large.broken >= 10,
        "{census}"
    );
    assert!(
        census.refused_cases[3] >= 8 && census.refused_cases[4] >= 3,
        "{census}"
    );
    for number in [1, 2, 3, 4, 6] {
        assert!(census.refused_plans[number] >= 2, "{census}");
    }
    assert!(census.framing[1] >= 2 && census.framing[4] >= 1, "{census}");
}

/// Every edge that a corpus lists is shown by some plan of it.
#[test]
fn corpora_show_every_edge() {
    for form in [Form::BATCH, Form::HOST] {
        let corpus = corpus_of(form, DEFAULT_SEED);
        let mut edges = Edges::none(form);
        for batch in unpack(&corpus.stdin).expect("batches are packed") {
            edges.add(batch);
        }
        for (name, count) in edges.in_order() {
            assert!(count > 0, "{name} is never shown");
            assert!(corpus.readme.contains(&format!("| {name} | {count} |")));
        }
    }
}

#[test]
fn another_seed_makes_another_corpus_within_bounds() {
    for (form, most_bytes) in [(Form::BATCH, 6_600_000), (Form::HOST, 1_500_000)] {
        let [one, other] = [0, 1].map(|more| corpus_of(form, DEFAULT_SEED + more));
        for corpus in [&one, &other] {
            assert!(corpus.stdin.len() < most_bytes && corpus.stdout.len() < 1_000_000);
        }
        assert_ne!(one.stdin, other.stdin);
    }
}

#[test]
fn output_has_the_lines_of_the_example() {
    let lines = output(Form::BATCH, &[Vec::new(), example_batch()]);
    let lines: Vec<&str> = lines.lines().collect();
    assert_eq!(lines[..3], ["batch 0", "batch 1", "0 case 2 2 0"]);
    // In edition 5 the case has 258 bytes and each plan 111.
    assert!(lines[3].starts_with("rewritten 258 "));
    assert_eq!(lines[4], "1 accepted 167860");
    assert!(lines[5].starts_with("completion 53 "));
    assert!(lines[6].starts_with("rewritten 111 "));
    // The list of plan (b) is one breach, the bytes 5, 2, 1, 0.
    assert_eq!(lines[7..9], ["2 broken 5 2 1 0", "breaches 1 201705985"]);
    assert!(lines[9].starts_with("rewritten 111 "));
    assert_eq!(lines[10..], ["3 refused 1 8"]);
}

#[test]
fn packing_is_undone() {
    let batches = [vec![1, 2, 3], vec![], vec![9]];
    let packed = pack(&batches);
    assert_eq!(packed, [0, 0, 0, 3, 1, 2, 3, 0, 0, 0, 0, 0, 0, 0, 1, 9]);
    assert_eq!(unpack(&packed), Ok(vec![&[1, 2, 3][..], &[], &[9]]));
    assert!(unpack(&packed[..3]).is_err());
    assert!(unpack(&packed[..6]).is_err());
}
