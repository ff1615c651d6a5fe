//! The reply to the tender and its annexes: every figure is run, every sum is worked, every name in
//! backticks is of the tree, and every sentence has its line in the annex of proofs.
//!
//! Figures are read from the documents themselves. A figure, a sum or a name that is changed there
//! fails; tests here change each in turn and see that it does.

mod answers;
mod changes;
mod day;
mod edits;
mod examples;
mod figures;
mod limits;
mod names;
mod sentences;
mod sums;
mod text;
mod words;

const REPLY: &str = "docs/REPLY.md";
const FIGURES: &str = "docs/reply/FIGURES.md";
const PROOFS: &str = "docs/reply/PROOFS.md";
const AUDIT: &str = "docs/AUDIT.md";
const RULES: &str = "docs/reply/RULES.md";
const CHANGES: &str = "docs/reply/CHANGES.md";

/// The group of basis and limits, which has no example; behind it each later request has its group.
const BASIS_GROUP: usize = 15;
const LAST_GROUP: usize = 21;

fn no_errors(errors: Vec<String>) {
    assert!(errors.is_empty(), "{}", errors.join("\n"));
}
