//! Must-fail edits, of the gate and beside it: every text that one replaces stands in its file.

use std::fs;
use std::path::{Path, PathBuf};

use crate::names::root;
use crate::no_errors;

/// The folders of edits, each with the crate that they are of.
fn folders() -> Vec<(PathBuf, PathBuf)> {
    let crates = root().join("crates");
    let mut folders = Vec::new();
    for of_crate in entries(&crates) {
        folders.push((of_crate.join("must-fail"), of_crate));
    }
    for folder in entries(&root().join("edits")) {
        let name = folder.file_name().expect("a name").to_owned();
        folders.push((folder, crates.join(name)));
    }
    folders.retain(|(folder, _)| folder.is_dir());
    folders
}

fn entries(folder: &Path) -> Vec<PathBuf> {
    let entries = fs::read_dir(folder).unwrap_or_else(|e| panic!("{}: {e}", folder.display()));
    entries
        .map(|entry| entry.expect("an entry").path())
        .collect()
}

/// Carries an edit out, line by line: `file: F`, then `old: A` and `new: B` in turn. What cannot be
/// carried out is told.
fn fault(edit: &Path, of_crate: &Path) -> Option<String> {
    let lines = fs::read_to_string(edit).expect("an edit");
    let (mut text, mut old) = (String::new(), String::new());
    for line in lines.lines().filter(|line| !line.starts_with('#')) {
        let told = Some(format!("{}: {line}", edit.display()));
        let Some((key, value)) = line.split_once(':') else {
            return told;
        };
        let value = value.strip_prefix(' ').unwrap_or(value);
        match key {
            "file" => match fs::read_to_string(of_crate.join(value)) {
                Ok(found) => text = found,
                Err(_) => return told,
            },
            "old" => old = value.to_string(),
            "new" if text.contains(&old) => text = text.replacen(&old, value, 1),
            _ => return told,
        }
    }
    None
}

#[test]
fn every_edit_replaces_what_stands_in_its_file() {
    let mut edits = 0;
    let mut faults = Vec::new();
    for (folder, of_crate) in folders() {
        for edit in entries(&folder) {
            edits += 1;
            faults.extend(fault(&edit, &of_crate));
        }
    }
    assert!(edits > 600, "{edits} edits");
    no_errors(faults);
}
