//! Names of the tree: every name in backticks is a path, a must-fail edit (of the gate or beside it) or a word of a source.

use std::collections::BTreeSet;
use std::fs;
use std::path::{Path, PathBuf};

/// The root of the repository.
pub fn root() -> PathBuf {
    Path::new(env!("CARGO_MANIFEST_DIR")).join("..")
}

pub fn document(name: &str) -> String {
    let path = root().join(name);
    fs::read_to_string(&path).unwrap_or_else(|e| panic!("{}: {e}", path.display()))
}

/// A source: where it stands, the name of its file, and its words, lines of comment left out.
struct Source {
    path: PathBuf,
    stem: String,
    words: BTreeSet<String>,
}

impl Source {
    fn has_all<'a>(&self, mut words: impl Iterator<Item = &'a str>) -> bool {
        words.all(|word| self.words.contains(word))
    }
}

/// The sources of the tree.
pub struct Tree(Vec<Source>);

impl Tree {
    pub fn read() -> Tree {
        let mut sources = Vec::new();
        for part in ["crates", "host", "reference/src"] {
            gather(&root().join(part), &mut sources);
        }
        Tree(sources)
    }

    /// Whether a name is of the tree.
    pub fn has(&self, name: &str) -> bool {
        expanded(name).iter().all(|one| self.has_one(one))
    }

    /// A path; `crate::function`; `File.name` or `Record.part`, both words of one source; a word.
    fn has_one(&self, name: &str) -> bool {
        if name.contains('/') {
            return is_path(name);
        }
        if let Some((of_crate, function)) = name.split_once("::") {
            let folder = root().join("crates").join(of_crate).join("src");
            return self
                .0
                .iter()
                .any(|source| source.path.starts_with(&folder) && source.words.contains(function));
        }
        let is_file = |source: &Source| source.stem == name;
        self.0.iter().any(|source| {
            let of_file = name.strip_prefix(&format!("{}.", source.stem));
            let rest = of_file.unwrap_or(name);
            is_file(source) || source.has_all(rest.split('.')) || source.has_all(name.split('.'))
        })
    }
}

/// A path from the root, or `CRATE/EDIT` for a must-fail edit, `CRATE/FILE` for definitions.
fn is_path(name: &str) -> bool {
    let root = root();
    if root.join(name).exists() {
        return true;
    }
    let Some((first, rest)) = name.split_once('/') else {
        return false;
    };
    let of_crate = root.join("crates").join(first);
    of_crate.join(format!("must-fail/{rest}.edit")).exists()
        || root.join(format!("edits/{name}.edit")).exists()
        || of_crate.join(format!("specs/{rest}.antt")).exists()
}

/// A name with each of `{a,b}` in turn.
fn expanded(name: &str) -> Vec<String> {
    match (name.find('{'), name.find('}')) {
        (Some(open), Some(close)) if open < close => {
            let (before, after) = (&name[..open], &name[close + 1..]);
            let choices = name[open + 1..close].split(',');
            choices
                .flat_map(|choice| expanded(&format!("{before}{choice}{after}")))
                .collect()
        }
        _ => vec![name.to_string()],
    }
}

fn gather(folder: &Path, sources: &mut Vec<Source>) {
    let entries = fs::read_dir(folder).unwrap_or_else(|e| panic!("{}: {e}", folder.display()));
    for entry in entries {
        let path = entry.expect("an entry").path();
        if path.is_dir() {
            if !path.ends_with("target") {
                gather(&path, sources);
            }
            continue;
        }
        let comment = match path.extension().and_then(|kind| kind.to_str()) {
            Some("antt") => "--",
            Some("rt" | "rs" | "c" | "h") => "//",
            _ => continue,
        };
        sources.push(source(path, comment));
    }
}

fn source(path: PathBuf, comment: &str) -> Source {
    let text = fs::read_to_string(&path).expect("a source");
    let between = |c: char| !(c.is_alphanumeric() || matches!(c, '_' | '-' | '\''));
    let code = text
        .lines()
        .filter(|line| !line.trim_start().starts_with(comment));
    let words = code
        .flat_map(|line| line.split(between))
        .map(str::to_string);
    let stem = path.file_stem().and_then(|stem| stem.to_str());
    Source {
        words: words.collect(),
        stem: stem.unwrap_or("").to_string(),
        path,
    }
}
