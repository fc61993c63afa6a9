//! Lines of at most a hundred characters in what a newcomer reads, where a row of a table cannot be broken; and contracts that can be read.

use std::fs;
use std::path::{Path, PathBuf};

use crate::programs::{file, text};

const DOCUMENTS: [&str; 5] = [
    "README.md",
    "docs/SCOPE.md",
    "docs/MANUAL.md",
    "docs/TRUST.md",
    "host/README.md",
];

#[test]
fn lines_are_short() {
    for document in DOCUMENTS {
        for (number, line) in text(document).lines().enumerate() {
            let length = line.chars().count();
            let row = line.starts_with('|');
            assert!(
                row || length <= 100,
                "{document}, line {}: {length}",
                number + 1
            );
        }
    }
}

/// The Rattle files below a folder.
fn rattle(folder: &Path, found: &mut Vec<PathBuf>) {
    for entry in fs::read_dir(folder).expect("the folder is there") {
        let path = entry.expect("it can be read").path();
        if path.is_dir() {
            rattle(&path, found);
        } else if path.extension().is_some_and(|kind| kind == "rt") {
            found.push(path);
        }
    }
}

/// A clause of at most 300 characters can be read; a longer one wants a definition with a name.
#[test]
fn clauses_are_short() {
    let (mut files, mut clauses) = (Vec::new(), 0);
    rattle(&file("crates"), &mut files);
    for path in files {
        let source = fs::read_to_string(&path).expect("the file is text");
        for (number, line) in source.lines().enumerate() {
            let line = line.trim_start();
            let asks = line.strip_prefix("requires {");
            if let Some(clause) = asks.or_else(|| line.strip_prefix("ensures {")) {
                let length = clause.trim_end_matches('}').trim().chars().count();
                assert!(length <= 300, "{path:?}, line {}: {length}", number + 1);
                clauses += 1;
            }
        }
    }
    assert!(clauses > 700, "{clauses} clauses in all crates");
}
