//! An id O.. in a document, a test or a recorded line stands in bold in docs/DECISIONS.md, where its decision is.

use std::collections::BTreeSet;
use std::path::Path;

use crate::programs::{file, text};

/// The ids of a text: an O, or an o before a recorded line's number, and digits, as a word of its own.
fn ids(text: &str) -> BTreeSet<String> {
    let words = text.split(|byte: char| !byte.is_ascii_alphanumeric() && byte != '-');
    let id = |word: &str| {
        let number = word.strip_prefix(['O', 'o'])?;
        let digits = !number.is_empty() && number.bytes().all(|byte| byte.is_ascii_digit());
        digits.then(|| format!("O{number}"))
    };
    words.filter_map(id).collect()
}

/// The decided ones: those in the bold beginning of a paragraph.
fn decided() -> BTreeSet<String> {
    let decisions = text("docs/DECISIONS.md");
    let bold = decisions.lines().filter_map(|line| {
        let (heading, _) = line.strip_prefix("**")?.split_once("**")?;
        Some(ids(heading))
    });
    bold.flatten().collect()
}

/// Every file of a folder and its folders, but for what cargo makes.
fn files(folder: &Path, found: &mut Vec<String>) {
    let entries = std::fs::read_dir(folder).unwrap_or_else(|error| panic!("{folder:?}: {error}"));
    for entry in entries {
        let path = entry.expect("an entry").path();
        let kept = |extension: &str| path.extension().is_some_and(|found| found == extension);
        if path.is_dir() && !path.ends_with("target") && !path.ends_with("docs/src") {
            files(&path, found);
        } else if ["md", "rs", "c", "h"].into_iter().any(kept) {
            found.push(path.to_string_lossy().into_owned());
        }
    }
}

#[test]
fn ids_lead_to_their_decisions() {
    let decided = decided();
    assert!(decided.len() > 90, "{}", decided.len());
    let mut paths = Vec::new();
    for folder in ["docs", "host"] {
        files(&file(folder), &mut paths);
    }
    assert!(paths.len() > 50);
    for path in paths {
        let text = std::fs::read_to_string(&path).expect("text");
        let lost: Vec<String> = ids(&text).difference(&decided).cloned().collect();
        assert!(lost.is_empty(), "{path}: {lost:?}");
    }
}
