//! Cuts out of docs/src the items that are needed of files that can't be built whole.
//!
//! constraints.rs and types.rs lean on the rest of dexdec, so only the data types of the first and
//! `SourceTypeLattice` of the second are taken, character for character, into OUT_DIR.

use std::{env, fs, path::Path};

const TYPES: &str = "../../docs/src/dexdec/src/ir/analysis/types.rs";
const CONSTRAINTS: &str = "../../docs/src/dexdec/src/ir/analysis/types/constraints.rs";

/// First lines of the items of constraints.rs that lattice.rs names.
const ITEMS: [&str; 5] = [
    "pub(super) enum BoundKind {",
    "pub(super) struct TypeBound {",
    "impl TypeBound {",
    "pub(super) struct NormalizedTypeConstraints {",
    "pub(super) enum ArrayConstraint {",
];

fn main() {
    println!("cargo:rerun-if-changed=build.rs");
    let constraints = read(CONSTRAINTS);
    let items: Vec<&str> = ITEMS.iter().map(|head| item(&constraints, head)).collect();
    write("constraints.rs", &items.join("\n"));
    // The one item that names sets, by itself: `limits` builds it again over sets that count.
    let sets = "pub(super) struct NormalizedTypeConstraints {";
    write("normalized.rs", item(&constraints, sets));

    let types = read(TYPES);
    let start = line_start(&types, "pub(super) struct SourceTypeLattice<'a> {");
    let end = line_start(&types, "pub struct TypeSolver<'a> {");
    write("source.rs", &types[start..end]);
}

fn read(path: &str) -> String {
    println!("cargo:rerun-if-changed={path}");
    fs::read_to_string(path).unwrap_or_else(|error| panic!("{path}: {error}"))
}

fn write(name: &str, text: &str) {
    let folder = env::var("OUT_DIR").expect("cargo sets OUT_DIR");
    fs::write(Path::new(&folder).join(name), text).expect("OUT_DIR can be written");
}

/// The place where the one line `line` begins.
fn line_start(text: &str, line: &str) -> usize {
    let whole = format!("\n{line}\n");
    let mut places = text.match_indices(&whole);
    let (at, _) = places.next().unwrap_or_else(|| panic!("no line {line}"));
    assert!(places.next().is_none(), "more than one line {line}");
    at + 1
}

/// The item that begins with line `head`, with a `#[derive]` line before it, to its closing brace.
fn item<'a>(text: &'a str, head: &str) -> &'a str {
    let start = line_start(text, head);
    let end = start + text[start..].find("\n}\n").expect("a closing brace") + 3;
    let before = text[..start - 1].rfind('\n').map_or(0, |at| at + 1);
    let derived = text[before..start].starts_with("#[derive(");
    &text[if derived { before } else { start }..end]
}
