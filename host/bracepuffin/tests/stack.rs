//! The stack that calls take: docs/TRUST.md states it, the header and the manual say the same, and no call takes more on the
//! inputs of host/examples/stack.c. `tools/stack --write` puts a new measurement into all three.

#[path = "shared/programs.rs"]
mod programs;

use std::env::consts::ARCH;

use programs::{file, prints, text};

/// What stands between two lines of a file.
fn between(path: &str, begin: &str, end: &str) -> String {
    let whole = text(path);
    let (_, rest) = whole.split_once(begin).expect("the begin");
    rest.split_once(end).expect("the end").0.to_owned()
}

/// Each call with its KB, as docs/TRUST.md has them.
fn stated() -> Vec<(String, u64)> {
    let rows = between(
        "docs/TRUST.md",
        "<!-- stack: begin -->\n",
        "<!-- stack: end -->",
    );
    let row = |line: &str| {
        let (name, kb) = line.strip_prefix("| `")?.split_once("` | ")?;
        Some((name.to_owned(), kb.strip_suffix(" |")?.parse().ok()?))
    };
    rows.lines().filter_map(row).collect()
}

fn of(stated: &[(String, u64)], call: &str) -> u64 {
    let found = stated.iter().find(|(name, _)| name == call);
    found.unwrap_or_else(|| panic!("{call} is not stated")).1
}

#[test]
fn the_header_and_the_manual_say_the_same() {
    let stated = stated();
    assert_eq!(stated.len(), 16);
    let header = between(
        "host/include/bracepuffin.h",
        " * stack: begin\n",
        " * stack: end",
    );
    let row = |line: &str| {
        let mut words = line.strip_prefix(" *")?.split_whitespace();
        Some((words.next()?.to_owned(), words.next()?.parse().ok()?))
    };
    let shown: Vec<(String, u64)> = header.lines().filter_map(row).collect();
    assert_eq!(shown, stated);

    let manual = between(
        "docs/MANUAL.md",
        "<!-- stack: begin -->\n",
        "<!-- stack: end -->",
    );
    let words = manual.split_whitespace();
    let numbers: Vec<u64> = words.filter_map(|word| word.parse().ok()).collect();
    let asked = ["bp_relation", "bp_supertype", "bp_join", "bp_assignable"];
    let question = asked.map(|call| of(&stated, call)).into_iter().max();
    assert_eq!(
        numbers,
        [
            of(&stated, "bp_read_type"),
            of(&stated, "bp_read_method"),
            question.expect("four calls"),
            of(&stated, "bp_solve"),
        ]
    );
}

/// What is stated is of the archive for x86-64.
#[test]
fn no_call_takes_more() {
    if ARCH != "x86_64" {
        return;
    }
    let stated = stated();
    let options = ["-O2", "-pthread", "-Wl,-z,now"];
    let printed = prints(&file("host/examples/stack.c"), "stack", &options);
    let mut measured = 0;
    for line in printed.lines() {
        let (call, bytes) = line.split_once(' ').expect("a call and its bytes");
        let bytes: u64 = bytes.parse().expect("a number");
        let kb = of(&stated, call);
        assert!(bytes <= 1024 * kb, "{call}: {bytes} bytes, stated {kb} KB");
        measured += 1;
    }
    assert_eq!(measured, stated.len());
}
