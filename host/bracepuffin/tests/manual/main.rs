//! What the README and the manual show is so: every fragment stands in a file that is compiled, and every line of output is what
//! the program prints. A block without a mark fails, so that no other one gets in; `blocks` has the marks.

mod blocks;
mod ids;
#[path = "../shared/programs.rs"]
mod programs;
mod short;

use std::cell::RefCell;
use std::collections::BTreeMap;
use std::env::consts::ARCH;
use std::error::Error;
use std::fmt::{Arguments, Write};

use blocks::{blocks, part};
use bracepuffin::{read_type, Names, Refusal};
use programs::{file, prints, text, typeline};

const DOCUMENTS: [&str; 2] = ["README.md", "docs/MANUAL.md"];

thread_local! {
    static SAID: RefCell<String> = const { RefCell::new(String::new()) };
}

fn say(line: Arguments) {
    SAID.with_borrow_mut(|said| writeln!(said, "{line}").expect("a string takes it"));
}

/// In the place of the library's own, in the examples below: what they print is kept.
macro_rules! println {
    ($($part:tt)*) => { crate::say(format_args!($($part)*)) };
}

#[path = "../../examples/first.rs"]
mod first;
#[path = "../../examples/layers.rs"]
mod layers;
#[path = "../../examples/manual.rs"]
mod manual;
#[path = "../../examples/notice.rs"]
mod notice;

/// What a program of the documents prints.
fn printed(path: &str) -> String {
    let rust = |main: fn() -> Result<(), Box<dyn Error>>| {
        main().expect("the example ends well");
        SAID.take()
    };
    match path {
        "host/bracepuffin/examples/first.rs" => rust(first::main),
        "host/bracepuffin/examples/layers.rs" => rust(layers::main),
        "host/bracepuffin/examples/manual.rs" => rust(manual::main),
        "host/bracepuffin/examples/notice.rs" => rust(notice::main),
        "host/examples/call.c" => prints(&file(path), "manual_call", &["-std=c99"]),
        _ => panic!("{path} is none of the programs"),
    }
}

#[test]
fn every_block_has_a_mark() {
    let words = [
        "from ",
        "printed by ",
        "frames",
        "said",
        "command",
        "drawing",
    ];
    for block in DOCUMENTS.iter().flat_map(|document| blocks(document)) {
        let known = words.iter().any(|word| block.mark.starts_with(word));
        assert!(known, "{}: {:?} is no mark", block.place, block.mark);
    }
}

#[test]
fn fragments_stand_in_their_files() {
    let mut compared = 0;
    for block in DOCUMENTS.iter().flat_map(|document| blocks(document)) {
        let Some(source) = block.mark.strip_prefix("from ") else {
            continue;
        };
        let (path, name) = source.split_once(": ").expect("a path and a name");
        assert_eq!(block.text(), part(path, name), "{}", block.place);
        compared += 1;
    }
    assert!(compared > 10, "{compared}");
}

/// All that a program prints is shown, in as many blocks as a document likes.
#[test]
fn all_that_is_printed_is_shown() {
    for document in DOCUMENTS {
        let mut shown = BTreeMap::<String, String>::new();
        for block in blocks(document) {
            if let Some(path) = block.mark.strip_prefix("printed by ") {
                *shown.entry(path.to_owned()).or_default() += &block.text();
            }
        }
        assert!(!shown.is_empty(), "{document}");
        for (path, shown) in shown {
            assert_eq!(shown, printed(&path), "{document}, {path}");
        }
    }
}

/// `typeline` is for x86-64: tests that are built for another machine cannot run it.
#[test]
fn frames_say_what_is_shown() {
    if ARCH != "x86_64" {
        return;
    }
    let mut input = String::new();
    let mut compared = 0;
    for block in DOCUMENTS.iter().flat_map(|document| blocks(document)) {
        let (word, path) = match block.mark.split_once(" of ") {
            Some((word, path)) => (word, Some(path)),
            None => (block.mark.as_str(), None),
        };
        match word {
            "frames" => {
                let frame = |line: &String| line.split(' ').next().map(|word| format!("{word}\n"));
                input = block.lines.iter().filter_map(frame).collect();
                if let Some(path) = path {
                    assert_eq!(input, text(path), "{}", block.place);
                }
            }
            "said" => {
                if let Some(path) = path {
                    input = text(path);
                }
                assert_eq!(block.text(), typeline(&input), "{}", block.place);
                compared += 1;
            }
            _ => {}
        }
    }
    assert!(compared > 2, "{compared}");
}

/// NUL and a supplementary character as class files have them.
#[test]
fn modified_utf8_is_refused() {
    for name in [&b"\xc0\x80"[..], b"\xed\xa0\xbd\xed\xb8\x80"] {
        let error = Names::new([name]).expect_err("not well-formed");
        assert_eq!(error.refusal(), Refusal::Utf8);
        let refusal = Refusal::UnexpectedByte {
            offset: 1,
            byte: name[0],
        };
        let descriptor = [b"L", name, b";"].concat();
        assert_eq!(read_type(&descriptor), Err(refusal));
    }
}
