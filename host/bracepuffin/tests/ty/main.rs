//! The types of the crate against those of ty.rs, in one process: what is asked of them, their order and their text.

mod facts;
mod order;
mod text;

use bracepuffin::{ArgType, Names};

/// Ascending. One begins another, one is not ASCII, and the order of bytes is not that of the parts between slashes.
const NAMES: [&str; 9] = [
    "a",
    "a$b",
    "a/b",
    "aa",
    "java/lang/Class",
    "java/lang/Object",
    "java/lang/String",
    "java/lang/Throwable",
    "\u{e9}",
];

/// Payloads of Unknowns: no member, one, several in both orders, some that begin others, and the standard ones.
const LISTS: [u64; 14] = [
    0x0000_0000_0000,
    0x1000_0000_0000,
    0x1500_0000_0000,
    0x1900_0000_0000,
    0x1a00_0000_0000,
    0x2050_0000_0000,
    0x2150_0000_0000,
    0x2510_0000_0000,
    0x29a0_0000_0000,
    0x2680_0000_0000,
    0x3501_0000_0000,
    0x8571_3249_a000,
    0xa567_8132_49a0,
    0xb012_3456_789a,
];

fn names() -> Names {
    Names::new(NAMES).expect("a table")
}

fn owned_names() -> Vec<String> {
    NAMES.map(String::from).to_vec()
}

/// The words of types of every kind, of no dimension, of some and of the most.
fn words() -> Vec<u64> {
    let mut bases: Vec<u64> = (0..=10).collect();
    bases.extend((0..NAMES.len() as u64).map(|class| 1 << 48 | class));
    bases.extend(LISTS.map(|payload| 2 << 48 | payload));
    let depths = [0, 1, 2, 3, 254, 255];
    let with_depths = bases
        .iter()
        .flat_map(|base| depths.map(|depth| depth << 56 | base));
    with_depths.collect()
}

/// A type of the crate and the same of ty.rs, of each word.
fn types(names: &Names) -> Vec<(ArgType<'_>, dexdec::ArgType)> {
    let both = |word| {
        let ours = names.type_of(names.word_from_bits(word));
        let ours = ours.expect("a word of a type");
        let theirs = words::parse(word, &owned_names()).expect("a word of a type");
        (ours, theirs)
    };
    words().into_iter().map(both).collect()
}
