//! Reading: every short string, damaged copies of real descriptors, random ones.

use std::str::FromStr;

use bracepuffin::{slices, ArgType, Base, PrimitiveType, Refusal};
use judge::cases::{any_descriptor, each_damaged, each_string};
use judge::cases::{ALPHABET, REAL_METHODS, REAL_TYPES};
use judge::rng::Rng;
use judge::{paper, rust};

use crate::{cases, method_numbers, type_numbers, POISON};

/// All four readers on one string, against the rules and, where it is UTF-8, against ty.rs.
fn compare(d: &[u8]) {
    compare_types(d);
    compare_methods(d, false);
    compare_methods(d, true);
    if let Ok(text) = std::str::from_utf8(d) {
        compare_type_with_rust(text);
        compare_method_with_rust(text);
    }
}

fn compare_types(d: &[u8]) {
    let ordinary = type_numbers(slices::read_type(d));
    assert_eq!(ordinary, paper::read_type(d, false), "{}", shown(d));
    let strict = type_numbers(slices::read_type_strict(d));
    assert_eq!(strict, paper::read_type(d, true), "strict {}", shown(d));
}

fn compare_methods(d: &[u8], strict: bool) {
    let mut lent = [POISON; 258];
    let params = &mut lent[..255 + d.len() % 3];
    let read = match strict {
        false => slices::read_method(d, params),
        true => slices::read_method_strict(d, params),
    };
    let expected = paper::read_method(d, strict);
    assert_eq!(method_numbers(read), expected.numbers, "{}", shown(d));
    let (written, rest) = lent.split_at(expected.parameters.len());
    assert_eq!(written, expected.parameters, "{}", shown(d));
    assert!(rest.iter().all(|entry| *entry == POISON), "{}", shown(d));
}

fn compare_type_with_rust(text: &str) {
    let answer = bracepuffin::read_type(text.as_bytes());
    match (answer, dexdec::ArgType::from_str(text)) {
        (Ok(ours), Ok(theirs)) => assert!(same(ours, &theirs), "{text:?}"),
        (Err(ours), Err(theirs)) if !is_limit(ours) => {
            assert_eq!(numbers(ours), rust::refusal(&theirs), "{text:?}");
        }
        (ours, theirs) => beyond_limit(ours.err(), theirs.err().as_ref(), text),
    }
}

fn compare_method_with_rust(text: &str) {
    let answer = bracepuffin::read_method(text.as_bytes());
    match (answer, dexdec::MethodDescriptor::from_str(text)) {
        (Ok(ours), Ok(theirs)) => {
            assert_eq!(ours.parameters.len(), theirs.parameters.len());
            let mut pairs = ours.parameters.iter().zip(&theirs.parameters);
            assert!(pairs.all(|(ours, theirs)| same(*ours, theirs)), "{text:?}");
            assert!(same(ours.return_type, &theirs.return_type), "{text:?}");
        }
        (Err(ours), Err(theirs)) if !is_limit(ours) => {
            assert_eq!(numbers(ours), rust::refusal(&theirs), "{text:?}");
        }
        (ours, theirs) => beyond_limit(ours.err(), theirs.err().as_ref(), text),
    }
}

/// The Rust has no limits: it may accept what is refused 18 or 19, or find a fault there or later.
fn beyond_limit(ours: Option<Refusal>, theirs: Option<&dexdec::DescriptorParseError>, text: &str) {
    let ours = ours.filter(|ours| is_limit(*ours));
    let ours = ours.unwrap_or_else(|| panic!("one accepts {text:?}: {theirs:?}"));
    let earlier =
        theirs.is_some_and(|error| (rust::refusal(error)[1] as usize) < ours.offset().unwrap_or(0));
    assert!(!earlier, "{text:?}: {ours:?} {theirs:?}");
}

fn is_limit(refusal: Refusal) -> bool {
    matches!(
        refusal,
        Refusal::TooManyDimensions { .. } | Refusal::TooManyParameters { .. }
    )
}

fn numbers(refusal: Refusal) -> [u64; 3] {
    [
        refusal.number(),
        refusal.offset().unwrap_or(0) as u64,
        refusal.byte().unwrap_or(0).into(),
    ]
}

fn same(ours: ArgType, theirs: &dexdec::ArgType) -> bool {
    let mut element = theirs;
    for _ in 0..ours.dimensions {
        match element {
            dexdec::ArgType::Array(inner) => element = inner,
            _ => return false,
        }
    }
    match (ours.base, element) {
        (Base::Primitive(ours), dexdec::ArgType::Primitive(theirs)) => {
            PrimitiveType::ALL[words::category_number(*theirs) as usize] == ours
        }
        (Base::Object(ours), dexdec::ArgType::Object(theirs)) => ours == theirs,
        _ => false,
    }
}

fn shown(d: &[u8]) -> String {
    d.escape_ascii().to_string()
}

#[test]
fn every_string_up_to_length_3() {
    each_string(&ALPHABET, 3, &mut compare);
}

#[test]
fn every_string_of_2_inside_a_method_and_a_class() {
    each_string(&ALPHABET, 2, &mut |inner| {
        for (before, after) in [
            ("(", ")V"),
            ("(", ""),
            ("()", ""),
            ("(I[", "I)[J"),
            ("L", ";"),
            ("[L", ";I"),
        ] {
            compare(&[before.as_bytes(), inner, after.as_bytes()].concat());
        }
    });
}

#[test]
fn damaged_copies_of_real_descriptors() {
    for real in REAL_TYPES.iter().chain(&REAL_METHODS) {
        assert_eq!(
            slices::read_type(real.as_bytes()).refusal == 0,
            REAL_TYPES.contains(real)
        );
        compare(real.as_bytes());
        each_damaged(real.as_bytes(), &mut compare);
    }
}

#[test]
fn a_million_random_strings() {
    let mut rng = Rng::new(1, "a million");
    let mut d = Vec::new();
    for _ in 0..cases(1_000_000) {
        any_descriptor(&mut rng, &mut d);
        compare(&d);
    }
}

#[test]
fn every_byte_alone_and_after_each_mark() {
    for byte in 0..=255 {
        for before in ["", "[", "[[", "L", "La", "I", "(", "(I", "()", "()[", "()I"] {
            compare(&[before.as_bytes(), &[byte]].concat());
        }
    }
}

#[test]
fn refusals_print_as_those_of_the_rust() {
    let mut kinds = std::collections::BTreeSet::new();
    each_string(b"(V)[LI;x\xc3\xa9", 4, &mut |d| {
        let Ok(text) = std::str::from_utf8(d) else {
            return;
        };
        if let Err(theirs) = dexdec::ArgType::from_str(text) {
            let ours = bracepuffin::read_type(d).expect_err("refused by the Rust");
            assert_eq!(ours.to_string(), theirs.to_string());
        }
        if let Err(theirs) = dexdec::MethodDescriptor::from_str(text) {
            let ours = bracepuffin::read_method(d).expect_err("refused by the Rust");
            assert_eq!(ours.to_string(), theirs.to_string());
            kinds.insert(ours.number());
        }
    });
    assert_eq!(Vec::from_iter(kinds), [11, 12, 13, 14, 15, 16, 17]);
}
