//! Descriptors: ty.rs, the boundary over slices, and the wrapper.

use std::hint::black_box;
use std::str::FromStr;

use bracepuffin::{slices, Names, Offsets, TypeWord};
use dexdec::{ArgType, MethodDescriptor};

use crate::measure::{Effort, Row};

pub fn rows(effort: Effort) -> Vec<Row> {
    let mut rows = Vec::new();
    let long_name = "com/example/".repeat(20) + "Name";
    let deep = "[".repeat(255) + "I";
    for (what, text) in [
        ("`I`", "I"),
        ("`[[J`", "[[J"),
        ("`Ljava/lang/String;`", "Ljava/lang/String;"),
        ("a name of 244 bytes", &format!("L{long_name};")),
        (
            "a name of 99 bytes, not ASCII",
            &format!("L{};", "\u{65e5}".repeat(33)),
        ),
        ("`Lcom/example/Straße/Größe;`", "Lcom/example/Straße/Größe;"),
        ("255 dimensions", &deep),
        ("`[V`, refused", "[V"),
    ] {
        rows.push(parse_type(effort, what, text));
    }
    let many = format!("({})V", "Ljava/lang/Object;I[J".repeat(20));
    for (what, text) in [
        ("`()V`", "()V"),
        ("`(ILjava/lang/Object;)Z`", "(ILjava/lang/Object;)Z"),
        ("60 parameters", &many),
        ("255 parameters `I`", &format!("({})V", "I".repeat(255))),
        ("`(ILjava/lang/Object;`, refused", "(ILjava/lang/Object;"),
    ] {
        rows.push(parse_method(effort, what, text));
    }
    let few = vec![
        "java/lang/Object".to_string(),
        "java/lang/String".to_string(),
    ];
    let mut full: Vec<String> = (0..1021)
        .map(|number| format!("com/example/C{number:04}"))
        .collect();
    full.extend_from_slice(&few);
    full.push(long_name.clone());
    full.sort();
    for (what, text, names) in [
        ("`I`, no names", "I", &vec![]),
        ("`Ljava/lang/String;`, 2 names", "Ljava/lang/String;", &few),
        (
            "a name of 244 bytes, 1 name",
            &format!("L{long_name};"),
            &vec![long_name.clone()],
        ),
        ("255 dimensions, no names", &deep, &vec![]),
        (
            "`Ljava/lang/String;`, 1,024 names",
            "Ljava/lang/String;",
            &full,
        ),
    ] {
        rows.push(write_type(effort, what, text, names));
    }
    for (what, text, names) in [
        ("`()V`, no names", "()V", &vec![]),
        (
            "`(ILjava/lang/Object;)Z`, 2 names",
            "(ILjava/lang/Object;)Z",
            &few,
        ),
        (
            "`(ILjava/lang/Object;)Z`, 1,024 names",
            "(ILjava/lang/Object;)Z",
            &full,
        ),
        ("60 parameters, 2 names", &many, &few),
        ("60 parameters, 1,024 names", &many, &full),
    ] {
        rows.push(write_method(effort, what, text, names));
    }
    rows.extend(without_the_heap(effort));
    rows
}

fn parse_type(effort: Effort, what: &str, text: &str) -> Row {
    Row::of(
        effort,
        format!("parse type {what}"),
        || ArgType::from_str(black_box(text)),
        || slices::read_type(black_box(text.as_bytes())),
        || bracepuffin::read_type(black_box(text.as_bytes())),
    )
}

fn parse_method(effort: Effort, what: &str, text: &str) -> Row {
    let mut params = [0; 255];
    Row::of(
        effort,
        format!("parse method {what}"),
        || MethodDescriptor::from_str(black_box(text)),
        || slices::read_method(black_box(text.as_bytes()), &mut params),
        || bracepuffin::read_method(black_box(text.as_bytes())),
    )
}

fn write_type(effort: Effort, what: &str, text: &str, names: &[String]) -> Row {
    let ty = ArgType::from_str(text).expect("a descriptor");
    let word = words::word(&ty, names).expect("a type with a word");
    let names = Names::new(names).expect("a sound table");
    let typed = names.word_from_bits(word);
    let mut out = [0; 512];
    assert_eq!(names.write_type(typed).as_deref(), Ok(text));
    Row::of(
        effort,
        format!("write type {what}"),
        || black_box(&ty).to_descriptor(),
        || slices::write_type(names.columns(), black_box(word), &mut out),
        || names.write_type(black_box(typed)),
    )
}

fn write_method(effort: Effort, what: &str, text: &str, names: &[String]) -> Row {
    let method = MethodDescriptor::from_str(text).expect("a descriptor");
    let word = |ty: &ArgType| words::word(ty, names).expect("a type with a word");
    let params: Vec<u64> = method.parameters.iter().map(word).collect();
    let result = word(&method.return_type);
    let names = Names::new(names).expect("a sound table");
    let mut out = vec![0; 4096];
    let typed: Vec<TypeWord> = params
        .iter()
        .map(|bits| names.word_from_bits(*bits))
        .collect();
    let typed_result = names.word_from_bits(result);
    assert_eq!(
        names.write_method(&typed, typed_result).as_deref(),
        Ok(text)
    );
    Row::of(
        effort,
        format!("write method {what}"),
        || black_box(&method).to_string(),
        || slices::write_method(names.columns(), black_box(&params), result, &mut out),
        || names.write_method(black_box(&typed), typed_result),
    )
}

/// The wrapper where it needs no heap, beside the same of the Rust, which does.
fn without_the_heap(effort: Effort) -> [Row; 2] {
    let (text, mut params, mut offsets) = ("(ILjava/lang/Object;)Z", [0; 255], Offsets::new());
    let method = Row::of(
        effort,
        format!("parse method `{text}`, no heap"),
        || MethodDescriptor::from_str(black_box(text)),
        || slices::read_method(black_box(text.as_bytes()), &mut params),
        || {
            let method = bracepuffin::read_method_into(black_box(text.as_bytes()), &mut offsets);
            let types = method.expect("a method").parameters();
            types.filter(|ty| black_box(ty).is_object()).count()
        },
    );
    let (names, word) = (Names::new([""; 0]).expect("a sound table"), 5);
    let (mut out, mut lent) = ([0; 512], [0; 512]);
    let written = Row::of(
        effort,
        "write type `I`, no names, no heap",
        || black_box(&ArgType::INT).to_descriptor(),
        || slices::write_type(names.columns(), black_box(word), &mut out),
        || {
            let written = names.write_type_into(black_box(names.word_from_bits(word)), &mut lent);
            written.map(str::len)
        },
    );
    [method, written]
}
