//! Cases for descriptors and names, judged by ty.rs, by the standard library and by the rules of the paper.

use judge::cases::{any_descriptor, any_method, any_name, any_table, any_type, any_word};
use judge::cases::{each_damaged, each_string, ALPHABET, CHARACTERS, REAL_METHODS, REAL_TYPES};
use judge::paper::Table;
use judge::{MethodAnswer, TypeAnswer};

use crate::out::{bytes, list, numbers, Out};
use crate::rng::Rng;

/// Entries that are enough for the parameters of every method.
const ENOUGH: u64 = 255;

/// Class names that tell strict reading from ordinary reading.
const NAMES: [&str; 20] = [
    "a",
    "a/b",
    "a/b/c",
    "/",
    "/a",
    "a/",
    "a//b",
    "//",
    "a/b/",
    ".",
    "a.b",
    "a/b.c",
    "[",
    "a[",
    "[a",
    "]",
    "(",
    "a$b",
    "\u{e9}/\u{65e5}",
    "\u{1f600}.",
];

// ---- types

fn type_case(out: &mut Out, d: &[u8], judge: fn(&[u8]) -> TypeAnswer) {
    out.tokens_if_short(&[bytes(d)], &numbers(&judge(d)));
}

/// A few copies of real descriptors with one fault each.
fn some_damaged(rng: &mut Rng, real: &[&str], count: u64) -> Vec<Vec<u8>> {
    let mut damaged = Vec::new();
    for whole in real {
        each_damaged(whole.as_bytes(), &mut |copy| damaged.push(copy.to_vec()));
    }
    (0..count).map(|_| rng.pick(&damaged).clone()).collect()
}

pub fn read_type(rng: &mut Rng, out: &mut Out) {
    each_string(&ALPHABET, 2, &mut |d| type_case(out, d, judge::read_type));
    each_string(b"[LV;", 3, &mut |d| type_case(out, d, judge::read_type));
    for d in deep_types() {
        type_case(out, &d, judge::read_type);
    }
    for real in REAL_TYPES {
        type_case(out, real.as_bytes(), judge::read_type);
    }
    for d in some_damaged(rng, &REAL_TYPES, out.cases(120)) {
        type_case(out, &d, judge::read_type);
    }
    each_random(rng, out.cases(160), any_type, |d| {
        type_case(out, d, judge::read_type);
    });
}

/// About as many dimensions as there may be.
fn deep_types() -> impl Iterator<Item = Vec<u8>> {
    let bases = ["", "I", "V", "La.b;"];
    bases.into_iter().flat_map(|base| {
        let dims = [255, 256].into_iter();
        dims.map(move |dims| [vec![b'['; dims], base.as_bytes().to_vec()].concat())
    })
}

pub fn read_type_strict(rng: &mut Rng, out: &mut Out) {
    for d in deep_types() {
        type_case(out, &d, judge::read_type_strict);
    }
    for name in NAMES {
        for (before, after) in [
            ("L", ";"),
            ("[L", ";"),
            ("[[L", ";"),
            ("L", ""),
            ("L", ";I"),
        ] {
            let d = format!("{before}{name}{after}");
            type_case(out, d.as_bytes(), judge::read_type_strict);
        }
    }
    each_string(b"a/.[", 4, &mut |name| {
        let d = [b"L", name, b";"].concat();
        type_case(out, &d, judge::read_type_strict);
    });
    for d in some_damaged(rng, &REAL_TYPES, out.cases(100)) {
        type_case(out, &d, judge::read_type_strict);
    }
    each_random(rng, out.cases(240), any_type, |d| {
        type_case(out, d, judge::read_type_strict);
    });
}

/// Random descriptors, three of four as `any` makes them, the others of any form and often damaged.
fn each_random(
    rng: &mut Rng,
    count: u64,
    any: fn(&mut Rng, &mut Vec<u8>),
    mut try_one: impl FnMut(&[u8]),
) {
    let mut d = Vec::new();
    for number in 0..count {
        d.clear();
        match number % 4 {
            0 => any_descriptor(rng, &mut d),
            _ => any(rng, &mut d),
        }
        try_one(&d);
    }
}

// ---- methods

fn method_case(out: &mut Out, d: &[u8], entries: u64, judge: fn(&[u8]) -> MethodAnswer) {
    let MethodAnswer {
        numbers: mut answer,
        mut parameters,
    } = judge(d);
    if entries < ENOUGH {
        answer = [22, 0, 0, 0, 0, 0, 0, 0, 0, 0];
        parameters.clear();
    }
    let mut tokens = numbers(&answer);
    tokens.extend(numbers(&parameters));
    out.tokens_if_short(&[bytes(d), format!("{entries:x}")], &tokens);
}

/// Numbers of entries below, at and above what is enough.
fn each_room(out: &mut Out, judge: fn(&[u8]) -> MethodAnswer) {
    for entries in [0, 1, 254, 255, 256] {
        for d in ["", "I", "()V", "(I)V", "(V)V", "(La.b;)V"] {
            method_case(out, d.as_bytes(), entries, judge);
        }
    }
}

fn each_method(rng: &mut Rng, out: &mut Out, judge: fn(&[u8]) -> MethodAnswer) {
    each_room(out, judge);
    for (parameters, rest) in [(255, ")V"), (256, ")V"), (255, "V)V"), (1, ")")] {
        let d = format!("({}{rest}", "I".repeat(parameters));
        method_case(out, d.as_bytes(), ENOUGH, judge);
    }
    for before in ["(I", "(I)"] {
        let deep = format!("{before}{}", "[".repeat(256));
        method_case(out, deep.as_bytes(), ENOUGH, judge);
    }
    for real in REAL_METHODS {
        method_case(out, real.as_bytes(), ENOUGH, judge);
    }
    for d in some_damaged(rng, &REAL_METHODS, out.cases(100)) {
        method_case(out, &d, ENOUGH, judge);
    }
    each_random(rng, out.cases(150), any_method, |d| {
        method_case(out, d, ENOUGH, judge);
    });
}

pub fn read_method(rng: &mut Rng, out: &mut Out) {
    for byte in ALPHABET {
        method_case(out, &[byte], ENOUGH, judge::read_method);
    }
    each_string(b"I[L;", 3, &mut |inner| {
        for (before, after) in [("(", ""), ("(", ")V"), ("()", "")] {
            let d = [before.as_bytes(), inner, after.as_bytes()].concat();
            method_case(out, &d, ENOUGH, judge::read_method);
        }
    });
    each_string(b"IV)L;[a\xff", 2, &mut |inner| {
        for (before, after) in [("(", ""), ("(", ")V"), ("()", ""), ("(I", ")[J")] {
            let d = [before.as_bytes(), inner, after.as_bytes()].concat();
            method_case(out, &d, ENOUGH, judge::read_method);
        }
    });
    each_method(rng, out, judge::read_method);
}

pub fn read_method_strict(rng: &mut Rng, out: &mut Out) {
    for name in NAMES {
        for d in [
            format!("(L{name};)V"),
            format!("([L{name};La/b;)I"),
            format!("(La/b;I)[L{name};"),
            format!("(L{name};)L{name};"),
            format!("(I[[L{name};L/;)V"),
            format!("(L{name};"),
            format!("(L{name};)"),
            format!("(L{name};)VV"),
        ] {
            method_case(out, d.as_bytes(), ENOUGH, judge::read_method_strict);
        }
    }
    for d in ["(L;)V", "()L;", "(La.b;L;)V"] {
        method_case(out, d.as_bytes(), ENOUGH, judge::read_method_strict);
    }
    each_method(rng, out, judge::read_method_strict);
}

// ---- names

fn names(table: &Table) -> Vec<String> {
    let mut tokens = vec![bytes(&table.store)];
    for column in [&table.at, &table.len] {
        tokens.extend(numbers(&list(column.iter().copied())));
    }
    tokens
}

/// Tables that tell the checks apart.
fn telling_tables() -> Vec<Table> {
    let place = |store: &[u8], at: &[u64], len: &[u64]| Table {
        store: store.to_vec(),
        at: at.to_vec(),
        len: len.to_vec(),
    };
    let of = |names: &[&[u8]]| Table::of(names);
    vec![
        Table::default(),
        of(&[b"a"]),
        of(&[b"a", b"a/b", b"ab", b"b"]),
        of(&[b"\0", b"\n", b";", b"[", "\u{e9}".as_bytes()]),
        place(b"xabcx", &[1, 1, 2], &[1, 2, 2]),
        place(b"ba", &[1, 0], &[1, 1]),
        // 3
        place(b"ab", &[0, 1], &[1]),
        place(b"ab", &[0], &[1, 1]),
        place(b"\xff", &[0], &[1, 1]),
        of(&[b""]),
        of(&[b"a", b""]),
        of(&[&[b'n'; 40], b""]),
        place(b"ab", &[0], &[256]),
        place(b"ab", &[0], &[u64::MAX]),
        place(b"ab", &[1], &[2]),
        place(b"ab", &[2], &[1]),
        place(b"ab", &[3], &[0]),
        place(b"ab", &[u64::MAX], &[2]),
        place(b"ab", &[u64::MAX - 1], &[2]),
        place(b"ab", &[u64::MAX], &[1]),
        // 10
        of(&[b"\xff"]),
        of(&[b"\xc0\x80"]),
        of(&[b"\xed\xa0\x80"]),
        of(&[b"\xf4\x90\x80\x80"]),
        of(&[b"a", b"b\xe2\x82"]),
        place("\u{e9}".as_bytes(), &[0], &[1]),
        // 5
        of(&[b"a", b"a"]),
        of(&[b"b", b"a"]),
        of(&[b"ab", b"a"]),
        of(&["\u{e9}".as_bytes(), b"z"]),
        // Two faults, in one row and in two.
        of(&[b"b", b"\xff"]),
        of(&[b"\xff", b""]),
        of(&[b"b", b"a", b""]),
        of(&[b"b", b"a", b"\xff"]),
        of(&[b"", b"\xff"]),
    ]
}

/// The answer of a writer as tokens.
fn written(answer: Result<String, u64>) -> [String; 2] {
    match answer {
        Ok(text) => ["0".to_string(), bytes(text.as_bytes())],
        Err(refusal) => [format!("{refusal:x}"), bytes(b"")],
    }
}

/// Room at, below or above what is needed, or any.
fn any_room(rng: &mut Rng, needed: Option<usize>) -> u64 {
    match (rng.below(6), needed) {
        (0, Some(needed)) => needed as u64 - 1,
        (1 | 2, Some(needed)) => needed as u64,
        (3, _) => rng.below(24),
        _ => 0x200,
    }
}

fn write_type_case(out: &mut Out, table: &Table, word: u64, room: u64) {
    let mut arguments = names(table);
    arguments.extend(numbers(&[word, room]));
    out.tokens_if_short(&arguments, &written(table.write_type(word, room as usize)));
}

pub fn write_type(rng: &mut Rng, out: &mut Out) {
    for table in telling_tables() {
        for word in [5, 0x0101_0000_0000_0001, u64::MAX] {
            write_type_case(out, &table, word, 40);
        }
    }
    let table = Table::of(&["a", "b/c"]);
    for word in [
        0,
        8,
        9,
        10,
        11,
        1 << 48,
        1 << 48 | 1,
        1 << 48 | 2,
        2 << 48,
        3 << 48,
    ] {
        for dimensions in [0, 1, 2] {
            for room in [0, 1, 2, 3, 5, 6, 0x200] {
                write_type_case(out, &table, dimensions << 56 | word, room);
            }
        }
        for room in [0xff, 0x200] {
            write_type_case(out, &table, 0xff << 56 | word, room);
        }
    }
    for _ in 0..out.cases(210) {
        let table = any_table(rng, 4);
        let word = any_word(rng, table.at.len());
        let needed = table.write_type(word, usize::MAX).ok();
        let room = any_room(rng, needed.map(|text| text.len()));
        write_type_case(out, &table, word, room);
    }
}

fn write_method_case(out: &mut Out, table: &Table, params: &[u64], result: u64, room: u64) {
    let mut arguments = names(table);
    arguments.extend(numbers(&list(params.iter().copied())));
    arguments.extend(numbers(&[result, room]));
    let answer = table.write_method(params, result, room as usize);
    out.tokens_if_short(&arguments, &written(answer));
}

pub fn write_method(rng: &mut Rng, out: &mut Out) {
    for table in telling_tables() {
        for params in [&[][..], &[5], &[5, u64::MAX]] {
            write_method_case(out, &table, params, 0, 40);
        }
    }
    let table = Table::of(&["a", "b/c"]);
    let class = 0x0101_0000_0000_0001;
    for params in [&[][..], &[5], &[0], &[class, 5], &[5, class, 6], &[5, 11]] {
        for result in [0, 5, class, 2 << 48, 1 << 48 | 2] {
            for room in [0, 2, 3, 4, 9, 10, 0x200] {
                write_method_case(out, &table, params, result, room);
            }
        }
    }
    for count in [255, 256] {
        for (last, room) in [(5, 0x102), (5, 0x101), (11, 0x200)] {
            let params = [vec![5; count - 1], vec![last]].concat();
            write_method_case(out, &table, &params, 0, room);
        }
    }
    for _ in 0..out.cases(210) {
        let table = any_table(rng, 3);
        let names = table.at.len();
        let count = rng.below(4);
        let params: Vec<u64> = (0..count).map(|_| any_word(rng, names)).collect();
        let result = any_word(rng, names);
        let needed = table.write_method(&params, result, usize::MAX).ok();
        let room = any_room(rng, needed.map(|text| text.len()));
        write_method_case(out, &table, &params, result, room);
    }
}

fn lookup_case(out: &mut Out, table: &Table, key: &[u8]) {
    let mut arguments = names(table);
    arguments.push(bytes(key));
    let answer = match table.lookup(key) {
        Ok(number) => [0, number],
        Err(refusal) => [refusal, 0],
    };
    out.tokens_if_short(&arguments, &numbers(&answer));
}

pub fn lookup(rng: &mut Rng, out: &mut Out) {
    for table in telling_tables() {
        for key in [&b""[..], b"a", b"\xff"] {
            lookup_case(out, &table, key);
        }
    }
    let all: Vec<String> = (0..24).map(|number| format!("{number:02}")).collect();
    for count in [1, 2, 3, 4, 7, 8, 9, 24] {
        let table = Table::of(&all[..count]);
        let step = count.div_ceil(8);
        let found = all[..count].iter().step_by(step).map(String::as_str);
        for key in found.chain(["0", "000", "24", "~"]) {
            lookup_case(out, &table, key.as_bytes());
        }
    }
    for _ in 0..out.cases(250) {
        let table = any_table(rng, 6);
        let key = any_key(rng, &table);
        lookup_case(out, &table, &key);
    }
}

/// A name of the table, sometimes with a byte more or less; or any.
fn any_key(rng: &mut Rng, table: &Table) -> Vec<u8> {
    let mut key = Vec::new();
    match table.names() {
        Ok(names) if !names.is_empty() && rng.below(4) > 0 => {
            key.extend_from_slice(rng.pick(&names).as_bytes());
        }
        _ => any_name(rng, &mut key),
    }
    match rng.below(6) {
        0 => key.push(*rng.pick(&ALPHABET)),
        1 => drop(key.pop()),
        _ => {}
    }
    key
}

// ---- UTF-8

/// Both ends of every range of Unicode's table, and their neighbours.
const EDGES: [u8; 24] = [
    0x00, 0x7f, 0x80, 0x8f, 0x90, 0x9f, 0xa0, 0xbf, 0xc0, 0xc1, 0xc2, 0xdf, 0xe0, 0xe1, 0xec, 0xed,
    0xee, 0xef, 0xf0, 0xf1, 0xf3, 0xf4, 0xf5, 0xff,
];

pub fn utf8(rng: &mut Rng, out: &mut Out) {
    let mut cases = Vec::new();
    each_string(&EDGES, 2, &mut |d| cases.push(d.to_vec()));
    for first in [0xe0, 0xe1, 0xec, 0xed, 0xee, 0xef] {
        for second in [0x7f, 0x80, 0x9f, 0xa0, 0xbf, 0xc0] {
            cases.extend([0x7f, 0x80, 0xbf, 0xc0].map(|third| vec![first, second, third]));
        }
    }
    for first in [0xf0, 0xf1, 0xf3, 0xf4, 0xf5] {
        for second in [0x7f, 0x80, 0x8f, 0x90, 0xbf, 0xc0] {
            for tail in [[0x80, 0xbf], [0xbf, 0xc0], [0x7f, 0x80], [0xbf, 0x80]] {
                cases.push(vec![first, second, tail[0], tail[1]]);
                cases.push(vec![b'a', first, second, tail[0], tail[1], b'a']);
            }
        }
    }
    for _ in 0..out.cases(400) {
        cases.push(any_text(rng));
    }
    for case in cases {
        let answer = judge::rust::valid_up_to(&case) as u64;
        out.tokens_if_short(&[bytes(&case)], &numbers(&[answer]));
    }
}

/// Characters of every length, with up to two bytes changed.
fn any_text(rng: &mut Rng) -> Vec<u8> {
    let count = 1 + rng.below(10);
    let text: String = (0..count).map(|_| *rng.pick(&CHARACTERS)).collect();
    let mut bytes = text.into_bytes();
    for _ in 0..rng.below(3) {
        let at = rng.below(bytes.len() as u64) as usize;
        match rng.below(3) {
            0 => bytes[at] = *rng.pick(&EDGES),
            1 => bytes[at] ^= 1 << rng.below(8),
            _ => bytes.truncate(at + 1),
        }
    }
    bytes
}
