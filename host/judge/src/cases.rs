//! Descriptors, tables of names and words to try: telling, real, damaged and random ones.

use crate::paper::Table;
use crate::rng::Rng;

/// Bytes that tell the rules apart: letters with and without a meaning, marks, pieces of UTF-8.
pub const ALPHABET: [u8; 23] = *b"VZBIJDL[;()/.a?\0\x80\xa9\xc3\xe2\xed\xf4\xff";

/// Characters whose encodings have each length, at the edges of it.
pub const CHARACTERS: [char; 8] = [
    'a',
    '\u{7f}',
    '\u{80}',
    '\u{7ff}',
    '\u{800}',
    '\u{d7ff}',
    '\u{e000}',
    '\u{10ffff}',
];

/// Descriptors of types and methods as they occur in programs.
pub const REAL_TYPES: [&str; 14] = [
    "V",
    "Z",
    "I",
    "[J",
    "[[D",
    "Ljava/lang/Object;",
    "[Ljava/lang/String;",
    "[[[Ljava/util/Map$Entry;",
    "Landroidx/appcompat/app/AppCompatActivity;",
    "La/a/a/b;",
    "LR$id;",
    "Lkotlin/jvm/functions/Function2;",
    "Lcom/example/\u{e9}t\u{e9}/Caf\u{e9};",
    "L\u{65e5}\u{672c}/\u{1f600};",
];
pub const REAL_METHODS: [&str; 14] = [
    "()V",
    "(I)I",
    "(JD)Z",
    "()Ljava/lang/String;",
    "([Ljava/lang/String;)V",
    "(Ljava/lang/Object;)Z",
    "(IDLjava/lang/Thread;)Ljava/lang/Object;",
    "([BIILjava/nio/charset/Charset;)V",
    "(Landroid/os/Bundle;)V",
    "(Landroid/view/View;[[IZ)[[Ljava/util/List;",
    "(Ljava/lang/CharSequence;Ljava/lang/CharSequence;)Ljava/lang/String;",
    "(Lkotlin/coroutines/Continuation;SBCF)[J",
    "(L\u{e9};[L\u{65e5};)L\u{1f600};",
    "([[[[[[[[I)[[[[[[[[D",
];

/// Every string of these bytes up to that length, the empty one first.
pub fn each_string(alphabet: &[u8], most: usize, try_one: &mut impl FnMut(&[u8])) {
    let mut string = Vec::new();
    for length in 0..=most {
        each_longer(alphabet, length, &mut string, try_one);
    }
}

fn each_longer(
    alphabet: &[u8],
    more: usize,
    string: &mut Vec<u8>,
    try_one: &mut impl FnMut(&[u8]),
) {
    if more == 0 {
        return try_one(string);
    }
    for byte in alphabet {
        string.push(*byte);
        each_longer(alphabet, more - 1, string, try_one);
        string.pop();
    }
}

/// Every copy with one byte taken out, put in or exchanged, cut off at each place, or with two neighbours
/// exchanged.
pub fn each_damaged(whole: &[u8], try_one: &mut impl FnMut(&[u8])) {
    let mut copy = whole.to_vec();
    for at in 0..whole.len() {
        try_one(&whole[..at]);
        for byte in ALPHABET {
            copy[at] = byte;
            try_one(&copy);
        }
        copy[at] = whole[at];
        if at > 0 {
            copy.swap(at - 1, at);
            try_one(&copy);
            copy.swap(at - 1, at);
        }
        let byte = copy.remove(at);
        try_one(&copy);
        copy.insert(at, byte);
    }
    for at in 0..=whole.len() {
        for byte in ALPHABET {
            copy.insert(at, byte);
            try_one(&copy);
            copy.remove(at);
        }
    }
}

/// A random string: any bytes, or a type or a method, often damaged.
pub fn any_descriptor(rng: &mut Rng, out: &mut Vec<u8>) {
    out.clear();
    match rng.below(8) {
        0 => any_bytes(rng, out),
        1..=3 => any_type(rng, out),
        _ => any_method(rng, out),
    }
    for _ in 0..[0, 0, 1, 1, 2][rng.below(5) as usize] {
        damage(rng, out);
    }
}

fn any_bytes(rng: &mut Rng, out: &mut Vec<u8>) {
    let all = rng.below(2) == 0;
    for _ in 0..rng.below(12) {
        out.push(match all {
            true => rng.draw() as u8,
            false => *rng.pick(&ALPHABET),
        });
    }
}

/// The descriptor of a type; a few have about as many dimensions as there may be.
pub fn any_type(rng: &mut Rng, out: &mut Vec<u8>) {
    let dims = match rng.below(256) {
        0 => 253 + rng.below(5),
        1..=100 => rng.below(4),
        _ => 0,
    };
    out.extend((0..dims).map(|_| b'['));
    match rng.below(3) {
        0 => {
            out.push(b'L');
            any_name(rng, out);
            out.push(b';');
        }
        _ => out.push(*rng.pick(b"VZBSCIJFD")),
    }
}

/// The descriptor of a method; a few have about as many parameters as there may be.
pub fn any_method(rng: &mut Rng, out: &mut Vec<u8>) {
    out.push(b'(');
    let count = match rng.below(512) {
        0 => 253 + rng.below(5),
        _ => rng.below(5),
    };
    let mut parameter = Vec::new();
    for _ in 0..count {
        parameter.clear();
        any_type(rng, &mut parameter);
        let void = parameter.last() == Some(&b'V') && rng.below(8) > 0;
        out.extend_from_slice(if void { b"I" } else { &parameter });
    }
    out.push(b')');
    any_type(rng, out);
}

/// A class name, of one to four parts; some are refused by strict reading.
pub fn any_name(rng: &mut Rng, out: &mut Vec<u8>) {
    const PARTS: [&str; 12] = [
        "a",
        "b",
        "java",
        "lang",
        "Object",
        "R$id",
        "\u{e9}",
        "\u{65e5}",
        "\u{1f600}",
        "a.b",
        "[",
        "",
    ];
    let most = if rng.below(8) == 0 { 12 } else { 9 };
    for part in 0..1 + rng.below(4) {
        if part > 0 {
            out.push(b'/');
        }
        out.extend_from_slice(PARTS[rng.below(most) as usize].as_bytes());
    }
}

/// Takes out, puts in or exchanges a byte, or cuts off the end.
fn damage(rng: &mut Rng, out: &mut Vec<u8>) {
    let byte = *rng.pick(&ALPHABET);
    let at = rng.below(out.len() as u64 + 1) as usize;
    match rng.below(4) {
        0 => out.insert(at, byte),
        _ if at == out.len() => {}
        1 => drop(out.remove(at)),
        2 => out[at] = byte,
        _ if rng.below(4) == 0 => out.truncate(at),
        _ => out[at] ^= 1 << rng.below(8),
    }
}

/// Distinct names, ascending.
pub fn any_names(rng: &mut Rng, most: u64) -> Vec<Vec<u8>> {
    let mut names = Vec::new();
    for _ in 0..rng.below(most + 1) {
        let mut name = Vec::new();
        any_name(rng, &mut name);
        names.push(name);
    }
    names.sort();
    names.dedup();
    names.retain(|name| !name.is_empty());
    names
}

/// A table of few names, mostly one that is accepted: side by side, in other places, or with a fault or two.
pub fn any_table(rng: &mut Rng, most: u64) -> Table {
    let mut table = Table::of(&any_names(rng, most));
    if rng.below(3) == 0 {
        move_store(rng, &mut table);
    }
    for _ in 0..[0, 0, 0, 1, 2][rng.below(5) as usize] {
        damage_table(rng, &mut table);
    }
    table
}

/// Other bytes before and after the names.
fn move_store(rng: &mut Rng, table: &mut Table) {
    let before = rng.below(3);
    let mut store: Vec<u8> = (0..before).map(|_| rng.draw() as u8).collect();
    store.append(&mut table.store);
    store.extend((0..rng.below(3)).map(|_| rng.draw() as u8));
    table.store = store;
    table.at.iter_mut().for_each(|at| *at += before);
}

fn damage_table(rng: &mut Rng, table: &mut Table) {
    let rows = table.at.len().min(table.len.len());
    let row = rng.below(rows.max(1) as u64) as usize;
    let far = *rng.pick(&[0, 1, 255, 256, 1 << 32, u64::MAX - 1, u64::MAX]);
    match rng.below(7) {
        0 => drop(table.at.pop()),
        1 => table.len.push(1),
        _ if rows == 0 => {}
        2 => table.at[row] = far,
        3 => table.len[row] = far,
        4 if row > 0 => table.at.swap(row - 1, row),
        5 if row > 0 => {
            table.at[row] = table.at[row - 1];
            table.len[row] = table.len[row - 1];
        }
        _ if table.store.is_empty() => {}
        _ => {
            let at = rng.below(table.store.len() as u64) as usize;
            table.store[at] = *rng.pick(&ALPHABET);
        }
    }
}

/// A word over that many names: of each tag, and sometimes with a digit changed.
pub fn any_word(rng: &mut Rng, names: usize) -> u64 {
    let base = match rng.below(4) {
        0 => rng.below(11),
        1 if rng.below(2) == 0 => *rng.pick(&UNKNOWNS),
        _ => 1 << 48 | rng.below(names.max(1) as u64),
    };
    let dims = match rng.below(8) {
        0..=4 => 0,
        5 => *rng.pick(&[20, 254, 255]),
        _ => rng.below(4),
    };
    let change = match rng.below(12) {
        0 => (1 + rng.below(15)) << (4 * rng.below(14)),
        _ => 0,
    };
    dims << 56 | base ^ change
}

const UNKNOWNS: [u64; 5] = [
    0x0002_0000_0000_0000,
    0x0002_1000_0000_0000,
    0x0002_2150_0000_0000,
    0x0002_a567_8132_49a0,
    0x0002_b012_3456_789a,
];
