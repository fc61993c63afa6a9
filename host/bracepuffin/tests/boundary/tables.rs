//! Tables of names: 3, 10, 5, 8 in this order, row by row, in every function that takes one; lookup.

use bracepuffin::slices;
use judge::cases::{any_name, any_table};
use judge::paper::Table;
use judge::rng::Rng;

use crate::{cases, columns, POISON_BYTE};

/// What the three functions answer to a table, on arguments that are sound: they agree.
fn refusal(table: &Table) -> u64 {
    let mut out = [POISON_BYTE; 8];
    let found = slices::lookup(columns(table), b"");
    let by_type = slices::write_type(columns(table), 5, &mut out);
    let by_method = slices::write_method(columns(table), &[], 5, &mut [POISON_BYTE; 8]);
    let answer = match found.refusal {
        23 => 0,
        number => number,
    };
    assert_eq!((by_type.refusal, by_method.refusal), (answer, answer));
    assert_eq!(out[0] == POISON_BYTE, answer != 0);
    assert_eq!(table.names().err().unwrap_or(0), answer, "{table:?}");
    answer
}

fn of(names: &[&[u8]]) -> Table {
    Table::of(names)
}

fn place(store: &[u8], at: &[u64], len: &[u64]) -> Table {
    Table {
        store: store.to_vec(),
        at: at.to_vec(),
        len: len.to_vec(),
    }
}

/// Names of one length that ascend.
fn many(count: usize, length: usize) -> Vec<String> {
    (0..count)
        .map(|number| format!("{number:0length$}"))
        .collect()
}

#[test]
fn sound_tables() {
    assert_eq!(refusal(&Table::default()), 0);
    assert_eq!(refusal(&place(b"unused", &[], &[])), 0);
    assert_eq!(refusal(&of(&[b"a", b"a/b", b"ab", b"b"])), 0);
    // Any bytes that are well-formed, with no regard to descriptors.
    assert_eq!(
        refusal(&of(&[
            b"\0",
            b"\n",
            b".",
            b"/",
            b";",
            b"[",
            b"\xc2\x80",
            b"\xf4\x8f\xbf\xbf"
        ])),
        0
    );
    // Gaps, overlaps, another order of places, the end of the slice.
    assert_eq!(refusal(&place(b"xabcx", &[1, 1, 2], &[1, 2, 2])), 0);
    assert_eq!(refusal(&place(b"ba", &[1, 0], &[1, 1])), 0);
}

#[test]
fn columns_of_unequal_length() {
    assert_eq!(refusal(&place(b"ab", &[0, 1], &[1])), 3);
    assert_eq!(refusal(&place(b"ab", &[0], &[1, 1])), 3);
    assert_eq!(refusal(&place(b"", &[], &[0])), 3);
    // Before any row is looked at.
    assert_eq!(refusal(&place(b"\xff", &[0], &[1, 1])), 3);
}

#[test]
fn lengths_of_names() {
    let long = [b'n'; 256];
    assert_eq!(refusal(&of(&[b""])), 3);
    assert_eq!(refusal(&of(&[&long[..255]])), 0);
    assert_eq!(refusal(&of(&[&long])), 3);
    assert_eq!(refusal(&place(&long, &[0], &[u64::MAX])), 3);
}

#[test]
fn places_of_names() {
    let cases = [
        (0, 2, 0),
        (1, 1, 0),
        (1, 2, 3),
        (2, 1, 3),
        (2, 0, 3),
        (3, 1, 3),
        (u64::MAX, 1, 3),
        (u64::MAX, 2, 3),
        (u64::MAX - 1, 2, 3),
        (u64::MAX - 254, 255, 3),
        (1 << 63, 1, 3),
    ];
    for (at, len, expected) in cases {
        assert_eq!(
            refusal(&place(b"ab", &[at], &[len])),
            expected,
            "{at} {len}"
        );
    }
    // 2^64 - 1 and 2 would end at 1, which is inside.
    assert_eq!(refusal(&place(b"ab", &[0, u64::MAX], &[1, 2])), 3);
    assert_eq!(refusal(&place(b"", &[0], &[1])), 3);
}

#[test]
fn names_that_are_not_well_formed() {
    for name in [
        &b"\xff"[..],
        b"\xc0\x80",
        b"\xed\xa0\x80",
        b"\xf4\x90\x80\x80",
        b"a\xe2\x82",
        b"\x80",
    ] {
        assert_eq!(refusal(&of(&[name])), 10);
        assert_eq!(refusal(&of(&[b"\x01", name])), 10);
    }
    // A whole sequence whose last byte is not in the name.
    assert_eq!(refusal(&place("\u{e9}".as_bytes(), &[0], &[1])), 10);
}

#[test]
fn order_of_names() {
    assert_eq!(refusal(&of(&[b"a", b"a"])), 5);
    assert_eq!(refusal(&of(&[b"b", b"a"])), 5);
    assert_eq!(refusal(&of(&[b"ab", b"a"])), 5);
    assert_eq!(refusal(&of(&[b"a", b"c", b"b"])), 5);
    assert_eq!(refusal(&of(&["\u{e9}".as_bytes(), b"z"])), 5);
    assert_eq!(refusal(&of(&[b"z", "\u{e9}".as_bytes()])), 0);
}

#[test]
fn number_of_names() {
    assert_eq!(refusal(&Table::of(&many(1024, 4))), 0);
    assert_eq!(refusal(&Table::of(&many(1025, 4))), 8);
    let mut table = Table::of(&many(1024, 4));
    for (name, expected) in [(&b""[..], 3), (b"\xff", 10), (b"0", 5), (b"9", 8)] {
        let mut longer = table.clone();
        longer.push(name);
        assert_eq!(refusal(&longer), expected);
    }
    // What comes after the row that is refused is not looked at.
    table.push(b"9");
    table.push(b"");
    assert_eq!(refusal(&table), 8);
}

#[test]
fn bytes_of_names() {
    let mut names = many(96, 255);
    assert_eq!(names.concat().len(), 24_480);
    names.push("9".repeat(96));
    assert_eq!(names.concat().len(), 24_576);
    assert_eq!(refusal(&Table::of(&names)), 0);
    names[96].push('9');
    assert_eq!(refusal(&Table::of(&names)), 8);
    names[96].pop();
    names.push("99".repeat(49));
    assert_eq!(refusal(&Table::of(&names)), 8);
    names[97] = "1".to_string();
    assert_eq!(refusal(&Table::of(&names)), 5);
}

#[test]
fn shared_bytes_count_each_time() {
    // Prefixes of one name: 1 + 2 + .. + 221 is 24,531.
    let lengths: Vec<u64> = (1..=221).collect();
    let store = [b'n'; 256];
    assert_eq!(refusal(&place(&store, &[0; 221], &lengths)), 0);
    let mut longer = lengths.clone();
    longer.push(222);
    assert_eq!(refusal(&place(&store, &[0; 222], &longer)), 8);
}

#[test]
fn the_first_row_with_a_fault_counts_and_in_it_the_first_fault() {
    // In one row.
    assert_eq!(refusal(&of(&[b"b", b"\xff"])), 10);
    assert_eq!(refusal(&of(&[b"\xc3\xa9", b"a\xff"])), 10);
    // In two rows.
    assert_eq!(refusal(&of(&[b"\xff", b""])), 10);
    assert_eq!(refusal(&of(&[b"b", b"a", b"\xff"])), 5);
    assert_eq!(refusal(&of(&[b"b", b"a", b""])), 5);
    assert_eq!(refusal(&of(&[b"", b"\xff"])), 3);
}

#[test]
fn the_table_comes_before_the_other_arguments() {
    let bad = of(&[b"b", b"a"]);
    assert_eq!(slices::lookup(columns(&bad), b"b").refusal, 5);
    assert_eq!(
        slices::write_type(columns(&bad), u64::MAX, &mut []).refusal,
        5
    );
    let many = [u64::MAX; 256];
    assert_eq!(
        slices::write_method(columns(&bad), &many, u64::MAX, &mut []).refusal,
        5
    );
}

#[test]
fn lookup_finds_each_name_and_no_other() {
    for names in [
        many(0, 3),
        many(1, 3),
        many(2, 3),
        many(3, 3),
        many(1024, 20),
    ] {
        let table = Table::of(&names);
        for (number, name) in names.iter().enumerate() {
            let found = slices::lookup(columns(&table), name.as_bytes());
            assert_eq!((found.refusal, found.class_no), (0, number as u64));
        }
        let mut near: Vec<Vec<u8>> = names
            .iter()
            .map(|name| [name.as_bytes(), b"!"].concat())
            .collect();
        near.extend(names.iter().map(|name| name.as_bytes()[1..].to_vec()));
        near.extend([vec![], vec![0], vec![0xff], vec![b'0'; 300]]);
        for key in near {
            let found = slices::lookup(columns(&table), &key);
            assert_eq!((found.refusal, found.class_no), (23, 0), "{key:?}");
        }
    }
}

#[test]
fn random_tables_and_keys() {
    let mut rng = Rng::new(1, "random tables");
    let mut refusals = [0; 24];
    for _ in 0..cases(100_000) {
        let table = any_table(&mut rng, 6);
        refusals[refusal(&table) as usize] += 1;
        let mut key = Vec::new();
        any_name(&mut rng, &mut key);
        let found = slices::lookup(columns(&table), &key);
        let answer = match found.refusal {
            0 => Ok(found.class_no),
            number => Err(number),
        };
        assert_eq!(answer, table.lookup(&key), "{table:?} {key:?}");
    }
    assert!(
        [0, 3, 5, 10].iter().all(|number| refusals[*number] > 0),
        "{refusals:?}"
    );
}
