//! Refusals of joins and assignability, their order and lent memory: 22; the table; 7; 9.

use judge::classes::{Classes, WORK};
use judge::layers::OPENS;

use crate::{array, columns, unknown, CLASS, POISON, QUERIES};

const INT: u64 = 5;
const ILLEGAL: u64 = 11;

/// Two names, the second java/lang/Object or not.
fn names(second: &str) -> Classes {
    let mut classes = Classes::of(&["a", second]);
    classes.push(0, 0, &[1]);
    classes
}

/// What both queries answer between guards in poisoned memory.
fn refusal(classes: &Classes, left: u64, right: u64, room: usize) -> u64 {
    let expected = classes.word_refusal(&[left, right], room);
    for query in QUERIES {
        let mut lent = vec![POISON; room + 16];
        let answer = query(columns(classes), left, right, &mut lent[8..8 + room]);
        assert_eq!(answer.refusal, expected, "{left:016x} {right:016x}");
        assert!(answer.refusal == 0 || answer.value == 0);
        let after = if expected == 22 { POISON } else { 0 };
        assert!(lent[8..8 + room].iter().all(|word| *word == after));
        let guards = lent[..8].iter().chain(&lent[8 + room..]);
        assert!(guards.into_iter().all(|word| *word == POISON));
    }
    expected
}

#[test]
fn words_that_are_no_types() {
    let classes = names("java/lang/Object");
    for word in [
        ILLEGAL,
        16,
        1 << 47,
        CLASS | 2,
        CLASS | 1024,
        CLASS | 1 << 40,
        3 << 48,
        0x80 << 48,
        0x0002_c000_0000_0000,
        0x0002_1b00_0000_0000,
        0x0002_2550_0000_0000,
        0x0002_1500_0000_0001,
        u64::MAX,
    ] {
        for illegal in [word, array(3, word & !(0xff << 56))] {
            assert_eq!(refusal(&classes, illegal, INT, WORK), 7);
            assert_eq!(refusal(&classes, INT, illegal, WORK), 7);
            assert_eq!(refusal(&classes, illegal, illegal, WORK), 7);
        }
    }
    for word in [0, 10, CLASS | 1, unknown(&[]), unknown(&[0]), array(255, 0)] {
        assert_eq!(refusal(&classes, word, INT, WORK), 0);
    }
}

#[test]
fn a_table_without_object() {
    // Also where no class is asked about, and after 7.
    let classes = names("z");
    assert_eq!(refusal(&classes, INT, INT, WORK), 9);
    assert_eq!(refusal(&classes, CLASS, CLASS | 1, WORK), 9);
    assert_eq!(refusal(&classes, INT, ILLEGAL, WORK), 7);
    assert_eq!(refusal(&classes, CLASS | 2, INT, WORK), 7);
    assert_eq!(refusal(&Classes::default(), INT, INT, WORK), 9);
    assert_eq!(refusal(&Classes::default(), CLASS, INT, WORK), 7);
}

#[test]
fn the_table_comes_before_the_words() {
    let mut unequal = names("z");
    unequal.len.push(0);
    let order = Classes::of(&["b", "a"]);
    let utf8 = Classes::of(&[b"\xff"]);
    let mut flags = names("z");
    flags.push(4, 0, &[]);
    let mut parent = names("z");
    parent.push(0, 0, &[2]);
    let room = Classes::of(&(0..1025).map(|i| format!("{i:04}")).collect::<Vec<_>>());
    let [mut fifth, mut of_class] = [names("z"), names("z")];
    (0..4).for_each(|_| fifth.push(OPENS, 0, &[]));
    of_class.push(OPENS, 1, &[]);
    for (classes, expected) in [
        (&fifth, 8),
        (&of_class, 3),
        (&unequal, 3),
        (&order, 5),
        (&utf8, 10),
        (&flags, 6),
        (&parent, 6),
        (&room, 8),
    ] {
        assert_eq!(refusal(classes, INT, INT, WORK), expected);
        assert_eq!(refusal(classes, ILLEGAL, ILLEGAL, WORK), expected);
        assert_eq!(refusal(classes, ILLEGAL, ILLEGAL, WORK - 1), 22);
    }
}

#[test]
fn the_working_slice() {
    let classes = names("java/lang/Object");
    for room in [0, 1, 4096, WORK - 1] {
        assert_eq!(refusal(&classes, INT, INT, room), 22);
        assert_eq!(refusal(&classes, ILLEGAL, INT, room), 22);
    }
    for room in [WORK, WORK + 1, 2 * WORK] {
        assert_eq!(refusal(&classes, INT, CLASS, room), 0);
        assert_eq!(refusal(&classes, ILLEGAL, INT, room), 7);
    }
}
