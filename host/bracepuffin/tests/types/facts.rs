//! Named facts: the types that tell readings of the rules apart.

use judge::classes::Classes;

use crate::{array, assignable, join, unknown, CLASS};

const BOOLEAN: u64 = 1;
const BYTE: u64 = 2;
const SHORT: u64 = 3;
const CHAR: u64 = 4;
const INT: u64 = 5;
const LONG: u64 = 6;
const FLOAT: u64 = 7;
const FULL: u64 = 0x0002_a567_8132_49a0;

/// a/Probe above a/TrussA and a/TrussB, java/lang/Cloneable without a record, java/lang/Object: 0 to 4.
fn probe() -> Classes {
    let names = [
        "a/Probe",
        "a/TrussA",
        "a/TrussB",
        "java/lang/Cloneable",
        "java/lang/Object",
    ];
    let mut classes = Classes::of(&names);
    classes.push(0, 0, &[4]);
    classes.push(0, 1, &[0]);
    classes.push(0, 2, &[0]);
    classes.push(0, 4, &[]);
    classes
}

fn class(number: u64) -> u64 {
    CLASS | number
}

#[test]
fn the_examples_of_the_paper() {
    let classes = probe();
    assert_eq!(join(&classes, BOOLEAN, INT), unknown(&[1, 5]));
    let first = join(&classes, BOOLEAN, class(1));
    assert_eq!(first, unknown(&[1, 9]));
    assert_eq!(join(&classes, first, class(2)), class(2));
    assert!(!assignable(&classes, CHAR, SHORT));
    assert_eq!(join(&classes, class(1), class(2)), class(0));
}

/// A slip that a porter would make: only the relation No is not assignable.
#[test]
fn a_relation_that_is_unknown_is_assignable() {
    let classes = probe();
    // Cloneable has no record.
    assert!(assignable(&classes, class(3), class(0)));
    assert!(!assignable(&classes, class(0), class(3)));
    assert!(assignable(&classes, array(2, class(3)), array(2, class(0))));
    assert!(!assignable(
        &classes,
        array(2, class(0)),
        array(2, class(3))
    ));
}

/// A slip that a porter would make: an array and Cloneable have no join Object.
#[test]
fn an_array_and_cloneable_join_to_an_unknown() {
    let classes = probe();
    let either = unknown(&[9, 10]);
    for elements in [array(1, INT), array(1, class(0)), array(3, unknown(&[]))] {
        assert_eq!(join(&classes, elements, class(3)), either);
        assert_eq!(join(&classes, class(3), elements), either);
        assert_eq!(join(&classes, elements, class(4)), class(4));
        assert_eq!(join(&classes, class(4), elements), class(4));
        assert!(assignable(&classes, elements, class(3)));
        assert!(assignable(&classes, elements, class(4)));
        assert!(!assignable(&classes, elements, class(0)));
        assert!(!assignable(&classes, class(3), elements));
    }
}

#[test]
fn the_diagonal_and_the_sides_of_the_primitive_table() {
    let classes = probe();
    for category in 0..=10 {
        assert_eq!(join(&classes, category, category), category);
    }
    assert_eq!(join(&classes, BYTE, SHORT), INT);
    assert_eq!(join(&classes, LONG, FLOAT), unknown(&[6, 7]));
    assert_eq!(join(&classes, FLOAT, LONG), unknown(&[7, 6]));
    // Left before right, unlike a union, which sorts.
    assert_eq!(join(&classes, 9, INT), unknown(&[9, 5]));
    assert_eq!(join(&classes, INT, 9), unknown(&[5, 9]));
    assert_eq!(join(&classes, array(1, INT), LONG), unknown(&[6, 10]));
}

#[test]
fn categories_without_a_name() {
    let classes = probe();
    assert_eq!(join(&classes, 9, class(0)), unknown(&[9]));
    assert_eq!(join(&classes, 10, array(1, INT)), unknown(&[10]));
}

#[test]
fn the_empty_unknown() {
    let classes = probe();
    let empty = unknown(&[]);
    assert_eq!(join(&classes, empty, unknown(&[5])), FULL);
    assert_eq!(join(&classes, empty, INT), unknown(&[5]));
    assert!(assignable(&classes, empty, unknown(&[0])));
    assert!(!assignable(&classes, empty, INT));
    assert!(!assignable(&classes, INT, empty));
    assert!(assignable(&classes, empty, empty));
}

#[test]
fn arrays_of_unknown() {
    let classes = probe();
    let of = |list| array(1, unknown(list));
    assert_eq!(join(&classes, of(&[5]), array(1, INT)), class(4));
    assert_eq!(
        join(&classes, of(&[9]), array(1, class(0))),
        array(1, class(0))
    );
    assert_eq!(join(&classes, of(&[5]), array(1, class(0))), of(&[5, 9]));
    assert!(!assignable(&classes, of(&[5]), array(1, INT)));
    assert!(assignable(&classes, of(&[10]), array(2, INT)));
}

#[test]
fn the_deepest_arrays() {
    let classes = probe();
    let deep = |base| array(255, base);
    assert_eq!(
        join(&classes, deep(class(1)), deep(class(2))),
        deep(class(0))
    );
    // One dimension more on a side: the class under 254 dimensions meets an array.
    let joined = join(&classes, deep(class(1)), array(254, class(4)));
    assert_eq!(joined, array(254, class(4)));
    assert_eq!(join(&classes, deep(INT), deep(LONG)), array(254, class(4)));
    assert!(assignable(&classes, deep(class(1)), deep(class(0))));
    assert!(assignable(&classes, deep(INT), array(254, class(3))));
}
