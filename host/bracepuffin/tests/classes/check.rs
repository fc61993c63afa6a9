//! Where a table is refused: `check_table` against the rules of the paper, and against what each query is refused with.

use bracepuffin::slices;
use judge::class_cases::{damage_classes, fullest_classes};
use judge::classes::{Classes, WORK};
use judge::layer_cases::any_stack;
use judge::rng::Rng;

use crate::{cases, columns, work, QUERIES};

/// Refusal, part and row.
pub(crate) fn check(classes: &Classes) -> [u64; 3] {
    let checked = slices::check_table(columns(classes));
    [checked.refusal, checked.part, checked.row]
}

const NAMES: u64 = 1;
const RECORDS: u64 = 2;

/// Three names with java/lang/Object, and three records.
fn sound() -> Classes {
    let mut classes = Classes::of(&["a", "b", "java/lang/Object"]);
    classes.push(1, 0, &[1, 2]);
    classes.push(3, 1, &[]);
    classes.push(0, 0, &[2, 2]);
    classes
}

/// A sound table with a change.
fn with(change: impl FnOnce(&mut Classes)) -> Classes {
    let mut classes = sound();
    change(&mut classes);
    classes
}

#[test]
fn each_refusal_at_its_row() {
    let long = vec![b'n'; 256];
    for (classes, expected) in [
        (sound(), [0, 0, 0]),
        (Classes::default(), [9, 3, 0]),
        (Classes::of(&["a", "b"]), [9, 3, 0]),
        (with(|table| _ = table.names.len.pop()), [3, 0, 0]),
        (with(|table| _ = table.class.pop()), [3, 0, 0]),
        (with(|table| table.at.push(0)), [3, 0, 0]),
        (with(|table| table.names.len[1] = 0), [3, NAMES, 1]),
        (with(|table| table.names.at[2] = u64::MAX), [3, NAMES, 2]),
        (Classes::of(&[&b"a"[..], &long]), [3, NAMES, 1]),
        (Classes::of(&[&b"a"[..], &[0xff]]), [10, NAMES, 1]),
        (Classes::of(&["a", "c", "b"]), [5, NAMES, 2]),
        (Classes::of(&["a", "a"]), [5, NAMES, 1]),
        (with(|table| table.len[1] = 255), [3, RECORDS, 1]),
        (with(|table| table.at[2] = 5), [3, RECORDS, 2]),
        (with(|table| table.flags[1] = 2), [6, RECORDS, 1]),
        (with(|table| table.class[2] = 3), [6, RECORDS, 2]),
        (with(|table| table.parents[3] = 3), [6, RECORDS, 2]),
    ] {
        assert_eq!(check(&classes), expected, "{classes:?}");
        assert_eq!(classes.check(), expected, "{classes:?}");
    }
}

/// The first row counts, whatever is wrong with later ones, and names come before records.
#[test]
fn two_faults() {
    let flags = with(|table| (table.flags[1], table.at[2]) = (2, u64::MAX));
    assert_eq!(check(&flags), [6, RECORDS, 1]);
    let names = with(|table| (table.flags[0], table.names.len[2]) = (2, 0));
    assert_eq!(check(&names), [3, NAMES, 2]);
    let columns = with(|table| (table.flags[0], table.at) = (2, vec![0; 4]));
    assert_eq!(check(&columns), [3, 0, 0]);
    let mut object = Classes::of(&["a", "b"]);
    object.push(2, 0, &[]);
    assert_eq!(check(&object), [6, RECORDS, 0]);
}

#[test]
fn one_too_many() {
    let names = |count: u64, len: usize| {
        let names = (0..count).map(|name| format!("{name:0len$}"));
        Classes::of(&names.collect::<Vec<_>>())
    };
    assert_eq!(check(&names(1024, 4)), [9, 3, 0]);
    assert_eq!(check(&names(1025, 4)), [8, NAMES, 1024]);
    assert_eq!(check(&names(1300, 4)), [8, NAMES, 1024]);
    // 96 names of 256 bytes would be 24,576, but no name is so long; 97 of 250 are 24,250.
    assert_eq!(check(&names(98, 250)), [9, 3, 0]);
    assert_eq!(check(&names(100, 250)), [8, NAMES, 98]);
    let mut rng = Rng::new(1, "tables that are full");
    let mut full = fullest_classes(&mut rng, 4096);
    assert_eq!(check(&full), [0, 0, 0]);
    let records = full.flags.len() as u64;
    // Each class has few enough parents that one of these pairs is new.
    for class in 0..1024 {
        full.push(0, class, &[class]);
    }
    let [refusal, part, row] = check(&full);
    assert_eq!((refusal, part), (8, RECORDS));
    assert!(row >= records);
    assert_eq!([refusal, part, row], full.check());
}

/// Sound and damaged tables: the rules of the paper, and every query about classes of the table.
#[test]
fn random_tables() {
    let mut rng = Rng::new(1, "where tables are refused");
    let mut seen = [0; 4];
    let mut work = work();
    for _ in 0..cases(6_000) {
        let mut classes = any_stack(&mut rng, 6);
        for _ in 0..rng.below(3) {
            damage_classes(&mut rng, &mut classes);
        }
        let checked = check(&classes);
        assert_eq!(checked, classes.check(), "{classes:?}");
        seen[checked[1] as usize] += 1;
        if rng.below(8) == 0 && !classes.names.at.is_empty() {
            for query in QUERIES {
                assert_eq!(query.ask(&classes, 0, 0, &mut work).0, checked[0]);
            }
            let join = slices::join(columns(&classes), 5, 6, &mut work[..WORK]);
            assert_eq!(join.refusal, checked[0]);
        }
    }
    assert!(seen[..3].iter().all(|times| *times > 0), "{seen:?}");
}
