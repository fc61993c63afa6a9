//! What is left in the working slice: zero in every word after every call but one refused 22, which leaves it.

use judge::classes::{Classes, WORK};

use crate::{Query, POISON, QUERIES};

const GUARD: usize = 16;

fn sound() -> Classes {
    let mut classes = Classes::of(&["a", "b", "java/lang/Object"]);
    classes.push(1, 0, &[1, 2]);
    classes.push(3, 1, &[]);
    classes
}

/// Asks with that many words between guards, all poisoned: the result, the words, and that the guards stayed.
pub(crate) fn lend(
    query: Query,
    classes: &Classes,
    room: usize,
    fill: u64,
) -> (u64, Vec<u64>, Vec<u64>) {
    let mut lent = vec![POISON; room + 2 * GUARD];
    lent[GUARD..GUARD + room].fill(fill);
    let (refusal, rest) = query.ask(classes, 0, 1, &mut lent[GUARD..GUARD + room]);
    let (before, after) = (&lent[..GUARD], &lent[GUARD + room..]);
    assert!(before.iter().chain(after).all(|word| *word == POISON));
    (refusal, rest, lent[GUARD..GUARD + room].to_vec())
}

#[test]
fn too_short_a_slice_stays() {
    for query in QUERIES {
        for room in [0, 1, 16, 4096, WORK - 1] {
            let (refusal, rest, words) = lend(query, &sound(), room, POISON);
            assert_eq!(refusal, 22, "{query:?} {room}");
            assert!(rest.iter().all(|number| *number == 0));
            assert!(words.iter().all(|word| *word == POISON));
        }
    }
}

#[test]
fn a_slice_long_enough_is_zero_to_its_end() {
    for query in QUERIES {
        let (_, expected, _) = lend(query, &sound(), WORK, 0);
        for room in [WORK, WORK + 1, WORK + 7, 3 * WORK] {
            let (refusal, rest, words) = lend(query, &sound(), room, POISON);
            assert_eq!((refusal, rest), (0, expected.clone()), "{query:?} {room}");
            assert!(words.iter().all(|word| *word == 0), "{query:?} {room}");
        }
    }
}

#[test]
fn what_it_held_before_is_without_effect() {
    for query in QUERIES {
        let (_, expected, _) = lend(query, &sound(), WORK, 0);
        for fill in [1, 1024, u64::MAX, 1 << 63] {
            assert_eq!(lend(query, &sound(), WORK, fill).1, expected);
        }
    }
}

#[test]
fn every_other_refusal_leaves_it_zero() {
    let mut unequal = sound();
    unequal.len.pop();
    let mut place = sound();
    place.at[1] = u64::MAX;
    let mut utf8 = sound();
    utf8.names.store[1] = 0xff;
    let order = Classes::of(&["b", "a"]);
    let mut flags = sound();
    flags.push(2, 0, &[]);
    let no_object = Classes::of(&["a", "b"]);
    let alone = Classes::of(&["java/lang/Object"]);
    let room = Classes::of(&(0..1025).map(|i| format!("{i:04}")).collect::<Vec<_>>());
    for (classes, expected) in [
        (&unequal, 3),
        (&place, 3),
        (&utf8, 10),
        (&order, 5),
        (&flags, 6),
        (&no_object, 9),
        (&room, 8),
    ] {
        for query in QUERIES {
            for room in [WORK, WORK + 1] {
                let (refusal, rest, words) = lend(query, classes, room, POISON);
                assert_eq!(refusal, expected, "{query:?}");
                assert!(rest.iter().all(|number| *number == 0));
                assert!(words.iter().all(|word| *word == 0));
            }
        }
    }
    // The number asked about: the ancestors are of the first, which is there.
    for query in QUERIES
        .into_iter()
        .filter(|query| *query != Query::Ancestors)
    {
        let (refusal, _, words) = lend(query, &alone, WORK, POISON);
        assert_eq!(refusal, 6);
        assert!(words.iter().all(|word| *word == 0));
    }
}

/// Nothing else is written: every column is as it came. (The borrows say so; the archive is not bound by them.)
#[test]
fn the_columns_stay() {
    let classes = sound();
    let copy = classes.clone();
    for query in QUERIES {
        lend(query, &classes, WORK, POISON);
        assert_eq!(classes, copy);
    }
}

/// Columns of no length at all.
#[test]
fn empty_slices() {
    let nothing = Classes::default();
    for query in QUERIES {
        assert_eq!(lend(query, &nothing, WORK, POISON).0, 6);
    }
}
