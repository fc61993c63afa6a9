//! Tables of several layers beside hierarchy.rs with an index for each, and the rules for rows that open a layer.

use judge::class_cases::{any_classes, any_layers, layered_classes};
use judge::classes::WORK;
use judge::layer_cases::{faulty_layers, full_layers, open_layers, telling_layers};
use judge::rng::Rng;

use crate::check::check;
use crate::lent::lend;
use crate::random::some_pairs;
use crate::{agree_on_all, cases, work, POISON, QUERIES};

#[test]
fn telling_stacks() {
    for (_, classes) in telling_layers() {
        assert_eq!(check(&classes), [0, 0, 0]);
        agree_on_all(&classes);
    }
}

#[test]
fn small_stacks() {
    let mut rng = Rng::new(1, "small stacks");
    for _ in 0..cases(80) {
        agree_on_all(&any_layers(&mut rng).lent());
    }
}

/// Every question is answered as over the one plain table that shows the same.
#[test]
fn stacks_and_what_they_show() {
    let mut rng = Rng::new(1, "stacks and what they show");
    let mut work = work();
    for _ in 0..cases(150) {
        let layers = any_layers(&mut rng);
        let (stack, shown) = (layers.lent(), layers.shown());
        let count = layers.names.len() as u64;
        let (left, right) = (rng.below(count), rng.below(count));
        for query in QUERIES {
            let answer = query.ask(&shown, left, right, &mut work);
            assert_eq!(query.ask(&stack, left, right, &mut work), answer);
        }
    }
}

#[test]
fn larger_stacks() {
    let mut rng = Rng::new(1, "larger stacks");
    for number in 0..cases(40) {
        let classes = match number % 3 {
            0 => layered_classes(&mut rng, 150, 10),
            _ => any_classes(&mut rng, 140),
        };
        let classes = open_layers(&mut rng, &classes, 1 + number % 3);
        some_pairs(&mut rng, &classes, 8);
    }
}

/// Every layer as full as it may be, and one row too many: what is accepted is answered, what is not says which row.
#[test]
fn full_stacks() {
    let mut rng = Rng::new(1, "full stacks");
    for (what, classes, told) in full_layers() {
        assert_eq!(check(&classes), told, "{what}");
        match told[0] {
            0 => some_pairs(&mut rng, &classes, cases(6)),
            refusal => {
                for query in QUERIES {
                    let (found, rest) = query.ask(&classes, 0, 0, &mut work());
                    assert_eq!(found, refusal, "{what}");
                    assert!(rest.iter().all(|number| *number == 0), "{what}");
                }
            }
        }
    }
    let classes = layered_classes(&mut rng, 1024, 30);
    let classes = open_layers(&mut rng, &classes, 3);
    some_pairs(&mut rng, &classes, cases(12));
}

/// Rows that open a layer and may not: the check, every query, and what is left in the working slice.
#[test]
fn stacks_with_faults() {
    for (what, classes, told) in faulty_layers() {
        assert_eq!(check(&classes), told, "{what}");
        assert_eq!(classes.check(), told, "{what}");
        for query in QUERIES {
            let expected = classes.refusal(&query.numbers(0, 1), WORK);
            for room in [WORK, WORK + 7] {
                let (refusal, rest, words) = lend(query, &classes, room, POISON);
                assert_eq!(refusal, expected, "{query:?} {what}");
                assert!(refusal == 0 || rest.iter().all(|number| *number == 0));
                assert!(words.iter().all(|word| *word == 0), "{query:?} {what}");
            }
            let (refusal, _, words) = lend(query, &classes, WORK - 1, POISON);
            assert_eq!(refusal, 22, "{query:?} {what}");
            assert!(words.iter().all(|word| *word == POISON));
        }
    }
}

/// The working slice is zero to its end, whatever it held, and no column is written.
#[test]
fn the_working_slice_of_stacks() {
    let full = full_layers().into_iter().map(|(_, classes, _)| classes);
    let telling = telling_layers().into_iter().map(|(_, classes)| classes);
    for classes in full.take(1).chain(telling) {
        let copy = classes.clone();
        for query in QUERIES {
            let (_, expected, _) = lend(query, &classes, WORK, 0);
            for (room, fill) in [(WORK, POISON), (WORK + 7, u64::MAX), (2 * WORK, 1)] {
                let (refusal, rest, words) = lend(query, &classes, room, fill);
                assert_eq!((refusal, rest), (0, expected.clone()), "{query:?}");
                assert!(words.iter().all(|word| *word == 0), "{query:?}");
            }
            assert_eq!(classes, copy);
        }
    }
}
