//! All pairs of types of every kind over several tables, random pairs over others, and lists joined one by one.

use bracepuffin::slices;
use judge::class_cases::any_classes;
use judge::classes::{Classes, Judge};
use judge::layer_cases::{open_layers, telling_layers};
use judge::rng::Rng;

use crate::{array, cases, columns, unknown, work, CLASS};

/// Lists with no member, one, several in both orders, Void among them, the standard one, and all categories.
fn lists() -> Vec<u64> {
    let lists: [&[u64]; 12] = [
        &[],
        &[0],
        &[5],
        &[9],
        &[10],
        &[1, 5],
        &[5, 1],
        &[0, 9],
        &[9, 10],
        &[6, 8],
        &[5, 6, 7, 8, 1, 3, 2, 4, 9, 10],
        &[0, 1, 2, 3, 4, 5, 6, 7, 8, 9, 10],
    ];
    lists.iter().map(|list| unknown(list)).collect()
}

/// Every category, these classes and the lists.
fn bases(classes: &[u64]) -> Vec<u64> {
    let mut bases: Vec<u64> = (0..=10).collect();
    bases.extend(classes.iter().map(|class| CLASS | class));
    bases.extend(lists());
    bases
}

/// a is below b and the interfaces; c has no record; d is below nothing. Both arrays' interfaces are among the names.
fn related() -> Classes {
    let names = [
        "a",
        "b",
        "c",
        "d",
        "java/io/Serializable",
        "java/lang/Cloneable",
        "java/lang/Object",
    ];
    let mut classes = Classes::of(&names);
    classes.push(1, 0, &[1, 4]);
    classes.push(1, 1, &[6]);
    classes.push(1, 3, &[]);
    classes.push(3, 4, &[]);
    classes.push(3, 5, &[6]);
    classes.push(1, 6, &[]);
    classes
}

fn agree(classes: &Classes, judge: &Judge, left: u64, right: u64, work: &mut [u64]) {
    let joined = slices::join(columns(classes), left, right, work);
    let expected = (0, judge.join(left, right));
    assert_eq!(
        (joined.refusal, joined.value),
        expected,
        "{left:016x} {right:016x} {classes:?}"
    );
    let answer = slices::assignable(columns(classes), left, right, work);
    let expected = (0, judge.assignable(left, right));
    assert_eq!(
        (answer.refusal, answer.value),
        expected,
        "{left:016x} {right:016x} {classes:?}"
    );
}

#[test]
fn all_pairs_of_types() {
    let classes = related();
    let judge = classes.judge();
    let mut types = Vec::new();
    for base in bases(&[0, 1, 2, 3, 5, 6]) {
        types.extend([0, 1, 2].map(|dimensions| array(dimensions, base)));
    }
    // The deepest ones of a few bases, and one depth between.
    for base in [
        0,
        5,
        CLASS,
        CLASS | 1,
        CLASS | 6,
        unknown(&[9]),
        unknown(&[]),
    ] {
        types.extend([3, 254, 255].map(|dimensions| array(dimensions, base)));
    }
    assert_eq!(types.len(), 29 * 3 + 7 * 3);
    let mut work = work();
    for left in &types {
        for right in &types {
            agree(&classes, &judge, *left, *right, &mut work);
        }
    }
}

/// A circle of two classes under Object; and Object under a class, no interface of arrays among the names.
fn others() -> [Classes; 2] {
    let mut circle = Classes::of(&["a", "b", "java/io/Serializable", "java/lang/Object"]);
    circle.push(1, 0, &[1]);
    circle.push(1, 1, &[0, 3]);
    circle.push(0, 3, &[]);
    let mut above = Classes::of(&["a", "b", "c", "java/lang/Object"]);
    above.push(1, 0, &[1]);
    above.push(0, 2, &[1, 3]);
    above.push(1, 3, &[1]);
    [circle, above]
}

#[test]
fn all_pairs_of_types_over_other_tables() {
    let mut work = work();
    for classes in others() {
        let judge = classes.judge();
        let numbers: Vec<u64> = (0..judge.names.len() as u64).collect();
        let mut types = Vec::new();
        for base in bases(&numbers) {
            types.extend([0, 1].map(|dimensions| array(dimensions, base)));
        }
        for left in &types {
            for right in &types {
                agree(&classes, &judge, *left, *right, &mut work);
            }
        }
    }
}

/// Every class beside every other, its array and a primitive, over the stacks that tell the rules of layers apart.
#[test]
fn all_pairs_of_classes_over_telling_stacks() {
    let mut work = work();
    for (_, classes) in telling_layers() {
        let judge = classes.judge();
        let classes_alone = (0..judge.names.len() as u64).map(|class| CLASS | class);
        let mut types = vec![5];
        types.extend(classes_alone.flat_map(|class| [class, array(1, class)]));
        for left in &types {
            for right in &types {
                agree(&classes, &judge, *left, *right, &mut work);
            }
        }
    }
}

/// A list is joined from its front in the order of types, as `join_all` does.
#[test]
fn random_lists_joined_one_by_one() {
    let mut rng = Rng::new(1, "lists of types");
    let mut work = work();
    let [circle, above] = others();
    for classes in [related(), circle, above] {
        let judge = classes.judge();
        let numbers: Vec<u64> = (0..judge.names.len() as u64).collect();
        let bases = bases(&numbers);
        for _ in 0..cases(200) {
            let length = 1 + rng.below(6);
            let mut words: Vec<u64> = (0..length)
                .map(|_| array(*rng.pick(&[0, 0, 0, 1, 2]), *rng.pick(&bases)))
                .collect();
            words.sort_by_key(|word| judge.type_of(*word));
            let ours = words.iter().copied().reduce(|left, right| {
                let joined = slices::join(columns(&classes), left, right, &mut work);
                assert_eq!(joined.refusal, 0);
                joined.value
            });
            assert_eq!(ours, judge.join_all(&words), "{words:x?} {classes:?}");
        }
    }
}

/// Classes are related in each way in random tables of one to four layers, in some of which both interfaces of arrays are
/// names.
#[test]
fn random_pairs_over_random_tables() {
    let mut rng = Rng::new(1, "types over class tables");
    let mut work = work();
    for number in 0..cases(60) {
        let mut classes = any_classes(&mut rng, 9);
        if rng.below(2) == 0 {
            classes = related();
            classes.push(0, rng.below(7), &[rng.below(7)]);
        }
        let classes = open_layers(&mut rng, &classes, number % 4);
        let judge = classes.judge();
        let numbers: Vec<u64> = (0..judge.names.len() as u64).collect();
        let bases = bases(&numbers);
        for _ in 0..40 {
            let mut word = || array(*rng.pick(&[0, 0, 0, 1, 1, 2, 3, 255]), *rng.pick(&bases));
            let (left, right) = (word(), word());
            agree(&classes, &judge, left, right, &mut work);
        }
    }
}

/// Every pair of categories, with a dimension and without.
#[test]
fn every_pair_of_categories() {
    let classes = related();
    let judge = classes.judge();
    let mut work = work();
    for left in 0..=10 {
        for right in 0..=10 {
            agree(&classes, &judge, left, right, &mut work);
            agree(&classes, &judge, array(1, left), array(1, right), &mut work);
        }
    }
}
