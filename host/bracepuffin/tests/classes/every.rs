//! Every table of three names with java/lang/Object: every set of parents of each class, with or without a record where
//! there are none, and every choice of declared facts of two classes.

use bracepuffin::slices;
use judge::class_cases::FLAGS;
use judge::classes::{Classes, Judge};

use crate::{columns, set_of, work};

/// The names with Object first, in the middle and last.
const NAMES: [[&str; 3]; 3] = [
    ["java/lang/Object", "k", "l"],
    ["a", "java/lang/Object", "l"],
    ["a", "b", "java/lang/Object"],
];

/// A class without a record, or the set of its parents as three bits, and its flags.
type Choice = Option<(u64, u64)>;

/// Every choice for one class, of records with these flags.
fn choices(flags: &[u64]) -> Vec<Choice> {
    let mut all = vec![None];
    for parents in 0..8 {
        all.extend(flags.iter().map(|flags| Some((parents, *flags))));
    }
    all
}

/// Every table over these names, where records of each class have these flags.
fn each_table(
    names: [&str; 3],
    flags: [&[u64]; 3],
    mut try_one: impl FnMut(&Classes, &Judge),
) -> u64 {
    let [firsts, seconds, thirds] = flags.map(choices);
    let mut tables = 0;
    for first in &firsts {
        for second in &seconds {
            for third in &thirds {
                let classes = table(names, [*first, *second, *third]);
                try_one(&classes, &classes.judge());
                tables += 1;
            }
        }
    }
    tables
}

fn table(names: [&str; 3], choices: [Choice; 3]) -> Classes {
    let mut classes = Classes::of(&names);
    for (class, choice) in (0..).zip(choices) {
        if let Some((set, flags)) = choice {
            let parents: Vec<u64> = (0..3).filter(|parent| set >> parent & 1 == 1).collect();
            classes.push(flags, class, &parents);
        }
    }
    classes
}

fn each_pair(mut try_one: impl FnMut(u64, u64)) {
    for left in 0..3 {
        for right in 0..3 {
            try_one(left, right);
        }
    }
}

#[test]
fn relations_distances_and_casts() {
    let mut work = work();
    let tables = each_table(NAMES[2], [&[0]; 3], |classes, judge| {
        let table = columns(classes);
        each_pair(|left, right| {
            let relation = slices::relation(table, left, right, &mut work);
            let expected = (0, judge.relation(left, right));
            assert_eq!((relation.refusal, relation.relation), expected);
            let distance = slices::distance(table, left, right, &mut work);
            let expected = (0, judge.distance(left, right));
            assert_eq!((distance.refusal, distance.value), expected);
            let cast = slices::cast(table, left, right, &mut work);
            let expected = (0, judge.cast(left, right));
            assert_eq!((cast.refusal, cast.value), expected);
        });
    });
    assert_eq!(tables, 9 * 9 * 9);
}

#[test]
fn ancestors() {
    let mut work = work();
    each_table(NAMES[2], [&[0]; 3], |classes, judge| {
        for class in 0..3 {
            let set = slices::ancestors(columns(classes), class, &mut work);
            let numbers = [&[set.count, set.lowest], &set.words[..]].concat();
            let expected = set_of(&judge.ancestors(class));
            assert_eq!((set.refusal, numbers), (0, expected));
        }
    });
}

/// The order of names decides between equal distances, so Object is tried at each place. Equal classes are asked about
/// in one of them.
#[test]
fn supertypes() {
    let mut work = work();
    for names in NAMES {
        each_table(names, [&[0]; 3], |classes, judge| {
            each_pair(|left, right| {
                if left == right && names != NAMES[2] {
                    return;
                }
                let supertype = slices::supertype(columns(classes), left, right, &mut work);
                let expected = (0, judge.supertype(left, right));
                assert_eq!((supertype.refusal, supertype.value), expected);
            });
        });
    }
}

/// Every choice of parents and facts of two classes, with every choice of parents of Object. Its facts are never asked: it is
/// above every class.
#[test]
fn casts_by_facts() {
    let mut work = work();
    let tables = each_table(NAMES[2], [&FLAGS, &FLAGS, &[0]], |classes, judge| {
        for (source, target) in [(0, 1), (1, 0)] {
            let cast = slices::cast(columns(classes), source, target, &mut work);
            let expected = (0, judge.cast(source, target));
            assert_eq!((cast.refusal, cast.value), expected, "{classes:?}");
        }
    });
    assert_eq!(tables, 41 * 41 * 9);
}
