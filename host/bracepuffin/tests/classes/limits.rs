//! Both sides of each limit: names, their bytes, pairs, parents of a record.

use judge::classes::{Classes, WORK};

use crate::{agree, answer, set_of, work, Query, QUERIES};

/// Names 0000, 0001, .. and java/lang/Object as the last, that many in all.
fn numbered(count: u64) -> Vec<String> {
    let mut names: Vec<String> = (0..count - 1)
        .map(|number| format!("{number:04}"))
        .collect();
    names.push("java/lang/Object".to_string());
    names
}

fn refusal(classes: &Classes) -> u64 {
    let number = Query::Relation.ask(classes, 0, 0, &mut work()).0;
    assert_eq!(classes.refusal(&[0, 0], WORK), number);
    for query in QUERIES {
        assert_eq!(query.ask(classes, 0, 0, &mut work()).0, number);
    }
    number
}

#[test]
fn names() {
    assert_eq!(refusal(&Classes::of(&numbered(1024))), 0);
    assert_eq!(refusal(&Classes::of(&numbered(1025))), 8);
}

#[test]
fn the_longest_chain() {
    let count = 1024;
    let mut classes = Classes::of(&numbered(count));
    for class in 0..count - 1 {
        classes.push(0, class, &[class + 1]);
    }
    assert_eq!(answer(Query::Distance, &classes, 0, count - 1), count - 1);
    assert_eq!(answer(Query::Distance, &classes, 0, count - 2), count - 2);
    assert_eq!(answer(Query::Relation, &classes, 1, 0), 2);
    let (_, set) = Query::Ancestors.ask(&classes, 0, 0, &mut work());
    assert_eq!(set, set_of(&(0..count).collect::<Vec<_>>()));
    agree(&classes, &classes.judge(), 0, 700, &mut work());
    // Round and round: Object, recorded below the first, closes the circle.
    classes.push(0, count - 1, &[0]);
    assert_eq!(answer(Query::Distance, &classes, 1, 0), count - 1);
    assert_eq!(answer(Query::Supertype, &classes, 5, 3), 3);
    agree(&classes, &classes.judge(), 1000, 999, &mut work());
}

#[test]
fn parents_of_a_record() {
    let names = numbered(400);
    let with = |parents: u64| {
        let mut classes = Classes::of(&names);
        classes.push(0, 0, &(1..=parents).collect::<Vec<_>>());
        classes
    };
    assert_eq!(refusal(&with(254)), 0);
    assert_eq!(refusal(&with(255)), 3);
    assert_eq!(answer(Query::Distance, &with(254), 0, 254), 1);
    // A class with more parents has several records.
    let mut classes = with(254);
    classes.push(0, 0, &(255..399).collect::<Vec<_>>());
    assert_eq!(answer(Query::Distance, &classes, 0, 398), 1);
    agree(&classes, &classes.judge(), 0, 300, &mut work());
    // Repeats count as parents of the record, though not as pairs.
    let mut repeats = Classes::of(&names);
    repeats.push(0, 0, &[1; 254]);
    assert_eq!(refusal(&repeats), 0);
    repeats.push(0, 0, &[1; 255]);
    assert_eq!(refusal(&repeats), 3);
}

/// A table with that many distinct pairs, 200 a class.
fn pairs(count: usize) -> Classes {
    let mut classes = Classes::of(&numbered(1024));
    for (class, start) in (0..).zip((0..count).step_by(200)) {
        let parents: Vec<u64> = (0..(count - start).min(200) as u64).collect();
        classes.push(0, class, &parents);
    }
    classes
}

#[test]
fn distinct_pairs() {
    assert_eq!(refusal(&pairs(4096)), 0);
    assert_eq!(refusal(&pairs(4097)), 8);
    let full = pairs(4096);
    let mut one_more = full.clone();
    one_more.push(0, 1000, &[5]);
    assert_eq!(refusal(&one_more), 8);
}

#[test]
fn a_pair_already_there_is_never_one_too_many() {
    let mut full = pairs(4096);
    full.push(0, 0, &[0, 1, 2, 199, 199]);
    full.push(5, 1, &[7]);
    full.push(0, 900, &[]);
    assert_eq!(refusal(&full), 0);
    // The facts of such a record are taken.
    full.push(3, 900, &[]);
    full.push(7, 901, &[]);
    assert_eq!(answer(Query::Cast, &full, 900, 901), 1);
    assert_eq!(answer(Query::Cast, &full, 1, 900), 0);
    full.push(1, 1, &[199]);
    assert_eq!(answer(Query::Cast, &full, 1, 900), 1);
    full.push(1, 1, &[199, 200]);
    assert_eq!(refusal(&full), 8);
}

#[test]
fn records_have_no_limit_of_their_own() {
    let mut classes = Classes::of(&numbered(3));
    for _ in 0..10_000 {
        classes.push(0, 0, &[1, 2]);
    }
    assert_eq!(refusal(&classes), 0);
    assert_eq!(answer(Query::Distance, &classes, 0, 1), 1);
}

#[test]
fn bytes_of_names() {
    let mut names: Vec<String> = (0..96).map(|number| format!("{number:0255}")).collect();
    names.push("java/lang/Object".to_string());
    names.push("z".repeat(24_576 - 96 * 255 - 16));
    assert_eq!(refusal(&Classes::of(&names)), 0);
    names[97].push('z');
    assert_eq!(refusal(&Classes::of(&names)), 8);
}
