//! Named facts: the tables that tell readings of the rules apart, with what both sides answer.

use judge::classes::Classes;

use crate::{agree_on_all, answer, set_of, work, Query};

const FAR: u64 = 4_611_686_018_427_387_903;
const NONE: u64 = u64::MAX;

/// a, b and java/lang/Object as 0, 1, 2, with these records: flags, class, parents.
fn table(records: &[(u64, u64, &[u64])]) -> Classes {
    with_names(&["a", "b", "java/lang/Object"], records)
}

fn with_names(names: &[&str], records: &[(u64, u64, &[u64])]) -> Classes {
    let mut classes = Classes::of(names);
    for (flags, class, parents) in records {
        classes.push(*flags, *class, parents);
    }
    agree_on_all(&classes);
    classes
}

#[test]
fn the_example_of_the_paper() {
    let names = ["a/Probe", "a/TrussA", "a/TrussB", "java/lang/Object"];
    let records: [(u64, u64, &[u64]); 4] = [(0, 0, &[3]), (0, 1, &[0]), (0, 2, &[0]), (0, 3, &[])];
    let classes = with_names(&names, &records);
    assert_eq!(answer(Query::Relation, &classes, 0, 1), 1);
    assert_eq!(answer(Query::Supertype, &classes, 1, 2), 0);
    // Without the record of Object, which a/Probe reaches.
    let classes = with_names(&names, &records[..3]);
    assert_eq!(answer(Query::Relation, &classes, 0, 1), 2);
}

#[test]
fn object_is_above_every_class_and_far_where_it_is_not_reached() {
    let classes = table(&[(0, 0, &[]), (0, 1, &[2])]);
    assert_eq!(answer(Query::Distance, &classes, 0, 2), FAR);
    assert_eq!(answer(Query::Distance, &classes, 1, 2), 1);
    assert_eq!(answer(Query::Distance, &classes, 2, 2), 0);
    assert_eq!(answer(Query::Distance, &classes, 0, 1), NONE);
    assert_eq!(answer(Query::Relation, &classes, 0, 2), 0);
    // An unrecorded class too.
    let classes = table(&[]);
    assert_eq!(answer(Query::Distance, &classes, 0, 2), FAR);
    assert_eq!(answer(Query::Relation, &classes, 0, 2), 0);
}

#[test]
fn an_object_that_is_not_reached_need_not_be_recorded() {
    let classes = table(&[(0, 0, &[])]);
    assert_eq!(answer(Query::Relation, &classes, 0, 1), 1);
    let classes = table(&[(0, 0, &[2])]);
    assert_eq!(answer(Query::Relation, &classes, 0, 1), 2);
}

#[test]
fn the_rule_of_object_is_not_followed_further() {
    let classes = table(&[(0, 0, &[]), (0, 2, &[1]), (0, 1, &[])]);
    assert_eq!(answer(Query::Relation, &classes, 0, 1), 1);
    let (_, set) = Query::Ancestors.ask(&classes, 0, 0, &mut work());
    assert_eq!(set, set_of(&[0, 2]));
}

#[test]
fn mutual_ancestors() {
    let classes = table(&[(0, 0, &[1]), (0, 1, &[0])]);
    assert_eq!(answer(Query::Supertype, &classes, 0, 1), 1);
    assert_eq!(answer(Query::Supertype, &classes, 1, 0), 0);
    assert_eq!(answer(Query::Supertype, &classes, 0, 0), 0);
}

#[test]
fn strictly_below_is_with_the_rule_of_object() {
    let names = ["a", "b", "c", "java/lang/Object"];
    let classes = with_names(
        &names,
        &[(0, 0, &[1]), (0, 2, &[1]), (0, 1, &[]), (0, 3, &[1])],
    );
    assert_eq!(answer(Query::Supertype, &classes, 0, 2), 1);
}

#[test]
fn an_unrecorded_class_is_unknown_to_all_but_itself_and_object() {
    let classes = table(&[(0, 1, &[]), (0, 2, &[])]);
    assert_eq!(answer(Query::Relation, &classes, 0, 0), 0);
    assert_eq!(answer(Query::Relation, &classes, 0, 1), 2);
    assert_eq!(answer(Query::Relation, &classes, 0, 2), 0);
}

#[test]
fn repeated_records_unite_parents_and_the_last_declared_one_gives_the_facts() {
    // Two final classes, one declared an interface afterwards; an undeclared record changes nothing.
    let classes = table(&[(5, 0, &[]), (5, 1, &[]), (3, 1, &[2]), (0, 1, &[1])]);
    assert_eq!(answer(Query::Cast, &classes, 0, 1), 0);
    let classes = table(&[(1, 0, &[]), (3, 1, &[]), (0, 1, &[])]);
    assert_eq!(answer(Query::Cast, &classes, 0, 1), 1);
    let classes = table(&[(5, 0, &[]), (1, 0, &[]), (5, 1, &[]), (3, 1, &[2])]);
    assert_eq!(answer(Query::Cast, &classes, 0, 1), 1);
    let (_, set) = Query::Ancestors.ask(&classes, 1, 1, &mut work());
    assert_eq!(set, set_of(&[1, 2]));
    assert_eq!(answer(Query::Distance, &classes, 1, 2), 1);
}

#[test]
fn casts_by_declared_facts() {
    let cast = |source, target| {
        let classes = table(&[(source, 0, &[]), (target, 1, &[])]);
        answer(Query::Cast, &classes, 0, 1)
    };
    // An undeclared side gives no, whatever the other is; else both interfaces, or one and the other not final.
    for (source, targets) in [
        (0, [0, 0, 0, 0, 0]),
        (1, [0, 0, 1, 0, 1]),
        (3, [0, 1, 1, 0, 1]),
        (5, [0, 0, 0, 0, 0]),
        (7, [0, 1, 1, 0, 1]),
    ] {
        assert_eq!([0, 1, 3, 5, 7].map(|target| cast(source, target)), targets);
    }
    // Object on either side, and an ancestor on either side.
    let classes = table(&[(5, 0, &[1])]);
    for (source, target) in [(0, 2), (2, 0), (1, 2), (2, 1), (0, 1), (1, 0), (2, 2)] {
        assert_eq!(answer(Query::Cast, &classes, source, target), 1);
    }
}

#[test]
fn a_cast_by_facts_where_the_relation_is_unknown() {
    // a reaches c, which has no record.
    let names = ["a", "b", "c", "java/lang/Object"];
    let classes = with_names(&names, &[(3, 0, &[2]), (3, 1, &[])]);
    assert_eq!(answer(Query::Relation, &classes, 0, 1), 2);
    assert_eq!(answer(Query::Cast, &classes, 0, 1), 1);
}

/// c and d are above both a and b, and neither is above the other.
#[test]
fn the_nearest_of_two_common_ancestors() {
    let names = [
        "a",
        "b",
        "c",
        "d",
        "e",
        "f",
        "g",
        "h",
        "i",
        "java/lang/Object",
    ];
    let nearest = |records: &[(u64, u64, &[u64])]| {
        let classes = with_names(&names, records);
        answer(Query::Supertype, &classes, 0, 1)
    };
    // Both by 1 and 1: the name decides.
    assert_eq!(nearest(&[(0, 0, &[2, 3]), (0, 1, &[3, 2])]), 2);
    // c by 2 and 2, d by 1 and 2: the greater one is the same, the sum decides.
    let by_sum: [(u64, u64, &[u64]); 4] =
        [(0, 0, &[3, 4]), (0, 1, &[5]), (0, 4, &[2]), (0, 5, &[2, 3])];
    assert_eq!(nearest(&by_sum), 3);
    // c by 1 and 4, d by 3 and 3: the greater one decides before the sum.
    let by_greater: [(u64, u64, &[u64]); 7] = [
        (0, 0, &[2, 4]),
        (0, 4, &[5]),
        (0, 5, &[3]),
        (0, 1, &[6]),
        (0, 6, &[7]),
        (0, 7, &[3, 8]),
        (0, 8, &[2]),
    ];
    assert_eq!(nearest(&by_greater), 3);
}

#[test]
fn a_table_of_object_alone() {
    let classes = with_names(&["java/lang/Object"], &[]);
    let (refusal, set) = Query::Ancestors.ask(&classes, 0, 0, &mut work());
    assert_eq!((refusal, set), (0, set_of(&[0])));
    assert_eq!(answer(Query::Supertype, &classes, 0, 0), 0);
    assert_eq!(answer(Query::Cast, &classes, 0, 0), 1);
}
