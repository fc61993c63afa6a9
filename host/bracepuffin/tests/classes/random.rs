//! Random tables: all pairs of small ones, some pairs of large ones, and tables with faults.

use judge::class_cases::{any_classes, damage_classes, fullest_classes, layered_classes};
use judge::classes::{Classes, WORK};
use judge::layer_cases::any_stack;
use judge::rng::Rng;

use crate::{agree, agree_on_all, cases, work, Query, POISON, QUERIES};

/// Both sides on that many random pairs.
pub(crate) fn some_pairs(rng: &mut Rng, classes: &Classes, pairs: u64) {
    let judge = classes.judge();
    let count = judge.names.len() as u64;
    let mut work = work();
    for _ in 0..pairs {
        let (left, right) = (rng.below(count), rng.below(count));
        agree(classes, &judge, left, right, &mut work);
    }
}

#[test]
fn small_tables() {
    let mut rng = Rng::new(1, "small class tables");
    for _ in 0..cases(80) {
        agree_on_all(&any_classes(&mut rng, 7));
    }
}

#[test]
fn tables_across_the_words_of_a_set() {
    let mut rng = Rng::new(1, "class tables across words");
    for _ in 0..cases(40) {
        let classes = any_classes(&mut rng, 140);
        some_pairs(&mut rng, &classes, 12);
    }
}

#[test]
fn tables_as_programs_have_them() {
    let mut rng = Rng::new(1, "layered class tables");
    for unrecorded in [0, 0, 3, 10, 40] {
        let classes = layered_classes(&mut rng, 150, unrecorded);
        some_pairs(&mut rng, &classes, cases(50));
    }
}

#[test]
fn the_largest_tables() {
    let mut rng = Rng::new(1, "largest class tables");
    let pairs = cases(12);
    let classes = layered_classes(&mut rng, 1024, 30);
    some_pairs(&mut rng, &classes, pairs);
    let classes = fullest_classes(&mut rng, 4096);
    assert_eq!(classes.names().map(|names| names.len()), Ok(1024));
    some_pairs(&mut rng, &classes, pairs);
}

#[test]
fn tables_with_faults() {
    let mut rng = Rng::new(1, "class tables with faults");
    let mut refusals = [0; 24];
    for _ in 0..cases(2_500) {
        let mut classes = any_stack(&mut rng, 6);
        for _ in 0..1 + rng.below(2) {
            damage_classes(&mut rng, &mut classes);
        }
        let names = classes.names.at.len() as u64;
        let (left, right) = (rng.below(names + 1), rng.below(names + 1));
        let query = *rng.pick(&QUERIES);
        let room = if rng.below(8) == 0 { WORK - 1 } else { WORK };
        let expected = classes.refusal(&query.numbers(left, right), room);
        refusals[expected as usize] += 1;
        let mut work = vec![POISON; room];
        let (refusal, rest) = query.ask(&classes, left, right, &mut work);
        assert_eq!(refusal, expected, "{query:?} {left} {right} {classes:?}");
        match refusal {
            0 => assert_eq!(rest, query.judged(&classes.judge(), left, right)),
            _ => assert!(rest.iter().all(|number| *number == 0)),
        }
    }
    assert!(
        [0, 3, 5, 6, 8, 10, 22]
            .iter()
            .all(|number| refusals[*number] > 0),
        "{refusals:?}"
    );
}

/// Names and parents may stand anywhere in their slices: shared, in another order, with others between.
#[test]
fn places_in_another_order() {
    let mut rng = Rng::new(1, "places of class tables");
    for _ in 0..cases(100) {
        let classes = any_classes(&mut rng, 6);
        let mut moved = classes.clone();
        let mut parents = Vec::new();
        for row in (0..classes.at.len()).rev() {
            parents.extend((0..rng.below(3)).map(|_| rng.draw()));
            moved.at[row] = parents.len() as u64;
            let (at, len) = (classes.at[row] as usize, classes.len[row] as usize);
            parents.extend_from_slice(&classes.parents[at..at + len]);
        }
        moved.parents = parents;
        let count = classes.names.at.len() as u64;
        let (left, right) = (rng.below(count), rng.below(count));
        for query in QUERIES {
            let before = query.ask(&classes, left, right, &mut work());
            assert_eq!(query.ask(&moved, left, right, &mut work()), before);
        }
    }
}

/// The order of records decides nothing but which declared facts are the last.
#[test]
fn records_in_another_order() {
    let mut rng = Rng::new(1, "records in another order");
    for _ in 0..cases(100) {
        let classes = any_classes(&mut rng, 6);
        let mut turned = classes.clone();
        turned.flags.reverse();
        turned.class.reverse();
        turned.at.reverse();
        turned.len.reverse();
        let count = classes.names.at.len() as u64;
        let (left, right) = (rng.below(count), rng.below(count));
        for query in QUERIES.into_iter().filter(|query| *query != Query::Cast) {
            let before = query.ask(&classes, left, right, &mut work());
            assert_eq!(query.ask(&turned, left, right, &mut work()), before);
        }
    }
}
