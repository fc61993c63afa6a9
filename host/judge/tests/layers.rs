//! Tables in layers: hierarchy.rs with an index for each layer answers as it does over the one plain table that shows
//! the same.

use dexdec::hierarchy::{direct_parents, reference_type};
use judge::class_cases::{any_classes, any_layers, FLAGS};
use judge::classes::{Classes, Judge, OBJECT};
use judge::layer_cases::{open_layers, telling_layers};
use judge::layers::{recorded_above, shown_rows, Layers, Row};
use judge::rng::Rng;
use judge::solve_cases::{any_problem, any_type, class_problem};

/// The four names of the cases below.
const A: u64 = 0;
const B: u64 = 1;
const C: u64 = 2;
const OBJECT_ITSELF: u64 = 3;

/// Flags of a record: not declared, or declared with its facts.
const UNDECLARED: u64 = 0;
const CLASS: u64 = 1;
const INTERFACE: u64 = 3;
const FINAL: u64 = 5;

/// Answers about relations and distances.
const YES: u64 = 0;
const NO: u64 = 1;
const UNKNOWN: u64 = 2;
const NONE: u64 = u64::MAX;

/// Every question about every class and every pair of classes.
fn agree(stack: &Judge, layers: &Layers) {
    let shown = layers.shown().judge();
    let count = shown.names.len() as u64;
    for class in 0..count {
        let (ancestors, name) = (stack.ancestors(class), &shown.names[class as usize]);
        assert_eq!(ancestors, shown.ancestors(class), "{class} {layers:?}");
        let parents = [stack, &shown].map(|judge| direct_parents(&judge.index, name));
        assert_eq!(parents[0], parents[1], "{class} {layers:?}");
        let facts = [stack, &shown].map(|judge| reference_type(&judge.index, name));
        assert_eq!(facts[0], facts[1], "{class} {layers:?}");
        for other in 0..count {
            let answers = [stack, &shown].map(|judge| pair(judge, class, other));
            assert_eq!(answers[0], answers[1], "{class} {other} {layers:?}");
        }
    }
}

/// relation, distance, supertype, cast
fn pair(judge: &Judge, left: u64, right: u64) -> [u64; 4] {
    [
        judge.relation(left, right),
        judge.distance(left, right),
        judge.supertype(left, right),
        judge.cast(left, right),
    ]
}

#[test]
fn random_stacks() {
    let mut rng = Rng::new(1, "layers");
    let mut heights = [0; 4];
    let [mut hidden, mut without_record] = [0; 2];
    for _ in 0..5_000 {
        let layers = any_layers(&mut rng);
        agree(&layers.stack(), &layers);
        let rows = &layers.rows;
        heights[rows.iter().filter(|row| row.opens()).count()] += 1;
        let hides = |at: usize| !rows[at].opens() && recorded_above(rows[at].class, &rows[at..]);
        hidden += u64::from((0..rows.len()).any(hides));
        without_record += u64::from(rows.split(Row::opens).any(|layer| layer.is_empty()));
    }
    assert!(heights.iter().all(|count| *count > 500), "{heights:?}");
    assert!(hidden > 500 && without_record > 500);
}

/// The layers of a sound table.
fn layers_of(classes: &Classes) -> Layers {
    Layers {
        names: classes.names().expect("a sound table"),
        rows: classes.rows(),
    }
}

#[test]
fn telling_stacks() {
    for (_, classes) in telling_layers() {
        let layers = layers_of(&classes);
        assert_eq!(layers.lent(), classes);
        agree(&layers.stack(), &layers);
    }
}

/// Joins, assignability and solves ask classes through the layers alone, so they too are those over what is shown.
#[test]
fn types_and_solves_over_stacks() {
    let mut rng = Rng::new(1, "types over layers");
    let [mut answered, mut other] = [0; 2];
    for number in 0..1_500 {
        let plain = any_classes(&mut rng, 8);
        let classes = open_layers(&mut rng, &plain, 1 + number % 3);
        let shown = layers_of(&classes).shown();
        let names = classes.names.at.len() as u64;
        let judges = [&classes, &shown].map(Classes::judge);
        for _ in 0..8 {
            let (left, right) = (any_type(&mut rng, names), any_type(&mut rng, names));
            let asked = judges
                .each_ref()
                .map(|judge| [judge.join(left, right), judge.assignable(left, right)]);
            assert_eq!(asked[0], asked[1], "{left:x} {right:x} {classes:?}");
        }
        let problem = match number % 4 {
            0 => any_problem(&mut rng, names, 5),
            _ => class_problem(&mut rng, names),
        };
        let solved = [&classes, &shown].map(|table| table.solve(&problem, problem.least()));
        assert_eq!(solved[0], solved[1], "{problem:?} {classes:?}");
        answered += u64::from(solved[0].refusal == 0);
        other += u64::from(plain.solve(&problem, problem.least()) != solved[0]);
    }
    assert!(answered > 1_000 && other > 30, "{answered} {other}");
}

/// An index keeps what it was asked. None of that may be answered by a layer above it, or after one more record.
#[test]
fn stacks_that_are_asked_after_each_row() {
    let mut rng = Rng::new(1, "layers asked after each row");
    for _ in 0..300 {
        let whole = any_layers(&mut rng);
        let mut stack = Judge::without_records(whole.names.clone());
        let mut layers = Layers {
            rows: Vec::new(),
            ..whole
        };
        for row in whole.rows {
            stack = stack.with_row(&row);
            layers.rows.push(row);
            agree(&stack, &layers);
        }
    }
}

/// One record below and one above, each in every form over three names.
#[test]
fn every_pair_of_records() {
    let names: Vec<String> = ["a", "b", OBJECT].map(String::from).to_vec();
    let mut records = Vec::new();
    for flags in FLAGS {
        for class in 0..3 {
            for set in 0..8_u64 {
                let parents: Vec<u64> = (0..3).filter(|parent| set >> parent & 1 == 1).collect();
                records.push(Row::record(flags, class, &parents));
            }
        }
    }
    for below in &records {
        for above in &records {
            let layers = Layers {
                names: names.clone(),
                rows: vec![below.clone(), Row::opening(), above.clone()],
            };
            agree(&layers.stack(), &layers);
        }
    }
}

/// A record of a case.
fn row(flags: u64, class: u64, parents: &[u64]) -> Row {
    Row::record(flags, class, parents)
}

/// The stack of these layers, the lowest first, after it was found to answer as the plain table does.
fn stack(layers: &[&[Row]]) -> Judge {
    let layers = Layers {
        names: ["a", "b", "c", OBJECT].map(String::from).to_vec(),
        rows: layers.join(&Row::opening()),
    };
    let stack = layers.stack();
    agree(&stack, &layers);
    stack
}

#[test]
fn rows_that_are_shown() {
    let rows = [
        row(FINAL, A, &[B]),
        row(CLASS, B, &[C]),
        Row::opening(),
        row(UNDECLARED, A, &[C]),
        row(INTERFACE, A, &[OBJECT_ITSELF]),
        Row::opening(),
        Row::opening(),
        row(UNDECLARED, B, &[]),
    ];
    let shown = [
        row(FINAL, A, &[]),
        row(CLASS, B, &[]),
        row(UNDECLARED, A, &[C]),
        row(INTERFACE, A, &[OBJECT_ITSELF]),
        row(UNDECLARED, B, &[]),
    ];
    assert_eq!(shown_rows(&rows), shown);
}

#[test]
fn a_record_above_replaces_the_parents_below() {
    let below = [row(UNDECLARED, A, &[B]), row(UNDECLARED, C, &[])];
    let stack = stack(&[&below, &[row(UNDECLARED, A, &[C])]]);
    assert_eq!(stack.ancestors(A), [A, C, OBJECT_ITSELF]);
    assert_eq!(stack.relation(A, C), YES);
    assert_eq!(stack.distance(A, C), 1);
    // Nothing that A still leads to is without a record, so this is known.
    assert_eq!(stack.relation(A, B), NO);
    assert_eq!(stack.distance(A, B), NONE);
    assert_eq!(stack.cast(A, B), 0);
}

#[test]
fn a_record_without_parents_hides_those_below() {
    let below = [row(UNDECLARED, A, &[B])];
    let open = stack(&[&below, &[]]);
    assert_eq!(open.ancestors(A), [A, B, OBJECT_ITSELF]);
    assert_eq!(open.relation(A, C), UNKNOWN);
    let hidden = stack(&[&below, &[row(UNDECLARED, A, &[])]]);
    assert_eq!(hidden.ancestors(A), [A, OBJECT_ITSELF]);
    assert_eq!(hidden.relation(A, C), NO);
}

#[test]
fn records_of_one_layer_add_up() {
    let below = [row(UNDECLARED, A, &[A])];
    let above = [row(UNDECLARED, A, &[B]), row(UNDECLARED, A, &[C])];
    let stack = stack(&[&below, &above]);
    assert_eq!(stack.ancestors(A), [A, B, C, OBJECT_ITSELF]);
    assert_eq!(stack.relation(A, B), YES);
    assert_eq!(stack.relation(A, C), YES);
}

/// A walk that starts at a class of the layer below takes the parents that are above wherever there are some.
#[test]
fn a_walk_from_below_goes_on_above() {
    let below = [row(UNDECLARED, A, &[B]), row(UNDECLARED, B, &[C])];
    let stack = stack(&[&below, &[row(UNDECLARED, B, &[OBJECT_ITSELF])]]);
    assert_eq!(stack.ancestors(A), [A, B, OBJECT_ITSELF]);
    assert_eq!(stack.distance(A, OBJECT_ITSELF), 2);
    assert_eq!(stack.distance(A, C), NONE);
    assert_eq!(stack.supertype(A, C), OBJECT_ITSELF);
}

#[test]
fn the_parents_of_object_are_replaced_as_all_are() {
    let below = [row(UNDECLARED, OBJECT_ITSELF, &[A])];
    let lower = stack(&[&below]);
    assert_eq!(lower.ancestors(B), [B, OBJECT_ITSELF]);
    assert_eq!(lower.ancestors(OBJECT_ITSELF), [A, OBJECT_ITSELF]);
    let upper = stack(&[&below, &[row(UNDECLARED, OBJECT_ITSELF, &[])]]);
    assert_eq!(upper.ancestors(OBJECT_ITSELF), [OBJECT_ITSELF]);
    assert_eq!(upper.relation(OBJECT_ITSELF, A), NO);
}

/// What is no interface can be cast to one unless it is final, and nothing that was not declared can.
#[test]
fn facts_are_those_of_the_topmost_declared_record() {
    let casts = |of_a: &[u64]| {
        let mut layers = vec![vec![row(INTERFACE, B, &[])]];
        layers.extend(of_a.iter().map(|flags| vec![row(*flags, A, &[])]));
        let layers: Vec<&[Row]> = layers.iter().map(Vec::as_slice).collect();
        stack(&layers).cast(A, B)
    };
    assert_eq!(casts(&[UNDECLARED, UNDECLARED]), 0);
    assert_eq!(casts(&[CLASS, UNDECLARED]), 1);
    assert_eq!(casts(&[FINAL, UNDECLARED]), 0);
    assert_eq!(casts(&[CLASS, FINAL]), 0);
    assert_eq!(casts(&[FINAL, CLASS]), 1);
    assert_eq!(casts(&[FINAL, CLASS, UNDECLARED]), 1);
    assert_eq!(casts(&[CLASS, FINAL, UNDECLARED]), 0);
}
