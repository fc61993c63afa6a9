//! Class tables: hierarchy.rs with its caches warm, the boundary, and the wrapper, on tables as programs have them.

use std::hint::black_box;

use bracepuffin::{slices, ClassTable, ClassTableBuilder, ReferenceTypeInfo, Relations, WORK};
use dexdec::hierarchy::{self, ClassHierarchyIndex, TypeHierarchy};

use crate::measure::{Effort, Row};

/// A class with its parents and whether it is an interface.
pub struct Declared {
    pub name: String,
    pub parents: Vec<String>,
    pub is_interface: bool,
}

/// That many names: one in six is an interface, of which a class has two to five; chains of superclasses have up to ten
/// links. Both sides are given the same records.
pub fn program(count: usize) -> Vec<Declared> {
    let mut classes = vec![Declared {
        name: "java/lang/Object".to_string(),
        parents: vec![],
        is_interface: false,
    }];
    let interfaces = count / 6;
    for number in 0..interfaces {
        let mut parents = vec![classes[0].name.clone()];
        if number >= 4 {
            parents.push(classes[1 + number / 4].name.clone());
        }
        classes.push(Declared {
            name: format!("api/Interface{number:03}"),
            parents,
            is_interface: true,
        });
    }
    for number in 0..count - interfaces - 1 {
        // Ten classes a chain, each below the one before it.
        let above = match number % 10 {
            0 => 0,
            _ => classes.len() - 1,
        };
        let mut parents = vec![classes[above].name.clone()];
        for which in 0..2 + number % 4 {
            let place = 1 + (number * 7 + which * 13) % interfaces;
            parents.push(classes[place].name.clone());
        }
        classes.push(Declared {
            name: format!("app/p{}/Class{number:04}", number % 7),
            parents,
            is_interface: false,
        });
    }
    classes
}

pub fn index(classes: &[Declared]) -> ClassHierarchyIndex {
    let mut index = ClassHierarchyIndex::default();
    add_all(&mut index, classes);
    index
}

/// These records into the topmost layer of an index.
pub fn add_all<'c>(
    index: &mut ClassHierarchyIndex,
    classes: impl IntoIterator<Item = &'c Declared>,
) {
    for class in classes {
        let info = hierarchy::ReferenceTypeInfo {
            is_interface: class.is_interface,
            is_final: false,
        };
        index.add_declared_type(class.name.clone(), class.parents.clone(), info);
    }
}

pub fn table(classes: &[Declared]) -> ClassTable {
    builder(classes).build().expect("a sound table")
}

pub fn builder<'c>(classes: impl IntoIterator<Item = &'c Declared>) -> ClassTableBuilder<'c> {
    let mut builder = ClassTableBuilder::new();
    for class in classes {
        let info = ReferenceTypeInfo {
            is_interface: class.is_interface,
            is_final: false,
        };
        let parents = class.parents.iter().map(String::as_str);
        builder.add_declared_type(&class.name, parents, info);
    }
    builder
}

/// Two classes at the ends of chains, the last ones of a program.
pub fn ends(classes: &[Declared]) -> [&str; 2] {
    let mut chain = classes.iter().rev().filter(|class| !class.is_interface);
    let mut end = || chain.find(|class| class.name.ends_with('9'));
    [end(), end()].map(|class| class.or(classes.last()).expect("a class").name.as_str())
}

pub fn rows(effort: Effort) -> Vec<Row> {
    let mut rows = Vec::new();
    for count in effort.sizes {
        let classes = program(count);
        rows.extend(all_pairs(effort, &classes));
        let (index, table) = (index(&classes), table(&classes));
        let what = format!("{count} names");
        rows.extend(each_query(effort, &what, &index, &table, ends(&classes)));
    }
    rows
}

/// How many values the Rust is asked about; its time is scaled up to all of them, which would take too long.
const SAMPLE: usize = 20;

/// Building, and the relation of every pair. The boundary is asked for the ancestors of each class; what it needs to
/// check and build a table, `bp_check_table` shows.
fn all_pairs(effort: Effort, classes: &[Declared]) -> [Row; 2] {
    let count = classes.len();
    let made = table(classes);
    let mut work = vec![0; WORK];
    let build = Row::of(
        effort,
        format!("{count} names, build"),
        || index(classes),
        || slices::check_table(made.columns()),
        || table(classes),
    );
    let warm = index(classes);
    let mut names: Vec<&str> = classes.iter().map(|class| class.name.as_str()).collect();
    names.sort_unstable();
    let sample = count.min(SAMPLE);
    let values = names.iter().step_by(count / sample).take(sample);
    let values: Vec<&str> = values.copied().collect();
    let pairs = Row::of(
        effort,
        format!("{count} names, all pairs"),
        || {
            let pairs = values
                .iter()
                .flat_map(|value| names.iter().map(move |other| (value, other)));
            pairs
                .map(|(value, other)| warm.subtype_relation(value, other) as u64)
                .sum::<u64>()
        },
        || {
            let asked = 0..count as u64;
            let sets = asked.map(|class| slices::ancestors(made.columns(), class, &mut work));
            sets.map(|set| set.count).sum::<u64>()
        },
        || every_relation(&made),
    );
    let rust = pairs.rust.scaled(count as f64 / sample as f64);
    [build, Row { rust, ..pairs }]
}

fn every_relation(table: &ClassTable) -> u64 {
    let relations = Relations::of(table);
    let mut sum = 0;
    for value in table.names().classes() {
        for expected in table.names().classes() {
            sum += relations.relation_of(value, expected).expect("its own") as u64;
        }
    }
    sum
}

/// One call of each query: far up a chain, and to a class that is no ancestor.
pub fn each_query(
    effort: Effort,
    over: &str,
    index: &ClassHierarchyIndex,
    table: &ClassTable,
    [left, right]: [&str; 2],
) -> [Row; 6] {
    let number = |name| table.class_number(name).expect("in the table").get();
    let (l, r) = (number(left), number(right));
    let mut work = vec![0; WORK];
    let columns = table.columns();
    let what = |query: &str| format!("{over}, {query}");
    let relations = Relations::of(table);
    [
        Row::of(
            effort,
            what("relation"),
            || index.subtype_relation(black_box(left), black_box(right)),
            || slices::relation(columns, black_box(l), black_box(r), &mut work),
            || table.relation(black_box(left), black_box(right)),
        ),
        Row::of(
            effort,
            what("relation, asked before (`Relations`)"),
            || index.subtype_relation(black_box(left), black_box(right)),
            || slices::relation(columns, black_box(l), black_box(r), &mut work),
            || relations.relation(black_box(left), black_box(right)),
        ),
        Row::of(
            effort,
            what("distance"),
            || {
                let distances = hierarchy::distances(index, black_box(left));
                distances.get(black_box(right)).copied()
            },
            || slices::distance(columns, black_box(l), black_box(r), &mut work),
            || table.distance(black_box(left), black_box(right)),
        ),
        Row::of(
            effort,
            what("ancestors"),
            || index.ancestor_names(black_box(left)),
            || slices::ancestors(columns, black_box(l), &mut work),
            || table.ancestors(black_box(left)).names().count(),
        ),
        Row::of(
            effort,
            what("supertype"),
            || index.least_common_supertype(black_box(left), black_box(right)),
            || slices::supertype(columns, black_box(l), black_box(r), &mut work),
            || table.supertype(black_box(left), black_box(right)).len(),
        ),
        Row::of(
            effort,
            what("cast"),
            || index.is_cast_convertible(black_box(left), black_box(right)),
            || slices::cast(columns, black_box(l), black_box(r), &mut work),
            || table.cast(black_box(left), black_box(right)),
        ),
    ]
}
