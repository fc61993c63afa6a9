//! dexdec's own calls replaced by the wrapper's, as a host of it would: `Replaced` has the public functions of
//! `ClassHierarchyIndex`, is a `TypeHierarchy` for lattice.rs, and is compared with the index on random tables, on all
//! their classes and on some that no record names.
//!
//! What is private in lattice.rs is reached through `dexdec::lattice`; `TypeLattice::solve` itself runs over both. For
//! `ClassHierarchyIndex::layered` stands `build_over`, and tables have up to four layers. `freeze_distances` needs no
//! counterpart, since `Replaced` is never mutated; an index of several layers is not frozen: it would answer otherwise.

#[path = "../shared/dressed.rs"]
mod dressed;
mod lattices;
mod parts;
#[path = "../shared/mod.rs"]
#[allow(dead_code)]
mod shared;
mod solves;

use std::sync::Arc;

use bracepuffin::{ClassTable, ClassTableBuilder, ReferenceTypeInfo, Relation, Relations};
use dexdec::hierarchy::{self, ClassHierarchyIndex, SubtypeRelation, TypeHierarchy};
use judge::class_cases::{any_classes, layered_classes};
use judge::classes::Classes;
use judge::layer_cases::open_layers;
use judge::layers::Row;
use judge::rng::Rng;

use shared::cases;

/// The wrapper in dexdec's clothes. Relations are kept a class; all else is a call.
struct Replaced<'t> {
    table: &'t ClassTable,
    relations: Relations<'t>,
}

impl<'t> Replaced<'t> {
    fn over(table: &'t ClassTable) -> Self {
        let relations = Relations::of(table);
        Self { table, relations }
    }

    fn is_cast_convertible(&self, source: &str, target: &str) -> bool {
        self.table.cast(source, target)
    }
}

impl TypeHierarchy for Replaced<'_> {
    fn subtype_relation(&self, value: &str, expected: &str) -> SubtypeRelation {
        match self.relations.relation(value, expected) {
            Relation::Yes => SubtypeRelation::Yes,
            Relation::No => SubtypeRelation::No,
            Relation::Unknown => SubtypeRelation::Unknown,
        }
    }

    fn least_common_supertype(&self, left: &str, right: &str) -> Option<String> {
        Some(self.table.supertype(left, right).to_string())
    }

    fn ancestor_names(&self, class: &str) -> Vec<String> {
        let above = self.table.ancestors(class);
        above.names().map(str::to_string).collect()
    }
}

fn relation(index: &ClassHierarchyIndex, value: &str, expected: &str) -> Relation {
    match index.subtype_relation(value, expected) {
        SubtypeRelation::Yes => Relation::Yes,
        SubtypeRelation::No => Relation::No,
        SubtypeRelation::Unknown => Relation::Unknown,
    }
}

/// A record as both sides are given it.
#[derive(Debug)]
struct Given {
    class: String,
    parents: Vec<String>,
    info: Option<ReferenceTypeInfo>,
}

/// The records of each layer of a table, by name, the lowest first.
fn layers(classes: &Classes) -> Vec<Vec<Given>> {
    let names = classes.names().expect("a sound table");
    let name = |number: &u64| names[*number as usize].clone();
    let given = |row: &Row| {
        let info = ReferenceTypeInfo {
            is_interface: row.flags & 2 != 0,
            is_final: row.flags & 4 != 0,
        };
        Given {
            class: name(&row.class),
            parents: row.parents.iter().map(name).collect(),
            info: (row.flags != 0).then_some(info),
        }
    };
    let rows = classes.rows();
    let layers = rows.split(Row::opens);
    layers
        .map(|rows| rows.iter().map(given).collect())
        .collect()
}

fn builder(records: &[Given]) -> ClassTableBuilder<'_> {
    let mut builder = ClassTableBuilder::new();
    for record in records {
        let parents = record.parents.iter().map(String::as_str);
        match record.info {
            None => builder.add(&record.class, parents),
            Some(info) => builder.add_declared_type(&record.class, parents, info),
        };
    }
    builder
}

/// The wrapper's table of these layers.
fn table(layers: &[Vec<Given>]) -> ClassTable {
    let (lowest, above) = layers.split_first().expect("a lowest layer");
    let lowest = builder(lowest).build().expect("a sound table");
    above.iter().fold(lowest, |below, layer| {
        let table = builder(layer).build_over(&below);
        table.expect("a sound layer")
    })
}

fn index(layers: &[Vec<Given>]) -> ClassHierarchyIndex {
    let (lowest, above) = layers.split_first().expect("a lowest layer");
    let mut index = ClassHierarchyIndex::default();
    add_all(&mut index, lowest);
    for layer in above {
        index = ClassHierarchyIndex::layered(Arc::new(index));
        add_all(&mut index, layer);
    }
    index
}

fn add_all(index: &mut ClassHierarchyIndex, records: &[Given]) {
    for record in records {
        let (class, parents) = (record.class.clone(), record.parents.clone());
        match record.info {
            None => index.add(class, parents),
            Some(info) => {
                let info = hierarchy::ReferenceTypeInfo {
                    is_interface: info.is_interface,
                    is_final: info.is_final,
                };
                index.add_declared_type(class, parents, info);
            }
        }
    }
}

/// The names of a table, and some that it does not have: before and after all others, those that lattice.rs knows, and
/// one that is too long for any table.
fn asked(rng: &mut Rng, classes: &Classes, most: usize) -> Vec<String> {
    let mut names = classes.names().expect("a sound table");
    while names.len() > most {
        names.swap_remove(rng.below(names.len() as u64) as usize);
    }
    let absent = ["a", "java/io/Serializable", "java/lang/Cloneable", "zz", ""];
    names.extend(absent.map(str::to_string));
    names.push("java/lang/Object".to_string());
    names.push("n".repeat(300));
    names
}

#[test]
fn the_calls_of_the_index() {
    let mut rng = Rng::new(1, "calls of the index");
    let mut tables: Vec<Classes> = (0..cases(25)).map(|_| any_classes(&mut rng, 7)).collect();
    tables.push(layered_classes(&mut rng, 40, 0));
    tables.push(layered_classes(&mut rng, 40, 9));
    for (place, classes) in tables.into_iter().enumerate() {
        let classes = open_layers(&mut rng, &classes, place as u64 % 4);
        let layers = layers(&classes);
        let table = table(&layers);
        let (ours, mut theirs) = (Replaced::over(&table), index(&layers));
        let asked = asked(&mut rng, &classes, 8);
        if layers.len() == 1 && rng.below(2) == 0 {
            theirs.freeze_distances();
        }
        for left in &asked {
            let expected = theirs.ancestor_names(left);
            assert_eq!(ours.ancestor_names(left), expected, "{left}");
            for right in &asked {
                let pair = (left, right);
                let expected = theirs.subtype_relation(left, right);
                assert_eq!(ours.subtype_relation(left, right), expected, "{pair:?}");
                let expected = theirs.is_subtype(left, right);
                assert_eq!(table.is_subtype(left, right), expected, "{pair:?}");
                let expected = theirs.least_common_supertype(left, right);
                assert_eq!(
                    ours.least_common_supertype(left, right),
                    expected,
                    "{pair:?}"
                );
                let expected = theirs.is_cast_convertible(left, right);
                assert_eq!(ours.is_cast_convertible(left, right), expected, "{pair:?}");
            }
        }
    }
}

/// `extend_declared_types` of both.
#[test]
fn many_declared_types_at_once() {
    let declared = [
        ("a", vec!["b", "c"], ReferenceTypeInfo::FINAL),
        ("b", vec![], ReferenceTypeInfo::INTERFACE),
        ("a", vec!["java/lang/Object"], ReferenceTypeInfo::PLAIN),
    ];
    let mut builder = ClassTableBuilder::new();
    builder.extend_declared_types(declared.clone());
    let table = builder.build().expect("a sound table");
    let mut index = ClassHierarchyIndex::default();
    index.extend_declared_types(declared.map(|(class, parents, info)| {
        let info = hierarchy::ReferenceTypeInfo {
            is_interface: info.is_interface,
            is_final: info.is_final,
        };
        let parents = parents.into_iter().map(str::to_string).collect();
        (class.to_string(), parents, info)
    }));
    for left in ["a", "b", "c", "d"] {
        for right in ["a", "b", "c", "d"] {
            assert_eq!(
                table.cast(left, right),
                index.is_cast_convertible(left, right)
            );
            assert_eq!(table.is_subtype(left, right), index.is_subtype(left, right));
        }
    }
}
