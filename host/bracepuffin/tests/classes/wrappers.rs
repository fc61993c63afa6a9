//! The class tables of the Rust crate.

use bracepuffin::{
    ClassTable, ClassTableBuilder, Distance, Place, ReferenceTypeInfo, Refusal, Relation,
    Relations, TableError, OBJECT,
};
use dexdec::hierarchy::{ClassHierarchyIndex, SubtypeRelation, TypeHierarchy};
use judge::class_cases::{any_classes, layered_classes};
use judge::classes::Classes;
use judge::rng::Rng;

use crate::cases;

#[test]
fn a_small_program() -> Result<(), TableError> {
    let mut classes = ClassTableBuilder::new();
    classes.add_declared_type(
        "a/Shape",
        ["java/lang/Object"],
        ReferenceTypeInfo::INTERFACE,
    );
    classes.add_declared_type(
        "a/Round",
        ["java/lang/Object", "a/Shape"],
        ReferenceTypeInfo::FINAL,
    );
    classes.add_declared_type("a/Square", ["a/Base", "a/Shape"], ReferenceTypeInfo::PLAIN);
    classes.add("java/lang/Object", []);
    let table = classes.build()?;
    assert_eq!(table.relation("a/Round", "a/Shape"), Relation::Yes);
    assert!(table.is_subtype("a/Round", "a/Shape"));
    assert_eq!(table.relation("a/Round", "a/Square"), Relation::No);
    assert_eq!(table.relation("a/Square", "a/Round"), Relation::Unknown);
    assert_eq!(table.supertype("a/Round", "a/Square"), "a/Shape");
    assert_eq!(table.distance("a/Round", "a/Shape"), Distance::Steps(1));
    assert!(!table.cast("a/Round", "a/Square"));
    let above = table.ancestors("a/Square");
    let names: Vec<&str> = above.names().collect();
    assert_eq!(names, ["a/Base", "a/Shape", "a/Square", "java/lang/Object"]);
    assert_eq!(table.relation("a/Round", "b"), Relation::No);
    Ok(())
}

#[test]
fn ancestors_and_distances() {
    let mut classes = ClassTableBuilder::new();
    classes.add("b", ["c"]).name("a");
    let table = classes.build().expect("a table");
    let above = table.ancestors("b");
    assert_eq!((above.len(), above.lowest()), (3, "b"));
    assert!(above.contains("c") && above.contains("java/lang/Object"));
    assert!(!above.contains("a") && !above.contains("x"));
    let numbers: Vec<u64> = above.numbers().map(|class| class.get()).collect();
    assert_eq!(numbers, [1, 2, 3]);
    assert_eq!(above.words()[0], 0b1110);
    assert_eq!(format!("{above:?}"), r#"{"b", "c", "java/lang/Object"}"#);
    assert_eq!(table.distance("b", "c"), Distance::Steps(1));
    assert_eq!(table.distance("c", "b"), Distance::NoAncestor);
    let object = table.distance("b", "java/lang/Object");
    assert_eq!(object, Distance::UnreachedObject);
}

/// Classes that the table does not name are answered; they have no number.
#[test]
fn names_that_are_absent() {
    let table = ClassTableBuilder::new().build().expect("a table");
    assert_eq!(table.names().len(), 1);
    assert_eq!(table.relation("a", OBJECT), Relation::Yes);
    assert_eq!(table.relation("a", "a"), Relation::Yes);
    assert_eq!(table.relation("a", "b"), Relation::Unknown);
    assert_eq!(table.relation(OBJECT, "a"), Relation::Unknown);
    assert_eq!(table.distance("a", OBJECT), Distance::UnreachedObject);
    assert_eq!(table.distance("a", "a"), Distance::Steps(0));
    assert_eq!(table.distance(OBJECT, "a"), Distance::NoAncestor);
    assert_eq!(table.supertype("a", "b"), OBJECT);
    assert_eq!(table.supertype("a", "a"), "a");
    assert!(table.cast("a", OBJECT) && table.cast(OBJECT, "a") && !table.cast("a", "b"));
    for (class, expected) in [("a", ["a", OBJECT]), ("z", [OBJECT, "z"])] {
        let above = table.ancestors(class);
        assert_eq!(above.names().collect::<Vec<_>>(), expected);
        assert_eq!((above.len(), above.lowest()), (2, expected[0]));
        assert!(above.contains(class) && above.contains(OBJECT) && !above.contains("b"));
        assert_eq!((above.numbers().count(), above.words()[0]), (1, 1));
    }
    assert_eq!(table.class_number("a"), Err(Refusal::Absent));
    assert_eq!(table.class_number("").ok(), None);
    assert_eq!(table.class_number(OBJECT).map(|class| class.get()), Ok(0));
}

/// Every class of the table is above this one, and java/lang/Object, which has no record, is reached or is not.
#[test]
fn a_class_that_is_absent_below_one_with_everything_above_it() {
    let mut classes = ClassTableBuilder::new();
    classes.add("a", []);
    let table = classes.build().expect("a table");
    assert_eq!(table.relation("a", "x"), Relation::No);
    classes.add("a", [OBJECT]);
    let table = classes.build().expect("a table");
    assert_eq!(table.relation("a", "x"), Relation::Unknown);
    classes.add(OBJECT, ["a"]);
    let table = classes.build().expect("a table");
    assert_eq!(table.relation("a", "x"), Relation::No);
    assert_eq!(Relations::of(&table).relation("a", "x"), Relation::No);
}

#[test]
fn tables_that_are_refused() {
    let refused = |classes: &ClassTableBuilder| classes.build().err().map(|error| error.refusal());
    let long = "n".repeat(256);
    let mut classes = ClassTableBuilder::new();
    assert_eq!(refused(&classes), None);
    assert_eq!(refused(classes.clone().name("")), Some(Refusal::Length));
    assert_eq!(
        refused(classes.clone().add(&long, [])),
        Some(Refusal::Length)
    );
    let names: Vec<String> = (0..1024).map(|number| number.to_string()).collect();
    for name in &names[..1023] {
        classes.name(name);
    }
    assert_eq!(refused(&classes), None);
    assert_eq!(
        refused(classes.clone().name(&names[1023])),
        Some(Refusal::Room)
    );
    // 4,096 pairs, in records of more parents than one row has.
    for class in 0..4 {
        classes.add(&names[class], names[..1023].iter().map(String::as_str));
        classes.add(&names[class], ["java/lang/Object"]);
    }
    assert_eq!(refused(&classes), None);
    assert_eq!(refused(classes.clone().add(&names[0], ["5"])), None);
    let error = classes
        .add(&names[5], ["5"])
        .build()
        .expect_err("a pair too many");
    assert_eq!(error.refusal(), Refusal::Room);
    // Classes 0 to 3 have five rows each and one; 5 comes after them.
    let place = Place::Record {
        class: "5".to_string(),
        layer: 0,
        row: 24,
        of: 25,
    };
    assert_eq!(error.place(), &place);
    assert_eq!(
        error.to_string(),
        "one entry too many: record 25 of 25, of \"5\""
    );
}

/// Layers over one table: each has its own answers, and the table below stays as it is.
#[test]
fn layers_over_one_table() -> Result<(), TableError> {
    let mut classes = ClassTableBuilder::new();
    classes.add_declared_type("m/A", ["m/B"], ReferenceTypeInfo::PLAIN);
    classes.add_declared_type("m/I", [], ReferenceTypeInfo::INTERFACE);
    let shared = classes.build()?;
    // Names before and after those below, so that every class has another number.
    let mut model = ClassTableBuilder::new();
    model.add("a/New", ["m/A"]).add("m/A", ["z/New"]);
    let table = model.build_over(&shared)?;
    let mut other = ClassTableBuilder::new();
    other.add("m/A", []);
    let bare = other.build_over(&shared)?;
    let top = other.build_over(&table)?;
    let above = |table: &ClassTable, class| -> Vec<String> {
        table.ancestors(class).names().map(str::to_string).collect()
    };
    assert_eq!(above(&shared, "m/A"), [OBJECT, "m/A", "m/B"]);
    assert_eq!(above(&table, "m/A"), [OBJECT, "m/A", "z/New"]);
    assert_eq!(above(&table, "a/New"), ["a/New", OBJECT, "m/A", "z/New"]);
    assert_eq!(above(&bare, "m/A"), [OBJECT, "m/A"]);
    assert_eq!(above(&top, "a/New"), ["a/New", OBJECT, "m/A"]);
    assert_eq!(
        [&shared, &table, &bare, &top].map(|t| t.layers()),
        [1, 2, 2, 3]
    );
    // The facts are those that the lowest layer declares.
    assert!(top.cast("m/A", "m/I") && top.relation("m/A", "m/I") == Relation::No);
    assert_eq!(table.relation("m/A", "m/I"), Relation::Unknown);
    assert_eq!(Relations::of(&top).relation("m/A", "m/B"), Relation::No);
    // A number of the table below is none of a table over it, and names that only the layers bring are there.
    let number = shared.class_number("m/A").expect("in the table");
    assert_eq!(table.names().name(number), None);
    assert_eq!(table.class_number("a/New").map(|class| class.get()), Ok(0));
    assert_eq!(
        format!("{top:?}"),
        "ClassTable { names: 6, layers: 3, records: 5, .. }"
    );
    Ok(())
}

#[test]
fn layers_that_are_refused() {
    let names: Vec<String> = (0..1023).map(|number| format!("{number:04}")).collect();
    let every = || names.iter().map(String::as_str);
    let mut full = ClassTableBuilder::new();
    for class in &names[..4] {
        full.add(class, every().chain([OBJECT]));
    }
    let mut table = full.build().expect("4,096 pairs");
    // Each layer has room of its own for as many pairs.
    for layers in 2..=4 {
        table = full.build_over(&table).expect("4,096 pairs a layer");
        assert_eq!(table.layers(), layers);
    }
    let mut one = ClassTableBuilder::new();
    one.add("0007", ["0008"]);
    let error = one.build_over(&table).expect_err("a fifth layer");
    assert_eq!(error.refusal(), Refusal::Room);
    assert_eq!(error.place(), &Place::Layer { layer: 4 });
    assert_eq!(error.to_string(), "one entry too many: layer 5");
    // One pair too many: of the layer, whatever stands below.
    let below = one.build().expect("one pair");
    let error = full.add("0009", ["0008"]).build_over(&below);
    let error = error.expect_err("4,097 pairs");
    let place = Place::Record {
        class: "0009".to_string(),
        layer: 1,
        row: 20,
        of: 21,
    };
    assert_eq!((error.refusal(), error.place()), (Refusal::Room, &place));
    assert_eq!(
        error.to_string(),
        "one entry too many: record 21 of 21 in layer 2, of \"0009\""
    );
    // The names of all layers are one list.
    let error = ClassTableBuilder::new().name("zz").build_over(&table);
    let error = error.expect_err("1,025 names");
    assert!(matches!(
        error.place(),
        Place::Name {
            row: 1024,
            of: 1025,
            ..
        }
    ));
    let mut long = ClassTableBuilder::new();
    let name = "n".repeat(256);
    let error = long.name(&name).build_over(&below).expect_err("256 bytes");
    assert!(matches!(error.place(), Place::Name { name: found, .. } if *found == name));
}

#[test]
fn a_table_is_shared_and_cloned() {
    fn shared<T: Send + Sync>(_: &T) {}
    let mut classes = ClassTableBuilder::new();
    classes.add("a", ["b"]);
    let table = classes.build().expect("a table");
    let relations = Relations::of(&table);
    shared(&table);
    shared(&relations);
    std::thread::scope(|scope| {
        for _ in 0..4 {
            scope.spawn(|| {
                for _ in 0..10 {
                    assert_eq!(table.relation("a", "b"), Relation::Yes);
                    assert_eq!(relations.relation("a", "b"), Relation::Yes);
                }
            });
        }
    });
    let clone = table.clone();
    assert_eq!(clone.relation("b", "a"), Relation::Unknown);
    // A clone is the same table.
    let class = clone.class_number("b").expect("in the table");
    assert_eq!(table.names().name(class), Some("b"));
    assert_eq!(
        format!("{table:?}"),
        "ClassTable { names: 3, layers: 1, records: 1, .. }"
    );
}

/// A thread asks while its own data is being taken down.
#[test]
fn a_question_at_the_end_of_a_thread() {
    struct Asks(ClassTable);
    impl Drop for Asks {
        fn drop(&mut self) {
            assert_eq!(self.0.relation("a", "b"), Relation::Yes);
        }
    }
    thread_local! {
        static LAST: std::cell::RefCell<Option<Asks>> = const { std::cell::RefCell::new(None) };
    }
    let asked = std::thread::spawn(|| {
        let mut classes = ClassTableBuilder::new();
        classes.add("a", ["b"]);
        let table = classes.build().expect("a table");
        LAST.with(|last| *last.borrow_mut() = Some(Asks(table.clone())));
        table.relation("a", "b")
    });
    assert_eq!(asked.join().expect("no panic"), Relation::Yes);
}

/// The wrapper's table and the index of hierarchy.rs from the same records.
fn both(classes: &Classes) -> (ClassTable, ClassHierarchyIndex, Vec<String>) {
    let judge = classes.judge();
    let mut builder = ClassTableBuilder::new();
    // Records in their order, names backwards: the builder sorts them.
    for name in judge.names.iter().rev() {
        builder.name(name);
    }
    let name = |number: &u64| judge.names[*number as usize].as_str();
    for row in 0..classes.flags.len() {
        let (at, len) = (classes.at[row] as usize, classes.len[row] as usize);
        let parents = classes.parents[at..at + len].iter().map(name);
        let flags = classes.flags[row];
        let info = ReferenceTypeInfo {
            is_interface: flags & 2 != 0,
            is_final: flags & 4 != 0,
        };
        match flags {
            0 => builder.add(name(&classes.class[row]), parents),
            _ => builder.add_declared_type(name(&classes.class[row]), parents, info),
        };
    }
    let table = builder.build().expect("a sound table");
    (table, judge.index, judge.names)
}

fn relation(index: &ClassHierarchyIndex, value: &str, expected: &str) -> Relation {
    match index.subtype_relation(value, expected) {
        SubtypeRelation::Yes => Relation::Yes,
        SubtypeRelation::No => Relation::No,
        SubtypeRelation::Unknown => Relation::Unknown,
    }
}

#[test]
fn every_query_by_name() {
    let mut rng = Rng::new(1, "class tables by name");
    for _ in 0..cases(60) {
        let (table, index, mut names) = both(&any_classes(&mut rng, 6));
        // And two that the table does not name, before and after java/lang/Object.
        names.extend(["b/Absent".to_string(), "zz/Absent".to_string()]);
        for left in &names {
            let above = table.ancestors(left);
            assert_eq!(
                above.names().collect::<Vec<_>>(),
                index.ancestor_names(left)
            );
            let distances = dexdec::hierarchy::distances(&index, left);
            for right in &names {
                assert_eq!(table.relation(left, right), relation(&index, left, right));
                let expected = index.least_common_supertype(left, right);
                assert_eq!(Some(table.supertype(left, right)), expected.as_deref());
                let expected = index.is_cast_convertible(left, right);
                assert_eq!(table.cast(left, right), expected);
                let expected = match distances.get(right) {
                    None => Distance::NoAncestor,
                    Some(steps) if *steps == usize::MAX / 4 => Distance::UnreachedObject,
                    Some(steps) => Distance::Steps(*steps as u64),
                };
                assert_eq!(table.distance(left, right), expected);
            }
        }
    }
}

/// All pairs from the sets of ancestors, against the Rust and against a call for each pair.
#[test]
fn relations_of_all_pairs() {
    let mut rng = Rng::new(1, "relations of all pairs");
    let mut tables: Vec<Classes> = (0..cases(60)).map(|_| any_classes(&mut rng, 9)).collect();
    tables.push(layered_classes(&mut rng, 90, 0));
    tables.push(layered_classes(&mut rng, 90, 20));
    for classes in tables {
        let (table, index, mut names) = both(&classes);
        let relations = Relations::of(&table);
        for (value, left) in table.names().classes().zip(&names) {
            for (expected, right) in table.names().classes().zip(&names) {
                let found = relations.relation_of(value, expected);
                assert_eq!(found, Ok(relation(&index, left, right)), "{classes:?}");
            }
        }
        names.push("b/Absent".to_string());
        if names.len() < 11 {
            for (left, right) in names
                .iter()
                .flat_map(|left| names.iter().map(move |right| (left, right)))
            {
                let found = relations.relation(left, right);
                assert_eq!(found, relation(&index, left, right));
                assert_eq!(table.relation(left, right), found);
            }
        }
        let other = ClassTableBuilder::new().build().expect("a table");
        let foreign = other.class_number(OBJECT).expect("in the table");
        let own = table.class_number(OBJECT).expect("in the table");
        assert_eq!(relations.relation_of(foreign, own), Err(Refusal::Number));
        assert_eq!(relations.relation_of(own, foreign), Err(Refusal::Number));
    }
}
