//! Parts of tables that are too large as a whole, against the index over all records.

use bracepuffin::{ClassTableBuilder, LeftOut, Place, Refusal, Relation};
use dexdec::hierarchy::TypeHierarchy;
use judge::class_cases::{any_classes, layered_classes};
use judge::classes::Classes;
use judge::rng::Rng;

use crate::{builder, cases, index, layers, relation, Given};

/// Three names of a table, and one that it does not have.
fn questions(rng: &mut Rng, classes: &Classes) -> Vec<String> {
    let names = classes.names().expect("a sound table");
    let mut asked: Vec<String> = (0..3).map(|_| rng.pick(&names).clone()).collect();
    asked.push("x/Absent".to_string());
    asked
}

#[test]
fn the_answers_of_the_whole() {
    let mut rng = Rng::new(1, "parts of tables");
    let mut tables: Vec<Classes> = (0..cases(60)).map(|_| any_classes(&mut rng, 9)).collect();
    tables.push(layered_classes(&mut rng, 300, 20));
    let mut left_out = 0;
    for classes in tables {
        let layers = layers(&classes);
        let (builder, index) = (builder(&layers[0]), index(&layers));
        let asked = questions(&mut rng, &classes);
        let part = builder
            .build_for(asked.iter().map(String::as_str))
            .expect("a part");
        let whole = builder.build().expect("a sound table");
        for left in &asked {
            let above = part.ancestors(left).expect("asked for");
            assert_eq!(
                above.names().collect::<Vec<_>>(),
                index.ancestor_names(left)
            );
            for right in &asked {
                assert_eq!(
                    part.relation(left, right),
                    Ok(relation(&index, left, right))
                );
                let expected = index.least_common_supertype(left, right);
                assert_eq!(part.supertype(left, right).ok(), expected.as_deref());
                let expected = index.is_cast_convertible(left, right);
                assert_eq!(part.cast(left, right), Ok(expected));
                assert_eq!(part.distance(left, right), Ok(whole.distance(left, right)));
                let types = [left, right].map(|name| bracepuffin::ArgType::object(name));
                assert_eq!(
                    part.join(types[0], types[1]),
                    Ok(whole.join(types[0], types[1]))
                );
                let expected = whole.is_assignable(types[0], types[1]);
                assert_eq!(part.is_assignable(types[0], types[1]), Ok(expected));
            }
        }
        // What is left out is an error, with its name, and nothing else is.
        for name in whole.names().iter() {
            let found = part.relation(name, name);
            match part.table().class_number(name) {
                Ok(_) => assert_eq!(found, Ok(Relation::Yes)),
                Err(_) => {
                    left_out += 1;
                    assert!(!part.answers(name));
                    assert_eq!(found.as_ref().map_err(LeftOut::class), Err(name));
                    let ty = bracepuffin::ArgType::object(name);
                    assert!(part.join(ty, bracepuffin::ArgType::INT).is_err());
                    assert!(part.ancestors(name).is_err());
                }
            }
        }
    }
    assert!(left_out > 0);
}

/// 3,000 classes in chains of ten.
fn chains() -> Vec<Given> {
    let name = |number: u32| format!("app/C{number:04}");
    let given = (0..3000).map(|number| Given {
        class: name(number),
        parents: vec![match number % 10 {
            0 => "java/lang/Object".to_string(),
            _ => name(number - 1),
        }],
        info: None,
    });
    given.collect()
}

#[test]
fn of_tables_past_the_limit() {
    let records = chains();
    let builder = builder(&records);
    let whole = builder.build().expect_err("3,001 names");
    assert_eq!(whole.refusal(), Refusal::Room);
    assert!(matches!(
        whole.place(),
        Place::Name {
            row: 1024,
            of: 3001,
            ..
        }
    ));
    let part = builder
        .build_for(["app/C0019", "app/C1234"])
        .expect("a part");
    assert_eq!(part.table().names().len(), 10 + 5 + 1);
    assert_eq!(part.relation("app/C0019", "app/C0010"), Ok(Relation::Yes));
    assert_eq!(
        part.relation("app/C0019", "app/C1230"),
        Ok(Relation::Unknown)
    );
    let error = part
        .relation("app/C0019", "app/C0009")
        .expect_err("left out");
    assert_eq!(
        error.to_string(),
        "\"app/C0009\" was left out of this part of the table"
    );
    // A part may still be too large, and says which name is the first too many.
    let every = records.iter().map(|record| record.class.as_str());
    let error = builder
        .build_for(every.take(1200))
        .expect_err("1,201 names");
    assert_eq!(
        error.to_string(),
        "one entry too many: name 1025 of 1201, \"app/C1024\""
    );
    // Nothing asked for is a part too.
    let nothing = builder.build_for([]).expect("a part");
    assert_eq!(nothing.table().names().len(), 1);
    let empty = ClassTableBuilder::new().build_for(["a"]).expect("a part");
    assert_eq!(empty.relation("a", "b"), Ok(Relation::Unknown));
}
