//! Facts about the order of types, joins and assignability that the port relies on, asked of the Rust.
//!
//! O7 to O12 are the points of docs/DECISIONS.md that they decide.

use dexdec::hierarchy::{ClassHierarchyIndex, SubtypeRelation, TypeHierarchy};
use dexdec::lattice::{
    categories, concrete_hint, is_assignable, is_concrete, join, join_primitive, unknown_union,
};
use dexdec::ArgType;
use dexdec::PrimitiveType::{self, *};

const CATEGORIES: [PrimitiveType; 11] = [
    Void, Boolean, Byte, Short, Char, Int, Long, Float, Double, Object, Array,
];

fn unknown(list: &[PrimitiveType]) -> ArgType {
    ArgType::Unknown(list.to_vec())
}

fn primitive(category: PrimitiveType) -> ArgType {
    ArgType::Primitive(category)
}

fn class_a() -> ArgType {
    ArgType::object("a")
}

fn object() -> ArgType {
    ArgType::object("java/lang/Object")
}

/// Two unrelated classes, a and b, and Object.
fn classes() -> ClassHierarchyIndex {
    let mut index = ClassHierarchyIndex::default();
    index.add("java/lang/Object", []);
    index.add("a", ["java/lang/Object".to_string()]);
    index.add("b", ["java/lang/Object".to_string()]);
    index
}

fn joined(left: &ArgType, right: &ArgType) -> ArgType {
    join(left.clone(), right.clone(), &classes())
}

fn assignable(value: &ArgType, expected: &ArgType) -> bool {
    is_assignable(value, expected, &classes())
}

#[test]
fn categories_are_numbered_in_source_order() {
    for (number, category) in CATEGORIES.iter().enumerate() {
        assert_eq!(*category as usize, number);
    }
}

#[test]
fn o7_kinds_of_types_are_ordered_primitive_class_array_unknown() {
    let ascending = [
        primitive(Void),
        primitive(Array),
        ArgType::object("a"),
        ArgType::object("ab"),
        ArgType::object("b"),
        ArgType::array(primitive(Array)),
        ArgType::array(ArgType::object("b")),
        ArgType::array(ArgType::array(primitive(Int))),
        ArgType::array(unknown(&[])),
        unknown(&[]),
    ];
    assert!(ascending.windows(2).all(|pair| pair[0] < pair[1]));
}

#[test]
fn o7_deeper_arrays_of_unknown_come_first() {
    let one = ArgType::array(unknown(&[]));
    let two = ArgType::array(one.clone());
    assert!(two < one);
    assert!(ArgType::array(ArgType::array(primitive(Int))) < two);
}

#[test]
fn o7_lists_are_compared_left_to_right_a_prefix_first() {
    let ascending = [
        unknown(&[]),
        unknown(&[Void]),
        unknown(&[Void, Array]),
        unknown(&[Boolean]),
        unknown(&[Boolean, Void]),
        unknown(&[Boolean, Int]),
        unknown(&[Boolean, Int, Void]),
        unknown(&[Int]),
        unknown(&[Int, Boolean]),
        ArgType::unknown(),
        unknown(&[Array]),
    ];
    assert!(ascending.windows(2).all(|pair| pair[0] < pair[1]));
}

#[test]
fn o8_the_diagonal_of_join_primitive_is_not_the_join() {
    assert_eq!(
        join_primitive(Boolean, Boolean),
        unknown(&[Boolean, Boolean])
    );
    assert_eq!(join_primitive(Byte, Byte), ArgType::INT);
    for category in CATEGORIES {
        assert_eq!(
            joined(&primitive(category), &primitive(category)),
            primitive(category)
        );
    }
}

#[test]
fn o8_off_the_diagonal_join_is_join_primitive() {
    for left in CATEGORIES {
        for right in CATEGORIES.into_iter().filter(|right| *right != left) {
            assert_eq!(
                joined(&primitive(left), &primitive(right)),
                join_primitive(left, right)
            );
        }
    }
}

#[test]
fn o8_sixty_eight_pairs_of_primitives_join_differently_the_other_way_round() {
    let pairs = CATEGORIES
        .iter()
        .flat_map(|left| CATEGORIES.iter().map(move |right| (*left, *right)));
    let asymmetric = pairs
        .filter(|(left, right)| {
            let (left, right) = (primitive(*left), primitive(*right));
            joined(&left, &right) != joined(&right, &left)
        })
        .count();
    assert_eq!(asymmetric, 68);
    assert_eq!(
        joined(&ArgType::LONG, &ArgType::FLOAT),
        unknown(&[Long, Float])
    );
    assert_eq!(
        joined(&ArgType::FLOAT, &ArgType::LONG),
        unknown(&[Float, Long])
    );
    assert_eq!(
        joined(&ArgType::INT, &ArgType::BOOLEAN),
        unknown(&[Boolean, Int])
    );
}

#[test]
fn o9_join_primitive_keeps_left_and_right_where_unknown_union_sorts() {
    let (reference, int) = (primitive(Object), primitive(Int));
    assert_eq!(joined(&reference, &int), unknown(&[Object, Int]));
    assert_eq!(unknown_union(&reference, &int), unknown(&[Int, Object]));
}

#[test]
fn o10_categories_of_a_type() {
    let listed = |ty: &ArgType| categories(ty).into_iter().collect::<Vec<_>>();
    for category in CATEGORIES {
        assert_eq!(listed(&primitive(category)), [category]);
        assert_eq!(listed(&ArgType::array(primitive(category))), [Array]);
    }
    assert_eq!(listed(&class_a()), [Object]);
    assert_eq!(listed(&ArgType::array(unknown(&[Int, Byte]))), [Array]);
    assert_eq!(listed(&unknown(&[Int, Byte, Void])), [Void, Byte, Int]);
    assert_eq!(listed(&unknown(&[])), []);
}

#[test]
fn o10_category_object_with_a_class_is_unknown_of_object() {
    let mixed = joined(&primitive(Object), &class_a());
    assert_eq!(mixed, unknown(&[Object]));
    assert_eq!(concrete_hint(&mixed), Some(object()));
    assert_eq!(joined(&class_a(), &primitive(Object)), mixed);
}

#[test]
fn o11_the_empty_unknown_joins() {
    let empty = unknown(&[]);
    assert_eq!(joined(&empty, &unknown(&[Int])), ArgType::unknown());
    assert_eq!(joined(&unknown(&[Int]), &empty), ArgType::unknown());
    assert_eq!(joined(&empty, &ArgType::INT), unknown(&[Int]));
    assert_eq!(joined(&empty, &empty), empty);
    assert!(empty.is_wide());
}

#[test]
fn o11_the_empty_unknown_is_assignable_to_every_unknown_and_to_nothing_known() {
    let empty = unknown(&[]);
    let known = CATEGORIES.map(primitive).into_iter().chain([
        class_a(),
        object(),
        ArgType::array(ArgType::INT),
        ArgType::array(empty.clone()),
    ]);
    for ty in known {
        assert!(!assignable(&empty, &ty), "{ty:?}");
        assert!(!assignable(&ty, &empty), "{ty:?}");
    }
    for list in [&[][..], &[Void], &[Int, Object], &CATEGORIES] {
        assert!(assignable(&empty, &unknown(list)));
        assert_eq!(assignable(&unknown(list), &empty), list.is_empty());
    }
}

#[test]
fn o12_joins_of_arrays() {
    let array_of = |list: &[PrimitiveType]| ArgType::array(unknown(list));
    let array_a = ArgType::array(class_a());
    let array_int = ArgType::array(ArgType::INT);
    assert_eq!(joined(&array_of(&[Int]), &array_int), object());
    assert_eq!(joined(&array_of(&[Object]), &array_a), array_a);
    assert_eq!(
        joined(&array_of(&[Int]), &array_a),
        array_of(&[Int, Object])
    );
    assert_eq!(joined(&array_int, &array_a), object());
    assert_eq!(joined(&array_int, &ArgType::array(ArgType::LONG)), object());
    assert_eq!(
        joined(&array_a, &ArgType::array(array_a.clone())),
        array_of(&[Object, Array])
    );
}

#[test]
fn o12_an_array_joins_to_object_with_object_alone() {
    let array = ArgType::array(ArgType::INT);
    let cloneable = ArgType::object("java/lang/Cloneable");
    assert_eq!(joined(&array, &object()), object());
    assert_eq!(joined(&object(), &array), object());
    assert_eq!(joined(&array, &cloneable), unknown(&[Object, Array]));
    assert!(assignable(&array, &cloneable));
}

#[test]
fn o12_assignability_of_arrays() {
    let array_int = ArgType::array(ArgType::INT);
    assert!(!assignable(&ArgType::array(unknown(&[Int])), &array_int));
    assert!(!assignable(&array_int, &ArgType::array(unknown(&[Int]))));
    assert!(assignable(
        &ArgType::array(unknown(&[Array])),
        &ArgType::array(array_int.clone())
    ));
    assert!(!assignable(&ArgType::array(ArgType::BYTE), &array_int));
    assert!(assignable(
        &ArgType::array(array_int),
        &ArgType::array(object())
    ));
}

#[test]
fn o12_concrete_types() {
    for category in CATEGORIES {
        let expected = !matches!(category, Object | Array);
        assert_eq!(is_concrete(&primitive(category)), expected);
        assert_eq!(is_concrete(&ArgType::array(primitive(category))), expected);
        assert!(!is_concrete(&unknown(&[category])));
        assert!(!is_concrete(&ArgType::array(unknown(&[category]))));
    }
    assert!(is_concrete(&class_a()));
    assert!(is_concrete(&ArgType::array(ArgType::array(class_a()))));
}

#[test]
fn hints_of_unknowns_with_one_category() {
    assert_eq!(concrete_hint(&unknown(&[Array])), None);
    assert_eq!(concrete_hint(&unknown(&[Object])), Some(object()));
    assert_eq!(concrete_hint(&unknown(&[Void])), Some(primitive(Void)));
    assert_eq!(concrete_hint(&unknown(&[Int, Long])), None);
    assert_eq!(concrete_hint(&unknown(&[])), None);
    assert_eq!(concrete_hint(&ArgType::array(unknown(&[Int]))), None);
    assert_eq!(concrete_hint(&primitive(Object)), None);
}

#[test]
fn an_unrecorded_class_is_assignable_to_every_class() {
    let stray = ArgType::object("stray");
    assert_eq!(
        classes().subtype_relation("stray", "a"),
        SubtypeRelation::Unknown
    );
    assert_eq!(classes().subtype_relation("a", "b"), SubtypeRelation::No);
    assert!(assignable(&stray, &class_a()));
    assert!(!assignable(&class_a(), &stray));
    assert!(!assignable(&class_a(), &ArgType::object("b")));
}
