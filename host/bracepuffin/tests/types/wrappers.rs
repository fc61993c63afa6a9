//! Joins and assignability of the Rust crate.

use bracepuffin::PrimitiveType::{Array, Boolean, Int, Object};
use bracepuffin::{ArgType, Base, Categories, ClassTable, ClassTableBuilder, TypeWord};

fn table() -> ClassTable {
    let mut classes = ClassTableBuilder::new();
    classes.add("a/TrussA", ["a/Probe"]);
    classes.add("a/TrussB", ["a/Probe"]);
    classes.add("a/Probe", ["java/lang/Object"]);
    classes.add("java/lang/Object", []);
    classes.name("java/lang/Cloneable");
    classes.build().expect("a table")
}

#[test]
fn joins_and_assignability() {
    let table = table();
    let (left, right) = (ArgType::object("a/TrussA"), ArgType::object("a/TrussB"));
    let probe = ArgType::object("a/Probe");
    assert_eq!(table.join(left, right), probe);
    let either = table.join(ArgType::BOOLEAN, ArgType::INT);
    assert_eq!(format!("{:?}", either.base), "Unknown([Boolean, Int])");
    assert!(table.is_assignable(left, probe));
    assert!(!table.is_assignable(probe, left));
    assert!(table.is_assignable(ArgType::BYTE, ArgType::INT));
    assert!(!table.is_assignable(ArgType::CHAR, ArgType::SHORT));
    let array = ArgType::INT.array().expect("one dimension");
    let joined = table.join(array, ArgType::object("java/lang/Cloneable"));
    assert_eq!(joined.base, Base::Unknown(list(&[Object, Array])));
    // A class that was never named, as lattice.rs has it.
    let absent = ArgType::object("b");
    assert_eq!(
        table.join(left, absent),
        ArgType::object("java/lang/Object")
    );
    assert_eq!(table.join(absent, absent), absent);
    assert!(table.is_assignable(absent, left));
    assert!(!table.is_assignable(left, absent));
}

fn list(categories: &[bracepuffin::PrimitiveType]) -> Categories {
    Categories::new(categories).expect("no repeats")
}

#[test]
fn lists_of_categories() {
    let both = list(&[Boolean, Int]);
    assert_eq!(both.payload(), 0x2150_0000_0000);
    assert_eq!(both.iter().collect::<Vec<_>>(), [Boolean, Int]);
    assert_eq!((both.len(), both.is_empty()), (2, false));
    assert_ne!(both, list(&[Int, Boolean]));
    assert_eq!(Categories::new(&[Int, Boolean, Int]), None);
    assert!(list(&[]).is_empty());
    assert_eq!(list(&[]).payload(), 0);
    let all = list(&bracepuffin::PrimitiveType::ALL);
    assert_eq!(all.payload(), 0xb012_3456_789a);
    for categories in [both, list(&[]), all] {
        let back = Categories::from_payload(categories.payload());
        assert_eq!(back, Some(categories));
    }
    for payload in [
        0xc000_0000_0000,
        0x1b00_0000_0000,
        0x2550_0000_0000,
        1,
        0xf012_3456_789a,
    ] {
        assert_eq!(Categories::from_payload(payload), None);
    }
}

#[test]
fn words_there_and_back() {
    let table = table();
    let unknown = ArgType::unknown_of(list(&[Int, Object]));
    let deep = ArgType {
        dimensions: 255,
        ..unknown
    };
    for ty in [ArgType::VOID, ArgType::object("a/Probe"), unknown, deep] {
        let word = table.word(ty).expect("a type of the table");
        assert_eq!(table.names().word(ty), Ok(word));
        assert_eq!(table.type_of(word), Some(ty));
    }
    assert_eq!(
        table.word(unknown).map(TypeWord::bits),
        Ok(0x0002_2590_0000_0000)
    );
    for word in [11, 1 << 48 | 5, 2 << 48 | 1, 3 << 48, u64::MAX] {
        assert_eq!(table.type_of(table.names().word_from_bits(word)), None);
    }
    assert!(unknown.is_unknown() && !deep.is_unknown() && deep.is_array());
    assert!(!unknown.is_wide() && ArgType::unknown_of(list(&[])).is_wide());
}
