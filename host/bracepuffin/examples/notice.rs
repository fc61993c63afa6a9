//! What a user notices first: the problems of the manual's chapter of that name, and what comes out. docs/MANUAL.md
//! shows the parts between the marks, and every line that is printed; a test compares both.
//!
//!     cargo run --example notice

use std::collections::{BTreeMap, BTreeSet};
use std::error::Error;

use bracepuffin::{
    ArgType, BoundKind, BoundKind::*, ClassTable, ClassTableBuilder, Refusal, TableError,
    TypeConstraints,
};

// manual: records
const RECORDS: &str = "\
java/io/Serializable:
java/lang/Cloneable:
java/lang/Comparable:
java/lang/Integer: java/lang/Number java/lang/Comparable
java/lang/Long: java/lang/Number java/lang/Comparable
java/lang/Number: java/io/Serializable
java/lang/Object:
java/util/AbstractList: java/util/List
java/util/AbstractSequentialList: java/util/AbstractList
java/util/ArrayList: java/util/AbstractList java/util/List
java/util/ArrayList: java/lang/Cloneable java/io/Serializable
java/util/LinkedList: java/util/AbstractSequentialList java/util/List
java/util/LinkedList: java/lang/Cloneable java/io/Serializable
java/util/List:";

fn jdk() -> Result<ClassTable, TableError> {
    let mut classes = ClassTableBuilder::new();
    for line in RECORDS.lines() {
        let (class, parents) = line.split_once(':').expect("a class and its parents");
        classes.add(class, parents.split_whitespace());
    }
    classes.build()
}
// manual: end

// manual: show
/// Prints the type of one variable of which this is known, or a dash.
fn show(table: &ClassTable, known: &[&[(BoundKind, ArgType)]]) -> Result<(), Refusal> {
    let constraints = TypeConstraints {
        members: BTreeMap::from([("x", BTreeSet::from(["x"]))]),
        bounds: BTreeMap::from([("x", known.concat().into_iter().collect())]),
        ..TypeConstraints::default()
    };
    match table.solve(&constraints)?.types.get("x") {
        Some(ty) => println!("{ty}"),
        None => println!("-"),
    }
    Ok(())
}

const SERIALIZABLE: ArgType = ArgType::object("java/io/Serializable");
const OBJECT: ArgType = ArgType::object("java/lang/Object");
const ARRAY_LIST: ArgType = ArgType::object("java/util/ArrayList");
const LINKED_LIST: ArgType = ArgType::object("java/util/LinkedList");
const LIST: ArgType = ArgType::object("java/util/List");
const STRANGER: ArgType = ArgType::object("x/Stranger");
// manual: end

fn supertypes(table: &ClassTable) -> Result<(), Refusal> {
    // manual: supertypes
    let above = table.supertype("java/util/ArrayList", "java/util/LinkedList");
    println!("{above}");
    println!("{}", table.supertype("java/lang/Integer", "java/lang/Long"));
    let both = [(Lower, ARRAY_LIST), (Lower, LINKED_LIST)];
    show(table, &[&both])?;
    show(table, &[&both, &[(Upper, LIST)]])?;
    // manual: end
    Ok(())
}

fn booleans(table: &ClassTable) -> Result<(), Refusal> {
    // manual: booleans
    let constant = [(Domain, ArgType::narrow()), (Fallback, ArgType::INT)];
    let tested = [(Domain, ArgType::equality_operand())];
    let returned = [(Exact, ArgType::BOOLEAN)];
    show(table, &[&constant, &tested])?;
    show(table, &[&constant, &tested, &returned])?;
    // manual: end
    Ok(())
}

fn nulls(table: &ClassTable) -> Result<(), Refusal> {
    // manual: nulls
    let null = [(Domain, ArgType::narrow()), (Fallback, ArgType::INT)];
    let as_object = [(Upper, OBJECT)];
    let locked = [(Upper, ArgType::unknown_object())];
    show(table, &[&null])?;
    show(table, &[&null, &as_object])?;
    show(table, &[&null, &locked])?;
    // manual: end
    Ok(())
}

fn locals(table: &ClassTable) -> Result<(), Refusal> {
    // manual: locals
    show(table, &[&[(Exact, ARRAY_LIST)], &[(Upper, LIST)]])?;
    show(table, &[&[(Upper, LIST)]])?;
    // manual: end
    Ok(())
}

fn strangers(table: &ClassTable) -> Result<(), Refusal> {
    // manual: strangers
    println!("{:?}", table.relation("x/Stranger", "java/util/List"));
    println!("{}", table.is_assignable(STRANGER, LIST));
    show(table, &[&[(Lower, STRANGER)], &[(Upper, LIST)]])?;
    show(table, &[&[(Lower, SERIALIZABLE)], &[(Upper, LIST)]])?;
    // manual: end
    Ok(())
}

fn joins(table: &ClassTable) {
    // manual: joins
    println!("{:?}", table.join(ArgType::LONG, ArgType::FLOAT).base);
    println!("{:?}", table.join(ArgType::FLOAT, ArgType::LONG).base);
    let first = table.join(ArgType::BOOLEAN, ARRAY_LIST);
    println!("{}", table.join(first, LINKED_LIST));
    let last = table.join(ARRAY_LIST, LINKED_LIST);
    println!("{:?}", table.join(ArgType::BOOLEAN, last).base);
    // manual: end
}

pub fn main() -> Result<(), Box<dyn Error>> {
    let table = jdk()?;
    supertypes(&table)?;
    booleans(&table)?;
    nulls(&table)?;
    locals(&table)?;
    strangers(&table)?;
    joins(&table);
    Ok(())
}
