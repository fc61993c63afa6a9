//! The manual's calls from Rust, task by task. docs/MANUAL.md shows the parts between the marks `manual: NAME` and
//! `manual: end`, and every line that is printed; a test compares both.
//!
//!     cargo run --example manual

use std::collections::{BTreeMap, BTreeSet};
use std::error::Error;

use bracepuffin::{
    read_method, ArgType, BoundKind, ClassTable, ClassTableBuilder, Names, ReferenceTypeInfo,
    Refusal, TableError, TypeConstraints, TypeWord, OBJECT,
};

// manual: method
fn rewrite(text: &str) -> Result<String, Refusal> {
    let names = Names::new(["a/TrussA", "java/lang/String"])?;
    let method = read_method(text.as_bytes())?;
    let words = method.parameters.iter().map(|ty| names.word(*ty));
    let words = words.collect::<Result<Vec<TypeWord>, Refusal>>()?;
    names.write_method(&words, names.word(method.return_type)?)
}

fn descriptors() {
    for text in ["([La/TrussA;I)Ljava/lang/String;", "(I[V)V", "()La/Other;"] {
        match rewrite(text) {
            Ok(written) => println!("{written}"),
            Err(refusal) => println!("refusal {}: {refusal}", refusal.number()),
        }
    }
}
// manual: end

// manual: table
fn classes() -> Result<ClassTable, TableError> {
    let mut classes = ClassTableBuilder::new();
    classes.add_declared_type("a/Probe", [OBJECT], ReferenceTypeInfo::INTERFACE);
    classes.add_declared_type("a/TrussA", ["a/Probe"], ReferenceTypeInfo::PLAIN);
    classes.add_declared_type("a/TrussB", ["a/Probe"], ReferenceTypeInfo::FINAL);
    classes.add_declared_type(OBJECT, [], ReferenceTypeInfo::PLAIN);
    classes.name("java/lang/String");
    classes.build()
}
// manual: end

// manual: questions
fn questions(table: &ClassTable) {
    println!("{:?}", table.relation("a/TrussA", "a/Probe"));
    println!("{:?}", table.relation("a/Probe", "a/TrussA"));
    println!("{:?}", table.relation("java/lang/String", "a/Probe"));
    println!("{:?}", table.distance("a/TrussA", OBJECT));
    println!("{}", table.supertype("a/TrussA", "a/TrussB"));
    println!("{}", table.cast("a/TrussA", "a/TrussB"));
    println!("{:?}", table.ancestors("a/TrussA"));
    println!("{:?}", table.relation("x/Never", "a/Probe"));
}
// manual: end

// manual: fault
fn fault() {
    let mut classes = ClassTableBuilder::new();
    classes.add("a/Probe", [OBJECT]);
    classes.add("a/TrussA", [""]);
    match classes.build() {
        Ok(_) => println!("accepted"),
        Err(error) => println!("{error}"),
    }
}
// manual: end

// manual: types
fn types(table: &ClassTable) {
    let class = ArgType::object;
    println!("{}", table.join(class("a/TrussA"), class("a/TrussB")));
    println!("{:?}", table.join(ArgType::BOOLEAN, ArgType::INT).base);
    println!("{}", table.is_assignable(ArgType::CHAR, ArgType::INT));
    println!("{}", table.is_assignable(ArgType::CHAR, ArgType::SHORT));
    let (string, probe) = (class("java/lang/String"), class("a/Probe"));
    println!("{}", table.is_assignable(string, probe));
}
// manual: end

// manual: solve
fn solve(table: &ClassTable) -> Result<(), Refusal> {
    let class = ArgType::object;
    let both = [
        (BoundKind::Lower, class("a/TrussA")),
        (BoundKind::Lower, class("a/TrussB")),
    ];
    let expected = [(BoundKind::Upper, class("a/Probe"))];
    let constraints = TypeConstraints {
        members: BTreeMap::from(["x", "y"].map(|root| (root, BTreeSet::from([root])))),
        bounds: BTreeMap::from([("x", both.into()), ("y", expected.into())]),
        flows: BTreeSet::from([("x", "y")]),
        ..TypeConstraints::default()
    };
    let solution = table.solve(&constraints)?;
    for (variable, ty) in &solution.types {
        println!("{variable} is a {ty}");
    }
    let bounds = solution.bounds.len();
    println!("{bounds} bounds after {} turns", solution.turns);
    Ok(())
}
// manual: end

pub fn main() -> Result<(), Box<dyn Error>> {
    descriptors();
    let table = classes()?;
    questions(&table);
    fault();
    types(&table);
    solve(&table)?;
    Ok(())
}
