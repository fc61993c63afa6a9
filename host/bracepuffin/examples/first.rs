//! The three calls of the README, and what they answer.
//!
//!     cargo run --example first

use std::collections::{BTreeMap, BTreeSet};
use std::error::Error;

use bracepuffin::{read_method, ArgType, BoundKind, ClassTableBuilder, TypeConstraints, OBJECT};

pub fn main() -> Result<(), Box<dyn Error>> {
    // Two classes below a third. java/lang/String is named, and nobody recorded what is above it.
    let mut classes = ClassTableBuilder::new();
    classes.add(OBJECT, []);
    classes.add("a/Probe", [OBJECT]);
    classes.add("a/TrussA", ["a/Probe"]);
    classes.add("a/TrussB", ["a/Probe"]);
    classes.name("java/lang/String");
    let table = classes.build()?;

    // One branch puts a TrussA into the variable x, another one a TrussB.
    let put = |class| (BoundKind::Lower, ArgType::object(class));
    let problem = TypeConstraints {
        members: BTreeMap::from([("x", BTreeSet::from(["x"]))]),
        bounds: BTreeMap::from([("x", BTreeSet::from([put("a/TrussA"), put("a/TrussB")]))]),
        ..TypeConstraints::default()
    };

    // manual: calls
    println!("{:?}", table.relation("java/lang/String", "a/Probe"));
    println!("{}", read_method(b"(I[V)V").unwrap_err());
    println!("{}", table.solve(&problem)?.types["x"]);
    // manual: end
    Ok(())
}
