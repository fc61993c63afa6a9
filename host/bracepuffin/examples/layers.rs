//! A class list that several models share, and a layer over it for one of them. Parts between the marks `manual: NAME` and
//! `manual: end` are for docs/MANUAL.md, as every line that is printed.
//!
//!     cargo run --example layers

use std::error::Error;

use bracepuffin::{ClassTable, ClassTableBuilder, TableError, OBJECT};

// manual: over
fn shared() -> Result<ClassTable, TableError> {
    let mut classes = ClassTableBuilder::new();
    classes.add(OBJECT, []);
    classes.add("a/Device", [OBJECT]);
    classes.add("a/Radio", ["a/Device"]);
    classes.build()
}

fn model(shared: &ClassTable) -> Result<ClassTable, TableError> {
    let mut classes = ClassTableBuilder::new();
    classes.add("m/Antenna", ["a/Device"]);
    classes.add("a/Radio", ["m/Antenna"]);
    classes.build_over(shared)
}
// manual: end

pub fn main() -> Result<(), Box<dyn Error>> {
    // manual: asked
    let shared = shared()?;
    let table = model(&shared)?;
    println!("{:?}", shared.relation("a/Radio", "m/Antenna"));
    println!("{:?}", table.relation("a/Radio", "m/Antenna"));
    println!("{:?}", table.ancestors("a/Radio"));
    let fourth = model(&model(&table)?)?;
    println!("{} layers", fourth.layers());
    if let Err(error) = model(&fourth) {
        println!("refusal {}: {error}", error.refusal().number());
    }
    // manual: end
    Ok(())
}
