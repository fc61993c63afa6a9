//! A class table in place of dexdec's `ClassHierarchyIndex`: the same records, the same questions, shared by threads.
//!
//!     cargo run --example hierarchy

use bracepuffin::{ArgType, ClassTable, ClassTableBuilder, ReferenceTypeInfo, TableError};

/// Shapes: an interface, a final class and one whose superclass has no record.
pub fn shapes() -> Result<ClassTable, TableError> {
    let mut classes = ClassTableBuilder::new();
    classes.add("java/lang/Object", []);
    classes.add_declared_type(
        "a/Shape",
        ["java/lang/Object"],
        ReferenceTypeInfo::INTERFACE,
    );
    classes.add_declared_type(
        "a/Round",
        ["java/lang/Object", "a/Shape"],
        ReferenceTypeInfo::FINAL,
    );
    classes.add_declared_type("a/Square", ["a/Base", "a/Shape"], ReferenceTypeInfo::PLAIN);
    classes.build()
}

/// What is asked of a pair, a line each. Any name may be asked about.
pub fn asked(table: &ClassTable, left: &str, right: &str) -> String {
    let joined = table.join(ArgType::object(left), ArgType::object(right));
    format!(
        "{left}, {right}\n  relation {:?}\n  distance {:?}\n  supertype {}\n  cast {}\n  join {joined}\n",
        table.relation(left, right),
        table.distance(left, right),
        table.supertype(left, right),
        table.cast(left, right),
    )
}

/// Each pair on a thread of its own; they share the table and wait for nothing.
pub fn all(table: &ClassTable) -> Vec<String> {
    let pairs = [
        ("a/Round", "a/Shape"),
        ("a/Square", "a/Round"),
        ("a/Round", "x/Never"),
    ];
    std::thread::scope(|scope| {
        let threads = pairs.map(|(left, right)| scope.spawn(move || asked(table, left, right)));
        let answers = threads.map(|thread| thread.join().expect("no panic"));
        answers.to_vec()
    })
}

#[allow(dead_code)]
fn main() -> Result<(), TableError> {
    let table = shapes()?;
    println!("above a/Square: {:?}", table.ancestors("a/Square"));
    for answers in all(&table) {
        print!("{answers}");
    }
    Ok(())
}
