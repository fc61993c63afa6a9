//! Joins and assignability: lattice.rs over hierarchy.rs with its caches warm, the boundary, and the wrapper.

use std::hint::black_box;

use bracepuffin::{slices, WORK};
use dexdec::{lattice, ArgType};

use crate::classes::{ends, index, program, table};
use crate::measure::{Effort, Row};

pub fn rows(effort: Effort) -> Vec<Row> {
    let each = effort.sizes.into_iter();
    each.flat_map(|count| each_pair(effort, count)).collect()
}

/// Two primitives, two classes at the ends of chains, and two arrays of these.
fn each_pair(effort: Effort, count: usize) -> Vec<Row> {
    let classes = program(count);
    let (index, table) = (index(&classes), table(&classes));
    let objects = ends(&classes).map(bracepuffin::ArgType::object);
    let arrays = objects.map(|ty| ty.array().expect("one dimension"));
    let primitives = [bracepuffin::ArgType::BOOLEAN, bracepuffin::ArgType::INT];
    let mut rows = Vec::new();
    for (what, [left, right]) in [
        ("`Z`, `I`", primitives),
        ("two classes", objects),
        ("two arrays", arrays),
    ] {
        let word = |ty| table.word(ty).expect("in the table").bits();
        let (l, r) = (word(left), word(right));
        let (rust_left, rust_right) = (rust(left), rust(right));
        let mut work = vec![0; WORK];
        rows.push(Row::of(
            effort,
            format!("{count} names, join of {what}"),
            || lattice::join(rust_left.clone(), black_box(&rust_right).clone(), &index),
            || slices::join(table.columns(), black_box(l), black_box(r), &mut work),
            || table.join(black_box(left), black_box(right)),
        ));
        rows.push(Row::of(
            effort,
            format!("{count} names, assignable {what}"),
            || lattice::is_assignable(black_box(&rust_left), &rust_right, &index),
            || slices::assignable(table.columns(), black_box(l), black_box(r), &mut work),
            || table.is_assignable(black_box(left), black_box(right)),
        ));
    }
    rows
}

fn rust(ty: bracepuffin::ArgType) -> ArgType {
    let base = match ty.as_array_element().unwrap_or(ty).base {
        bracepuffin::Base::Object(name) => ArgType::object(name),
        bracepuffin::Base::Primitive(bracepuffin::PrimitiveType::Boolean) => ArgType::BOOLEAN,
        _ => ArgType::INT,
    };
    match ty.is_array() {
        true => ArgType::array(base),
        false => base,
    }
}
