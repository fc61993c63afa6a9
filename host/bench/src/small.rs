//! What a question about next to nothing costs, and how much of it is the clearing of the working slice.

use std::hint::black_box;

use bracepuffin::{slices, WORK};

use crate::classes::{program, table};
use crate::measure::{in_turns, repeated, Effort, Times};

/// What was done, and its times.
pub type Cost = (String, Times);

/// A relation over a table of ten names: whole, without its working slice (the check of the table), refused before it
/// touches anything, and the clearing of as much memory alone.
pub fn costs(effort: Effort) -> Vec<Cost> {
    let classes = program(10);
    let table = table(&classes);
    let columns = table.columns();
    let (mut lent, mut cleared) = (vec![0; WORK], vec![0_u64; WORK]);
    let mut short = vec![0; WORK - 1];
    let calls: [&mut dyn FnMut(u64); 4] = [
        &mut repeated(|| slices::relation(columns, black_box(1), 2, &mut lent)),
        &mut repeated(|| slices::check_table(black_box(columns))),
        &mut repeated(|| slices::relation(columns, black_box(1), 2, &mut short)),
        &mut repeated(|| black_box(&mut cleared).fill(0)),
    ];
    let [question, check, refused, clearing] = in_turns(effort, calls);
    let costs = [
        ("a relation over ten names", question),
        ("the same table checked, without a working slice", check),
        ("the same relation, refused 22", refused),
        ("64 KB set to 0 by the Rust", clearing),
    ];
    costs
        .map(|(what, times)| (what.to_string(), times))
        .to_vec()
}
