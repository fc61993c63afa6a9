//! Joins and assignability of the boundary against lattice.rs, in one process.
//!
//! lattice.rs answers whatever is not refused. It has no words, no limits and no lent memory, and names
//! java/lang/Object even where no such name was recorded. There the rules of the paper decide (`judge::types`).

mod facts;
mod pairs;
mod refusals;
#[path = "../shared/mod.rs"]
mod shared;
mod wrappers;

use bracepuffin::ffi::BpAnswer;
use bracepuffin::slices::{self, ClassColumns};
use judge::classes::Classes;

use shared::{cases, columns, work, POISON};

const CLASS: u64 = 1 << 48;
const UNKNOWN: u64 = 2 << 48;

type Query = fn(ClassColumns, u64, u64, &mut [u64]) -> BpAnswer;

const QUERIES: [Query; 2] = [slices::join, slices::assignable];

/// The word of an Unknown with these categories.
fn unknown(list: &[u64]) -> u64 {
    let digits = (0..11).map(|place| list.get(place).copied().unwrap_or(0));
    let members = digits.fold(list.len() as u64, |payload, digit| payload << 4 | digit);
    UNKNOWN | members
}

fn array(dimensions: u64, base: u64) -> u64 {
    dimensions << 56 | base
}

/// The join of two words, which is not refused.
fn join(classes: &Classes, left: u64, right: u64) -> u64 {
    let answer = slices::join(columns(classes), left, right, &mut work());
    assert_eq!(answer.refusal, 0);
    answer.value
}

fn assignable(classes: &Classes, value: u64, expected: u64) -> bool {
    let answer = slices::assignable(columns(classes), value, expected, &mut work());
    assert_eq!(answer.refusal, 0);
    answer.value == 1
}
