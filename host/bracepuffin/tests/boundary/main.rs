//! The boundary against the Rust of docs/src and the rules of the paper, in one process.
//!
//! BRACEPUFFIN_CASES sets the number of random descriptors; the other random tests follow it.

mod lent;
mod limits;
mod part;
mod reading;
mod strict;
mod tables;
mod utf8;
mod vectors;
mod wrappers;
mod writing;

use bracepuffin::ffi::{BpMethod, BpType};
use bracepuffin::slices::Columns;
use judge::paper::Table;
use judge::{MethodNumbers, TypeAnswer};

/// What lent memory holds before a call.
const POISON: u64 = 0xa5a5_a5a5_a5a5_a5a5;
const POISON_BYTE: u8 = 0xa5;

/// How many random cases to try where the most thorough test tries a million.
fn cases(of_a_million: u64) -> u64 {
    let million = match std::env::var("BRACEPUFFIN_CASES") {
        Ok(number) => number.parse().expect("BRACEPUFFIN_CASES is a number"),
        Err(_) => 1_000_000,
    };
    (million * of_a_million).div_ceil(1_000_000)
}

fn type_numbers(t: BpType) -> TypeAnswer {
    [
        t.refusal, t.offset, t.byte, t.dims, t.tag, t.category, t.name_at, t.name_len,
    ]
}

fn method_numbers(m: BpMethod) -> MethodNumbers {
    [
        m.refusal,
        m.offset,
        m.byte,
        m.count,
        m.return_at,
        m.dims,
        m.tag,
        m.category,
        m.name_at,
        m.name_len,
    ]
}

/// The refusal of a type's descriptor: number, offset, byte.
fn type_refusal(d: &[u8]) -> [u64; 3] {
    let t = bracepuffin::slices::read_type(d);
    [t.refusal, t.offset, t.byte]
}

/// The refusal of a method's descriptor: number, offset, byte.
fn method_refusal(d: &[u8]) -> [u64; 3] {
    let m = bracepuffin::slices::read_method(d, &mut [0; 255]);
    [m.refusal, m.offset, m.byte]
}

fn columns(table: &Table) -> Columns<'_> {
    Columns {
        names: &table.store,
        name_at: &table.at,
        name_len: &table.len,
    }
}

fn times(count: usize, text: &str) -> String {
    text.repeat(count)
}
