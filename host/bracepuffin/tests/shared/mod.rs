//! What the tests over class tables share: the columns of a table, a working slice, and how many cases to try.

use bracepuffin::slices::{ClassColumns, Columns};
use judge::classes::{Classes, WORK};

/// What lent memory holds before a call.
pub const POISON: u64 = 0xa5a5_a5a5_a5a5_a5a5;

/// How many random cases to try where the most thorough test tries a million.
pub fn cases(of_a_million: u64) -> u64 {
    let million = match std::env::var("BRACEPUFFIN_CASES") {
        Ok(number) => number.parse().expect("BRACEPUFFIN_CASES is a number"),
        Err(_) => 1_000_000,
    };
    (million * of_a_million).div_ceil(1_000_000)
}

pub fn columns(classes: &Classes) -> ClassColumns<'_> {
    ClassColumns {
        names: Columns {
            names: &classes.names.store,
            name_at: &classes.names.at,
            name_len: &classes.names.len,
        },
        rec_flags: &classes.flags,
        rec_class: &classes.class,
        rec_at: &classes.at,
        rec_len: &classes.len,
        parents: &classes.parents,
    }
}

pub fn work() -> Vec<u64> {
    vec![0; WORK]
}
