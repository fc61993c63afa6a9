//! Class numbers and type words, each with the table whose classes it means.
//!
//! The boundary takes plain numbers, so the number of a class of one table means another class in another. Here a
//! number carries the mark of the table that it was made for; what takes it with another table sees no class there.

use std::fmt;
use std::sync::atomic::{AtomicU64, Ordering};

/// Tags of words.
pub(crate) const PRIMITIVE: u64 = 0;
pub(crate) const CLASS: u64 = 1;
pub(crate) const UNKNOWN: u64 = 2;

pub(crate) const PAYLOAD: u64 = (1 << 48) - 1;

/// What is no class and, as a word, no type.
const NOTHING: u64 = u64::MAX;

/// The mark of a table: no two tables have the same, but for copies of one.
#[derive(Debug, Clone, Copy, PartialEq, Eq, Hash)]
pub(crate) struct Mark(u64);

impl Mark {
    /// Of a word that names no class, and so is the same in every table.
    const NONE: Self = Self(0);

    pub(crate) fn new() -> Self {
        static NEXT: AtomicU64 = AtomicU64::new(1);
        Self(NEXT.fetch_add(1, Ordering::Relaxed))
    }
}

/// The number of a class in one table: its place among the names, from 0.
///
/// With another table, also one that holds the same name, it is no class: asked about, it is refused
/// ([`Refusal::Number`](crate::Refusal::Number)), and has no name there.
#[derive(Clone, Copy, PartialEq, Eq, Hash)]
pub struct ClassNumber {
    number: u64,
    table: Mark,
}

impl ClassNumber {
    #[inline]
    pub(crate) fn new(number: u64, table: Mark) -> Self {
        Self { number, table }
    }

    /// The number itself, for the functions of [`slices`](crate::slices).
    pub fn get(self) -> u64 {
        self.number
    }

    /// The number in that table; one that is no class's if it is another's.
    #[inline]
    pub(crate) fn within(self, table: Mark) -> u64 {
        match self.table == table {
            true => self.number,
            false => NOTHING,
        }
    }
}

impl fmt::Debug for ClassNumber {
    fn fmt(&self, formatter: &mut fmt::Formatter<'_>) -> fmt::Result {
        write!(formatter, "ClassNumber({})", self.number)
    }
}

/// The word of a type: the 64 bits that the boundary takes, and the table whose class it names, if it names one.
///
/// With another table the word of a class is no type: it is refused ([`Refusal::Type`](crate::Refusal::Type)) where it
/// is to be written, and has no type there. A word without a class is the same everywhere.
#[derive(Clone, Copy, PartialEq, Eq, Hash)]
pub struct TypeWord {
    bits: u64,
    table: Mark,
}

impl TypeWord {
    #[inline]
    pub(crate) fn new(bits: u64, table: Mark) -> Self {
        let table = match bits >> 48 & 0xff == CLASS {
            true => table,
            false => Mark::NONE,
        };
        Self { bits, table }
    }

    /// The bits: two hex digits of dimensions, two of the tag, twelve of payload.
    pub fn bits(self) -> u64 {
        self.bits
    }

    /// The bits in that table; those of no type if the word is of another's class.
    #[inline]
    pub(crate) fn within(self, table: Mark) -> u64 {
        match self.table == table || self.table == Mark::NONE {
            true => self.bits,
            false => NOTHING,
        }
    }
}

impl fmt::Debug for TypeWord {
    fn fmt(&self, formatter: &mut fmt::Formatter<'_>) -> fmt::Result {
        write!(formatter, "TypeWord({:016x})", self.bits)
    }
}

/// Sixteen hex digits.
impl fmt::Display for TypeWord {
    fn fmt(&self, formatter: &mut fmt::Formatter<'_>) -> fmt::Result {
        write!(formatter, "{:016x}", self.bits)
    }
}
