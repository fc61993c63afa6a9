//! The order of types, which is the one that ty.rs derives: primitives, classes, arrays by their elements, Unknowns.
//! No exported function has it; `tests/ty` compares it with ty.rs.

use std::cmp::Ordering;

use crate::types::{ArgType, Base, Categories};

impl Ord for ArgType<'_> {
    /// The dimensions that both have say nothing. What is left of the deeper one is an array beside a base, which is
    /// above every base but an Unknown.
    fn cmp(&self, other: &Self) -> Ordering {
        let depths = self.dimensions.cmp(&other.dimensions);
        match (depths, self.base, other.base) {
            (Ordering::Equal, base, other_base) => base.cmp(&other_base),
            (Ordering::Greater, _, Base::Unknown(_)) => Ordering::Less,
            (Ordering::Less, Base::Unknown(_), _) => Ordering::Greater,
            _ => depths,
        }
    }
}

impl PartialOrd for ArgType<'_> {
    fn partial_cmp(&self, other: &Self) -> Option<Ordering> {
        Some(self.cmp(other))
    }
}

impl Ord for Categories {
    /// Member by member; a list comes before those that it begins.
    fn cmp(&self, other: &Self) -> Ordering {
        self.iter().cmp(other.iter())
    }
}

impl PartialOrd for Categories {
    fn partial_cmp(&self, other: &Self) -> Option<Ordering> {
        Some(self.cmp(other))
    }
}
