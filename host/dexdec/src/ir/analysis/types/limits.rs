//! lattice.rs of docs/src a third time, over sets that count: which limit a solve passes first.
//!
//! lattice.rs has no limits. Here the name `std` of the included text leads to the module below, whose `BTreeSet` looks at
//! each type that is put into a set: 20 for one of more than 255 dimensions, 21 for a new one past 4,096 of all sets
//! together. At the first of these the queue hands out nothing more, so that a solve which would not end does.
#![allow(dead_code)]

use super::{hierarchy, Problem};

mod std {
    pub mod collections {
        pub use super::super::counting::{BTreeSet, VecDeque};
        pub use ::std::collections::BTreeMap;
    }
}

/// The data types that lattice.rs names: the one with sets in it over sets that count, the others as they are.
mod constraints {
    pub(super) use super::super::constraints::{ArrayConstraint, BoundKind, TypeBound};
    use super::std::collections::{BTreeMap, BTreeSet};
    use crate::ir::analysis::SsaVar;

    include!(concat!(env!("OUT_DIR"), "/normalized.rs"));
}

mod text {
    use super::std;

    include!(concat!(
        env!("CARGO_MANIFEST_DIR"),
        "/../../docs/src/dexdec/src/ir/analysis/types/lattice.rs"
    ));

    pub(super) fn solve(given: &NormalizedTypeConstraints, hierarchy: &dyn TypeHierarchy) {
        TypeLattice::solve(given, hierarchy);
    }
}

/// The refusal of the first limit that a solve passes: 20, 21, or 0 if it passes none.
pub fn refusal(problem: &Problem, hierarchy: &dyn hierarchy::TypeHierarchy) -> u64 {
    let given = problem.normalized();
    let members = given.members.into_iter();
    let bounds = given.bounds.into_iter();
    let constraints = constraints::NormalizedTypeConstraints {
        members: members
            .map(|(root, set)| (root, set.into_iter().collect()))
            .collect(),
        bounds: bounds
            .map(|(root, set)| (root, set.into_iter().collect()))
            .collect(),
        flows: given.flows.into_iter().collect(),
        upper_flows: given.upper_flows.into_iter().collect(),
        arrays: given.arrays.into_iter().collect(),
    };
    counting::begin();
    text::solve(&constraints, hierarchy);
    counting::refusal()
}

mod counting {
    use ::std::{cell::Cell, collections, ops::Deref};

    use super::super::constraints::{ArrayConstraint, TypeBound};
    use crate::ir::{analysis::SsaVar, ArgType, PrimitiveType};

    const MOST_BOUNDS: u64 = 4096;
    const MOST_DIMENSIONS: usize = 255;

    thread_local! {
        static BOUNDS: Cell<u64> = const { Cell::new(0) };
        static REFUSAL: Cell<u64> = const { Cell::new(0) };
    }

    pub fn begin() {
        BOUNDS.set(0);
        REFUSAL.set(0);
    }

    pub fn refusal() -> u64 {
        REFUSAL.get()
    }

    /// The first one stays.
    fn refuse(number: u64) {
        if refusal() == 0 {
            REFUSAL.set(number);
        }
    }

    /// What a set has to do before it takes a member.
    pub trait Member: Ord {
        fn put(&self, _is_new: bool) {}
    }

    impl Member for SsaVar {}
    impl Member for (SsaVar, SsaVar) {}
    impl Member for PrimitiveType {}
    impl Member for TypeBound {}
    impl Member for ArrayConstraint {}

    impl Member for ArgType {
        fn put(&self, is_new: bool) {
            if dimensions(self) > MOST_DIMENSIONS {
                refuse(20);
            }
            if is_new && BOUNDS.get() == MOST_BOUNDS {
                refuse(21);
            } else if is_new {
                BOUNDS.set(BOUNDS.get() + 1);
            }
        }
    }

    fn dimensions(ty: &ArgType) -> usize {
        let mut count = 0;
        let mut base = ty;
        while let ArgType::Array(element) = base {
            count += 1;
            base = element;
        }
        count
    }

    /// The standard set, as far as lattice.rs uses it; `insert` and `extend` look at what they put in, `collect` does not.
    #[derive(Debug, Clone, PartialEq, Eq)]
    pub struct BTreeSet<T>(collections::BTreeSet<T>);

    impl<T: Member> BTreeSet<T> {
        pub fn insert(&mut self, value: T) -> bool {
            value.put(!self.0.contains(&value));
            self.0.insert(value)
        }

        pub fn remove(&mut self, value: &T) -> bool {
            self.0.remove(value)
        }

        pub fn extend(&mut self, values: impl IntoIterator<Item = T>) {
            for value in values {
                self.insert(value);
            }
        }
    }

    impl<T> Deref for BTreeSet<T> {
        type Target = collections::BTreeSet<T>;

        fn deref(&self) -> &Self::Target {
            &self.0
        }
    }

    impl<T> Default for BTreeSet<T> {
        fn default() -> Self {
            Self(collections::BTreeSet::new())
        }
    }

    impl<T: Ord> FromIterator<T> for BTreeSet<T> {
        fn from_iter<I: IntoIterator<Item = T>>(values: I) -> Self {
            Self(values.into_iter().collect())
        }
    }

    impl<T: Ord, const N: usize> From<[T; N]> for BTreeSet<T> {
        fn from(values: [T; N]) -> Self {
            Self(values.into())
        }
    }

    impl<T> IntoIterator for BTreeSet<T> {
        type Item = T;
        type IntoIter = collections::btree_set::IntoIter<T>;

        fn into_iter(self) -> Self::IntoIter {
            self.0.into_iter()
        }
    }

    impl<'a, T> IntoIterator for &'a BTreeSet<T> {
        type Item = &'a T;
        type IntoIter = collections::btree_set::Iter<'a, T>;

        fn into_iter(self) -> Self::IntoIter {
            self.0.iter()
        }
    }

    /// The standard queue, which hands out nothing after a refusal.
    pub struct VecDeque<T>(collections::VecDeque<T>);

    impl<T> VecDeque<T> {
        pub fn pop_front(&mut self) -> Option<T> {
            match refusal() {
                0 => self.0.pop_front(),
                _ => None,
            }
        }

        pub fn push_back(&mut self, value: T) {
            self.0.push_back(value);
        }
    }

    impl<T> FromIterator<T> for VecDeque<T> {
        fn from_iter<I: IntoIterator<Item = T>>(values: I) -> Self {
            Self(values.into_iter().collect())
        }
    }
}
