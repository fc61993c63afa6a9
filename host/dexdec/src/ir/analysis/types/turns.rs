//! lattice.rs of docs/src a second time, over a queue that counts: the number of turns of a solve.
//!
//! `propagate` counts nothing. Here the name `std` of the included text leads to the module below, whose
//! `VecDeque` counts what is taken from its front; all else is the standard library's own.
#![allow(dead_code)]

use self::counting::taken;
use super::Problem;

mod std {
    pub mod collections {
        pub use super::super::counting::VecDeque;
        pub use ::std::collections::{BTreeMap, BTreeSet};
    }
}

include!(concat!(
    env!("CARGO_MANIFEST_DIR"),
    "/../../docs/src/dexdec/src/ir/analysis/types/lattice.rs"
));

/// What `lattice::solve` answers, and how many components were taken from the queue.
pub fn solve(problem: &Problem, hierarchy: &dyn TypeHierarchy) -> (BTreeMap<SsaVar, ArgType>, u64) {
    let before = taken();
    let answers = TypeLattice::solve(&problem.normalized(), hierarchy);
    (answers, taken() - before)
}

mod counting {
    use ::std::{cell::Cell, collections};

    thread_local! {
        static TAKEN: Cell<u64> = const { Cell::new(0) };
    }

    /// How many members all queues of this thread have handed out so far.
    pub fn taken() -> u64 {
        TAKEN.with(Cell::get)
    }

    /// The standard queue, as far as lattice.rs uses it, with a count.
    pub struct VecDeque<T>(collections::VecDeque<T>);

    impl<T> VecDeque<T> {
        pub fn pop_front(&mut self) -> Option<T> {
            let front = self.0.pop_front()?;
            TAKEN.with(|count| count.set(count.get() + 1));
            Some(front)
        }

        pub fn push_back(&mut self, value: T) {
            self.0.push_back(value);
        }
    }

    impl<T> FromIterator<T> for VecDeque<T> {
        fn from_iter<I: IntoIterator<Item = T>>(values: I) -> Self {
            Self(values.into_iter().collect())
        }
    }
}
