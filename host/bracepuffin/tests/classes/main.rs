//! Class queries of the boundary against hierarchy.rs, in one process.
//!
//! hierarchy.rs answers whatever is not refused. It has no limits, no columns and no lent memory, and puts
//! java/lang/Object into its answers even where no such name was recorded; so what is refused is compared with the
//! rules of the paper (`judge::classes`), and what lent memory holds with the words of the header.
//!
//! BRACEPUFFIN_CASES sets the number of random cases as in the other tests.

mod check;
mod every;
mod facts;
mod layers;
mod lent;
mod limits;
mod random;
mod refusals;
#[path = "../shared/mod.rs"]
mod shared;
mod wrappers;

use bracepuffin::slices;
use judge::classes::{Classes, Judge};

use shared::{cases, columns, work, POISON};

#[derive(Debug, Clone, Copy, PartialEq, Eq)]
enum Query {
    Relation,
    Distance,
    Ancestors,
    Supertype,
    Cast,
}

const QUERIES: [Query; 5] = [
    Query::Relation,
    Query::Distance,
    Query::Ancestors,
    Query::Supertype,
    Query::Cast,
];

impl Query {
    /// The numbers that are asked about: the ancestors are those of the left one.
    fn numbers(self, left: u64, right: u64) -> Vec<u64> {
        match self {
            Self::Ancestors => vec![left],
            _ => vec![left, right],
        }
    }

    /// The refusal, and the rest of the result: one number, or those of a set.
    fn ask(self, classes: &Classes, left: u64, right: u64, work: &mut [u64]) -> (u64, Vec<u64>) {
        let table = columns(classes);
        let answer = match self {
            Self::Relation => {
                let found = slices::relation(table, left, right, work);
                return (found.refusal, vec![found.relation]);
            }
            Self::Ancestors => {
                let set = slices::ancestors(table, left, work);
                let rest = [&[set.count, set.lowest], &set.words[..]].concat();
                return (set.refusal, rest);
            }
            Self::Distance => slices::distance(table, left, right, work),
            Self::Supertype => slices::supertype(table, left, right, work),
            Self::Cast => slices::cast(table, left, right, work),
        };
        (answer.refusal, vec![answer.value])
    }

    /// What hierarchy.rs answers, in the same form.
    fn judged(self, judge: &Judge, left: u64, right: u64) -> Vec<u64> {
        match self {
            Self::Relation => vec![judge.relation(left, right)],
            Self::Distance => vec![judge.distance(left, right)],
            Self::Ancestors => set_of(&judge.ancestors(left)),
            Self::Supertype => vec![judge.supertype(left, right)],
            Self::Cast => vec![judge.cast(left, right)],
        }
    }
}

/// The count, the lowest and the sixteen words of a set of numbers.
fn set_of(numbers: &[u64]) -> Vec<u64> {
    let mut set = vec![0; 18];
    set[0] = numbers.len() as u64;
    set[1] = numbers[0];
    for number in numbers {
        set[2 + *number as usize / 64] |= 1 << (number % 64);
    }
    set
}

/// The answer to a query that is not refused.
fn answer(query: Query, classes: &Classes, left: u64, right: u64) -> u64 {
    let (refusal, rest) = query.ask(classes, left, right, &mut work());
    assert_eq!(refusal, 0, "{query:?}");
    rest[0]
}

/// Asks both sides everything about a pair.
fn agree(classes: &Classes, judge: &Judge, left: u64, right: u64, work: &mut [u64]) {
    for query in QUERIES {
        let (refusal, rest) = query.ask(classes, left, right, work);
        let expected = query.judged(judge, left, right);
        assert_eq!(
            (refusal, rest),
            (0, expected),
            "{query:?} {left} {right} {classes:?}"
        );
    }
}

/// Asks both sides everything about every pair.
fn agree_on_all(classes: &Classes) {
    let (judge, mut work) = (classes.judge(), work());
    let count = judge.names.len() as u64;
    for left in 0..count {
        for right in 0..count {
            agree(classes, &judge, left, right, &mut work);
        }
    }
}
