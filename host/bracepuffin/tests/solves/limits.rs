//! Every limit from both sides: rows, bounds that a run adds, dimensions.

use judge::solve_cases::{
    array, class, full_problems, no_records, overfull_problems, problem, EXACT, FALLBACK, INT,
    LOWER, UPPER,
};
use judge::solves::MAX_BOUNDS;

use crate::agree;

/// 512 components, 2,048 variables and flows, 1,024 upper flows, reads and writes, 4,096 given bounds; one more; and rows that
/// are there already.
#[test]
fn rows() {
    for (name, problem, refusal) in full_problems() {
        assert_eq!(agree(&no_records(), &problem).refusal, refusal, "{name}");
    }
}

/// A full table to which a write adds.
#[test]
fn bounds_that_a_write_adds() {
    for (place, (problem, refusal)) in overfull_problems().into_iter().enumerate() {
        assert_eq!(agree(&no_records(), &problem).refusal, refusal, "{place}");
    }
}

/// 64 types go to 63 components, 4,096 bounds in all; and to one more.
#[test]
fn bounds_that_links_add() {
    let types = (0..8).flat_map(|times| (1..9).map(move |base| array(times, base)));
    let types: Vec<u64> = types.collect();
    for (kind, is_forward) in [(FALLBACK, true), (UPPER, false), (EXACT, false)] {
        let bounds: Vec<(u64, u64, u64)> = types.iter().map(|word| (0, kind, *word)).collect();
        for others in [63, 64] {
            let links: Vec<(u64, u64)> = match is_forward {
                true => (1..=others).map(|other| (0, other)).collect(),
                false => (1..=others).map(|other| (other, 0)).collect(),
            };
            let flows = problem(others + 1, &bounds, [&links, &[], &[], &[]]);
            let upper = problem(others + 1, &bounds, [&[], &links, &[], &[]]);
            let refusal = if others == 63 { 0 } else { 21 };
            let solved = agree(&no_records(), &flows);
            // Along a flow goes what a component produces, too: nothing here.
            assert_eq!(solved.refusal, refusal, "{kind} {others}");
            assert!(refusal != 0 || solved.bounds.len() == MAX_BOUNDS);
            let solved = agree(&no_records(), &upper);
            assert!(is_forward || solved.refusal == refusal, "{kind} {others}");
        }
    }
}

/// The array of a type of 255 dimensions is refused, of 254 not; elements go down from either.
#[test]
fn dimensions() {
    for dimensions in [253, 254, 255] {
        for kind in [UPPER, LOWER, EXACT] {
            for base in [INT, class(0)] {
                let bounds = [(0, kind, array(dimensions, base))];
                let up: [(u64, u64); 1] = [(1, 0)];
                let down: [(u64, u64); 1] = [(0, 1)];
                for links in [&up, &down] {
                    for (reads, writes) in [(&links[..], &[][..]), (&[][..], &links[..])] {
                        let solved = agree(
                            &no_records(),
                            &problem(2, &bounds, [&[], &[], reads, writes]),
                        );
                        let refused = dimensions == 255 && links == &up && kind != UPPER;
                        assert_eq!(solved.refusal, if refused { 20 } else { 0 });
                    }
                }
            }
        }
    }
}
