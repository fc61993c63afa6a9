//! What is left in lent slices: too short a one is refused first and nothing is touched; what they held is without effect.

use judge::classes::WORK;
use judge::rng::Rng;
use judge::solve_cases::{any_problem, no_records, telling_problems};
use judge::solves::{Columns, MAX_BOUNDS};

use crate::{agree, agree_over, cases, POISON};

#[test]
fn too_short_a_slice_comes_first() {
    let mut problem = Columns::of(4);
    // A fault that would be refused too.
    problem.flows[0].push(9);
    let least = problem.least();
    for length in [0, 1, 3] {
        let mut lent = least;
        lent.answers = length;
        assert_eq!(
            agree_over(&no_records(), &problem, lent, POISON).refusal,
            22
        );
    }
    for length in [0, 1, 4096, WORK - 1] {
        let mut lent = least;
        lent.work = length;
        assert_eq!(
            agree_over(&no_records(), &problem, lent, POISON).refusal,
            22
        );
    }
    for place in 0..3 {
        for length in [0, 1, MAX_BOUNDS - 1] {
            let mut lent = least;
            lent.columns[place] = length;
            assert_eq!(
                agree_over(&no_records(), &problem, lent, POISON).refusal,
                22
            );
        }
    }
    assert_eq!(agree(&no_records(), &problem).refusal, 3);
}

#[test]
fn longer_slices_and_what_they_held_are_without_effect() {
    let mut rng = Rng::new(1, "lent slices");
    let random = (0..cases(200)).map(|_| any_problem(&mut rng, 3, 6));
    let telling = telling_problems().into_iter().map(|(_, problem)| problem);
    for problem in telling.chain(random) {
        let expected = agree(&no_records(), &problem);
        let mut lent = problem.least();
        lent.answers += 3;
        lent.columns = [MAX_BOUNDS + 1, MAX_BOUNDS, 2 * MAX_BOUNDS];
        lent.work += 7;
        for fill in [0, 1, 1 << 63, u64::MAX] {
            assert_eq!(agree_over(&no_records(), &problem, lent, fill), expected);
        }
    }
}
