//! Random problems over random tables of one to four layers: a few components, many, long chains and cycles, sound and
//! damaged.

use std::collections::BTreeMap;

use judge::class_cases::{any_classes, damage_classes, layered_classes};
use judge::layer_cases::{any_stack, open_layers};
use judge::rng::Rng;
use judge::solve_cases::{any_problem, array, class, class_problem, damage_problem, BOOLEAN, INT};
use judge::solves::Columns;

use crate::{agree, agree_over, cases, POISON};

#[test]
fn small_problems() {
    let mut rng = Rng::new(1, "small problems");
    let mut added = 0;
    for number in 0..cases(6_000) {
        let classes = match number % 3 {
            0 => layered_classes(&mut rng, 12, 5),
            _ => any_classes(&mut rng, 8),
        };
        let classes = open_layers(&mut rng, &classes, number % 4);
        let names = classes.names.at.len() as u64;
        let most = if number % 8 == 0 { 12 } else { 5 };
        let problem = any_problem(&mut rng, names, most);
        let solved = agree(&classes, &problem);
        added += solved.bounds.len().saturating_sub(problem.bounds[0].len());
    }
    assert!(added as u64 >= cases(6_000), "{added}");
}

/// Classes alone, over tables of two to four layers.
#[test]
fn problems_over_layers() {
    let mut rng = Rng::new(1, "problems over layers");
    let mut other = 0;
    for number in 0..cases(3_000) {
        let plain = any_classes(&mut rng, 8);
        let classes = open_layers(&mut rng, &plain, 1 + number % 3);
        let problem = class_problem(&mut rng, classes.names.at.len() as u64);
        let solved = agree(&classes, &problem);
        other += u64::from(plain.solve(&problem, problem.least()) != solved);
    }
    // Layers are not the same as one table of all records.
    assert!(other >= cases(30), "{other}");
}

#[test]
fn larger_problems() {
    let mut rng = Rng::new(1, "larger problems");
    for number in 0..cases(300) {
        let classes = match number % 2 {
            0 => layered_classes(&mut rng, 40, 10),
            _ => any_classes(&mut rng, 40),
        };
        let classes = open_layers(&mut rng, &classes, number % 4);
        let names = classes.names.at.len() as u64;
        agree(&classes, &any_problem(&mut rng, names, 60));
    }
}

/// Each component flows to the next, the last to the first: what is known goes round.
#[test]
fn long_cycles() {
    let mut rng = Rng::new(1, "long cycles");
    for _ in 0..cases(12) {
        let classes = layered_classes(&mut rng, 30, 6);
        let components = 2 + rng.below(100);
        let next = |component: u64| (component + 1) % components;
        let mut problem = Columns::of(components);
        let round = [
            (0..components).collect(),
            (0..components).map(next).collect(),
        ];
        match rng.below(2) {
            0 => problem.flows = round,
            _ => problem.upper_flows = round,
        }
        for _ in 0..1 + rng.below(6) {
            let base = match rng.below(4) {
                0 => INT,
                1 => BOOLEAN,
                _ => class(rng.below(30)),
            };
            let word = array(rng.below(2), base);
            problem.bound(rng.below(components), rng.below(5), word);
        }
        agree(&classes, &problem);
    }
}

#[test]
fn damaged_problems() {
    let mut rng = Rng::new(1, "damaged problems");
    let mut met = BTreeMap::<u64, u64>::new();
    for number in 0..cases(4_000) {
        let mut classes = any_stack(&mut rng, 6);
        let names = classes.names.at.len() as u64;
        let mut problem = any_problem(&mut rng, names, 5);
        (0..1 + rng.below(2)).for_each(|_| damage_problem(&mut rng, &mut problem));
        if number % 3 == 0 {
            damage_classes(&mut rng, &mut classes);
        }
        let mut lent = problem.least();
        if number % 8 == 0 {
            lent.columns[rng.below(3) as usize] -= 1;
        }
        let solved = agree_over(&classes, &problem, lent, POISON);
        *met.entry(solved.refusal).or_default() += 1;
    }
    if cases(4_000) >= 1_000 {
        let every = [0, 3, 6, 7, 8, 10, 22];
        assert!(
            every.iter().all(|refusal| met.contains_key(refusal)),
            "{met:?}"
        );
    }
}
