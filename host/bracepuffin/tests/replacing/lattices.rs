//! `join` and `is_assignable` of lattice.rs against the wrapper's, and lattice.rs itself over the wrapper.

use std::collections::BTreeSet;

use dexdec::{lattice, turns, ArgType, Kind, Problem, SsaVar};
use judge::class_cases::any_classes;
use judge::layer_cases::open_layers;
use judge::rng::Rng;

use crate::dressed::ours;
use crate::{asked, cases, index, layers, table, Replaced};

/// A type over these classes, of any kind.
fn any_type(rng: &mut Rng, classes: &[String]) -> ArgType {
    use dexdec::PrimitiveType::*;
    let base = match rng.below(8) {
        0 => ArgType::Primitive(*rng.pick(&words::CATEGORIES)),
        1 => rng
            .pick(&[
                ArgType::unknown(),
                ArgType::narrow(),
                ArgType::unknown_object(),
                ArgType::Unknown(vec![Object]),
                ArgType::Unknown(vec![Boolean, Int]),
                ArgType::Unknown(vec![]),
            ])
            .clone(),
        _ => {
            let class: &String = rng.pick(classes);
            ArgType::object(class)
        }
    };
    let dimensions = *rng.pick(&[0, 0, 0, 1, 1, 2]);
    (0..dimensions).fold(base, |element, _| ArgType::array(element))
}

#[test]
fn joins_and_assignability() {
    let mut rng = Rng::new(1, "joins by the wrapper");
    let mut absent = 0;
    for number in 0..cases(150) {
        let classes = any_classes(&mut rng, 6);
        let classes = open_layers(&mut rng, &classes, number % 4);
        let layers = layers(&classes);
        let (table, index) = (table(&layers), index(&layers));
        let asked = asked(&mut rng, &classes, 6);
        for _ in 0..24 {
            let (left, right) = (any_type(&mut rng, &asked), any_type(&mut rng, &asked));
            let (our_left, our_right) = (ours(&left), ours(&right));
            absent += u64::from(table.word(our_left).is_err() || table.word(our_right).is_err());
            let expected = lattice::join(left.clone(), right.clone(), &index);
            let joined = table.join(our_left, our_right);
            assert_eq!(joined, ours(&expected), "{left:?} {right:?} {layers:?}");
            assert_eq!(joined.to_string(), expected.to_string());
            let expected = lattice::is_assignable(&left, &right, &index);
            let assignable = table.is_assignable(our_left, our_right);
            assert_eq!(assignable, expected, "{left:?} {right:?} {layers:?}");
        }
    }
    assert!(absent > 0);
}

/// A problem over types of these classes, with links of every kind.
pub(crate) fn any_problem(rng: &mut Rng, classes: &[String]) -> Problem {
    let count = 2 + rng.below(6);
    let mut problem = Problem::of(count as u32);
    let root = |rng: &mut Rng| SsaVar(rng.below(count) as u32);
    let kinds = [
        Kind::Domain,
        Kind::Fallback,
        Kind::Upper,
        Kind::Lower,
        Kind::Exact,
    ];
    for _ in 0..1 + rng.below(2 * count) {
        let ty = any_type(rng, classes);
        problem.bounds.insert((root(rng), *rng.pick(&kinds), ty));
    }
    let links = |rng: &mut Rng, most: u64| -> BTreeSet<(SsaVar, SsaVar)> {
        (0..rng.below(most))
            .map(|_| (root(rng), root(rng)))
            .collect()
    };
    problem.flows = links(rng, 2 * count);
    problem.upper_flows = links(rng, count);
    // Few: a cycle over an array makes ever deeper ones, and lattice.rs knows no limit.
    if rng.below(2) == 0 {
        problem.flows.retain(|(source, target)| source < target);
        problem
            .upper_flows
            .retain(|(source, target)| source < target);
        problem.reads = links(rng, 3)
            .into_iter()
            .filter(|(array, result)| array < result)
            .collect();
    }
    problem
}

/// `TypeLattice::solve` with its calls of the hierarchy replaced.
#[test]
fn solves_over_the_wrapper() {
    let mut rng = Rng::new(1, "solves over the wrapper");
    let mut answered = 0;
    for number in 0..cases(120) {
        let classes = any_classes(&mut rng, 6);
        let classes = open_layers(&mut rng, &classes, number % 4);
        let layers = layers(&classes);
        let table = table(&layers);
        let (ours, theirs) = (Replaced::over(&table), index(&layers));
        let asked = asked(&mut rng, &classes, 6);
        let problem = any_problem(&mut rng, &asked);
        let expected = turns::solve(&problem, &theirs);
        assert_eq!(turns::solve(&problem, &ours), expected);
        let rows = lattice::propagate(&problem, &theirs);
        assert_eq!(lattice::propagate(&problem, &ours), rows);
        answered += expected.0.len();
    }
    assert!(answered > 0);
}
