//! `TypeLattice::solve` of dexdec replaced by the wrapper's solve, on random problems: the answers, the final bounds and
//! the turns.

use bracepuffin::{ArgType, ArrayConstraint, BoundKind, ClassTable, Refusal, TypeConstraints};
use dexdec::{lattice, turns, SsaVar};
use judge::class_cases::any_classes;
use judge::layer_cases::open_layers;
use judge::rng::Rng;

use crate::dressed::{constraints, kind, ours};
use crate::lattices::any_problem;
use crate::{asked, cases, index, layers, table};

#[test]
fn random_problems() {
    let mut rng = Rng::new(1, "solves by the wrapper");
    let (mut answered, mut absent) = (0, 0);
    for number in 0..cases(250) {
        let classes = any_classes(&mut rng, 6);
        let classes = open_layers(&mut rng, &classes, number % 4);
        let layers = layers(&classes);
        let (table, index) = (table(&layers), index(&layers));
        let names = asked(&mut rng, &classes, 6);
        // No table holds the empty name and the one of 300 bytes, and so no problem over it.
        let names: Vec<String> = names
            .into_iter()
            .filter(|name| (1..=255).contains(&name.len()))
            .collect();
        let problem = any_problem(&mut rng, &names);
        let constraints = constraints(&problem);
        let (types, turns) = turns::solve(&problem, &index);
        let solved = table
            .solve(&constraints)
            .expect("a problem within the limits");
        let expected: Vec<(SsaVar, ArgType)> =
            types.iter().map(|(root, ty)| (*root, ours(ty))).collect();
        assert_eq!(
            Vec::from_iter(solved.types),
            expected,
            "{problem:?} {layers:?}"
        );
        let rows = lattice::propagate(&problem, &index);
        let rows: Vec<_> = rows
            .iter()
            .map(|(root, bound, ty)| (*root, kind(*bound), ours(ty)))
            .collect();
        assert_eq!(solved.bounds, rows, "{problem:?} {layers:?}");
        assert_eq!(solved.turns, turns);
        answered += expected.len();
        let bounds = constraints.bounds.values().flatten();
        absent += bounds.filter(|(_, ty)| table.word(*ty).is_err()).count();
    }
    assert!(answered > 0 && absent > 0);
}

/// Two components of three variables; both Trusses come in, and a Probe is expected.
#[test]
fn the_worked_problem() {
    let table = trusses();
    let mut problem = TypeConstraints::default();
    problem.members.insert("x", ["x", "y"].into());
    problem.members.insert("z", ["z"].into());
    let lower = |name| (BoundKind::Lower, ArgType::object(name));
    problem
        .bounds
        .insert("x", [lower("a/TrussA"), lower("a/TrussB")].into());
    let probe = ArgType::object("a/Probe");
    problem
        .bounds
        .insert("z", [(BoundKind::Upper, probe)].into());
    problem.flows.insert(("x", "z"));
    let solved = table.solve(&problem).expect("a problem within the limits");
    assert_eq!(
        Vec::from_iter(solved.types),
        ["x", "y", "z"].map(|variable| (variable, probe))
    );
    assert_eq!((solved.bounds.len(), solved.turns), (5, 3));
}

fn trusses() -> ClassTable {
    let mut classes = bracepuffin::ClassTableBuilder::new();
    classes
        .add("a/TrussA", ["a/Probe"])
        .add("a/TrussB", ["a/Probe"]);
    classes.build().expect("a sound table")
}

#[test]
fn problems_that_are_refused() {
    let table = trusses();
    let mut problem: TypeConstraints<u32> = TypeConstraints::default();
    assert_eq!(table.solve(&problem).map(|solved| solved.turns), Ok(0));
    problem.members = (0..513).map(|root| (root, [root].into())).collect();
    assert_eq!(table.solve(&problem).err(), Some(Refusal::Room));
    problem.members.remove(&512);
    assert_eq!(table.solve(&problem).map(|solved| solved.turns), Ok(512));
    problem.flows.insert((0, 512));
    assert_eq!(table.solve(&problem).err(), Some(Refusal::Number));
    problem.flows = [(0, 1), (1, 0)].into();
    let deepest = ArgType {
        dimensions: 255,
        ..ArgType::INT
    };
    problem
        .bounds
        .insert(0, [(BoundKind::Exact, deepest)].into());
    problem
        .arrays
        .insert(ArrayConstraint::Write { array: 2, value: 0 });
    assert_eq!(table.solve(&problem).err(), Some(Refusal::Deep));
    problem.arrays.clear();
    let long = "n".repeat(256);
    problem
        .bounds
        .insert(0, [(BoundKind::Exact, ArgType::object(&long))].into());
    assert_eq!(table.solve(&problem).err(), Some(Refusal::Length));
}
