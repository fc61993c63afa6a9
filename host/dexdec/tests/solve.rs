//! Facts about the solve that the port relies on, asked of the Rust: answers, final bounds, turns.
//!
//! O52 to O68 are the points of docs/DECISIONS.md that they decide.

use dexdec::hierarchy::{
    direct_parents, distances, recorded_ancestor, reference_type, ClassHierarchyIndex,
    ReferenceTypeInfo, TypeHierarchy,
};
use dexdec::Kind::{self, *};
use dexdec::PrimitiveType::{self, Array, Boolean, Int, Void};
use dexdec::{lattice, source, turns, ArgType, Problem, SsaVar};

fn class(name: &str) -> ArgType {
    ArgType::object(name)
}

fn array(element: ArgType) -> ArgType {
    ArgType::array(element)
}

fn unknown(list: &[PrimitiveType]) -> ArgType {
    ArgType::Unknown(list.to_vec())
}

/// `count` components with these bounds.
fn problem(count: u32, bounds: &[(u32, Kind, ArgType)]) -> Problem {
    let rows = bounds.iter().cloned();
    Problem {
        bounds: rows
            .map(|(root, kind, ty)| (SsaVar(root), kind, ty))
            .collect(),
        ..Problem::of(count)
    }
}

fn pairs(list: &[(u32, u32)]) -> std::collections::BTreeSet<(SsaVar, SsaVar)> {
    list.iter()
        .map(|&(left, right)| (SsaVar(left), SsaVar(right)))
        .collect()
}

/// The answer of each component, and the turns, where no class has a record.
fn solved(problem: &Problem) -> (Vec<Option<ArgType>>, u64) {
    solved_over(problem, &ClassHierarchyIndex::default())
}

fn solved_over(problem: &Problem, index: &ClassHierarchyIndex) -> (Vec<Option<ArgType>>, u64) {
    let (answers, turns) = turns::solve(problem, index);
    assert_eq!(answers, lattice::solve(problem, index));
    let roots = problem.members.keys();
    (
        roots.map(|root| answers.get(root).cloned()).collect(),
        turns,
    )
}

fn kinds(problem: &Problem) -> Vec<Kind> {
    let rows = lattice::propagate(problem, &ClassHierarchyIndex::default());
    rows.into_iter().map(|(_, kind, _)| kind).collect()
}

#[test]
fn the_example_takes_three_turns() {
    let mut index = ClassHierarchyIndex::default();
    index.add("a/Probe", ["java/lang/Object".to_string()]);
    index.add("a/TrussA", ["a/Probe".to_string()]);
    index.add("a/TrussB", ["a/Probe".to_string()]);
    index.add("java/lang/Object", []);
    let given = [
        (0, Lower, class("a/TrussA")),
        (0, Lower, class("a/TrussB")),
        (1, Upper, class("a/Probe")),
    ];
    let mut example = problem(2, &given);
    example.flows = pairs(&[(0, 1)]);
    let probe = Some(class("a/Probe"));
    assert_eq!(
        solved_over(&example, &index),
        (vec![probe.clone(), probe], 3)
    );
}

#[test]
fn o52_targets_are_visited_ascending() {
    let mut given = problem(3, &[(2, Lower, array(array(class("a"))))]);
    given.flows = pairs(&[(2, 1), (2, 0), (1, 2)]);
    given.writes = pairs(&[(0, 1)]);
    let answer = Some(array(class("a")));
    assert_eq!(solved(&given), (vec![None, answer.clone(), answer], 9));
}

#[test]
fn o52_sources_are_visited_ascending() {
    let mut given = problem(2, &[(1, Exact, array(class("a")))]);
    given.flows = pairs(&[(0, 0), (0, 1)]);
    given.upper_flows = pairs(&[(1, 1)]);
    given.reads = pairs(&[(0, 0), (1, 1)]);
    assert_eq!(solved(&given), (vec![Some(class("a")), None], 7));
}

#[test]
fn o53_array_constraints_are_taken_in_one_pass() {
    let mut given = problem(2, &[(1, Lower, array(array(ArgType::INT)))]);
    given.reads = pairs(&[(0, 1), (1, 1)]);
    let object = class("java/lang/Object");
    assert_eq!(
        solved(&given),
        (vec![Some(array(object.clone())), Some(object)], 6)
    );
}

#[test]
fn o53_reads_come_before_writes() {
    let mut given = problem(2, &[(1, Lower, array(class("a")))]);
    given.reads = pairs(&[(1, 1)]);
    given.writes = pairs(&[(0, 1)]);
    assert_eq!(solved(&given).0[1], Some(class("a")));
}

#[test]
fn o54_a_turn_works_from_a_copy() {
    let mut given = problem(1, &[(0, Lower, array(array(class("b"))))]);
    given.reads = pairs(&[(0, 0)]);
    given.writes = pairs(&[(0, 0)]);
    assert_eq!(solved(&given), (vec![None], 3));
}

#[test]
fn o55_a_constraint_on_one_component_twice_is_taken_from_its_array_side() {
    let mut given = problem(1, &[(0, Lower, ArgType::BOOLEAN)]);
    given.reads = pairs(&[(0, 0)]);
    assert_eq!(solved(&given), (vec![Some(ArgType::BOOLEAN)], 1));
}

#[test]
fn o56_self_flows_are_run() {
    let mut flow = problem(1, &[(0, Exact, ArgType::INT)]);
    let mut upper = flow.clone();
    flow.flows = pairs(&[(0, 0)]);
    upper.upper_flows = pairs(&[(0, 0)]);
    assert_eq!(kinds(&flow), [Upper, Lower, Exact]);
    assert_eq!(kinds(&upper), [Upper, Exact]);
    assert_eq!(solved(&flow).1, 2);
    assert_eq!(solved(&upper).1, 2);
}

#[test]
fn o58_the_first_way_does_not_ask_the_domain() {
    let domain = (0, Domain, array(ArgType::BOOLEAN));
    let given = problem(1, &[domain, (0, Exact, ArgType::BOOLEAN)]);
    assert_eq!(solved(&given).0, [Some(ArgType::BOOLEAN)]);
}

#[test]
fn o59_the_last_way_counts_distinct_hints() {
    let int = (0, Domain, ArgType::INT);
    let same = problem(1, &[int.clone(), (0, Domain, unknown(&[Int]))]);
    let other = problem(1, &[int, (0, Domain, ArgType::BOOLEAN)]);
    assert_eq!(solved(&same).0, [Some(ArgType::INT)]);
    assert_eq!(solved(&other).0, [None]);
}

#[test]
fn o60_the_most_specific_upper_bound_is_the_least_in_type_order() {
    let given = problem(1, &[(0, Upper, class("b")), (0, Upper, class("a"))]);
    assert_eq!(solved(&given).0, [Some(class("a"))]);
}

#[test]
fn o61_upper_bounds_give_an_element_only_without_a_produced_type() {
    let upper = (0, Upper, array(ArgType::INT));
    let mut given = problem(2, &[upper.clone(), (0, Lower, class("a"))]);
    given.reads = pairs(&[(0, 1)]);
    assert_eq!(solved(&given).0, [Some(array(ArgType::INT)), None]);
    let mut alone = problem(2, &[upper]);
    alone.reads = pairs(&[(0, 1)]);
    assert_eq!(solved(&alone).0[1], Some(ArgType::INT));
}

#[test]
fn o62_a_read_may_insert_an_exact_unknown() {
    let mut given = problem(2, &[(0, Lower, array(unknown(&[Int])))]);
    given.reads = pairs(&[(0, 1)]);
    let rows = lattice::propagate(&given, &ClassHierarchyIndex::default());
    assert!(rows.contains(&(SsaVar(1), Exact, unknown(&[Int]))));
}

#[test]
fn o64_idle_turns_count() {
    assert_eq!(solved(&problem(3, &[])).1, 3);
    assert_eq!(solved(&problem(0, &[])).1, 0);
}

#[test]
fn o68_an_answer_may_be_void() {
    let given = problem(1, &[(0, Domain, unknown(&[Void]))]);
    assert_eq!(solved(&given).0, [Some(ArgType::VOID)]);
}

#[test]
fn the_ways_of_resolving_can_be_asked_one_by_one() {
    let index = ClassHierarchyIndex::default();
    let bounds = lattice::Bounds {
        upper: [array(ArgType::INT), unknown(&[Array])].into(),
        ..Default::default()
    };
    let answer = Some(array(ArgType::INT));
    assert_eq!(lattice::most_specific_upper(&bounds.upper, &index), answer);
    assert_eq!(lattice::resolve_state(bounds.clone(), &index), answer);
    assert_eq!(lattice::produced_type(bounds.clone(), &index), None);
    assert_eq!(lattice::array_element(bounds, &index), Some(ArgType::INT));
}

#[test]
fn random_problems_end_closed_and_within_the_turns() {
    let mut state = 1u64;
    let mut below = move |limit: u64| {
        state = state
            .wrapping_mul(6364136223846793005)
            .wrapping_add(1442695040888963407);
        (state >> 33) % limit
    };
    let types = [
        ArgType::INT,
        ArgType::BOOLEAN,
        class("a"),
        class("b"),
        array(class("a")),
        array(array(ArgType::INT)),
        unknown(&[Boolean, Int]),
        array(unknown(&[])),
    ];
    let kinds = [Domain, Fallback, Upper, Lower, Exact];
    let index = ClassHierarchyIndex::default();
    for _ in 0..2_000 {
        let mut given = Problem::of(4);
        for _ in 0..below(6) {
            let kind = kinds[below(5) as usize];
            let ty = types[below(8) as usize].clone();
            given.bounds.insert((SsaVar(below(4) as u32), kind, ty));
        }
        for _ in 0..below(8) {
            let pair = (SsaVar(below(4) as u32), SsaVar(below(4) as u32));
            match below(6) {
                0 => given.reads.insert(pair),
                1 => given.writes.insert(pair),
                2 => given.upper_flows.insert(pair),
                _ => given.flows.insert(pair),
            };
        }
        let rows = lattice::propagate(&given, &index);
        let (_, turns) = solved_over(&given, &index);
        assert!(turns <= 4 + (rows.len() - given.bounds.len()) as u64);
        let closed = Problem {
            bounds: rows.iter().cloned().collect(),
            ..given
        };
        assert_eq!(lattice::propagate(&closed, &index), rows);
    }
}

#[test]
fn the_class_index_can_be_asked_for_what_is_private() {
    let mut index = ClassHierarchyIndex::default();
    let final_class = ReferenceTypeInfo {
        is_interface: false,
        is_final: true,
    };
    index.add("a", ["c".to_string(), "b".to_string()]);
    index.add_declared_type("b", [], final_class);
    assert_eq!(
        direct_parents(&index, "a"),
        Some(vec!["b".to_string(), "c".to_string()])
    );
    assert_eq!(direct_parents(&index, "b"), Some(vec![]));
    assert_eq!(direct_parents(&index, "c"), None);
    assert_eq!(reference_type(&index, "b"), Some(final_class));
    assert_eq!(reference_type(&index, "a"), None);
    assert!(recorded_ancestor(&index, "a", "c"));
    assert!(!recorded_ancestor(&index, "c", "a"));
    let expected = [
        ("a", 0),
        ("b", 1),
        ("c", 1),
        ("java/lang/Object", usize::MAX / 4),
    ];
    assert!(distances(&index, "a")
        .iter()
        .map(|(name, far)| (name.as_str(), *far))
        .eq(expected));
    let before = distances(&index, "a");
    index.freeze_distances();
    assert_eq!(distances(&index, "a"), before);
    assert_eq!(index.ancestor_names("b"), ["b", "java/lang/Object"]);
}

#[test]
fn the_source_lattice_can_be_asked() {
    let mut index = ClassHierarchyIndex::default();
    index.add("a", ["b".to_string()]);
    index.add("b", []);
    let (a, b) = (class("a"), class("b"));
    assert!(source::assignable(&a, &b, &index));
    assert!(!source::assignable(&b, &a, &index));
    assert_eq!(source::join(&a, &b, &index), Some(b.clone()));
    assert_eq!(source::meet(&a, &b, &index), Some(a.clone()));
    assert_eq!(
        source::join(&ArgType::BOOLEAN, &ArgType::CHAR, &index),
        Some(ArgType::INT)
    );
    assert_eq!(source::join(&ArgType::INT, &ArgType::LONG, &index), None);
    assert_eq!(
        source::select_observed(&[a.clone(), b].into(), &index),
        Some(a.clone())
    );
    assert!(!source::narrow_integral(&a));
    assert!(index.is_subtype("a", "b"));
}
