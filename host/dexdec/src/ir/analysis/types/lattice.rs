//! lattice.rs of docs/src, and access to what is private in it.

include!(concat!(
    env!("CARGO_MANIFEST_DIR"),
    "/../../docs/src/dexdec/src/ir/analysis/types/lattice.rs"
));

use super::{Kind, Problem, Row};

/// The bounds of one component, as `TypeState` holds them.
#[derive(Debug, Clone, Default)]
pub struct Bounds {
    pub exact: BTreeSet<ArgType>,
    pub lower: BTreeSet<ArgType>,
    pub upper: BTreeSet<ArgType>,
    pub domain: BTreeSet<ArgType>,
    pub fallback: BTreeSet<ArgType>,
}

impl Bounds {
    fn state(self) -> TypeState {
        TypeState {
            exact: self.exact,
            lower: self.lower,
            upper: self.upper,
            domain: self.domain,
            fallback: self.fallback,
        }
    }
}

/// The type of each variable that has one.
pub fn solve(problem: &Problem, hierarchy: &dyn TypeHierarchy) -> BTreeMap<SsaVar, ArgType> {
    TypeLattice::solve(&problem.normalized(), hierarchy)
}

/// A problem as `TypeLattice::solve` takes it, made once: whoever times a solve does not time the making.
pub struct Prepared(NormalizedTypeConstraints);

impl Prepared {
    pub fn of(problem: &Problem) -> Self {
        Self(problem.normalized())
    }

    pub fn solve(&self, hierarchy: &dyn TypeHierarchy) -> BTreeMap<SsaVar, ArgType> {
        TypeLattice::solve(&self.0, hierarchy)
    }
}

/// The final bounds, ascending by root, kind and type: `propagate` on the states that `solve` gives it.
pub fn propagate(problem: &Problem, hierarchy: &dyn TypeHierarchy) -> Vec<Row> {
    let constraints = problem.normalized();
    let mut states = initial_states(&constraints);
    TypeLattice::propagate(&constraints, &mut states, hierarchy);
    states
        .into_iter()
        .flat_map(|(root, state)| rows(root, state))
        .collect()
}

fn initial_states(constraints: &NormalizedTypeConstraints) -> BTreeMap<SsaVar, TypeState> {
    let roots = constraints.members.keys();
    roots
        .map(|root| (*root, TypeState::from_bounds(constraints.bounds.get(root))))
        .collect()
}

fn rows(root: SsaVar, state: TypeState) -> impl Iterator<Item = Row> {
    let sets = [
        (Kind::Domain, state.domain),
        (Kind::Fallback, state.fallback),
        (Kind::Upper, state.upper),
        (Kind::Lower, state.lower),
        (Kind::Exact, state.exact),
    ];
    sets.into_iter()
        .flat_map(move |(kind, types)| types.into_iter().map(move |ty| (root, kind, ty)))
}

pub fn resolve_state(bounds: Bounds, hierarchy: &dyn TypeHierarchy) -> Option<ArgType> {
    TypeLattice::resolve_state(&bounds.state(), hierarchy)
}

pub fn produced_type(bounds: Bounds, hierarchy: &dyn TypeHierarchy) -> Option<ArgType> {
    bounds.state().produced_type(hierarchy)
}

pub fn array_element(bounds: Bounds, hierarchy: &dyn TypeHierarchy) -> Option<ArgType> {
    TypeLattice::array_element(&bounds.state(), hierarchy)
}

pub fn most_specific_upper(
    upper: &BTreeSet<ArgType>,
    hierarchy: &dyn TypeHierarchy,
) -> Option<ArgType> {
    TypeLattice::most_specific_upper(upper, hierarchy)
}

pub fn join_all(
    values: impl IntoIterator<Item = ArgType>,
    hierarchy: &dyn TypeHierarchy,
) -> Option<ArgType> {
    TypeLattice::join_all(values, hierarchy)
}

pub fn join(left: ArgType, right: ArgType, hierarchy: &dyn TypeHierarchy) -> ArgType {
    TypeLattice::join(left, right, hierarchy)
}

pub fn join_primitive(left: PrimitiveType, right: PrimitiveType) -> ArgType {
    TypeLattice::join_primitive(left, right)
}

pub fn is_assignable(value: &ArgType, expected: &ArgType, hierarchy: &dyn TypeHierarchy) -> bool {
    TypeLattice::is_assignable(value, expected, hierarchy)
}

pub fn producer_bound_compatible(
    produced: &ArgType,
    expected: &ArgType,
    hierarchy: &dyn TypeHierarchy,
) -> bool {
    TypeLattice::producer_bound_compatible(produced, expected, hierarchy)
}

pub fn primitive_assignable(value: PrimitiveType, expected: PrimitiveType) -> bool {
    TypeLattice::primitive_assignable(value, expected)
}

pub fn domain_accepts(domain: &BTreeSet<ArgType>, candidate: &ArgType) -> bool {
    TypeLattice::domain_accepts(domain, candidate)
}

pub fn same_register_category(left: &ArgType, right: &ArgType) -> bool {
    TypeLattice::same_register_category(left, right)
}

pub fn concrete_hint(ty: &ArgType) -> Option<ArgType> {
    TypeLattice::concrete_hint(ty)
}

pub fn is_concrete(ty: &ArgType) -> bool {
    TypeLattice::is_concrete(ty)
}

pub fn unknown_accepts(categories: &[PrimitiveType], known: &ArgType) -> bool {
    TypeLattice::unknown_accepts(categories, known)
}

pub fn unknown_union(left: &ArgType, right: &ArgType) -> ArgType {
    TypeLattice::unknown_union(left, right)
}

pub fn categories(ty: &ArgType) -> BTreeSet<PrimitiveType> {
    TypeLattice::categories(ty)
}
