//! A solve: the types of variables from what is known of them, in the shape of `NormalizedTypeConstraints` of dexdec.

use std::collections::{BTreeMap, BTreeSet};

use crate::classes::{with_work, ClassTable};
use crate::ffi::{self, BpSolved};
use crate::names::type_of;
use crate::slices::{self, ProblemColumns, SolvedColumns};
use crate::types::{ArgType, Base};
use crate::Refusal;

const NONE: u64 = u64::MAX;

/// What a bound says of a component, after `BoundKind` of constraints.rs.
#[derive(Debug, Clone, Copy, PartialEq, Eq, PartialOrd, Ord, Hash)]
pub enum BoundKind {
    /// An instruction was seen that takes types of this form.
    Domain,
    /// A type to take if nothing better is found.
    Fallback,
    /// A use expects this type.
    Upper,
    /// A value of this type comes in.
    Lower,
    /// This type was written down, as in a signature.
    Exact,
}

impl BoundKind {
    /// All of them, by number.
    pub const ALL: [Self; 5] = [
        Self::Domain,
        Self::Fallback,
        Self::Upper,
        Self::Lower,
        Self::Exact,
    ];
}

/// An array and what is read from it or written to it, after `ArrayConstraint` of constraints.rs.
#[derive(Debug, Clone, Copy, PartialEq, Eq, PartialOrd, Ord, Hash)]
pub enum ArrayConstraint<V> {
    /// An element is read.
    Read {
        /// The array.
        array: V,
        /// What the element becomes.
        result: V,
    },
    /// An element is written.
    Write {
        /// The array.
        array: V,
        /// What is put into it.
        value: V,
    },
}

/// What is known, after `NormalizedTypeConstraints` of constraints.rs. A component is named by one of its variables, its
/// root; roots and variables may be of any type that has an order, and types name their classes.
#[derive(Debug, Clone)]
pub struct TypeConstraints<'a, V> {
    /// Each root with the variables of its component.
    pub members: BTreeMap<V, BTreeSet<V>>,
    /// The bounds of each root.
    pub bounds: BTreeMap<V, BTreeSet<(BoundKind, ArgType<'a>)>>,
    /// Flows from a root to another: source, target.
    pub flows: BTreeSet<(V, V)>,
    /// Flows along which only what is expected goes back.
    pub upper_flows: BTreeSet<(V, V)>,
    /// Arrays, by their roots.
    pub arrays: BTreeSet<ArrayConstraint<V>>,
}

impl<V> Default for TypeConstraints<'_, V> {
    fn default() -> Self {
        Self {
            members: BTreeMap::new(),
            bounds: BTreeMap::new(),
            flows: BTreeSet::new(),
            upper_flows: BTreeSet::new(),
            arrays: BTreeSet::new(),
        }
    }
}

/// What a solve found.
#[derive(Debug, Clone, PartialEq, Eq)]
pub struct Solution<'a, V> {
    /// The type of each variable that has one.
    pub types: BTreeMap<V, ArgType<'a>>,
    /// The final bounds, ascending by root, kind and type.
    pub bounds: Vec<(V, BoundKind, ArgType<'a>)>,
    /// How many turns it took.
    pub turns: u64,
}

impl ClassTable {
    /// The types of the variables of these constraints: `TypeLattice::solve` of lattice.rs. A class that the table does
    /// not name is one without a record.
    ///
    /// # Errors
    ///
    /// [`Refusal::Number`] for a root of a flow, an array or a bound that has no members; [`Refusal::Room`] for more than 512
    /// components, 2,048 variables, 4,096 bounds, 2,048 flows, 1,024 upper flows or 1,024 arrays; [`Refusal::Deep`] and
    /// [`Refusal::Bounds`] where a rule would pass a limit; and, where classes are named that the table does not name,
    /// the refusals of a table that has them too.
    pub fn solve<'a, V: Ord + Copy>(
        &'a self,
        constraints: &TypeConstraints<'a, V>,
    ) -> Result<Solution<'a, V>, Refusal> {
        let given = || constraints.bounds.values().flatten();
        let classes = given().filter_map(|(_, ty)| match ty.base {
            Base::Object(name) => Some(name),
            _ => None,
        });
        let absent: BTreeSet<&'a str> = classes
            .filter(|name| self.names().find(name).is_none())
            .collect();
        if absent.is_empty() {
            return Problem::over(self, constraints)?.solve(|name| self.own(name));
        }
        let extended = self.extended(&absent)?;
        Problem::over(&extended, constraints)?.solve(|name| {
            let given = absent.get(name).copied();
            given.or_else(|| self.own(name))
        })
    }

    /// A name of this table, borrowed from it.
    fn own(&self, name: &str) -> Option<&str> {
        self.names().name_at(self.names().find(name)?)
    }
}

/// The columns of constraints over a table.
struct Problem<'t, V> {
    table: &'t ClassTable,
    roots: Vec<V>,
    variables: Vec<V>,
    var_comp: Vec<u64>,
    bounds: [Vec<u64>; 3],
    flows: [Vec<u64>; 2],
    upper_flows: [Vec<u64>; 2],
    reads: [Vec<u64>; 2],
    writes: [Vec<u64>; 2],
}

impl<'t, V: Ord + Copy> Problem<'t, V> {
    /// Components are numbered in the order of their roots. The table names every class of the bounds.
    fn over(table: &'t ClassTable, constraints: &TypeConstraints<V>) -> Result<Self, Refusal> {
        let roots: Vec<V> = constraints.members.keys().copied().collect();
        let number = |root: &V| {
            let found = roots.binary_search(root).map(|place| place as u64);
            found.map_err(|_| Refusal::Number)
        };
        let pairs = |pairs: &mut dyn Iterator<Item = (V, V)>| {
            let mut columns = [Vec::new(), Vec::new()];
            for (first, second) in pairs {
                columns[0].push(number(&first)?);
                columns[1].push(number(&second)?);
            }
            Ok::<_, Refusal>(columns)
        };
        let mut bounds = [Vec::new(), Vec::new(), Vec::new()];
        for (root, given) in &constraints.bounds {
            for (kind, ty) in given {
                bounds[0].push(number(root)?);
                bounds[1].push(*kind as u64);
                bounds[2].push(table.word(*ty)?.bits());
            }
        }
        let arrays = || constraints.arrays.iter();
        let members = || constraints.members.iter();
        let rows = members().flat_map(|(_, members)| members.iter().copied());
        let counted = members().enumerate();
        let components =
            counted.flat_map(|(place, (_, members))| members.iter().map(move |_| place as u64));
        Ok(Self {
            table,
            variables: rows.collect(),
            var_comp: components.collect(),
            flows: pairs(&mut constraints.flows.iter().copied())?,
            upper_flows: pairs(&mut constraints.upper_flows.iter().copied())?,
            reads: pairs(&mut arrays().filter_map(|constraint| match *constraint {
                ArrayConstraint::Read { array, result } => Some((array, result)),
                ArrayConstraint::Write { .. } => None,
            }))?,
            writes: pairs(&mut arrays().filter_map(|constraint| match *constraint {
                ArrayConstraint::Write { array, value } => Some((array, value)),
                ArrayConstraint::Read { .. } => None,
            }))?,
            bounds,
            roots,
        })
    }

    fn columns(&self) -> ProblemColumns<'_> {
        ProblemColumns {
            components: self.roots.len() as u64,
            var_comp: &self.var_comp,
            bnd_comp: &self.bounds[0],
            bnd_kind: &self.bounds[1],
            bnd_type: &self.bounds[2],
            flow_src: &self.flows[0],
            flow_dst: &self.flows[1],
            up_src: &self.upper_flows[0],
            up_dst: &self.upper_flows[1],
            read_arr: &self.reads[0],
            read_res: &self.reads[1],
            write_arr: &self.writes[0],
            write_val: &self.writes[1],
        }
    }

    /// The answers, whose classes are borrowed as `named` says.
    fn solve<'a>(
        &self,
        named: impl Fn(&str) -> Option<&'a str>,
    ) -> Result<Solution<'a, V>, Refusal> {
        let mut answers = vec![NONE; self.variables.len()];
        let mut out = [(); 3].map(|()| vec![0; ffi::BP_BOUNDS]);
        let solved = self.call(&mut answers, &mut out);
        Refusal::accepted(solved.refusal)?;
        let ty = |word: u64| {
            let found = type_of(word, |class| named(self.table.names().name_at(class)?));
            found.expect("what is answered is a type of the table")
        };
        let variables = self.variables.iter().zip(&answers);
        let answered = variables.filter(|(_, word)| **word != NONE);
        let rows = (0..solved.bounds as usize).map(|row| {
            let kind = BoundKind::ALL[out[1][row] as usize];
            (self.roots[out[0][row] as usize], kind, ty(out[2][row]))
        });
        Ok(Solution {
            types: answered
                .map(|(variable, word)| (*variable, ty(*word)))
                .collect(),
            bounds: rows.collect(),
            turns: solved.turns,
        })
    }

    fn call(&self, answers: &mut [u64], out: &mut [Vec<u64>; 3]) -> BpSolved {
        let [out_comp, out_kind, out_type] = out;
        let out = SolvedColumns {
            answers,
            out_comp,
            out_kind,
            out_type,
        };
        with_work(|work| slices::solve(self.table.columns(), self.columns(), out, work))
    }
}
