//! `ir::analysis::types` of dexdec, and a problem for the solver that can be written from outside.

use std::collections::{BTreeMap, BTreeSet};

use super::SsaVar;
use crate::ir::ArgType;

mod constraints;
pub mod hierarchy;
pub mod lattice;
pub mod limits;
pub mod source;
pub mod turns;

use constraints::{ArrayConstraint, BoundKind, NormalizedTypeConstraints, TypeBound};

/// The kind of a bound; the number is the one used in frames and columns.
#[derive(Debug, Clone, Copy, PartialEq, Eq, PartialOrd, Ord, Hash)]
pub enum Kind {
    Domain = 0,
    Fallback = 1,
    Upper = 2,
    Lower = 3,
    Exact = 4,
}

/// One bound of a component's root.
pub type Row = (SsaVar, Kind, ArgType);

/// What a solve is given: `NormalizedTypeConstraints` in public clothes.
#[derive(Debug, Clone, Default)]
pub struct Problem {
    /// Each root with the variables of its component.
    pub members: BTreeMap<SsaVar, BTreeSet<SsaVar>>,
    pub bounds: BTreeSet<Row>,
    /// Source, target.
    pub flows: BTreeSet<(SsaVar, SsaVar)>,
    pub upper_flows: BTreeSet<(SsaVar, SsaVar)>,
    /// Array, result.
    pub reads: BTreeSet<(SsaVar, SsaVar)>,
    /// Array, value.
    pub writes: BTreeSet<(SsaVar, SsaVar)>,
}

impl Problem {
    /// A problem of `count` components, each with one variable of the same number.
    pub fn of(count: u32) -> Self {
        let members = (0..count).map(|number| (SsaVar(number), BTreeSet::from([SsaVar(number)])));
        Self {
            members: members.collect(),
            ..Self::default()
        }
    }

    fn normalized(&self) -> NormalizedTypeConstraints {
        let mut bounds = BTreeMap::<SsaVar, BTreeSet<TypeBound>>::new();
        for (root, kind, ty) in &self.bounds {
            let bound = TypeBound::new(kind.bound(), ty.clone());
            bounds.entry(*root).or_default().insert(bound);
        }
        let reads = self.reads.iter();
        let writes = self.writes.iter();
        NormalizedTypeConstraints {
            members: self.members.clone(),
            bounds,
            flows: self.flows.clone(),
            upper_flows: self.upper_flows.clone(),
            arrays: reads
                .map(|&(array, result)| ArrayConstraint::Read { array, result })
                .chain(writes.map(|&(array, value)| ArrayConstraint::Write { array, value }))
                .collect(),
        }
    }
}

impl Kind {
    fn bound(self) -> BoundKind {
        match self {
            Self::Domain => BoundKind::Domain,
            Self::Fallback => BoundKind::Fallback,
            Self::Upper => BoundKind::Upper,
            Self::Lower => BoundKind::Lower,
            Self::Exact => BoundKind::Exact,
        }
    }
}
