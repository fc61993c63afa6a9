//! `SourceTypeLattice` of types.rs, cut out of docs/src by build.rs, and access to it.

use std::collections::BTreeSet;

use super::hierarchy::{SubtypeRelation, TypeHierarchy};
use crate::ir::{ArgType, PrimitiveType};

include!(concat!(env!("OUT_DIR"), "/source.rs"));

pub fn select_observed(
    types: &BTreeSet<ArgType>,
    hierarchy: &dyn TypeHierarchy,
) -> Option<ArgType> {
    SourceTypeLattice::new(hierarchy).select_observed(types)
}

pub fn meet(left: &ArgType, right: &ArgType, hierarchy: &dyn TypeHierarchy) -> Option<ArgType> {
    SourceTypeLattice::new(hierarchy).meet(left, right)
}

pub fn join(left: &ArgType, right: &ArgType, hierarchy: &dyn TypeHierarchy) -> Option<ArgType> {
    SourceTypeLattice::new(hierarchy).join(left, right)
}

pub fn assignable(value: &ArgType, expected: &ArgType, hierarchy: &dyn TypeHierarchy) -> bool {
    SourceTypeLattice::new(hierarchy).assignable(value, expected)
}

pub fn narrow_integral(ty: &ArgType) -> bool {
    SourceTypeLattice::narrow_integral(ty)
}
