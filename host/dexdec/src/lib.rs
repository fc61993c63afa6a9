//! The Rust that decides: lattice.rs, hierarchy.rs and ty.rs of docs/src, built byte for byte.
//!
//! The module tree is dexdec's own, so that their `crate::` and `super::` paths hold. What they lean on is
//! the least that will do: `SsaVar` is a number, rayon is sequential, the data types of constraints.rs and
//! `SourceTypeLattice` of types.rs are cut out of docs/src by build.rs. What is private in the included
//! text is reached by the functions that stand after it in the same module.

pub mod ir;

pub use ir::analysis::types::{hierarchy, lattice, limits, source, turns, Kind, Problem, Row};
pub use ir::analysis::SsaVar;
pub use ir::{ArgType, DescriptorParseError, MethodDescriptor, PrimitiveType};
