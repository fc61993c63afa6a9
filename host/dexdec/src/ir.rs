//! `ir` of dexdec: the types of ty.rs and, below `analysis`, the solver.

pub mod analysis;

// The skip keeps `cargo fmt` from rewriting the file itself.
#[rustfmt::skip]
#[allow(dead_code)]
#[path = "../../../docs/src/dexdec/src/ir/ty.rs"]
pub mod ty;

pub use ty::{ArgType, DescriptorParseError, MethodDescriptor, PrimitiveType};
