//! `ir::analysis` of dexdec: the stand-in for an SSA variable, and the type modules.

pub mod types;

/// An SSA variable, or the root of a component: here its number, in the same order.
#[derive(Debug, Clone, Copy, PartialEq, Eq, PartialOrd, Ord, Hash)]
pub struct SsaVar(pub u32);
