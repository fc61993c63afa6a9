//! Types and problems of dexdec as the wrapper takes them, for the tests and for `bench`.

use bracepuffin::{
    ArgType, ArrayConstraint, BoundKind, Categories, PrimitiveType, TypeConstraints,
};
use dexdec::{Kind, Problem, SsaVar};

pub fn kind(kind: Kind) -> BoundKind {
    BoundKind::ALL[kind as usize]
}

/// A type of dexdec as the wrapper has it.
pub fn ours(ty: &dexdec::ArgType) -> ArgType<'_> {
    let mut dimensions = 0;
    let mut base = ty;
    while let dexdec::ArgType::Array(element) = base {
        dimensions += 1;
        base = element;
    }
    let category = |category: &dexdec::PrimitiveType| {
        let number = words::category_number(*category);
        PrimitiveType::ALL[number as usize]
    };
    let base = match base {
        dexdec::ArgType::Primitive(primitive) => ArgType::primitive(category(primitive)),
        dexdec::ArgType::Object(name) => ArgType::object(name),
        dexdec::ArgType::Unknown(list) => {
            let list: Vec<_> = list.iter().map(category).collect();
            ArgType::unknown_of(Categories::new(&list).expect("no repeats"))
        }
        dexdec::ArgType::Array(_) => unreachable!("dimensions were taken off"),
    };
    ArgType { dimensions, ..base }
}

/// The same problem in the wrapper's clothes.
pub fn constraints(problem: &Problem) -> TypeConstraints<'_, SsaVar> {
    let mut constraints = TypeConstraints {
        members: problem.members.clone(),
        flows: problem.flows.clone(),
        upper_flows: problem.upper_flows.clone(),
        ..TypeConstraints::default()
    };
    for (root, bound, ty) in &problem.bounds {
        let of_root = constraints.bounds.entry(*root).or_default();
        of_root.insert((kind(*bound), ours(ty)));
    }
    let reads = problem.reads.iter();
    let reads = reads.map(|&(array, result)| ArrayConstraint::Read { array, result });
    let writes = problem.writes.iter();
    let writes = writes.map(|&(array, value)| ArrayConstraint::Write { array, value });
    constraints.arrays = reads.chain(writes).collect();
    constraints
}
