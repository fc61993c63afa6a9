//! hierarchy.rs of docs/src, and access to what is private in it.
#![allow(dead_code)]

include!(concat!(
    env!("CARGO_MANIFEST_DIR"),
    "/../../docs/src/dexdec/src/ir/analysis/types/hierarchy.rs"
));

/// Every ancestor of `start` with its distance.
pub fn distances(index: &ClassHierarchyIndex, start: &str) -> BTreeMap<String, usize> {
    index.distances(start).as_ref().clone()
}

pub fn recorded_ancestor(index: &ClassHierarchyIndex, value: &str, expected: &str) -> bool {
    index.recorded_ancestor(value, expected)
}

/// The direct parents of `class`, ascending; none if it has no record.
pub fn direct_parents(index: &ClassHierarchyIndex, class: &str) -> Option<Vec<String>> {
    let parents = index.direct_parents(class).cloned().collect();
    index.parent_set(class).map(|_| parents)
}

/// The declared facts of `class`; none if it was not declared.
pub fn reference_type(index: &ClassHierarchyIndex, class: &str) -> Option<ReferenceTypeInfo> {
    index.reference_type(class)
}
