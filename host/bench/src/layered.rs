//! Tables of several layers: hierarchy.rs with an index for each and its caches warm, the boundary, and the wrapper.

use std::hint::black_box;
use std::sync::Arc;

use bracepuffin::{slices, ClassTable};
use dexdec::hierarchy::ClassHierarchyIndex;
use dexdec::lattice::Prepared;

use crate::classes::{add_all, builder, each_query, ends, Declared};
use crate::measure::{Effort, Row};
use crate::problems::{Case, Lent, Size};

/// The classes of one layer.
type Layer<'c> = Vec<&'c Declared>;

/// Layers of as many classes each, the lowest first; all but the lowest have every eighth class of the one below too.
pub fn split(classes: &[Declared], layers: usize) -> Vec<Layer<'_>> {
    let parts: Vec<&[Declared]> = classes.chunks(classes.len().div_ceil(layers)).collect();
    let below = [&[][..]].into_iter().chain(parts.iter().copied());
    let again = below.map(|below| below.iter().step_by(8));
    let each = parts.iter().zip(again);
    each.map(|(part, again)| again.chain(part.iter()).collect())
        .collect()
}

pub fn index(layers: &[Layer]) -> ClassHierarchyIndex {
    let (topmost, below) = layers.split_last().expect("a layer");
    match below {
        [] => with_layer(ClassHierarchyIndex::default(), topmost),
        below => over(&Arc::new(index(below)), topmost),
    }
}

/// One more layer, over an index that others may have below them too.
fn over(below: &Arc<ClassHierarchyIndex>, layer: &Layer) -> ClassHierarchyIndex {
    with_layer(ClassHierarchyIndex::layered(Arc::clone(below)), layer)
}

fn with_layer(mut index: ClassHierarchyIndex, layer: &Layer) -> ClassHierarchyIndex {
    add_all(&mut index, layer.iter().copied());
    index
}

pub fn table(layers: &[Layer]) -> ClassTable {
    let (topmost, below) = layers.split_last().expect("a layer");
    let topmost = builder(topmost.iter().copied());
    let table = match below {
        [] => topmost.build(),
        below => topmost.build_over(&table(below)),
    };
    table.expect("a sound table")
}

pub fn rows(effort: Effort) -> Vec<Row> {
    let [_, sizes @ ..] = effort.problems;
    let each = sizes.into_iter().flat_map(|size| [(size, 2), (size, 4)]);
    each.flat_map(|(size, layers)| rows_of(effort, size, layers))
        .collect()
}

/// All layers built; the topmost over those below, which are there; one call of each query; and a solve.
fn rows_of(effort: Effort, size: Size, count: usize) -> Vec<Row> {
    let case = Case::in_layers(size, count);
    let layers = split(&case.classes, count);
    let (topmost, below) = layers.split_last().expect("a layer");
    let (index_below, table_below) = (Arc::new(index(below)), table(below));
    let what = format!("{} names in {count} layers", case.classes.len());
    let columns = case.table.columns();
    let mut rows = vec![
        Row::of(
            effort,
            format!("{what}, build"),
            || index(black_box(&layers)),
            || slices::check_table(black_box(columns)),
            || table(black_box(&layers)),
        ),
        Row::of(
            effort,
            format!("{what}, the topmost over those below"),
            || over(black_box(&index_below), topmost),
            || slices::check_table(black_box(columns)),
            || builder(topmost.iter().copied()).build_over(black_box(&table_below)),
        ),
    ];
    let asked = ends(&case.classes);
    rows.extend(each_query(effort, &what, &case.index, &case.table, asked));
    let (prepared, constraints) = (Prepared::of(&case.problem), case.constraints());
    let mut lent = Lent::of(&case.columns);
    rows.push(Row::of(
        effort,
        format!("{what}, a solve of {} components", case.columns.components),
        || prepared.solve(black_box(&case.index)),
        || lent.solve(black_box(columns), &case.columns),
        || case.table.solve(black_box(&constraints)),
    ));
    rows
}

#[cfg(test)]
mod tests {
    use super::*;

    /// What is timed is the same work: the table has the layers, and answers as the index does.
    #[test]
    fn the_same_layers() {
        for size in Effort::LEAST.problems {
            for count in [1, 2, 4] {
                let case = Case::in_layers(size, count);
                assert_eq!(case.table.layers(), count);
                for name in case.table.names().iter() {
                    let above: Vec<&str> = case.table.ancestors(name).names().collect();
                    assert_eq!(above, case.index.ancestor_names(name));
                }
            }
        }
    }
}
