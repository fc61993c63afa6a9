//! Solves: lattice.rs over hierarchy.rs, the boundary, and the wrapper; and what a solve of the boundary pays for.

use std::hint::black_box;

use bracepuffin::slices;
use dexdec::lattice::Prepared;
use judge::solves::Columns;

use crate::classes::{index, table};
use crate::growth::{growth, Growth};
use crate::measure::{in_turns, repeated, Effort, Row, Times};
use crate::problems::{Case, Lent, Size};
use crate::small::Cost;

pub fn rows(effort: Effort) -> Vec<Row> {
    let each = effort.problems.into_iter();
    each.flat_map(|size| rows_of(effort, size)).collect()
}

/// The sizes that a problem has.
fn what(case: &Case) -> String {
    format!(
        "{} names, {} components, {} bounds, {} flows",
        case.classes.len(),
        case.columns.components,
        case.columns.bounds[0].len(),
        case.columns.flows[0].len()
    )
}

/// With the Rust's index and the wrapper's table kept between calls, distances remembered; and with both made in the call.
/// The boundary keeps nothing, and does the same in both. The Rust gives the answers, ours the final bounds too.
fn rows_of(effort: Effort, size: Size) -> [Row; 2] {
    let case = Case::of(size);
    let (prepared, constraints) = (Prepared::of(&case.problem), case.constraints());
    let mut lent = Lent::of(&case.columns);
    let mut lent_again = Lent::of(&case.columns);
    let columns = case.table.columns();
    [
        Row::of(
            effort,
            format!("{}, table kept", what(&case)),
            || prepared.solve(black_box(&case.index)),
            || lent.solve(black_box(columns), &case.columns),
            || case.table.solve(black_box(&constraints)),
        ),
        Row::of(
            effort,
            format!("{}, table built in the call", what(&case)),
            || prepared.solve(&index(black_box(&case.classes))),
            || lent_again.solve(black_box(columns), &case.columns),
            || {
                let table = table(black_box(&case.classes));
                let solved = table.solve(&constraints);
                solved.map(|solved| solved.types.len())
            },
        ),
    ]
}

/// The same components and bounds.
fn without_links(columns: &Columns) -> Columns {
    Columns {
        components: columns.components,
        variables: columns.variables.clone(),
        bounds: columns.bounds.clone(),
        ..Columns::default()
    }
}

/// The same with a write of no component as the last row of all: refused when everything before it is checked.
fn refused_last(columns: &Columns) -> Columns {
    let mut refused = columns.clone();
    refused.writes[0].push(columns.components);
    refused.writes[1].push(0);
    refused
}

/// The boundary's time for a problem: all of it, without the links, for the check of the table and of all rows, and for the
/// check of the table.
fn steps(effort: Effort, case: &Case) -> [Times; 4] {
    let (unlinked, refused) = (without_links(&case.columns), refused_last(&case.columns));
    let columns = case.table.columns();
    let mut lent = Lent::of(&case.columns);
    let mut lent_unlinked = Lent::of(&unlinked);
    let mut lent_refused = Lent::of(&refused);
    assert_eq!(lent_refused.solve(columns, &refused).refusal, 6);
    let calls: [&mut dyn FnMut(u64); 4] = [
        &mut repeated(|| lent.solve(black_box(columns), &case.columns)),
        &mut repeated(|| lent_unlinked.solve(black_box(columns), &unlinked)),
        &mut repeated(|| lent_refused.solve(black_box(columns), &refused)),
        &mut repeated(|| slices::check_table(black_box(columns))),
    ];
    in_turns(effort, calls)
}

/// Which share of a solve is the check of the table and of the problem.
pub fn shares(effort: Effort) -> Vec<Cost> {
    let mut costs = Vec::new();
    for size in effort.problems {
        let case = Case::of(size);
        let times = steps(effort, &case);
        let whole = times[0].best;
        let parts = [
            "a solve",
            "the same without links",
            "table and problem checked, refused at the last row",
            "the table checked",
        ];
        for (part, times) in parts.into_iter().zip(times) {
            let percent = 100.0 * times.best / whole;
            costs.push((format!("{}, {part} ({percent:.0}%)", what(&case)), times));
        }
    }
    costs
}

/// Halves of a number, the smallest first, at most as many as given.
fn halves<const N: usize>(most: usize) -> [usize; N] {
    std::array::from_fn(|place| (most >> (N - 1 - place)).max(1))
}

/// As components, given bounds and names are doubled up to the largest problem of the effort.
pub fn growths(effort: Effort) -> [Growth; 3] {
    let [_, middle, most] = effort.problems;
    let of_components = halves::<6>(most.components).map(|components| {
        let all = most.components;
        Size::new(
            middle.names,
            components,
            most.bounds * components / all,
            most.flows * components / all,
        )
    });
    let of_bounds = halves::<5>(most.bounds)
        .map(|bounds| Size::new(middle.names, most.components, bounds, most.components));
    let of_names = halves::<5>(most.names).map(|names| {
        let names = names.max(12);
        Size::new(names, middle.components, middle.bounds, middle.flows)
    });
    [
        grown(
            effort,
            "components",
            "A solve, as components grow, and bounds and flows with them",
            of_components.map(|size| (size.components, size)).to_vec(),
        ),
        grown(
            effort,
            "bounds",
            "A solve, as given bounds grow",
            of_bounds.map(|size| (size.bounds, size)).to_vec(),
        ),
        grown(
            effort,
            "solve-names",
            "A solve, as the names of its table grow",
            of_names.map(|size| (size.names, size)).to_vec(),
        ),
    ]
}

fn grown(
    effort: Effort,
    name: &'static str,
    title: &'static str,
    sizes: Vec<(usize, Size)>,
) -> Growth {
    let points = sizes.into_iter().map(|(count, size)| {
        let case = Case::of(size);
        let prepared = Prepared::of(&case.problem);
        let unlinked = without_links(&case.columns);
        let (mut lent, mut lent_unlinked) = (Lent::of(&case.columns), Lent::of(&unlinked));
        let columns = case.table.columns();
        let calls: [&mut dyn FnMut(u64); 4] = [
            &mut repeated(|| prepared.solve(black_box(&case.index))),
            &mut repeated(|| lent.solve(black_box(columns), &case.columns)),
            &mut repeated(|| lent_unlinked.solve(black_box(columns), &unlinked)),
            &mut repeated(|| slices::check_table(black_box(columns))),
        ];
        (count, in_turns(effort, calls))
    });
    growth(
        name,
        title,
        match name {
            "solve-names" => "names",
            name => name,
        },
        [
            "Rust, table kept",
            "boundary",
            "boundary, without links",
            "check of the table",
        ],
        points.collect(),
    )
}

#[cfg(test)]
mod tests {
    use super::*;

    /// What is timed is the same work: the answers of the Rust, the boundary and the wrapper.
    #[test]
    fn the_same_answers() {
        for size in Effort::LEAST.problems {
            let case = Case::of(size);
            let rust = Prepared::of(&case.problem).solve(&case.index);
            let mut lent = Lent::of(&case.columns);
            lent.solve(case.table.columns(), &case.columns);
            let names: Vec<String> = case.table.names().iter().map(str::to_string).collect();
            let rust: Vec<(usize, u64)> = rust
                .iter()
                .map(|(variable, ty)| {
                    (
                        variable.0 as usize,
                        words::word(ty, &names).expect("a type"),
                    )
                })
                .collect();
            let answers = lent.answers().iter().copied().enumerate();
            let answered = answers.filter(|(_, word)| *word != words::MISSING);
            assert!(!rust.is_empty());
            assert_eq!(answered.collect::<Vec<_>>(), rust, "{size:?}");
            let constraints = case.constraints();
            let wrapper = case.table.solve(&constraints).expect("not refused");
            let wrapper = wrapper.types.into_iter();
            let wrapper = wrapper.map(|(variable, ty)| {
                let word = case.table.word(ty).expect("a type of the table");
                (variable.0 as usize, word.bits())
            });
            assert_eq!(wrapper.collect::<Vec<_>>(), rust, "{size:?}");
        }
    }

    #[test]
    fn halves_ascend() {
        assert_eq!(halves::<4>(512), [64, 128, 256, 512]);
        assert_eq!(halves::<4>(3), [1, 1, 1, 3]);
    }
}
