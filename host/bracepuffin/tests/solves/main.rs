//! The solve of the boundary against lattice.rs, in one process.
//!
//! lattice.rs answers whatever is not refused, and says which limit a run passes. It has no columns, no words and no lent
//! memory: there the rules of the paper decide (`judge::solves`). Every slice is lent full of a pattern, between guards; and
//! in `pages` every slice, read or written, stands against a page that may not be touched.
//!
//! BRACEPUFFIN_CASES sets the number of random cases as in the other tests.

mod faults;
mod lent;
mod limits;
mod pages;
mod random;
#[allow(dead_code)]
#[path = "../shared/mod.rs"]
mod shared;

use bracepuffin::slices::{self, ProblemColumns, SolvedColumns};
use judge::classes::Classes;
use judge::solves::{Columns, Lent, Solved};

use shared::{cases, columns, POISON};

const GUARD: usize = 16;

fn problem_columns(problem: &Columns) -> ProblemColumns<'_> {
    let bounds = problem.bounds.each_ref().map(Vec::as_slice);
    let links = [
        &problem.flows,
        &problem.upper_flows,
        &problem.reads,
        &problem.writes,
    ]
    .map(|pair| pair.each_ref().map(Vec::as_slice));
    columns_of(problem.components, &problem.variables, bounds, links)
}

/// The columns of a problem: bounds by component, kind and type; flows, upper flows, reads, writes by their two sides.
fn columns_of<'a>(
    components: u64,
    var_comp: &'a [u64],
    [bnd_comp, bnd_kind, bnd_type]: [&'a [u64]; 3],
    [[flow_src, flow_dst], [up_src, up_dst], [read_arr, read_res], [write_arr, write_val]]: [[&'a [u64]; 2];
        4],
) -> ProblemColumns<'a> {
    ProblemColumns {
        components,
        var_comp,
        bnd_comp,
        bnd_kind,
        bnd_type,
        flow_src,
        flow_dst,
        up_src,
        up_dst,
        read_arr,
        read_res,
        write_arr,
        write_val,
    }
}

/// A lent slice between guards.
struct Guarded(Vec<u64>);

impl Guarded {
    fn of(length: usize, fill: u64) -> Self {
        let mut words = vec![POISON; length + 2 * GUARD];
        words[GUARD..GUARD + length].fill(fill);
        Self(words)
    }

    fn lent(&mut self) -> &mut [u64] {
        let end = self.0.len() - GUARD;
        &mut self.0[GUARD..end]
    }

    /// What was lent, if the guards are as they were.
    fn left(&self) -> &[u64] {
        let (front, rest) = self.0.split_at(GUARD);
        let (lent, end) = rest.split_at(rest.len() - GUARD);
        assert!(front.iter().chain(end).all(|word| *word == POISON));
        lent
    }
}

/// What the archive leaves: refusal, bounds, turns; answers, three columns, work.
struct Left {
    counts: [u64; 3],
    slices: [Guarded; 5],
}

fn solve(classes: &Classes, problem: &Columns, lent: Lent, fill: u64) -> Left {
    let [comp, kind, ty] = lent.columns;
    let mut slices = [lent.answers, comp, kind, ty, lent.work].map(|n| Guarded::of(n, fill));
    let [answers, out_comp, out_kind, out_type, work] = slices.each_mut().map(Guarded::lent);
    let out = SolvedColumns {
        answers,
        out_comp,
        out_kind,
        out_type,
    };
    let solved = slices::solve(columns(classes), problem_columns(problem), out, work);
    let counts = [solved.refusal, solved.bounds, solved.turns];
    Left { counts, slices }
}

/// These entries, and after them what was there before.
fn is_written(slice: &[u64], entries: &[u64], fill: u64) -> bool {
    slice.starts_with(entries) && slice[entries.len()..].iter().all(|word| *word == fill)
}

/// Both sides solve, and each entry of the lent slices is what is promised of it.
fn agree_over(classes: &Classes, problem: &Columns, lent: Lent, fill: u64) -> Solved {
    let expected = classes.solve(problem, lent);
    let left = solve(classes, problem, lent, fill);
    let about = || format!("{classes:x?} {problem:x?} {lent:?}");
    let bounds = expected.bounds.len() as u64;
    let counts = [expected.refusal, bounds, expected.turns];
    assert_eq!(left.counts, counts, "{}", about());
    let [answers, columns @ .., work] = &left.slices;
    assert!(
        is_written(answers.left(), &expected.answers, fill),
        "{}",
        about()
    );
    for (place, column) in columns.iter().enumerate() {
        let entries: Vec<u64> = expected.bounds.iter().map(|row| row[place]).collect();
        assert!(is_written(column.left(), &entries, fill), "{}", about());
    }
    let after = if expected.refusal == 22 { fill } else { 0 };
    assert!(work.left().iter().all(|word| *word == after), "{}", about());
    expected
}

/// The same over slices that are just long enough.
fn agree(classes: &Classes, problem: &Columns) -> Solved {
    agree_over(classes, problem, problem.least(), POISON)
}
