//! Each slice of a solve, lent and read, against a page that may not be touched: one word before or behind it ends the process.

use bracepuffin::slices::{self, ClassColumns, Columns, SolvedColumns};
use judge::classes::Classes;
use judge::layer_cases::{any_stack, faulty_layers};
use judge::rng::Rng;
use judge::solve_cases::{any_problem, damage_problem, faulty, telling_problems};
use judge::solves;

use crate::{cases, columns_of, is_written, POISON};

const PAGE: usize = 65536;

mod system {
    use std::ffi::{c_int, c_void};

    pub const NONE: c_int = 0;
    pub const READ_WRITE: c_int = 3;
    pub const PRIVATE_ANONYMOUS: c_int = 0x22;

    extern "C" {
        pub fn mmap(
            at: *mut c_void,
            length: usize,
            protection: c_int,
            flags: c_int,
            file: c_int,
            offset: i64,
        ) -> *mut c_void;
        pub fn mprotect(at: *mut c_void, length: usize, protection: c_int) -> c_int;
        pub fn munmap(at: *mut c_void, length: usize) -> c_int;
    }
}

/// Which page that may not be touched a slice stands against.
#[derive(Debug, Clone, Copy)]
enum Fence {
    Before,
    Behind,
}

/// A slice between two pages that may not be touched, against one of them.
struct Fenced<T> {
    base: *mut u8,
    whole: usize,
    first: *mut T,
    length: usize,
}

impl<T: Copy> Fenced<T> {
    fn of(entries: &[T], fence: Fence) -> Self {
        let bytes = std::mem::size_of_val(entries);
        let room = bytes.div_ceil(PAGE).max(1) * PAGE;
        let whole = room + 2 * PAGE;
        // SAFETY: a new private mapping, whose first and last page are then closed; PAGE is a multiple of the system's pages.
        let base = unsafe {
            let base = system::mmap(
                std::ptr::null_mut(),
                whole,
                system::READ_WRITE,
                system::PRIVATE_ANONYMOUS,
                -1,
                0,
            );
            assert_ne!(base as isize, -1, "mmap");
            let base = base.cast::<u8>();
            for at in [base, base.add(whole - PAGE)] {
                assert_eq!(
                    system::mprotect(at.cast(), PAGE, system::NONE),
                    0,
                    "mprotect"
                );
            }
            base
        };
        let offset = match fence {
            Fence::Before => PAGE,
            Fence::Behind => whole - PAGE - bytes,
        };
        // SAFETY: `bytes` bytes from `offset` on lie in the open part of the mapping; it begins and ends at a multiple of the size of T.
        let first = unsafe {
            let first = base.add(offset).cast::<T>();
            first.copy_from_nonoverlapping(entries.as_ptr(), entries.len());
            first
        };
        Self {
            base,
            whole,
            first,
            length: entries.len(),
        }
    }

    fn read(&self) -> &[T] {
        // SAFETY: `of` wrote these entries, and the mapping lives as long as `self`.
        unsafe { std::slice::from_raw_parts(self.first, self.length) }
    }

    fn lent(&mut self) -> &mut [T] {
        // SAFETY: as in `read`; `self` is borrowed for as long as the slice is.
        unsafe { std::slice::from_raw_parts_mut(self.first, self.length) }
    }
}

impl<T> Drop for Fenced<T> {
    fn drop(&mut self) {
        // SAFETY: the mapping that `of` made, once.
        unsafe { system::munmap(self.base.cast(), self.whole) };
    }
}

fn agree(classes: &Classes, problem: &solves::Columns, fence: Fence) {
    let lent = problem.least();
    let expected = classes.solve(problem, lent);
    let words = |entries: &[u64]| Fenced::of(entries, fence);
    let names = Fenced::of(&classes.names.store, fence);
    let table = [
        &classes.names.at,
        &classes.names.len,
        &classes.flags,
        &classes.class,
        &classes.at,
        &classes.len,
        &classes.parents,
    ]
    .map(|column| words(column));
    let [name_at, name_len, rec_flags, rec_class, rec_at, rec_len, parents] =
        table.each_ref().map(Fenced::read);
    let bounds = problem.bounds.each_ref().map(|column| words(column));
    let links = [
        &problem.flows,
        &problem.upper_flows,
        &problem.reads,
        &problem.writes,
    ]
    .map(|pair| pair.each_ref().map(|column| words(column)));
    let variables = words(&problem.variables);
    let asked = columns_of(
        problem.components,
        variables.read(),
        bounds.each_ref().map(Fenced::read),
        links
            .each_ref()
            .map(|pair| pair.each_ref().map(Fenced::read)),
    );
    let [comp, kind, ty] = lent.columns;
    let mut slices =
        [lent.answers, comp, kind, ty, lent.work].map(|length| words(&vec![POISON; length]));
    let [answers, out_comp, out_kind, out_type, work] = slices.each_mut().map(Fenced::lent);
    let solved = slices::solve(
        ClassColumns {
            names: Columns {
                names: names.read(),
                name_at,
                name_len,
            },
            rec_flags,
            rec_class,
            rec_at,
            rec_len,
            parents,
        },
        asked,
        SolvedColumns {
            answers,
            out_comp,
            out_kind,
            out_type,
        },
        work,
    );
    let about = || format!("{fence:?} {classes:x?} {problem:x?}");
    assert_eq!(
        [solved.refusal, solved.turns],
        [expected.refusal, expected.turns],
        "{}",
        about()
    );
    assert!(
        is_written(slices[0].read(), &expected.answers, POISON),
        "{}",
        about()
    );
    assert!(
        slices[4].read().iter().all(|word| *word == 0),
        "{}",
        about()
    );
}

#[test]
fn pages_beside_the_slices_are_not_touched() {
    let mut rng = Rng::new(1, "pages beside slices");
    for fence in [Fence::Before, Fence::Behind] {
        for (_, problem) in telling_problems() {
            agree(&judge::solve_cases::no_records(), &problem, fence);
        }
        for (classes, problem, _) in faulty() {
            agree(&classes, &problem, fence);
        }
        let small = judge::solve_cases::problem(1, &[], [&[]; 4]);
        for (_, classes, _) in faulty_layers() {
            agree(&classes, &small, fence);
        }
        for round in 0..cases(200) {
            let classes = any_stack(&mut rng, 12);
            let mut problem = any_problem(&mut rng, classes.names.at.len() as u64, 8);
            if round % 3 == 0 {
                damage_problem(&mut rng, &mut problem);
            }
            agree(&classes, &problem, fence);
        }
    }
}
