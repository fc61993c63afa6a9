//! Cases over tables of several layers, of the functions of `tables`, `joins` and `solves`: judged by hierarchy.rs with an
//! index for each layer, and lattice.rs over it.

use judge::classes::{Classes, WORK};
use judge::layer_cases::{faulty_layers, open_layers, telling_layers};
use judge::solve_cases::{any_problem, class_problem, damage_problem};

use crate::joins::{self, some_types};
use crate::out::Out;
use crate::rng::Rng;
use crate::solves::{begin, solve};
use crate::tables::{any_table, check_case, damage, layered_table, Asked};

/// A table of at most that many names in two to four layers.
fn any_layers(rng: &mut Rng, number: u64, most: u64) -> Classes {
    let count = 3 + rng.below(most - 2);
    let table = match number % 2 {
        0 => any_table(rng, count),
        _ => layered_table(rng, count),
    };
    open_layers(rng, &table, 1 + number % 3)
}

/// One of five, which is refused.
fn too_many(rng: &mut Rng) -> Classes {
    let table = any_table(rng, 4);
    open_layers(rng, &table, 4)
}

/// Tables that tell the rules of layers apart, random ones, and those with faults: what is asked of classes, of types, and
/// where they are refused.
pub fn queries(rng: &mut Rng, out: &mut Out) {
    for (_, table) in telling_layers() {
        Asked::new(out, &table, WORK).all(out);
    }
    for number in 0..out.cases(16) {
        let table = any_layers(rng, number, 6);
        Asked::new(out, &table, WORK).all(out);
    }
    for number in 0..out.cases(4) {
        let table = any_layers(rng, number, 60);
        Asked::new(out, &table, WORK).some(rng, out, 24);
    }
    for number in 0..out.cases(4) {
        let table = any_layers(rng, number, 5);
        let names = table.names().expect("a sound table");
        let types = some_types(rng, &names, 12);
        joins::all(out, &table, &types, &types, WORK);
    }
    let mut refused: Vec<Classes> = (0..3).map(|_| too_many(rng)).collect();
    refused.extend(faulty_layers().into_iter().map(|(_, table, _)| table));
    for table in &refused {
        Asked::new(out, table, WORK).some(rng, out, 1);
    }
    let telling = telling_layers().into_iter().map(|(_, table)| table);
    for table in refused.into_iter().chain(telling) {
        check_case(out, &table);
    }
    for number in 0..out.cases(30) {
        let mut table = any_layers(rng, number, 5);
        (0..rng.below(3)).for_each(|_| damage(rng, &mut table));
        check_case(out, &table);
    }
}

/// Problems over such tables, some with a fault.
pub fn solves(rng: &mut Rng, out: &mut Out) {
    for number in 0..out.cases(12) {
        let table = any_layers(rng, number, 7);
        let names = table.names.at.len() as u64;
        begin(out, &table);
        for number in 0..6 {
            let columns = match number {
                0 => any_problem(rng, names, 4),
                _ => class_problem(rng, names),
            };
            solve(out, "solve", &table, &columns, columns.least());
        }
        let mut columns = any_problem(rng, names, 3);
        damage_problem(rng, &mut columns);
        solve(out, "fault", &table, &columns, columns.least());
    }
}
