//! Cases for solves: a table in one line, then problems over it, judged by lattice.rs and, for what is refused before it runs,
//! by the rules of the paper.

use judge::classes::Classes;
use judge::solve_cases::{
    any_problem, any_type, array, damage_problem, faulty, make_deep, no_records, problem,
    telling_problems, EXACT, FALLBACK, UPPER,
};
use judge::solves::{Columns, Lent, Solved, MAX_BOUNDS};

use crate::out::{bytes, list, numbers, Out};
use crate::rng::Rng;
use crate::tables::{any_table, damage, layered_table};

/// Refusal, turns, the answers, and three columns of final bounds.
fn answer(solved: &Solved) -> Vec<u64> {
    let mut answer = vec![solved.refusal, solved.turns];
    answer.extend(list(solved.answers.iter().copied()));
    for column in 0..3 {
        answer.extend(list(solved.bounds.iter().map(|row| row[column])));
    }
    answer
}

/// The table in a line, and how a problem without components ends over it.
pub(crate) fn begin(out: &mut Out, table: &Classes) {
    let mut arguments = vec![bytes(&table.names.store)];
    let columns = [
        &table.names.at,
        &table.names.len,
        &table.flags,
        &table.class,
        &table.at,
        &table.len,
        &table.parents,
    ];
    for column in columns {
        arguments.extend(numbers(&list(column.iter().copied())));
    }
    let none = Columns::default();
    let solved = table.solve(&none, none.least());
    out.begin("table", &arguments, &numbers(&answer(&solved)));
}

/// A problem in a line, as its columns and the slices are lent.
fn arguments(columns: &Columns, lent: Lent) -> Vec<u64> {
    let mut arguments = vec![lent.answers as u64];
    arguments.extend(lent.columns.map(|length| length as u64));
    arguments.extend([lent.work as u64, columns.components]);
    let mut push = |column: &Vec<u64>| arguments.extend(list(column.iter().copied()));
    push(&columns.variables);
    columns.bounds.iter().for_each(&mut push);
    for link in [
        &columns.flows,
        &columns.upper_flows,
        &columns.reads,
        &columns.writes,
    ] {
        link.iter().for_each(&mut push);
    }
    arguments
}

/// A problem over the last table, left out where the line would be too long.
pub(crate) fn solve(out: &mut Out, name: &str, table: &Classes, columns: &Columns, lent: Lent) {
    let solved = table.solve(columns, lent);
    out.case_if_short(name, &arguments(columns, lent), &answer(&solved));
}

/// The problems that tell readings apart, each under its point.
pub fn telling(_: &mut Rng, out: &mut Out) {
    let table = no_records();
    begin(out, &table);
    for (name, columns) in telling_problems() {
        let point = name.split(' ').next().expect("a point").to_lowercase();
        solve(out, &point, &table, &columns, columns.least());
    }
}

fn some_table(rng: &mut Rng, number: u64) -> Classes {
    let count = 1 + rng.below(7);
    match number % 2 {
        0 => any_table(rng, count),
        _ => layered_table(rng, count),
    }
}

/// The least that must be lent, or a little more.
fn some_room(rng: &mut Rng, columns: &Columns) -> Lent {
    let mut lent = columns.least();
    lent.answers += rng.below(3) as usize;
    lent.columns[rng.below(3) as usize] += rng.below(3) as usize;
    lent.work += rng.below(3) as usize;
    lent
}

/// Sound problems of a few components over sound tables.
pub fn random(rng: &mut Rng, out: &mut Out) {
    for number in 0..out.cases(170) {
        let table = some_table(rng, number);
        begin(out, &table);
        let names = table.names.at.len() as u64;
        for number in 0..9 {
            let most = if number == 0 { 10 } else { 5 };
            let columns = any_problem(rng, names, most);
            let lent = some_room(rng, &columns);
            solve(out, "solve", &table, &columns, lent);
        }
    }
}

/// One slice shorter than it must be, or empty.
fn shorten(rng: &mut Rng, lent: &mut Lent) {
    let length = match rng.below(5) {
        0 => &mut lent.answers,
        1 => &mut lent.work,
        place => &mut lent.columns[place as usize - 2],
    };
    *length = match rng.below(3) {
        0 => 0,
        _ => length.saturating_sub(1),
    };
}

/// Each fault alone, then faults of tables, columns, rows and lent slices, one or two at once.
pub fn faults(rng: &mut Rng, out: &mut Out) {
    for (table, columns, _) in faulty() {
        begin(out, &table);
        solve(out, "fault", &table, &columns, columns.least());
        for place in 0..5 {
            let mut lent = columns.least();
            match place {
                0 => lent.answers -= 1,
                1 => lent.work -= 1,
                _ => lent.columns[place - 2] -= 1,
            }
            solve(out, "fault", &table, &columns, lent);
        }
    }
    for number in 0..out.cases(60) {
        let mut table = match number % 12 {
            // No name is java/lang/Object.
            6 => Classes::of(&["a", "b", "c"]),
            _ => some_table(rng, number),
        };
        let names = table.names.at.len() as u64;
        if number % 4 == 3 {
            damage(rng, &mut table);
        }
        begin(out, &table);
        for number in 0..8 {
            let mut columns = any_problem(rng, names, 4);
            (0..rng.below(3)).for_each(|_| damage_problem(rng, &mut columns));
            let mut lent = columns.least();
            if number % 4 == 0 {
                shorten(rng, &mut lent);
            }
            solve(out, "fault", &table, &columns, lent);
        }
    }
}

/// So many distinct types.
fn many_types(rng: &mut Rng, names: u64, count: usize) -> Vec<u64> {
    let mut types = Vec::new();
    while types.len() < count {
        let word = any_type(rng, names);
        if !types.contains(&word) {
            types.push(word);
        }
    }
    types
}

/// Bounds of one component that go to so many others, along or against links, that 4,096 are passed, or nearly; and an array of
/// about 255 dimensions with its write or read, which comes before or after.
fn wide(rng: &mut Rng, names: u64) -> Columns {
    let count = 56 + rng.below(16);
    let others = MAX_BOUNDS as u64 / count + rng.below(3);
    let components = others + 3;
    let centre = rng.below(others + 1);
    let (kind, is_forward) = *rng.pick(&[(FALLBACK, true), (UPPER, false), (EXACT, false)]);
    let types = many_types(rng, names, count as usize);
    let bounds: Vec<(u64, u64, u64)> = types.iter().map(|word| (centre, kind, *word)).collect();
    let links: Vec<(u64, u64)> = (0..=others)
        .filter(|other| *other != centre)
        .map(|other| match is_forward {
            true => (centre, other),
            false => (other, centre),
        })
        .collect();
    let links = match is_forward || rng.below(2) == 0 {
        true => [&links[..], &[], &[], &[]],
        false => [&[], &links[..], &[], &[]],
    };
    let mut columns = problem(components, &bounds, links);
    columns.variables.clear();
    let mut deep = Columns {
        components,
        ..Columns::default()
    };
    make_deep(rng, &mut deep);
    for row in 0..deep.bounds[0].len() {
        let [component, kind, word] = deep.bounds.each_ref().map(|column| column[row]);
        columns.bound(component, kind, word);
    }
    columns.reads = deep.reads;
    columns.writes = deep.writes;
    columns
}

/// 4,095 bounds by flows, and a deep array: what its write adds is refused for the depth before there is no room.
fn both_limits(dimensions: u64) -> Columns {
    let mut bounds: Vec<(u64, u64, u64)> = (0..7)
        .flat_map(|times| (1..10).map(move |base| (0, FALLBACK, array(times, base))))
        .collect();
    bounds.push((65, EXACT, array(dimensions, 5)));
    let flows: Vec<(u64, u64)> = (1..65).map(|other| (0, other)).collect();
    let mut columns = problem(67, &bounds, [&flows, &[], &[], &[(66, 65)]]);
    columns.variables.clear();
    columns
}

/// The refusals 20 and 21, and components on both sides of their limit.
pub fn limits(rng: &mut Rng, out: &mut Out) {
    let table = no_records();
    begin(out, &table);
    let mut limit = |columns: &Columns| solve(out, "limit", &table, columns, columns.least());
    for components in [511, 512, 513, u64::MAX] {
        limit(&Columns {
            components,
            ..Columns::default()
        });
    }
    for dimensions in [253, 254, 255] {
        limit(&both_limits(dimensions));
    }
    for number in 0..out.cases(14) {
        let table = some_table(rng, number);
        begin(out, &table);
        let names = table.names.at.len() as u64;
        for _ in 0..4 {
            let columns = wide(rng, names);
            solve(out, "limit", &table, &columns, columns.least());
        }
    }
}
