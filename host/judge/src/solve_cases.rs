//! Problems to try: random ones with every kind of link and bound, telling ones by name, damaged ones, and those at the limits.

use crate::classes::{Classes, OBJECT};
use crate::rng::Rng;
use crate::solves::{Columns, MAX_ARRAYS, MAX_BOUNDS, MAX_FLOWS, MAX_UPPER_FLOWS, MAX_VARIABLES};

pub const DOMAIN: u64 = 0;
pub const FALLBACK: u64 = 1;
pub const UPPER: u64 = 2;
pub const LOWER: u64 = 3;
pub const EXACT: u64 = 4;

pub const BOOLEAN: u64 = 1;
pub const INT: u64 = 5;

/// The array of a type, that many times.
pub fn array(dimensions: u64, word: u64) -> u64 {
    word + (dimensions << 56)
}

pub fn class(number: u64) -> u64 {
    1 << 48 | number
}

/// Unknown with these categories.
pub fn unknown(list: &[u64]) -> u64 {
    let digits = [list.len() as u64].into_iter().chain(list.iter().copied());
    let payload = digits
        .zip((0..12).rev())
        .fold(0, |payload, (digit, place)| payload | digit << (4 * place));
    2 << 48 | payload
}

fn column(rows: &[(u64, u64)]) -> [Vec<u64>; 2] {
    let left = rows.iter().map(|row| row.0);
    let right = rows.iter().map(|row| row.1);
    [left.collect(), right.collect()]
}

/// That many components with these bounds, and links: flows, upper flows, reads, writes.
pub fn problem(components: u64, bounds: &[(u64, u64, u64)], links: [&[(u64, u64)]; 4]) -> Columns {
    let [flows, upper_flows, reads, writes] = links.map(column);
    let mut columns = Columns {
        flows,
        upper_flows,
        reads,
        writes,
        ..Columns::of(components)
    };
    for (component, kind, word) in bounds {
        columns.bound(*component, *kind, *word);
    }
    columns
}

/// Two classes without a record, and Object: a is 0, b is 1.
pub fn no_records() -> Classes {
    Classes::of(&["a", "b", OBJECT])
}

/// The problems that tell readings apart, by the point of docs/DECISIONS.md that they decide, over `no_records`.
pub fn telling_problems() -> Vec<(&'static str, Columns)> {
    let (a, b) = (class(0), class(1));
    let none: &[(u64, u64)] = &[];
    let one = |bounds: &[(u64, u64, u64)]| problem(1, bounds, [none; 4]);
    vec![
        (
            "O52 targets",
            problem(
                3,
                &[(2, LOWER, array(2, a))],
                [&[(2, 1), (2, 0), (1, 2)], none, none, &[(0, 1)]],
            ),
        ),
        (
            "O52 sources",
            problem(
                2,
                &[(1, EXACT, array(1, a))],
                [&[(0, 0), (0, 1)], &[(1, 1)], &[(0, 0), (1, 1)], none],
            ),
        ),
        (
            "O53 one pass",
            problem(
                2,
                &[(1, LOWER, array(2, INT))],
                [none, none, &[(0, 1), (1, 1)], none],
            ),
        ),
        (
            "O53 reads first",
            problem(
                2,
                &[(1, LOWER, array(1, a))],
                [none, none, &[(1, 1)], &[(0, 1)]],
            ),
        ),
        (
            "O54",
            problem(
                1,
                &[(0, LOWER, array(2, b))],
                [none, none, &[(0, 0)], &[(0, 0)]],
            ),
        ),
        (
            "O55",
            problem(1, &[(0, LOWER, BOOLEAN)], [none, none, &[(0, 0)], none]),
        ),
        (
            "O56 flow",
            problem(1, &[(0, EXACT, INT)], [&[(0, 0)], none, none, none]),
        ),
        (
            "O56 upper flow",
            problem(1, &[(0, EXACT, INT)], [none, &[(0, 0)], none, none]),
        ),
        (
            "O57",
            problem(
                2,
                &[(0, LOWER, INT), (0, FALLBACK, BOOLEAN), (1, UPPER, INT)],
                [&[(0, 1)], &[(0, 1)], none, none],
            ),
        ),
        (
            "O57 upper flow alone",
            problem(
                2,
                &[(0, LOWER, INT), (0, FALLBACK, BOOLEAN), (1, UPPER, INT)],
                [none, &[(0, 1)], none, none],
            ),
        ),
        (
            "O58",
            one(&[(0, DOMAIN, array(1, BOOLEAN)), (0, EXACT, BOOLEAN)]),
        ),
        (
            "O59 same",
            one(&[(0, DOMAIN, INT), (0, DOMAIN, unknown(&[INT]))]),
        ),
        ("O59 two", one(&[(0, DOMAIN, INT), (0, DOMAIN, BOOLEAN)])),
        ("O60", one(&[(0, UPPER, b), (0, UPPER, a)])),
        (
            "O61",
            problem(
                2,
                &[(0, UPPER, array(1, INT)), (0, LOWER, a)],
                [none, none, &[(0, 1)], none],
            ),
        ),
        (
            "O61 alone",
            problem(
                2,
                &[(0, UPPER, array(1, INT))],
                [none, none, &[(0, 1)], none],
            ),
        ),
        (
            "O62",
            problem(
                2,
                &[(0, LOWER, array(1, unknown(&[INT])))],
                [none, none, &[(0, 1)], none],
            ),
        ),
        (
            "O62 not concrete",
            problem(
                2,
                &[(1, LOWER, unknown(&[INT]))],
                [none, none, &[(0, 1)], &[(0, 1)]],
            ),
        ),
        // 255 dimensions are taken further by a write: 20. 254 are not.
        (
            "O63 deep",
            problem(
                2,
                &[(0, EXACT, array(255, INT))],
                [none, none, none, &[(1, 0)]],
            ),
        ),
        (
            "O63 not too deep",
            problem(
                2,
                &[(0, EXACT, array(254, INT))],
                [none, none, none, &[(1, 0)]],
            ),
        ),
        (
            "O63 deep by a read",
            problem(
                2,
                &[(0, LOWER, array(255, INT))],
                [none, none, &[(1, 0)], none],
            ),
        ),
        ("O64 idle", problem(3, &[], [none; 4])),
        ("O64 none", problem(0, &[], [none; 4])),
        (
            "O65",
            Columns {
                variables: vec![1, 1, 1],
                ..problem(3, &[(2, LOWER, INT)], [&[(2, 1)], none, none, none])
            },
        ),
        (
            "O65 no variable",
            Columns {
                variables: Vec::new(),
                ..problem(2, &[(0, LOWER, INT)], [&[(0, 1)], none, none, none])
            },
        ),
        (
            "O67",
            one(&[
                (0, UPPER, array(1, unknown(&[]))),
                (0, UPPER, array(2, INT)),
            ]),
        ),
        ("O68", one(&[(0, DOMAIN, unknown(&[0]))])),
        (
            "O69",
            problem(
                3,
                &[(0, LOWER, INT), (2, UPPER, BOOLEAN), (2, EXACT, a)],
                [&[(0, 1)], &[(1, 2)], none, none],
            ),
        ),
        (
            "O70",
            one(&[(0, LOWER, array(1, INT)), (0, UPPER, class(2))]),
        ),
        ("O71", one(&[(0, LOWER, a), (0, LOWER, b)])),
    ]
}

/// A type over that many names: a few per problem, so that bounds meet.
pub fn any_type(rng: &mut Rng, names: u64) -> u64 {
    let base = match rng.below(8) {
        0 => rng.below(11),
        1 => *rng.pick(&[BOOLEAN, INT, 6, 8]),
        2 => unknown(&[rng.below(11)]),
        3 => any_unknown(rng),
        _ => class(rng.below(names)),
    };
    let dimensions = match rng.below(12) {
        0..=5 => 0,
        6..=8 => 1,
        9 => 2,
        _ => 3,
    };
    array(dimensions, base)
}

/// Any list of categories without repeats, in any order.
fn any_unknown(rng: &mut Rng) -> u64 {
    let mut left: Vec<u64> = (0..11).collect();
    let list: Vec<u64> = (0..rng.below(12))
        .map(|_| left.remove(rng.below(left.len() as u64) as usize))
        .collect();
    unknown(&list)
}

fn any_pairs(rng: &mut Rng, components: u64, most: u64) -> [Vec<u64>; 2] {
    let mut rows = [Vec::new(), Vec::new()];
    if components == 0 {
        return rows;
    }
    let near = rng.below(2) == 0;
    for _ in 0..rng.below(most + 1) {
        let left = rng.below(components);
        let right = match near {
            true => (left + rng.below(3)) % components,
            false => rng.below(components),
        };
        rows[0].push(left);
        rows[1].push(right);
    }
    rows
}

/// A sound problem of at most that many components over that many names: sparse or dense, rows in any order, with repeats.
pub fn any_problem(rng: &mut Rng, names: u64, most: u64) -> Columns {
    let components = match rng.below(24) {
        0 => 0,
        _ => 1 + rng.below(most),
    };
    let mut columns = Columns {
        components,
        ..Columns::default()
    };
    if components == 0 {
        return columns;
    }
    let variables = rng.below(components + 3);
    columns.variables = (0..variables).map(|_| rng.below(components)).collect();
    let types: Vec<u64> = (0..1 + rng.below(6))
        .map(|_| any_type(rng, names))
        .collect();
    // Arrays of each other, so that elements meet.
    let types: Vec<u64> = types
        .iter()
        .flat_map(|word| [*word, array(1, *word)])
        .collect();
    for _ in 0..rng.below(2 * components + 3) {
        columns.bound(rng.below(components), rng.below(5), *rng.pick(&types));
    }
    let each = 1 + rng.below(2 * components);
    columns.flows = any_pairs(rng, components, each);
    columns.upper_flows = any_pairs(rng, components, each / 2);
    columns.reads = any_pairs(rng, components, each / 2);
    columns.writes = any_pairs(rng, components, each / 2);
    if components > 1 && rng.below(10) == 0 {
        make_deep(rng, &mut columns);
    }
    columns
}

/// Classes alone that meet along flows: what they come to goes by the table more often than with types of every kind.
pub fn class_problem(rng: &mut Rng, names: u64) -> Columns {
    let components = 2 + rng.below(4);
    let mut columns = Columns::of(components);
    for component in 0..components {
        for _ in 0..1 + rng.below(2) {
            let kind = *rng.pick(&[LOWER, LOWER, UPPER, EXACT]);
            let word = array(rng.below(6) / 5, class(rng.below(names)));
            columns.bound(component, kind, word);
        }
    }
    columns.flows = any_pairs(rng, components, components + 1);
    columns.upper_flows = any_pairs(rng, components, 2);
    columns
}

/// An array of about 255 dimensions, and one write or read of it as the only link. A cycle would take its elements apart one
/// by one, each turn of which asks every pair of upper bounds: lattice.rs needs minutes for that.
pub fn make_deep(rng: &mut Rng, columns: &mut Columns) {
    let component = rng.below(columns.components);
    let other = (component + 1) % columns.components;
    let deep = array(253 + rng.below(3), *rng.pick(&[INT, class(0)]));
    columns.bound(component, *rng.pick(&[LOWER, EXACT, UPPER]), deep);
    columns.flows = column(&[]);
    columns.upper_flows = column(&[]);
    columns.reads = column(&[]);
    columns.writes = column(&[(other, component)]);
    if rng.below(2) == 0 {
        std::mem::swap(&mut columns.reads, &mut columns.writes);
    }
}

/// A fault in a problem's rows or columns. Some change nothing.
pub fn damage_problem(rng: &mut Rng, columns: &mut Columns) {
    let far = *rng.pick(&[5, 6, 255, 511, 512, 1 << 32, u64::MAX - 1, u64::MAX]);
    let past = columns.components.saturating_add(rng.below(2));
    let place = rng.below(2) as usize;
    let wrong_word = *rng.pick(&[
        11,
        class(1024),
        class(u64::from(u16::MAX)),
        3 << 48,
        unknown(&[INT, INT]),
        unknown(&[11]),
        unknown(&[INT]) | 1,
        u64::MAX,
    ]);
    let link = match rng.below(4) {
        0 => &mut columns.flows,
        1 => &mut columns.upper_flows,
        2 => &mut columns.reads,
        _ => &mut columns.writes,
    };
    match rng.below(10) {
        0 => drop(link[place].pop()),
        1 => link[place].push(0),
        2 => {
            link[0].push(past);
            link[1].push(0);
        }
        3 => {
            link[0].push(0);
            link[1].push(far);
        }
        4 => columns.variables.push(past),
        5 => columns.components = *rng.pick(&[513, 1 << 40, u64::MAX]),
        6 => columns.bound(past, LOWER, INT),
        7 => columns.bound(0, 5 + rng.below(2), INT),
        8 => columns.bound(0, UPPER, wrong_word),
        _ => columns.bounds[rng.below(3) as usize].push(0),
    }
}

/// As many distinct rows of a pair of columns as wanted, over 512 components.
fn many_pairs(count: usize) -> [Vec<u64>; 2] {
    let rows = 0..count as u64;
    [
        rows.clone().map(|row| row % 512).collect(),
        rows.map(|row| row / 512).collect(),
    ]
}

/// Problems with so many rows, or one more, of one kind, each with what it must be refused with.
pub fn full_problems() -> Vec<(&'static str, Columns, u64)> {
    let empty = Columns {
        components: 512,
        ..Columns::default()
    };
    let mut cases = Vec::new();
    for more in [0, 1] {
        let refusal = 8 * more as u64;
        let mut of = |name, columns| cases.push((name, columns, refusal));
        of("components", Columns::of(512 + more as u64));
        of(
            "variables",
            Columns {
                variables: vec![511; MAX_VARIABLES + more],
                ..empty.clone()
            },
        );
        of("bounds", many_bounds(MAX_BOUNDS + more));
        of(
            "flows",
            Columns {
                flows: many_pairs(MAX_FLOWS + more),
                ..empty.clone()
            },
        );
        of(
            "upper flows",
            Columns {
                upper_flows: many_pairs(MAX_UPPER_FLOWS + more),
                ..empty.clone()
            },
        );
        of(
            "reads",
            Columns {
                reads: many_pairs(MAX_ARRAYS + more),
                ..empty.clone()
            },
        );
        of(
            "reads and writes",
            Columns {
                reads: many_pairs(600),
                writes: many_pairs(MAX_ARRAYS - 600 + more),
                ..empty.clone()
            },
        );
    }
    // What is there already is never refused.
    let again = |link: [Vec<u64>; 2]| link.map(|column| [column.clone(), column].concat());
    let mut bounds = many_bounds(MAX_BOUNDS);
    bounds.bound(0, DOMAIN, bounds.bounds[2][0]);
    cases.push(("bounds again", bounds, 0));
    cases.push((
        "links again",
        Columns {
            flows: again(many_pairs(MAX_FLOWS)),
            upper_flows: again(many_pairs(MAX_UPPER_FLOWS)),
            reads: again(many_pairs(600)),
            writes: again(many_pairs(MAX_ARRAYS - 600)),
            ..empty
        },
        0,
    ));
    cases
}

/// So many distinct Domain bounds, ten types a component.
pub fn many_bounds(count: usize) -> Columns {
    let mut columns = Columns {
        components: 512,
        ..Columns::default()
    };
    for row in 0..count as u64 {
        columns.bound(row / 10, DOMAIN, row % 10);
    }
    columns
}

/// About 4,096 given bounds and a write that adds two: the array of what is written, then its element as an upper bound.
/// 20 where the array is too deep, 21 where one of them is new and there is no room for it.
pub fn overfull_problems() -> Vec<(Columns, u64)> {
    let with = |count: usize, dimensions: u64, more: &[(u64, u64, u64)]| {
        let mut columns = many_bounds(count - 1 - more.len());
        columns.bound(511, EXACT, array(dimensions, INT));
        for (component, kind, word) in more {
            columns.bound(*component, *kind, *word);
        }
        columns.writes = [vec![510], vec![511]];
        columns
    };
    let both = [(510, LOWER, array(4, INT)), (511, UPPER, array(3, INT))];
    vec![
        (with(MAX_BOUNDS, 255, &[]), 20),
        (with(MAX_BOUNDS - 2, 255, &[]), 20),
        (with(MAX_BOUNDS, 254, &[]), 21),
        (with(MAX_BOUNDS, 0, &[]), 21),
        (with(MAX_BOUNDS - 1, 3, &[]), 21),
        (with(MAX_BOUNDS - 2, 3, &[]), 0),
        (with(MAX_BOUNDS, 3, &both[..1]), 21),
        (with(MAX_BOUNDS, 3, &both), 0),
    ]
}

/// What each check of a solve refuses, in their order: a table, a problem over it and the number.
pub fn faulty() -> Vec<(Classes, Columns, u64)> {
    let table = no_records();
    let good = problem(2, &[(0, LOWER, INT)], [&[(0, 1)], &[], &[], &[]]);
    let with = |change: &dyn Fn(&mut Columns)| {
        let mut columns = good.clone();
        change(&mut columns);
        (table.clone(), columns)
    };
    let mut uneven = table.clone();
    uneven.flags.push(0);
    let mut flags = table.clone();
    flags.push(2, 0, &[]);
    let mut order = table.clone();
    order.names.at.swap(0, 1);
    let cases = [
        ((uneven, good.clone()), 3),
        (with(&|c| c.flows[1].push(0)), 3),
        ((order, good.clone()), 5),
        ((flags, good.clone()), 6),
        (with(&|c| c.components = 513), 8),
        (with(&|c| c.variables.push(2)), 6),
        (with(&|c| c.bound(2, LOWER, INT)), 6),
        (with(&|c| c.bound(0, 5, INT)), 6),
        (with(&|c| c.bound(0, LOWER, 11)), 7),
        (with(&|c| c.bound(0, LOWER, class(3))), 7),
        (with(&|c| c.flows = column(&[(2, 0)])), 6),
        (with(&|c| c.upper_flows = column(&[(0, 2)])), 6),
        (with(&|c| c.reads = column(&[(2, 0)])), 6),
        (with(&|c| c.writes = column(&[(0, u64::MAX)])), 6),
        ((Classes::of(&["a", "b", "c"]), good.clone()), 9),
    ];
    cases
        .into_iter()
        .map(|((table, columns), refusal)| (table, columns, refusal))
        .collect()
}
