//! Problems within the limits that are made to take long, one call of the boundary each. The Rust takes minutes to hours for
//! some of them, and is not asked.

use std::time::Instant;

use bracepuffin::{ClassTable, ClassTableBuilder};
use judge::solve_cases::{array, class, problem, EXACT, FALLBACK, INT, LOWER, UPPER};
use judge::solves::Columns;

use crate::measure::{Effort, Times};
use crate::problems::Lent;
use crate::small::Cost;

type Bounds = Vec<(u64, u64, u64)>;
type Links = Vec<(u64, u64)>;

/// How far the problems go: each limit divided by a number.
#[derive(Debug, Clone, Copy)]
struct Reach {
    dimensions: u64,
    names: u64,
    components: u64,
    bounds: u64,
    /// Of a ladder down which bounds go.
    rungs: u64,
}

impl Reach {
    fn of(effort: Effort) -> Self {
        let part = effort.hostile_part;
        Self {
            dimensions: 255 / part,
            names: 1016 / part / 8 * 8,
            components: 512 / part,
            bounds: 4096 / part,
            rungs: 80 / part,
        }
    }
}

struct Hostile {
    what: String,
    table: ClassTable,
    columns: Columns,
}

/// The time of each, with its turns and final bounds.
pub fn costs(effort: Effort) -> Vec<Cost> {
    let reach = Reach::of(effort);
    let mut all = quick(reach);
    for names in [reach.names / 8, reach.names / 4, reach.names] {
        all.extend(uppers_of(reach, names));
    }
    for (uppers, rungs) in [(8, 4), (4, 2)] {
        all.push(gaining(reach.names / uppers, reach.rungs / rungs));
    }
    all.extend([climbing(reach, true), climbing(reach, false)]);
    all.push(crowded(reach));
    all.into_iter().map(timed).collect()
}

fn timed(hostile: Hostile) -> Cost {
    let mut lent = Lent::of(&hostile.columns);
    let start = Instant::now();
    let solved = lent.solve(hostile.table.columns(), &hostile.columns);
    let took = start.elapsed().as_nanos() as f64;
    let came = match solved.refusal {
        0 => format!("{} turns, {} final bounds", solved.turns, solved.bounds),
        refusal => format!("refused {refusal}"),
    };
    (format!("{} ({came})", hostile.what), Times::once(took))
}

fn quick(reach: Reach) -> Vec<Hostile> {
    let mut all = vec![
        self_reads(reach, 1),
        self_reads(reach, reach.bounds / (reach.dimensions + 1)),
        circle(reach, 2),
        circle(reach, 9),
        ladder(reach),
    ];
    for is_joined in [false, true] {
        all.push(far_apart(reach, "a chain", chain(reach.names), is_joined));
        all.push(far_apart(
            reach,
            "layers",
            layers(reach.names, true),
            is_joined,
        ));
    }
    all
}

/// Object alone: class 0.
fn object() -> ClassTable {
    ClassTableBuilder::new().build().expect("a sound table")
}

/// Each class below the one before it, so that what is most specific is the last of the order.
fn chain(names: u64) -> ClassTable {
    let named: Vec<String> = (0..names).map(|name| format!("chain/C{name:04}")).collect();
    let mut builder = ClassTableBuilder::new();
    builder.add(&named[0], ["java/lang/Object"]);
    for pair in named.windows(2) {
        builder.add(&pair[1], [pair[0].as_str()]);
    }
    builder.build().expect("a sound table")
}

/// Layers of eight, each class under four of the layer above: many common ancestors. The lowest layer is the first or the last
/// of the order.
fn layers(names: u64, is_lowest_first: bool) -> ClassTable {
    let layers = names / 8;
    let name = |layer: u64, place: u64| match is_lowest_first {
        true => format!("a{layer:03}/C{place}"),
        false => format!("a{:03}/C{place}", layers - 1 - layer),
    };
    let above = |layer: u64, place: u64| match layer + 1 < layers {
        true => (0..4)
            .map(|which| name(layer + 1, (place + 2 * which) % 8))
            .collect(),
        false => vec!["java/lang/Object".to_string()],
    };
    let each = (0..layers).flat_map(|layer| (0..8).map(move |place| (layer, place)));
    let classes: Vec<(String, Vec<String>)> = each
        .map(|(layer, place)| (name(layer, place), above(layer, place)))
        .collect();
    let mut builder = ClassTableBuilder::new();
    for (class, parents) in &classes {
        builder.add(class, parents.iter().map(String::as_str));
    }
    builder.build().expect("a sound table")
}

/// Components that read themselves: each turn takes a dimension off, and the component gains a bound.
fn self_reads(reach: Reach, components: u64) -> Hostile {
    let deep = array(reach.dimensions, class(0));
    let bounds: Bounds = (0..components).map(|of| (of, EXACT, deep)).collect();
    let reads: Links = (0..components).map(|of| (of, of)).collect();
    Hostile {
        what: format!(
            "{components} that read themselves from {} dimensions",
            reach.dimensions
        ),
        table: object(),
        columns: problem(components, &bounds, [&[], &[], &reads, &[]]),
    }
}

/// Each is read from the one before it, and the last flows back to the first, which goes down that many dimensions a round.
fn circle(reach: Reach, components: u64) -> Hostile {
    let reads: Links = (1..components).map(|of| (of - 1, of)).collect();
    let bounds = [(0, LOWER, array(reach.dimensions, class(0)))];
    Hostile {
        what: format!("a circle of {} reads and a flow", reads.len()),
        table: object(),
        columns: problem(
            components,
            &bounds,
            [&[(components - 1, 0)], &[], &reads, &[]],
        ),
    }
}

/// Fallbacks that go down a chain of flows one step a round, so that a component near its end gains one again and again.
fn ladder(reach: Reach) -> Hostile {
    let mut components = 1;
    while (components + 1) * (components + 2) / 2 <= reach.bounds {
        components += 1;
    }
    let bounds: Bounds = (0..components)
        .map(|of| (of, FALLBACK, array(of, INT)))
        .collect();
    let flows: Links = (1..components).map(|of| (of, of - 1)).collect();
    Hostile {
        what: format!("fallbacks down a ladder of {components}"),
        table: object(),
        columns: problem(components, &bounds, [&flows, &[], &[], &[]]),
    }
}

/// Over a chain and over layers of about so many names.
fn uppers_of(reach: Reach, names: u64) -> [Hostile; 2] {
    let names = (names / 8 * 8).max(8);
    [
        uppers(reach, names, "a chain", chain(names)),
        uppers(reach, names, "layers", layers(names, false)),
    ]
}

/// Arrays of all classes expected of one component, which has all reads that it can have. Every pair of them is asked about,
/// as far as those before it in the order are above it.
fn uppers(reach: Reach, names: u64, name: &str, table: ClassTable) -> Hostile {
    let each = (0..names).map(|number| (0, UPPER, array(1, class(number))));
    let bounds: Bounds = each.collect();
    let out = (0..reach.components).map(|other| (0, other));
    let back = (1..reach.components).map(|other| (other, 0));
    let reads: Links = out.chain(back).collect();
    Hostile {
        what: format!(
            "{} uppers of one component over {name}, {} reads",
            bounds.len(),
            reads.len()
        ),
        table,
        columns: problem(reach.components, &bounds, [&[], &[], &reads, &[]]),
    }
}

/// Arrays of classes of a chain expected of a component that is written to and so asks for the most specific one each turn; one
/// more comes in each round, up a ladder of upper flows.
fn gaining(uppers: u64, rungs: u64) -> Hostile {
    let (uppers, rungs) = (uppers.max(2), rungs.max(2));
    let expected = |number| array(1, class(number));
    let own = (0..uppers).map(|number| (0, UPPER, expected(number)));
    let others = (1..=rungs).map(|rung| (rung, UPPER, expected(uppers + rung - 1)));
    let bounds: Bounds = own.chain(others).collect();
    let flows: Links = (0..rungs).map(|rung| (rung, rung + 1)).collect();
    let value = rungs + 1;
    Hostile {
        what: format!("{uppers} uppers of one component over a chain, {rungs} more one by one"),
        table: chain(uppers + rungs),
        columns: problem(value + 1, &bounds, [&[], &flows, &[], &[(0, value)]]),
    }
}

/// Every class comes in, in as many components as there is room for; joined by flows from each to the next or not.
fn far_apart(reach: Reach, name: &str, table: ClassTable, is_joined: bool) -> Hostile {
    let components = 3;
    let each = (0..components).flat_map(|of| {
        let classes = 0..reach.names;
        classes.map(move |number| (of, LOWER, class(number)))
    });
    let bounds: Bounds = each.collect();
    let flows: Links = match is_joined {
        true => (0..components)
            .map(|of| (of, (of + 1) % components))
            .collect(),
        false => Vec::new(),
    };
    let joined = if is_joined { ", in a circle" } else { "" };
    Hostile {
        what: format!("{} lower bounds over {name}{joined}", bounds.len()),
        table,
        columns: problem(components, &bounds, [&flows, &[], &[], &[]]),
    }
}

/// A chain of classes, and beside each of them one with the same parent: the join of all the latter climbs the chain one step with
/// each. It is asked for again each round, since one that reads itself sends an upper bound up. The chain's numbers rise with it or
/// fall.
fn climbing(reach: Reach, is_lowest_first: bool) -> Hostile {
    let steps = (reach.names / 2).saturating_sub(2).max(2);
    let name = |step: u64| match is_lowest_first {
        true => format!("z/{step:04}"),
        false => format!("z/{:04}", steps - step),
    };
    let above = |step: u64| match step < steps {
        true => name(step + 1),
        false => "java/lang/Object".to_string(),
    };
    let chain = (0..=steps).map(|step| (name(step), above(step)));
    let beside = (0..steps).map(|step| (format!("b/{step:04}"), above(step)));
    let first = ("a".to_string(), name(0));
    let classes: Vec<(String, String)> = chain.chain(beside).chain([first]).collect();
    let mut builder = ClassTableBuilder::new();
    for (class, parent) in &classes {
        builder.add(class, [parent.as_str()]);
    }
    // By number: a, those beside the chain, Object.
    let incoming = (0..=steps).map(|number| (0, LOWER, class(number)));
    let deep = array(reach.dimensions, class(steps + 1));
    let bounds: Bounds = incoming.chain([(2, EXACT, deep)]).collect();
    let order = if is_lowest_first { "rise" } else { "fall" };
    Hostile {
        what: format!(
            "{} lower bounds whose join climbs, again and again; numbers {order}",
            steps + 1
        ),
        table: builder.build().expect("a sound table"),
        columns: problem(3, &bounds, [&[(0, 1)], &[(0, 2)], &[(2, 2)], &[]]),
    }
}

/// One component with every class as a lower and an upper bound, and all variables.
fn crowded(reach: Reach) -> Hostile {
    let kinds = [LOWER, UPPER].into_iter();
    let bounds: Bounds = kinds
        .flat_map(|kind| (0..reach.names).map(move |number| (0, kind, class(number))))
        .collect();
    let mut columns = problem(1, &bounds, [&[], &[], &[], &[]]);
    columns.variables = vec![0; 4 * reach.components as usize];
    Hostile {
        what: format!(
            "{} variables of one component with {} bounds",
            columns.variables.len(),
            bounds.len()
        ),
        table: chain(reach.names),
        columns,
    }
}

#[cfg(test)]
mod tests {
    use super::*;

    /// None is refused: they run to their ends.
    #[test]
    fn none_is_refused() {
        for (what, _) in costs(Effort::LEAST) {
            assert!(!what.contains("refused"), "{what}");
        }
    }
}
