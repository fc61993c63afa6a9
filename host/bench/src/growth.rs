//! How times grow as tables do: series of points, for the plots.

use std::hint::black_box;

use bracepuffin::{slices, ClassTable, ClassTableBuilder, Relations, WORK};
use dexdec::hierarchy::TypeHierarchy;

use crate::classes::{ends, index, program, table};
use crate::measure::{in_turns, repeated, Effort, Times};
use crate::solves;

/// Points of one kind of call: a size, and the times there.
pub struct Series {
    pub label: &'static str,
    pub points: Vec<(f64, Times)>,
}

/// Series over the same sizes.
pub struct Growth {
    pub name: &'static str,
    pub title: &'static str,
    pub unit: &'static str,
    pub series: Vec<Series>,
}

pub fn all(effort: Effort) -> Vec<Growth> {
    let asked = [
        one_question(effort),
        pairs(effort),
        layers(effort),
        threads(effort),
    ];
    asked.into_iter().chain(solves::growths(effort)).collect()
}

pub fn growth<const N: usize>(
    name: &'static str,
    title: &'static str,
    unit: &'static str,
    labels: [&'static str; N],
    points: Vec<(usize, [Times; N])>,
) -> Growth {
    let series = labels.iter().enumerate().map(|(which, label)| Series {
        label,
        points: points
            .iter()
            .map(|(size, times)| (*size as f64, times[which]))
            .collect(),
    });
    Growth {
        name,
        title,
        unit,
        series: series.collect(),
    }
}

/// Sizes up to the largest table of an effort.
fn sizes(effort: Effort) -> [usize; 5] {
    let most = effort.sizes[2];
    [most / 20, most / 10, most / 4, most / 2, most].map(|size| size.max(12))
}

/// A relation, as names grow.
fn one_question(effort: Effort) -> Growth {
    let points = sizes(effort).map(|count| {
        let classes = program(count);
        let (index, table) = (index(&classes), table(&classes));
        let [left, right] = ends(&classes);
        let number = |name| table.class_number(name).expect("in the table").get();
        let (l, r) = (number(left), number(right));
        let relations = Relations::of(&table);
        let (mut work, columns) = (vec![0; WORK], table.columns());
        let calls: [&mut dyn FnMut(u64); 4] = [
            &mut repeated(|| index.subtype_relation(black_box(left), right)),
            &mut repeated(|| slices::relation(columns, black_box(l), r, &mut work)),
            &mut repeated(|| slices::check_table(black_box(columns))),
            &mut repeated(|| relations.relation(black_box(left), right)),
        ];
        (count, in_turns(effort, calls))
    });
    growth(
        "names",
        "One relation, as names grow",
        "names",
        [
            "Rust, caches warm",
            "boundary",
            "check of the table",
            "Relations, asked before",
        ],
        points.to_vec(),
    )
}

/// That many pairs over as many names as the effort's largest table, in records of eight parents that ascend or do not.
fn paired(names: usize, pairs: usize, step: usize) -> ClassTable {
    let named: Vec<String> = (0..names - 1)
        .map(|name| format!("app/Class{name:04}"))
        .collect();
    let mut builder = ClassTableBuilder::new();
    let mut left = pairs;
    for record in 0..pairs.div_ceil(8) {
        let class = record * step % named.len();
        let parents =
            (0..left.min(8)).map(|which| named[(class + 7 * which + 1) % named.len()].as_str());
        builder.add(&named[class], parents);
        left -= left.min(8);
    }
    for name in &named {
        builder.name(name);
    }
    builder.build().expect("a sound table")
}

/// The check of a table, as its pairs grow: as the builder lends them, ascending, and with the records reversed.
fn pairs(effort: Effort) -> Growth {
    let names = effort.sizes[2];
    let points = [1, 2, 4, 8].map(|eighths| {
        let pairs = names * eighths / 2;
        let table = paired(names, pairs, 1);
        let columns = table.columns();
        let reversed = |column: &[u64]| column.iter().rev().copied().collect::<Vec<u64>>();
        let (flags, class) = (reversed(columns.rec_flags), reversed(columns.rec_class));
        let (at, len) = (reversed(columns.rec_at), reversed(columns.rec_len));
        let descending = slices::ClassColumns {
            rec_flags: &flags,
            rec_class: &class,
            rec_at: &at,
            rec_len: &len,
            ..columns
        };
        let calls: [&mut dyn FnMut(u64); 2] = [
            &mut repeated(|| slices::check_table(black_box(columns))),
            &mut repeated(|| slices::check_table(black_box(descending))),
        ];
        (pairs, in_turns(effort, calls))
    });
    growth(
        "pairs",
        "The check of a table, as pairs grow",
        "pairs of a class and a parent",
        ["records ascending", "records descending"],
        points.to_vec(),
    )
}

/// Classes in layers of eight, each under four of the layer above: many common ancestors.
fn layered(layers: usize) -> Vec<(String, Vec<String>)> {
    let name = |layer: usize, place: usize| format!("l{layer:03}/C{place}");
    let mut classes = Vec::new();
    for layer in 0..layers {
        for place in 0..8 {
            let parents = match layer {
                0 => vec!["java/lang/Object".to_string()],
                _ => (0..4)
                    .map(|which| name(layer - 1, (place + 2 * which) % 8))
                    .collect(),
            };
            classes.push((name(layer, place), parents));
        }
    }
    classes
}

/// A supertype at the bottom of layers, as these grow.
fn layers(effort: Effort) -> Growth {
    let most = effort.sizes[2] / 8;
    let points = [most / 8, most / 4, most / 2, most].map(|layers| {
        let classes = layered(layers.max(1));
        let mut builder = ClassTableBuilder::new();
        let mut index = dexdec::hierarchy::ClassHierarchyIndex::default();
        for (class, parents) in &classes {
            builder.add(class, parents.iter().map(String::as_str));
            index.add(class.clone(), parents.clone());
        }
        let table = builder.build().expect("a sound table");
        let (left, right) = (&classes[classes.len() - 1].0, &classes[classes.len() - 2].0);
        let calls: [&mut dyn FnMut(u64); 2] = [
            &mut repeated(|| index.least_common_supertype(black_box(left), right)),
            &mut repeated(|| table.supertype(black_box(left), right).len()),
        ];
        (classes.len() + 1, in_turns(effort, calls))
    });
    growth(
        "layers",
        "One supertype over layers of eight, each class under four of the layer above",
        "names",
        ["Rust, caches warm", "wrapper"],
        points.to_vec(),
    )
}

/// That many questions by each of so many threads.
fn by_threads<T>(threads: usize, questions: usize, ask: impl Fn() -> T + Sync) {
    std::thread::scope(|scope| {
        for _ in 0..threads {
            scope.spawn(|| {
                for _ in 0..questions {
                    black_box(&ask());
                }
            });
        }
    });
}

/// A relation over a table that threads share: what a thread waits for its answer, as they grow in number.
fn threads(effort: Effort) -> Growth {
    const QUESTIONS: usize = 200;
    let classes = program(effort.sizes[0]);
    let (mut index, table) = (index(&classes), table(&classes));
    index.freeze_distances();
    let [left, right] = ends(&classes);
    let relations = Relations::of(&table);
    let most = std::thread::available_parallelism().map_or(1, usize::from);
    let counts = [1, 2, 4, 8, 16, 32].into_iter();
    let counts = counts.filter(|count| *count == 1 || *count <= most);
    let points = counts.map(|count| {
        let rust = || index.subtype_relation(black_box(left), right);
        let wrapper = || table.relation(black_box(left), right);
        let kept = || relations.relation(black_box(left), right);
        let calls: [&mut dyn FnMut(u64); 3] = [
            &mut repeated(|| by_threads(count, QUESTIONS, rust)),
            &mut repeated(|| by_threads(count, QUESTIONS, wrapper)),
            &mut repeated(|| by_threads(count, QUESTIONS, kept)),
        ];
        let times = in_turns(effort, calls);
        (
            count,
            times.map(|times| times.scaled(1.0 / QUESTIONS as f64)),
        )
    });
    growth(
        "threads",
        "One relation by each thread, over a table that they share (their start included)",
        "threads",
        ["Rust, frozen", "wrapper", "Relations, asked before"],
        points.collect(),
    )
}
