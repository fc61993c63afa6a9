//! Class tables of several layers to try: those that tell the rules of layers apart, those with a fault in a row that opens a
//! layer, and those at the limits of a layer from both sides.

use crate::class_cases::any_classes;
use crate::classes::{Classes, MAX_PAIRS, OBJECT};
use crate::layers::{Row, MAX_LAYERS, OPENS};
use crate::rng::Rng;

/// A table, and what its check says: refusal, part and row.
pub type Checked = (&'static str, Classes, [u64; 3]);

const ACCEPTED: [u64; 3] = [0, 0, 0];

/// The names of small tables, and the number of the last.
const NAMES: [&str; 4] = ["a", "b", "c", OBJECT];
const OBJECT_ITSELF: u64 = 3;

/// So many layers more, opened before, between and after the records of a table.
pub fn open_layers(rng: &mut Rng, classes: &Classes, more: u64) -> Classes {
    let mut rows = classes.rows();
    for _ in 0..more {
        let place = rng.below(rows.len() as u64 + 1) as usize;
        rows.insert(place, Row::opening());
    }
    let names = classes.names.names().expect("sound names");
    Classes::of_rows(&names, &rows)
}

/// A table of at most that many names in one to five layers; five are refused.
pub fn any_stack(rng: &mut Rng, most: u64) -> Classes {
    let classes = any_classes(rng, most);
    let more = *rng.pick(&[0, 0, 1, 2, 3, 4]);
    open_layers(rng, &classes, more)
}

/// A record of a case.
fn row(flags: u64, class: u64, parents: &[u64]) -> Row {
    Row::record(flags, class, parents)
}

/// A small table of these layers, the lowest first.
fn stack(layers: &[&[Row]]) -> Classes {
    Classes::of_rows(&NAMES, &layers.join(&Row::opening()))
}

/// Sound tables over a, b, c and java/lang/Object, by what they tell apart.
pub fn telling_layers() -> Vec<(&'static str, Classes)> {
    let chain = [row(1, 0, &[1]), row(0, 1, &[2])];
    let to_b = [row(1, 0, &[1])];
    let to_c = [row(0, 0, &[2])];
    let bare = [row(0, 0, &[])];
    vec![
        ("no record in any layer", stack(&[&[][..]; MAX_LAYERS])),
        ("an empty layer on top", stack(&[&chain, &[]])),
        ("an empty layer below", stack(&[&[], &chain])),
        ("two opened in a row", stack(&[&chain, &[], &to_c])),
        ("one layer is opened last", stack(&[&to_b, &to_c, &[]])),
        ("the same record in each", stack(&[&to_b[..]; MAX_LAYERS])),
        ("other parents above", stack(&[&chain, &to_c])),
        ("no parents above", stack(&[&chain, &bare])),
        ("parents again above none", stack(&[&chain, &bare, &to_c])),
        (
            "records of one layer unite",
            stack(&[&chain, &[to_c[0].clone(), row(0, 0, &[3])]]),
        ),
        (
            "facts stay where the parents go",
            stack(&[&[row(5, 0, &[1]), row(3, 2, &[])], &bare]),
        ),
        (
            "facts of the topmost that declares",
            stack(&[&[row(5, 0, &[]), row(3, 2, &[])], &[row(1, 0, &[])], &bare]),
        ),
        (
            "declared above alone",
            stack(&[&[row(0, 0, &[1]), row(3, 2, &[])], &[row(1, 0, &[1])]]),
        ),
        (
            "a cycle across layers",
            stack(&[&chain, &[row(1, 2, &[0])]]),
        ),
        (
            "a cycle that a layer opens up",
            stack(&[&[row(1, 0, &[1]), row(1, 1, &[0])], &[row(1, 1, &[2])]]),
        ),
        (
            "a class above itself in a layer",
            stack(&[&chain, &[row(1, 1, &[1])]]),
        ),
        (
            "a walk from below goes on above",
            stack(&[&chain, &[row(0, 1, &[OBJECT_ITSELF])], &[row(0, 2, &[])]]),
        ),
        (
            "Object recorded in a layer",
            stack(&[
                &[row(1, 0, &[OBJECT_ITSELF])],
                &[row(1, OBJECT_ITSELF, &[])],
            ]),
        ),
        (
            "parents of Object in each",
            stack(&[
                &[bare[0].clone(), row(1, OBJECT_ITSELF, &[1])],
                &[row(1, OBJECT_ITSELF, &[2])],
                &[row(0, OBJECT_ITSELF, &[])],
            ]),
        ),
    ]
}

/// Small tables with a fault in a row that opens a layer, or with one beside it.
pub fn faulty_layers() -> Vec<Checked> {
    let record = row(1, 0, &[1, 2]);
    let opening = Row::opening();
    let refused = |number: u64, row: u64| [number, 2, row];
    let of = |rows: &[&Row]| {
        let rows: Vec<Row> = rows.iter().copied().cloned().collect();
        Classes::of_rows(&NAMES, &rows)
    };
    // Two records with a row between them that opens a layer, and a change of that row.
    let with = |change: fn(&mut Classes)| {
        let mut classes = of(&[&record, &opening, &record]);
        change(&mut classes);
        classes
    };
    let four = [&opening, &opening, &record, &opening];
    let fifth = |last: &Row| of(&[&four[..], &[last, &row(8, 9, &[])]].concat());
    vec![
        ("sound", with(|_| {}), ACCEPTED),
        ("of a class", with(|c| c.class[1] = 1), refused(3, 1)),
        (
            "of no class",
            with(|c| c.class[1] = u64::MAX),
            refused(3, 1),
        ),
        (
            "with a parent",
            with(|c| (c.at[1], c.len[1]) = (0, 1)),
            refused(3, 1),
        ),
        (
            "with 255 parents",
            with(|c| (c.at[1], c.len[1]) = (0, 255)),
            refused(3, 1),
        ),
        (
            "of endless length",
            with(|c| c.len[1] = u64::MAX),
            refused(3, 1),
        ),
        ("placed at the end", with(|c| c.at[1] = 4), ACCEPTED),
        ("placed past the end", with(|c| c.at[1] = 5), refused(3, 1)),
        (
            "placed far away",
            with(|c| c.at[1] = u64::MAX),
            refused(3, 1),
        ),
        ("flags 8f", with(|c| c.flags[1] = OPENS + 1), refused(6, 1)),
        ("flags 8d", with(|c| c.flags[1] = OPENS - 1), refused(6, 1)),
        (
            "flags 0e",
            with(|c| c.flags[1] = OPENS & 0x7f),
            refused(6, 1),
        ),
        (
            "flags 18e",
            with(|c| c.flags[1] = OPENS | 1 << 8),
            refused(6, 1),
        ),
        (
            "a fault below",
            with(|c| (c.flags[0], c.class[1]) = (2, 1)),
            refused(6, 0),
        ),
        ("a fault above", with(|c| c.flags[2] = 2), refused(6, 2)),
        ("four layers", of(&four), ACCEPTED),
        ("five layers", fifth(&opening), refused(8, 4)),
        (
            "five layers, the last of a class",
            fifth(&row(OPENS, 2, &[])),
            refused(3, 4),
        ),
        (
            "five layers, the last with parents",
            fifth(&row(OPENS, 0, &[1])),
            refused(3, 4),
        ),
        ("six layers", of(&[&opening; 5]), refused(8, 3)),
        (
            "over no names",
            Classes::of_rows::<&str>(&[], &[Row::opening()]),
            [9, 3, 0],
        ),
        (
            "over no Object",
            Classes::of_rows(&["a"], &[Row::opening()]),
            [9, 3, 0],
        ),
    ]
}

/// Records with so many distinct pairs in all, 200 a class from that one on.
fn pairs(first: u64, count: usize) -> Vec<Row> {
    let starts = (0..count).step_by(200);
    let of_class = |(class, start): (u64, usize)| {
        let parents: Vec<u64> = (0..(count - start).min(200) as u64).collect();
        row(0, class, &parents)
    };
    (first..).zip(starts).map(of_class).collect()
}

/// Tables of 1,024 names whose layers are full, and those with one pair or one layer too many.
pub fn full_layers() -> Vec<Checked> {
    let mut names: Vec<String> = (0..1023).map(|number| format!("{number:04}")).collect();
    names.push(OBJECT.to_string());
    let of = |layers: &[&[Row]]| Classes::of_rows(&names, &layers.join(&Row::opening()));
    // 21 records each, of classes of their own, so that all pairs are shown.
    let full = [0, 100, 200, 300].map(|first| pairs(first, MAX_PAIRS));
    let [lowest, second, third, topmost] = full.each_ref().map(Vec::as_slice);
    let also = |rows: &[Row], more: Row| [rows, &[more]].concat();
    let one_more = row(0, 900, &[5]);
    // A pair that the layer has, and one that only the layer below has.
    let (own, below) = (row(5, 101, &[7, 7]), row(0, 1, &[7]));
    let after = |layers: &[&[Row]]| {
        let rows: usize = layers.iter().map(|rows| rows.len() + 1).sum();
        [8, 2, rows as u64 - 2]
    };
    let refused = |what, layers: &[&[Row]]| (what, of(layers), after(layers));
    let taken = |what, layers: &[&[Row]]| (what, of(layers), ACCEPTED);
    vec![
        taken("four full layers", &[lowest, second, third, topmost]),
        refused("a fifth layer", &[lowest, second, third, topmost, &[]]),
        refused(
            "one pair too many in the lowest",
            &[&also(lowest, one_more.clone())],
        ),
        refused(
            "one pair too many in the second",
            &[lowest, &also(second, one_more.clone())],
        ),
        refused(
            "one pair too many in the topmost",
            &[lowest, second, third, &also(topmost, one_more.clone())],
        ),
        taken("one pair over a full layer", &[lowest, &[one_more]]),
        taken("the same pairs in each", &[lowest, lowest, lowest, lowest]),
        taken(
            "a pair that the full layer has",
            &[lowest, &also(second, own)],
        ),
        refused(
            "a pair that the layer below has",
            &[lowest, &also(second, below)],
        ),
        taken(
            "a full layer replaced by one record",
            &[lowest, &[row(0, 0, &[])]],
        ),
        taken("empty layers over a full one", &[lowest, &[], &[], &[]]),
    ]
}
