//! Where a table is refused: the rows before the one that is told are taken, and with it the refusal is the one that is told.

use judge::classes::{Classes, OBJECT, WORK};
use judge::layer_cases::{any_stack, faulty_layers, full_layers};
use judge::layers::OPENS;
use judge::rng::Rng;

/// The table with its first names and records alone.
fn cut(table: &Classes, names: usize, records: usize) -> Classes {
    let mut cut = table.clone();
    cut.names.at.truncate(names);
    cut.names.len.truncate(names);
    for column in [&mut cut.flags, &mut cut.class, &mut cut.at, &mut cut.len] {
        column.truncate(records);
    }
    cut
}

/// One entry of a column, a byte of the names or a whole row, changed.
fn damage(rng: &mut Rng, table: &mut Classes) {
    let number = *rng.pick(&[0, 1, 2, 4, 8, OPENS, 255, 256, 1 << 32, u64::MAX]);
    let columns = [
        &mut table.names.at,
        &mut table.names.len,
        &mut table.flags,
        &mut table.class,
        &mut table.at,
        &mut table.len,
        &mut table.parents,
    ];
    let column = columns.into_iter().nth(rng.below(7) as usize);
    let column = column.expect("seven columns");
    if column.is_empty() || rng.below(12) == 0 {
        return column.push(number);
    }
    let row = rng.below(column.len() as u64) as usize;
    column[row] = number;
    let at = rng.below(table.names.store.len() as u64) as usize;
    if rng.below(4) == 0 {
        table.names.store[at] = 0xff;
    }
}

#[test]
fn the_row_that_is_told_is_the_first_refused() {
    let mut rng = Rng::new(1, "table_checks");
    let mut parts = [0; 4];
    for _ in 0..4_000 {
        let mut table = any_stack(&mut rng, 6);
        for _ in 0..rng.below(3) {
            damage(&mut rng, &mut table);
        }
        let told = table.check();
        let [number, part, row] = told;
        assert_eq!(number, table.refusal(&[], WORK), "{table:?}");
        parts[part as usize] += u64::from(number > 0);
        let (names, row) = (table.names.at.len(), row as usize);
        let (before, with) = match part {
            1 => (cut(&table, row, 0), cut(&table, row + 1, 0)),
            2 => (cut(&table, names, row), cut(&table, names, row + 1)),
            _ => continue,
        };
        assert!(
            [[0, 0, 0], [9, 3, 0]].contains(&before.check()),
            "{table:?}"
        );
        assert_eq!(with.check(), told, "{table:?}");
    }
    assert!(parts.iter().all(|count| *count > 20), "{parts:?}");
}

/// A row that opens a layer, and how many pairs and layers there is room for.
#[test]
fn layers_that_are_refused() {
    for (what, table, told) in faulty_layers().into_iter().chain(full_layers()) {
        assert_eq!(table.check(), told, "{what}");
        // What is asked about comes after the rows and before the name of Object.
        let asked = match told[0] {
            0 | 9 => 6,
            refusal => refusal,
        };
        assert_eq!(table.refusal(&[u64::MAX], WORK), asked, "{what}");
    }
}

#[test]
fn at_the_limits() {
    let names: Vec<String> = (0..1025).map(|number| format!("{number:04}")).collect();
    assert_eq!(Classes::of(&names[..1024]).check(), [9, 3, 0]);
    assert_eq!(Classes::of(&names).check(), [8, 1, 1024]);
    // 96 names of 255 bytes are 24,480 bytes.
    let long = |number| format!("{number:0255}");
    let mut names: Vec<String> = (0..96).map(long).collect();
    names.push(format!("1{:095}", 0));
    assert_eq!(Classes::of(&names).check(), [9, 3, 0]);
    names[96].push('0');
    assert_eq!(Classes::of(&names).check(), [8, 1, 96]);
    // 4,096 pairs; a pair that is there is no other.
    let mut names: Vec<String> = (0..100).map(|number| format!("{number:02}")).collect();
    names.push(OBJECT.to_string());
    let mut table = Classes::of(&names);
    let parents: Vec<u64> = (0..100).collect();
    (0..40).for_each(|class| table.push(1, class, &parents));
    table.push(1, 40, &parents[..96]);
    table.push(1, 0, &parents);
    assert_eq!(table.check(), [0, 0, 0]);
    table.push(1, 40, &[96]);
    assert_eq!(table.check(), [8, 2, 42]);
}
