//! Cases for class tables: a table in one line, then what is asked about it, judged by hierarchy.rs and, for what is
//! refused, by the rules of the paper.

use judge::classes::{Classes, Judge, OBJECT, WORK};

use crate::out::{bytes, list, numbers, Out};
use crate::rng::Rng;

/// Flags that a record may have: undeclared, or declared with its facts.
const FLAGS: [u64; 5] = [0, 1, 3, 5, 7];

/// The word of the type Int.
pub(crate) const INT: u64 = 5;

/// Short names in the order of bytes; java/lang/Object comes between the last capital and `k`.
fn names(count: u64, before: u64) -> Vec<String> {
    let letter = |first: u8, number: u64| {
        let digits = [first + (number / 16) as u8, b'a' + (number % 16) as u8];
        String::from_utf8(digits.to_vec()).expect("ASCII")
    };
    let mut names: Vec<String> = (0..before).map(|number| letter(b'A', number)).collect();
    names.push(OBJECT.to_string());
    names.extend((before + 1..count).map(|number| letter(b'k', number)));
    names
}

/// A table with that many names and no record; Object is first, last or in between.
fn no_records(rng: &mut Rng, count: u64) -> (Classes, u64) {
    let object = match rng.below(4) {
        0 => 0,
        1 => count - 1,
        _ => rng.below(count),
    };
    (Classes::of(&names(count, object)), object)
}

/// Any class may be above any, itself and Object included; records repeat, and some classes have none.
pub(crate) fn any_table(rng: &mut Rng, count: u64) -> Classes {
    let (mut table, _) = no_records(rng, count);
    let most = 1 + rng.below(3);
    for _ in 0..rng.below(2 * count + 1) {
        let class = rng.below(count);
        let parents: Vec<u64> = (0..rng.below(most + 1)).map(|_| rng.below(count)).collect();
        table.push(*rng.pick(&FLAGS), class, &parents);
    }
    table
}

/// As programs have them: no cycle, most classes have a record, and parents are near.
pub(crate) fn layered_table(rng: &mut Rng, count: u64) -> Classes {
    let (mut table, object) = no_records(rng, count);
    let unrecorded = *rng.pick(&[0, 0, 6]);
    let mut above = vec![object];
    for class in (0..count).filter(|class| *class != object) {
        if unrecorded == 0 || rng.below(unrecorded) > 0 {
            let near = above.len().min(4) as u64;
            let parent = |rng: &mut Rng| above[above.len() - 1 - rng.below(near) as usize];
            let parents: Vec<u64> = (0..1 + rng.below(2)).map(|_| parent(rng)).collect();
            let flags = match rng.below(6) {
                0 => 0,
                _ => *rng.pick(&FLAGS[1..]),
            };
            table.push(flags, class, &parents);
        }
        above.push(class);
    }
    if rng.below(2) == 0 {
        table.push(*rng.pick(&FLAGS), object, &[]);
    }
    table
}

/// Tables that tell the rules apart, over the names Aa, Ab, Ac, java/lang/Object, kd, ..
fn telling_tables() -> Vec<Classes> {
    let of = |count: u64, records: &[(u64, u64, &[u64])]| {
        let mut table = Classes::of(&names(count, 3.min(count - 1)));
        for (flags, class, parents) in records {
            table.push(*flags, *class, parents);
        }
        table
    };
    vec![
        of(1, &[]),
        of(1, &[(1, 0, &[0])]),
        of(4, &[]),
        // A chain that ends at a class without a record, and one that ends at Object.
        of(5, &[(1, 0, &[1]), (1, 1, &[2])]),
        of(5, &[(1, 0, &[1]), (1, 1, &[2]), (1, 2, &[3])]),
        // A class above itself, two above each other, Object below a class.
        of(4, &[(1, 0, &[0]), (1, 1, &[2]), (1, 2, &[1])]),
        of(5, &[(1, 3, &[0]), (1, 0, &[1]), (1, 4, &[3])]),
        of(5, &[(1, 3, &[0]), (1, 0, &[3, 1])]),
        // Two lowest common ancestors: by greater distance, by sum, by order of names.
        of(6, &[(1, 4, &[0, 1]), (1, 5, &[0, 1])]),
        of(6, &[(1, 4, &[0, 1]), (1, 5, &[1, 2]), (1, 2, &[0])]),
        of(6, &[(1, 4, &[0, 1]), (1, 5, &[2]), (1, 2, &[0, 1])]),
        // Undeclared, then declared; declared twice; parents of repeated records.
        of(5, &[(0, 0, &[1]), (5, 0, &[2]), (1, 1, &[])]),
        of(5, &[(5, 0, &[1]), (3, 0, &[]), (0, 0, &[2])]),
        of(5, &[(1, 0, &[1, 1, 2, 1]), (1, 0, &[2])]),
        // Interfaces and final classes for the cast, each with a side undeclared.
        of(
            6,
            &[
                (3, 0, &[]),
                (5, 1, &[]),
                (1, 2, &[]),
                (3, 4, &[0]),
                (0, 5, &[]),
            ],
        ),
        of(
            6,
            &[
                (3, 0, &[3]),
                (5, 1, &[0]),
                (1, 2, &[3]),
                (7, 4, &[3]),
                (3, 3, &[]),
            ],
        ),
    ]
}

/// A fault: in names, columns, flags, numbers or places. Some change nothing.
pub(crate) fn damage(rng: &mut Rng, table: &mut Classes) {
    let far = *rng.pick(&[
        2,
        4,
        6,
        8,
        0xff,
        0x100,
        0x400,
        1 << 32,
        u64::MAX - 1,
        u64::MAX,
    ]);
    let any = |rng: &mut Rng, length: usize| rng.below(length.max(1) as u64) as usize;
    let row = any(rng, table.flags.len());
    let name = any(rng, table.names.at.len());
    let parent = any(rng, table.parents.len());
    let store = &mut table.names.store;
    match rng.below(14) {
        0 => drop(table.flags.pop()),
        1 => table.class.push(0),
        2 => drop(table.at.pop()),
        3 => table.len.push(0),
        4 => table.names.len.push(1),
        5 if !table.names.len.is_empty() => table.names.len[name] = *rng.pick(&[0, 256, far]),
        6 if name > 0 => table.names.at.swap(name - 1, name),
        7 if name > 0 => table.names.at[name] = table.names.at[name - 1],
        8 if !store.is_empty() => store[0] = *rng.pick(&[0x80, 0xc0, 0xed, 0xff]),
        9 if !table.flags.is_empty() => table.flags[row] = far,
        10 if row < table.class.len() => table.class[row] = far,
        11 if row < table.at.len() => table.at[row] = far,
        12 if row < table.len.len() => table.len[row] = far,
        13 if !table.parents.is_empty() => table.parents[parent] = far,
        _ => {}
    }
}

/// The columns as they are lent, with the types that are asked about after them.
fn columns(table: &Classes, types: &[u64], room: usize) -> Vec<String> {
    let mut arguments = vec![format!("{room:x}"), bytes(&table.names.store)];
    let columns = [
        &table.names.at,
        &table.names.len,
        &types.to_vec(),
        &table.flags,
        &table.class,
        &table.at,
        &table.len,
        &table.parents,
    ];
    for column in columns {
        arguments.extend(numbers(&list(column.iter().copied())));
    }
    arguments
}

/// The table in a line, and the types that are asked about after it.
pub(crate) fn table_case(out: &mut Out, table: &Classes, types: &[u64], room: usize) {
    let arguments = columns(table, types, room);
    let answer = match table.word_refusal(&[INT, INT], room) {
        0 => [0, INT],
        refusal => [refusal, 0],
    };
    out.begin("table", &arguments, &numbers(&answer));
}

/// What is asked about a table: nothing but refusals if it has no judge.
pub(crate) struct Asked<'a> {
    table: &'a Classes,
    room: usize,
    judge: Option<Judge>,
}

impl<'a> Asked<'a> {
    pub(crate) fn new(out: &mut Out, table: &'a Classes, room: usize) -> Self {
        table_case(out, table, &[], room);
        let judge = table.names().is_ok().then(|| table.judge());
        Self { table, room, judge }
    }

    fn judge(&self, classes: &[u64]) -> Result<&Judge, u64> {
        match self.table.refusal(classes, self.room) {
            0 => Ok(self.judge.as_ref().expect("a sound table")),
            refusal => Err(refusal),
        }
    }

    fn pair(&self, out: &mut Out, a: u64, b: u64) {
        let answer = match self.judge(&[a, b]) {
            Ok(judge) => [
                0,
                judge.relation(a, b),
                judge.distance(a, b),
                judge.supertype(a, b),
                judge.cast(a, b),
            ],
            Err(refusal) => [refusal, 0, 0, 0, 0],
        };
        out.case_of("pair", &[a, b], &answer);
    }

    fn ancestors(&self, out: &mut Out, class: u64) {
        let (refusal, set) = match self.judge(&[class]) {
            Ok(judge) => (0, judge.ancestors(class)),
            Err(refusal) => (refusal, Vec::new()),
        };
        // A refused result is zero in every field, the lowest member too.
        let none = if refusal == 0 { 1024 } else { 0 };
        let lowest = set.first().copied().unwrap_or(none);
        let mut words = vec![0; set.last().map_or(0, |last| *last as usize / 64 + 1)];
        for class in &set {
            words[*class as usize / 64] |= 1 << (class % 64);
        }
        let mut answer = vec![refusal, set.len() as u64, lowest];
        answer.extend(list(words));
        out.case_of("ancestors", &[class], &answer);
    }

    pub(crate) fn all(&self, out: &mut Out) {
        let count = self.table.names.at.len() as u64;
        for a in 0..count {
            self.ancestors(out, a);
            (0..count).for_each(|b| self.pair(out, a, b));
        }
    }

    pub(crate) fn some(&self, rng: &mut Rng, out: &mut Out, pairs: u64) {
        let count = self.table.names.at.len().max(1) as u64;
        for number in 0..pairs {
            self.pair(out, rng.below(count), rng.below(count));
            if number % 8 == 0 {
                self.ancestors(out, rng.below(count));
            }
        }
    }

    /// Numbers of classes at and past the end.
    fn past(&self, out: &mut Out) {
        let count = self.table.names.at.len() as u64;
        for (a, b) in [
            (0, count),
            (count, 0),
            (u64::MAX, count),
            (count - 1, 1 << 32),
        ] {
            self.pair(out, a, b);
            self.ancestors(out, b);
        }
    }
}

pub fn tables(rng: &mut Rng, out: &mut Out) {
    for table in telling_tables() {
        Asked::new(out, &table, WORK).all(out);
    }
    for number in 0..out.cases(145) {
        let count = 1 + rng.below(8);
        let table = match number % 2 {
            0 => any_table(rng, count),
            _ => layered_table(rng, count),
        };
        let asked = Asked::new(out, &table, WORK + rng.below(2) as usize);
        asked.all(out);
        if number % 4 == 0 {
            asked.past(out);
        }
    }
    for number in 0..out.cases(24) {
        let count = 9 + rng.below(92);
        let table = match number % 2 {
            0 => any_table(rng, count),
            _ => layered_table(rng, count),
        };
        Asked::new(out, &table, WORK).some(rng, out, 32);
    }
    for _ in 0..out.cases(200) {
        let count = 1 + rng.below(5);
        let mut table = any_table(rng, count);
        for _ in 0..1 + rng.below(2) {
            damage(rng, &mut table);
        }
        let room = *rng.pick(&[WORK, WORK, WORK, WORK, WORK, WORK - 1, 0]);
        let asked = Asked::new(out, &table, room);
        asked.some(rng, out, 2);
        asked.pair(out, 0, u64::MAX);
    }
    without_object(rng, out);
}

/// No name is java/lang/Object, or one is close to it: 9, after 6.
fn without_object(rng: &mut Rng, out: &mut Out) {
    for name in [
        "",
        "java/lang/Objec",
        "java/lang/Object0",
        "java/lang/object",
        "Object",
    ] {
        let mut names: Vec<&str> = vec!["a", "z", name];
        names.sort_unstable();
        names.retain(|name| !name.is_empty());
        let mut table = Classes::of(&names);
        table.push(1, 0, &[1]);
        let asked = Asked::new(out, &table, WORK);
        asked.some(rng, out, 3);
        asked.past(out);
    }
    let none = Classes::default();
    let asked = Asked::new(out, &none, WORK);
    asked.pair(out, 0, 0);
    asked.ancestors(out, 0);
}

// ---- tables alone

/// A table in a line, and where it is refused.
pub(crate) fn check_case(out: &mut Out, table: &Classes) {
    let arguments = columns(table, &[], WORK);
    let fits = out.tokens_of("t_check", &arguments, &numbers(&table.check()));
    assert!(fits, "{table:?}");
}

/// Five names and six records, each with a parent.
fn five() -> Classes {
    let mut table = Classes::of(&names(5, 3));
    for class in [0, 1, 2, 4, 3, 0] {
        table.push(1, class, &[(class + 1) % 5]);
    }
    table
}

/// Copies with one fault each in a row of the names: 3 four times, 10, and 5 where there is a name before it.
fn name_faults(table: &Classes, row: usize) -> Vec<Classes> {
    let mut copies = vec![table.clone(); 5 + usize::from(row > 0)];
    copies[0].names.len[row] = 0;
    copies[1].names.len[row] = 256;
    copies[2].names.len[row] = u64::MAX;
    copies[3].names.at[row] = table.names.store.len() as u64;
    copies[4].names.store[table.names.at[row] as usize] = 0xff;
    if row > 0 {
        copies[5].names.at[row] = table.names.at[row - 1];
        copies[5].names.len[row] = table.names.len[row - 1];
    }
    copies
}

/// Copies with one fault each in a row of the records: 3 three times, 6 five times.
fn record_faults(table: &Classes, row: usize) -> Vec<Classes> {
    let count = table.names.at.len() as u64;
    let mut copies = vec![table.clone(); 8];
    copies[0].at[row] = table.parents.len() as u64;
    copies[1].at[row] = u64::MAX;
    copies[2].len[row] = u64::MAX;
    copies[3].flags[row] = 2;
    copies[4].flags[row] = 4;
    copies[5].flags[row] = 8;
    copies[6].class[row] = count;
    copies[7].parents[table.at[row] as usize] = count;
    copies
}

/// Sound tables; every fault in every row, alone and before or after another; random damage; no Object.
pub fn checks(rng: &mut Rng, out: &mut Out) {
    telling_tables()
        .iter()
        .for_each(|table| check_case(out, table));
    let sound = five();
    for row in 0..sound.names.at.len() {
        for table in name_faults(&sound, row) {
            check_case(out, &table);
            record_faults(&table, row)
                .iter()
                .for_each(|table| check_case(out, table));
        }
    }
    for row in 0..sound.flags.len() {
        for table in record_faults(&sound, row) {
            check_case(out, &table);
            let later = (row + 1 + rng.below(5) as usize) % sound.flags.len();
            record_faults(&table, later)
                .iter()
                .for_each(|table| check_case(out, table));
        }
    }
    for (many, flags) in [(254, 1), (255, 1), (255, 8)] {
        let mut table = sound.clone();
        table.push(flags, 2, &vec![0; many]);
        table.push(8, 2, &[]);
        check_case(out, &table);
    }
    for number in 0..out.cases(200) {
        let count = 1 + rng.below(6);
        let mut table = match number % 2 {
            0 => any_table(rng, count),
            _ => layered_table(rng, count),
        };
        for _ in 0..rng.below(4) {
            damage(rng, &mut table);
        }
        check_case(out, &table);
    }
    for names in [
        &[][..],
        &["a"],
        &["a", "java/lang/Objec", "java/lang/Object0"],
    ] {
        let mut table = Classes::of(names);
        check_case(out, &table);
        table.push(1, 0, &[]);
        check_case(out, &table);
    }
}
