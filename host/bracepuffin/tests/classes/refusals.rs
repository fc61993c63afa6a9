//! Every refusal of a query and their order: 22; 3 for columns; names 3, 10, 5, 8 row by row; records 3, 6, 8 row by
//! row; 6 for the numbers asked about; 9.

use judge::class_cases::fullest_classes;
use judge::classes::{Classes, WORK};
use judge::rng::Rng;

use crate::{work, Query, QUERIES};

/// A call with room for faults.
#[derive(Clone)]
struct Call {
    classes: Classes,
    left: u64,
    right: u64,
    room: usize,
}

impl Call {
    /// 1,024 names and 4,096 pairs, so that one more of either is refused.
    fn full() -> Self {
        let mut classes = fullest_classes(&mut Rng::new(1, "order of refusals"), 4096);
        assert!(classes.flags.len() > 8);
        // A record that adds nothing, to be the last one.
        classes.push(0, classes.class[0], &[]);
        Self {
            classes,
            left: 3,
            right: 5,
            room: WORK,
        }
    }

    fn refusal(&self, query: Query) -> u64 {
        let mut work = vec![0; self.room];
        let (refusal, rest) = query.ask(&self.classes, self.left, self.right, &mut work);
        assert!(refusal == 0 || rest.iter().all(|number| *number == 0));
        let numbers = query.numbers(self.left, self.right);
        assert_eq!(self.classes.refusal(&numbers, self.room), refusal);
        refusal
    }
}

/// A fault and its number.
type Fault = (u64, fn(&mut Call));

/// In the order in which they are found.
const FAULTS: [Fault; 16] = [
    (22, |call| call.room = WORK - 1),
    (3, |call| call.classes.names.len.push(1)),
    (3, |call| call.classes.at.push(0)),
    (3, |call| call.classes.names.len[10] = 0),
    (3, |call| call.classes.names.len[11] = 256),
    (10, |call| {
        let at = call.classes.names.at[20] as usize;
        call.classes.names.store[at] = 0xff;
    }),
    (5, |call| {
        call.classes.names.at[30] = call.classes.names.at[29]
    }),
    (8, |call| call.classes.names.push(b"zz")),
    (3, |call| call.classes.at[0] = 1 << 40),
    (3, |call| call.classes.len[1] = u64::MAX),
    (6, |call| call.classes.flags[2] = 8),
    (6, |call| call.classes.class[3] = 1 << 32),
    (6, |call| {
        let at = call.classes.at[4] as usize;
        call.classes.parents[at] = u64::MAX;
    }),
    (8, |call| {
        let classes = &mut call.classes;
        let free = (0..1024).find(|class| !classes.class.contains(class));
        let last = classes.flags.len() - 1;
        classes.class[last] = free.expect("few classes have a record");
        classes.at[last] = classes.parents.len() as u64;
        classes.len[last] = 1;
        classes.parents.push(7);
    }),
    (6, |call| call.left = 1 << 20),
    (9, |call| {
        let store = &mut call.classes.names.store;
        let object = b"java/lang/Object";
        let at = store.windows(object.len()).position(|name| name == object);
        store[at.expect("among the names") + object.len() - 1] = b'u';
    }),
];

#[test]
fn no_fault() {
    for query in QUERIES {
        assert_eq!(Call::full().refusal(query), 0);
    }
}

#[test]
fn each_fault_alone() {
    for (number, fault) in FAULTS {
        let mut call = Call::full();
        fault(&mut call);
        for query in QUERIES {
            assert_eq!(call.refusal(query), number, "{query:?}");
        }
    }
}

#[test]
fn of_two_faults_the_first_counts() {
    for (place, (number, fault)) in FAULTS.iter().enumerate() {
        for (_, later) in &FAULTS[place + 1..] {
            let mut call = Call::full();
            later(&mut call);
            fault(&mut call);
            // Two of the five, in turn: the check is the same for all of them.
            for query in [QUERIES[place % 5], QUERIES[(place + 2) % 5]] {
                assert_eq!(call.refusal(query), *number, "fault {place}, {query:?}");
            }
        }
    }
}

#[test]
fn all_faults_at_once() {
    let mut call = Call::full();
    for (_, fault) in FAULTS.iter().rev() {
        fault(&mut call);
    }
    for query in QUERIES {
        assert_eq!(call.refusal(query), 22);
    }
}

/// A small table with one record.
fn one(names: &[&[u8]], flags: u64, class: u64, parents: &[u64]) -> Classes {
    let mut classes = Classes::of(names);
    classes.push(flags, class, parents);
    classes
}

fn refusal(classes: &Classes) -> u64 {
    let call = Call {
        classes: classes.clone(),
        left: 0,
        right: 0,
        room: WORK,
    };
    let number = call.refusal(Query::Relation);
    for query in QUERIES {
        assert_eq!(call.refusal(query), number);
    }
    number
}

const NAMES: [&[u8]; 3] = [b"a", b"b", b"java/lang/Object"];

#[test]
fn flags() {
    for flags in 0..=20 {
        let expected = if [0, 1, 3, 5, 7].contains(&flags) {
            0
        } else {
            6
        };
        assert_eq!(refusal(&one(&NAMES, flags, 0, &[])), expected, "{flags}");
    }
    for flags in [128, 141, 143, 1 << 32 | 1, 1 << 32 | 142, u64::MAX] {
        assert_eq!(refusal(&one(&NAMES, flags, 0, &[])), 6);
    }
    // What opens a layer.
    assert_eq!(refusal(&one(&NAMES, 142, 0, &[])), 0);
    assert_eq!(refusal(&one(&NAMES, 142, 1, &[])), 3);
    assert_eq!(refusal(&one(&NAMES, 142, 0, &[1])), 3);
}

#[test]
fn classes_and_parents() {
    for number in [3, 4, 64, 1023, 1024, 1 << 32, u64::MAX] {
        assert_eq!(refusal(&one(&NAMES, 0, number, &[])), 6);
        assert_eq!(refusal(&one(&NAMES, 0, 0, &[number])), 6);
        assert_eq!(refusal(&one(&NAMES, 0, 0, &[1, 2, number])), 6);
    }
    assert_eq!(refusal(&one(&NAMES, 0, 2, &[0, 1, 2])), 0);
}

#[test]
fn places_of_records() {
    let cases = [
        (0, 2, 0),
        (1, 1, 0),
        (2, 0, 0),
        (1, 2, 3),
        (2, 1, 3),
        (3, 0, 3),
        (u64::MAX, 0, 3),
        (u64::MAX, 1, 3),
        (u64::MAX, 2, 3),
        (0, u64::MAX, 3),
        (1 << 63, 1 << 63, 3),
    ];
    for (at, len, expected) in cases {
        let mut classes = one(&NAMES, 0, 0, &[1, 2]);
        (classes.at[0], classes.len[0]) = (at, len);
        assert_eq!(refusal(&classes), expected, "{at} {len}");
    }
}

#[test]
fn columns_of_unequal_length() {
    let columns: [fn(&mut Classes) -> &mut Vec<u64>; 6] = [
        |classes| &mut classes.names.at,
        |classes| &mut classes.names.len,
        |classes| &mut classes.flags,
        |classes| &mut classes.class,
        |classes| &mut classes.at,
        |classes| &mut classes.len,
    ];
    for column in columns {
        let mut longer = one(&NAMES, 0, 0, &[1]);
        column(&mut longer).push(0);
        assert_eq!(refusal(&longer), 3);
        let mut shorter = one(&NAMES, 0, 0, &[1]);
        column(&mut shorter).pop();
        assert_eq!(refusal(&shorter), 3);
    }
    // Stores are no columns: bytes and parents that no row names are without effect.
    let mut more = one(&NAMES, 0, 0, &[1]);
    more.names.store.push(0xff);
    more.parents.push(u64::MAX);
    assert_eq!(refusal(&more), 0);
}

#[test]
fn in_one_record() {
    // 3 before 6, in flags, class and parents; 6 before 8.
    let mut place = one(&NAMES, 8, 9, &[9]);
    place.at[0] = 7;
    assert_eq!(refusal(&place), 3);
    let mut long = one(&NAMES, 8, 9, &[9; 255]);
    assert_eq!(refusal(&long), 3);
    long.len[0] = 254;
    assert_eq!(refusal(&long), 6);
    let mut full = Call::full().classes;
    let free = (0..1024).find(|class| !full.class.contains(class));
    full.push(0, free.expect("few classes have a record"), &[7, 1024]);
    assert_eq!(refusal(&full), 6);
}

#[test]
fn in_two_records() {
    let mut classes = one(&NAMES, 2, 0, &[]);
    classes.push(0, 0, &[]);
    classes.at[1] = 9;
    assert_eq!(refusal(&classes), 6);
    let mut classes = one(&NAMES, 0, 0, &[]);
    classes.at[0] = 9;
    classes.push(2, 0, &[]);
    assert_eq!(refusal(&classes), 3);
}

#[test]
fn a_name_is_refused_before_any_record() {
    let classes = one(&[b"b", b"a"], 8, 9, &[9]);
    assert_eq!(refusal(&classes), 5);
    assert_eq!(refusal(&one(&[b"\xff"], 8, 9, &[])), 10);
    assert_eq!(refusal(&one(&[b""], 8, 9, &[])), 3);
}

#[test]
fn numbers_asked_about() {
    let classes = one(&NAMES, 0, 0, &[1]);
    let without = one(&NAMES[..2], 0, 0, &[1]);
    for far in [3, 1024, 1 << 32, u64::MAX] {
        for query in QUERIES {
            assert_eq!(query.ask(&classes, far, 0, &mut work()).0, 6);
            // Before 9.
            assert_eq!(query.ask(&without, far, 0, &mut work()).0, 6);
            if query != Query::Ancestors {
                assert_eq!(query.ask(&classes, 0, far, &mut work()).0, 6);
                assert_eq!(query.ask(&classes, far, far, &mut work()).0, 6);
            }
        }
    }
}

#[test]
fn without_object() {
    assert_eq!(refusal(&one(&NAMES[..2], 0, 0, &[1])), 9);
    // Names that are nearly it.
    for near in [
        "java/lang/Objec",
        "java/lang/Objects",
        "Object",
        "java/lang/object",
    ] {
        assert_eq!(refusal(&Classes::of(&[near])), 9);
    }
    assert_eq!(refusal(&Classes::of(&["java/lang/Object"])), 0);
    // No name at all: the number asked about comes first.
    assert_eq!(refusal(&Classes::default()), 6);
}
