//! The judge of hex lines: the paper's example, each refusal and the order of them, and that lines of rows are refused and
//! answered as the same rows in columns are.

use std::collections::BTreeMap;

use judge::class_cases::{any_classes, layered_classes};
use judge::layer_cases::open_layers;
use judge::line_cases::*;
use judge::lines::{lines, printed, Lines, COUNT, FLOW, READ, RELATION, SOLVE, VARIABLE, WRITE};
use judge::rng::Rng;
use judge::solve_cases::{any_problem, damage_problem};
use judge::solves::Columns;
use judge::stored::PAPER;

/// What some lines print, the lines of it joined by a comma.
fn of(input: &[&str]) -> String {
    let text = printed(input.join("\n").as_bytes());
    text.trim_end().replace('\n', ", ")
}

const OBJECT: &str = "016a6176612f6c616e672f4f626a656374";

#[test]
fn the_example_of_the_paper() {
    let expected = "V 0 0001000000000000\nV 1 0001000000000000\nR 1\nL 0\n";
    assert_eq!(printed(PAPER.as_bytes()), expected);
    // Without the record of Object the relation is not known.
    let without = PAPER.replace("02000003\n", "");
    assert_eq!(printed(without.as_bytes()), expected.replace("R 1", "R 2"));
}

#[test]
fn an_input_is_cut_at_each_line_break() {
    assert_eq!(printed(b""), "");
    assert_eq!(printed(b"\n"), "E 1 1\n");
    assert_eq!(printed(b"\n\n0161"), "E 1 1\nE 2 1\n");
    assert_eq!(printed(b"0161\n0161"), "E 2 5\n");
    assert_eq!(printed(b"0161\n0161\n"), "E 2 5\n");
    assert_eq!(printed(b"0161\r\n"), "E 1 1\n");
    assert_eq!(lines(b"a\nb\n").len(), 2);
    let longest = format!("02010000{}", "0000".repeat(254));
    let expected = "E 3 1, E 4 1, E 5 1, R 0";
    let more = format!("{longest}00");
    let far = longest.repeat(300);
    let all = [OBJECT, &longest, &longest[1..], &more, &far, "0b00000000"];
    assert_eq!(of(&all), expected);
}

#[test]
fn a_solve_that_is_refused_is_not_accepted() {
    assert_eq!(of(&["0a", "0161", OBJECT, "0a", "0162"]), "E 1 9, E 5 4");
    let deep = "05000004ff00000000000005";
    let late = [
        OBJECT,
        "030002",
        deep,
        "0900010000",
        "0a",
        "0900000001",
        "0b00000000",
        "0900000000",
    ];
    assert_eq!(of(&late), "E 5 20, R 0, E 8 4");
}

#[test]
fn each_check_and_their_order() {
    let cases: [(&[&str], &str); 22] = [
        (&["0f", "00", "ff00"], "E 1 2, E 2 2, E 3 2"),
        (
            &["01", "0200", "03", "0a00", "0b0000"],
            "E 1 3, E 2 3, E 3 3, E 4 3, E 5 3",
        ),
        // 3 before 4, 4 before 6.
        (&["030001", "0200", "02030000"], "E 2 3, E 3 4"),
        (&["030001", "030001"], "E 2 4"),
        (&["030000", "030001", "040000"], "E 2 4, E 3 6"),
        (&["040000"], "E 1 6"),
        (&["030201", "030200", "0401ff", "040200"], "E 1 8, E 4 6"),
        // 10 before 5, 5 before 8; the last name is the last that was taken.
        (&["0161", "01ff", "0162"], "E 2 10"),
        (
            &["0162", "0161ff", "0161", "0162", "016261"],
            "E 2 10, E 3 5, E 4 5",
        ),
        (
            &["01eda080", "01c080", "01f4908080", "01f48fbfbf"],
            "E 1 10, E 2 10, E 3 10",
        ),
        // Flags: 1 declared, 2 interface, 4 final; the last two need the first.
        (
            &["0161", "02000000", "02010000", "02020000", "02030000"],
            "E 4 6",
        ),
        (
            &[
                "0161", "02040000", "02050000", "02060000", "02070000", "02080000",
            ],
            "E 2 6, E 4 6, E 6 6",
        ),
        (
            &["0161", "02000001", "020000000001", "020000000000"],
            "E 2 6, E 3 6",
        ),
        // 6 before 7, also for a bound kind.
        (&["0161", "030001", "050001000000000000000b0b"], "E 3 6"),
        (&["0161", "030001", "050000050000000000000b0b"], "E 3 6"),
        (&["0161", "030001", "050000040000000000000b0b"], "E 3 7"),
        (&["0161", "030001", "050000040001000000000001"], "E 3 7"),
        (&["0161", "030001", "050000040001000000000000"], ""),
        (
            &[
                "030002",
                "0600020000",
                "0700000002",
                "0800020000",
                "0900000002",
            ],
            "E 2 6, E 3 6, E 4 6, E 5 6",
        ),
        // 6 before 9.
        (&["0161", "0b00000001", "0c00000000"], "E 2 6, E 3 9"),
        (
            &["0161", OBJECT, "0d00010000", "0c00000001", "0b00000001"],
            "C 1, L 1, R 0",
        ),
        (
            &[
                OBJECT,
                "0d00000000",
                "0161",
                "02000000",
                "030000",
                "0a",
                "0b00000000",
            ],
            "C 1, E 3 4, E 4 4, E 5 4, R 0",
        ),
    ];
    for (input, expected) in cases {
        assert_eq!(of(input), expected, "{input:?}");
    }
}

/// A layer: its body, its rank, a fifth one; and that one which is refused was not opened.
#[test]
fn layers_that_are_opened_and_refused() {
    let cases: [(&[&str], &str); 8] = [
        (&["0e00", "0e0e", "0e"], "E 1 3, E 2 3"),
        (&["0e", "0e", "0e", "0e", "0e"], "E 4 8, E 5 8"),
        // It ranks as a record: no name after it, records before and after it, nothing of a later kind before it.
        (&["0161", "0e", "0162", "02000000", "0e"], "E 3 4"),
        (&["0161", "02000000", "0e", "02000000"], ""),
        (&["030001", "0e", "0e00"], "E 2 4, E 3 3"),
        (&[OBJECT, "0b00000000", "0e"], "R 0, E 3 4"),
        (&[OBJECT, "0a", "0e", "0e00"], "E 3 4, E 4 3"),
        // Flags 8e are those of a row in columns.
        (&["0161", "028e0000", "028e000000"], "E 2 6, E 3 3"),
    ];
    for (input, expected) in cases {
        assert_eq!(of(input), expected, "{input:?}");
    }
}

/// a is below b, then in a layer below c, then below nothing; its facts stay.
#[test]
fn a_layer_takes_the_place_of_those_below() {
    let rows = [
        "0161",
        "0162",
        "0163",
        OBJECT,
        "020100000001",
        "02030002",
        "0e",
        "020000000002",
    ];
    let asked = ["0b00000001", "0b00000002", "0c00000001", "0d00000002"];
    let of_rows = |rows: &[&str]| of(&[rows, &asked].concat());
    assert_eq!(of_rows(&rows[..6]), "R 0, R 2, L 1, C 1");
    assert_eq!(of_rows(&rows[..7]), "R 0, R 2, L 1, C 1");
    assert_eq!(of_rows(&rows), "R 1, R 0, L 3, C 1");
    let above = [&rows[..], &["0e", "02000000"]].concat();
    assert_eq!(of_rows(&above), "R 1, R 1, L 3, C 1");
}

/// A solve twice, a variable without an answer, and an entry that is there already.
#[test]
fn what_is_asked_again_is_answered_again() {
    let rows = [
        OBJECT,
        "030002",
        "040001",
        "040000",
        "050000040000000000000005",
        "050000040000000000000005",
        "0a",
        "0a",
    ];
    let once = "V 0 -, V 1 0000000000000005";
    assert_eq!(of(&rows), format!("{once}, {once}"));
}

/// Columns of equal length, and numbers of two bytes.
fn can_be_lines(problem: &Columns) -> bool {
    let [components, kinds, words] = &problem.bounds;
    let links = [
        &problem.flows,
        &problem.upper_flows,
        &problem.reads,
        &problem.writes,
    ];
    let numbers = links.iter().flat_map(|link| link.iter().flatten());
    let mut numbers = numbers.chain(&problem.variables).chain(components);
    links.iter().all(|[left, right]| left.len() == right.len())
        && components.len() == kinds.len()
        && components.len() == words.len()
        && problem.components <= 0xffff
        && numbers.all(|number| *number <= 0xffff)
}

/// Rows as lines up to the first that is refused, and the same rows as columns.
#[test]
fn lines_say_what_columns_say() {
    let mut rng = Rng::new(1, "lines and columns");
    let mut met = BTreeMap::<u64, usize>::new();
    for number in 0..6_000 {
        let classes = match number % 3 {
            0 => layered_classes(&mut rng, 12, 5),
            _ => any_classes(&mut rng, 8),
        };
        let more = *rng.pick(&[0, 0, 0, 0, 1, 2, 3, 4]);
        let classes = open_layers(&mut rng, &classes, more);
        let names = classes.names.at.len() as u64;
        let mut problem = any_problem(&mut rng, names, 5);
        if number % 4 == 3 {
            damage_problem(&mut rng, &mut problem);
        }
        if !can_be_lines(&problem) {
            continue;
        }
        let mut state = Lines::default();
        let mut frames = table_frames(&classes);
        frames.extend(problem_frames(&problem));
        frames.push(vec![SOLVE]);
        let mut last = Ok(String::new());
        for frame in &frames {
            last = state.take(&hex(frame));
            if last.is_err() {
                break;
            }
        }
        let solved = classes.solve(&problem, problem.least());
        *met.entry(solved.refusal).or_default() += 1;
        match last {
            Err(refusal) => assert_eq!(refusal, solved.refusal, "{number}"),
            Ok(text) => {
                assert_eq!(solved.refusal, 0, "{number}");
                let each = solved.answers.iter().enumerate();
                let expected: String = each
                    .map(|(variable, word)| match *word {
                        u64::MAX => format!("V {variable} -\n"),
                        word => format!("V {variable} {word:016x}\n"),
                    })
                    .collect();
                assert_eq!(text, expected, "{number}");
            }
        }
    }
    for refusal in [0, 6, 7, 8, 20] {
        let share = met.get(&refusal).copied().unwrap_or(0);
        assert!(share >= 20, "{refusal}: {met:?}");
    }
}

/// How many lines of a text are refused with each number. A random question may be about a class that is none: 6 is left out.
fn refusals(text: &str) -> BTreeMap<u64, usize> {
    let mut shares = BTreeMap::new();
    for line in text.lines().filter(|line| line.starts_with("E ")) {
        let number = line.rsplit(' ').next().and_then(|word| word.parse().ok());
        *shares.entry(number.expect("a number")).or_default() += 1;
    }
    shares.remove(&6);
    shares
}

#[test]
fn every_room_of_a_table_from_both_sides() {
    let scripts: BTreeMap<_, _> = full_scripts().into_iter().collect();
    let expected: [(&str, &[(u64, usize)]); 10] = [
        ("names", &[(5, 1), (8, 2), (10, 1)]),
        ("name bytes", &[(5, 1), (8, 3)]),
        ("pairs", &[(8, 3)]),
        ("count", &[(4, 1), (8, 1)]),
        // Each ends with its last row again, a class that the topmost layer does not have, and one with a new pair.
        ("four full layers", &[(8, 1)]),
        ("a fifth layer", &[(8, 3)]),
        ("one pair too many in the second", &[(8, 3)]),
        ("one pair over a full layer", &[]),
        ("empty layers over a full one", &[(8, 1)]),
        ("places of a layer", &[(3, 3), (4, 5)]),
    ];
    for (name, shares) in expected {
        let met = refusals(&printed(&scripts[name]));
        assert_eq!(met, shares.iter().copied().collect(), "{name}");
    }
}

/// The refusals of a problem's rows in a line each, one past each room.
#[test]
fn one_past_each_room_is_refused() {
    let object = [name(b"java/lang/Object"), one(COUNT, 512)];
    for (kind, most) in [(FLOW, 2048), (7, 1024), (READ, 1024), (WRITE, 1024)] {
        let mut frames = object.to_vec();
        frames.extend((0..most + 1).map(|row| pair(kind, row % 512, row / 512)));
        frames.push(pair(kind, 0, 0));
        let refused = format!("E {} 8\n", 2 + most + 1);
        assert_eq!(printed(&script(&frames)), refused, "{kind}");
    }
    let mut frames = object.to_vec();
    frames.extend((0..2049).map(|_| one(VARIABLE, 511)));
    assert_eq!(printed(&script(&frames)), "E 2051 8\n");
    let mut frames = object.to_vec();
    frames.extend((0..4097).map(|row| bound(row / 10, 0, row % 10)));
    frames.push(bound(0, 0, 0));
    assert_eq!(printed(&script(&frames)), "E 4099 8\n");
}

#[test]
fn random_scripts_are_refused_in_every_way() {
    let mut rng = Rng::new(2, "scripts");
    let mut met = BTreeMap::<String, usize>::new();
    for _ in 0..1_000 {
        let input = any_script(&mut rng);
        for line in printed(&input).lines() {
            let mut words = line.split(' ');
            let first = words.next().expect("a letter");
            let sort = match first {
                "E" | "R" | "C" => format!("{first} {}", words.next_back().expect("a number")),
                "V" => format!("V {}", words.next_back() == Some("-")),
                letter => letter.to_string(),
            };
            *met.entry(sort).or_default() += 1;
        }
    }
    let refusals = [1, 2, 3, 4, 5, 6, 7, 8, 9, 10, 20];
    let mut expected: Vec<String> = refusals.map(|number| format!("E {number}")).to_vec();
    expected
        .extend(["R 0", "R 1", "R 2", "C 0", "C 1", "L", "V true", "V false"].map(String::from));
    for sort in &expected {
        let share = met.get(sort).copied().unwrap_or(0);
        assert!(share >= 5, "{sort}: {met:?}");
    }
    assert_eq!(met.len(), expected.len(), "{met:?}");
}

/// Only the questions are asked of hierarchy.rs by number: the same pair, by the names of the table.
#[test]
fn questions_are_about_the_numbers_of_the_table() {
    let names = ["a", "b", "java/lang/Object"].map(|text| name(text.as_bytes()));
    let mut frames = names.to_vec();
    frames.push(record(1, 0, &[1]));
    frames.extend([(0, 1), (1, 0), (0, 2), (1, 2)].map(|(l, r)| pair(RELATION, l, r)));
    assert_eq!(printed(&script(&frames)), "R 0\nR 2\nR 0\nR 0\n");
}
