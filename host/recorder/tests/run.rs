//! The stored run of the program that reads hex lines is what the recorder writes, and holds every answer that a line can have.

use std::collections::BTreeMap;

use judge::line_cases::stored_script;
use judge::lines::lines;
use judge::stored::{RUN_INPUT, RUN_OUTPUT};
use recorder::{run, RUN_SEED};

#[test]
fn the_stored_run_is_what_the_recorder_writes() {
    let (input, output) = run(RUN_SEED);
    for (number, (stored, written)) in lines(RUN_INPUT).into_iter().zip(lines(&input)).enumerate() {
        let show = String::from_utf8_lossy;
        assert_eq!(
            show(stored),
            show(written),
            "line {} of the input",
            number + 1
        );
    }
    for (number, (stored, written)) in RUN_OUTPUT.lines().zip(output.lines()).enumerate() {
        assert_eq!(stored, written, "line {} of the output", number + 1);
    }
    assert!(RUN_INPUT == input && RUN_OUTPUT == output, "one is longer");
}

/// The letter of each printed line, with its number where there are few.
#[test]
fn every_answer_occurs() {
    let mut met = BTreeMap::<String, usize>::new();
    for line in RUN_OUTPUT.lines() {
        let (letter, rest) = line.split_once(' ').expect("a letter and more");
        let sort = match letter {
            "R" | "C" => line.to_string(),
            "E" => format!("E {}", rest.split_once(' ').expect("two numbers").1),
            "V" => format!("V {}", rest.ends_with('-')),
            _ => letter.to_string(),
        };
        *met.entry(sort).or_default() += 1;
    }
    let least = [
        ("C 0", 200),
        ("C 1", 200),
        ("E 1", 100),
        ("E 10", 5),
        ("E 2", 50),
        ("E 20", 1),
        ("E 21", 1),
        ("E 3", 50),
        ("E 4", 50),
        ("E 5", 5),
        ("E 6", 50),
        ("E 7", 20),
        ("E 8", 2),
        ("E 9", 2),
        ("L", 1000),
        ("R 0", 200),
        ("R 1", 200),
        ("R 2", 200),
        ("V false", 300),
        ("V true", 300),
    ];
    assert_eq!(met.len(), least.len(), "{met:?}");
    for (sort, least) in least {
        let share = met.get(sort).copied().unwrap_or(0);
        assert!(share >= least, "{sort}: {share}");
    }
}

/// The solve is refused 20, then 21, then answered, and later answered the same.
#[test]
fn the_solves_in_their_order() {
    let solves: Vec<usize> = lines(RUN_INPUT)
        .iter()
        .enumerate()
        .filter(|(_, line)| **line == b"0a")
        .map(|(place, _)| place + 1)
        .collect();
    let refused = |line: usize| {
        let start = format!("E {line} ");
        let mut printed = RUN_OUTPUT.lines();
        printed.find_map(|printed| printed.strip_prefix(&start))
    };
    let refusals = Vec::from_iter(solves.iter().map(|line| refused(*line)));
    let answered = [Some("9"), Some("20"), Some("21"), None, None, None];
    assert_eq!(refusals, answered);
    let answers = Vec::from_iter(RUN_OUTPUT.lines().filter(|line| line.starts_with("V ")));
    let (once, rest) = answers.split_at(answers.len() / 3);
    assert_eq!([once, once].concat(), rest);
}

#[test]
fn the_seed_decides_the_run() {
    assert!(stored_script(2) != RUN_INPUT);
    // The programs have room for 1,048,576 bytes; the stored run keeps well below.
    assert!(RUN_INPUT.len() < 300_000 && RUN_INPUT.is_ascii());
}
