//! The judge of solves: what it says of the problems that tell readings apart, of each fault, and at each limit.

use std::collections::BTreeMap;

use judge::class_cases::{any_classes, damage_classes};
use judge::classes::WORK;
use judge::rng::Rng;
use judge::solve_cases::*;
use judge::solves::{Columns, Lent, Solved, MAX_BOUNDS};

/// The answers, the number of final bounds and the turns of a problem over a, b and Object without records.
fn solved(columns: &Columns) -> Solved {
    no_records().solve(columns, columns.least())
}

fn telling() -> BTreeMap<&'static str, Solved> {
    let cases = telling_problems();
    let answers: BTreeMap<_, _> = cases
        .iter()
        .map(|(name, columns)| (*name, solved(columns)))
        .collect();
    assert_eq!(answers.len(), cases.len(), "two of one name");
    answers
}

#[test]
fn telling_problems_are_answered_as_decided() {
    let (a, object, none) = (class(0), class(2), u64::MAX);
    let expected: [(&str, &[u64], u64); 16] = [
        ("O52 targets", &[none, array(1, a), array(1, a)], 9),
        ("O52 sources", &[a, none], 7),
        ("O53 one pass", &[array(1, object), object], 6),
        ("O54", &[none], 3),
        ("O55", &[BOOLEAN], 1),
        ("O56 flow", &[INT], 2),
        ("O56 upper flow", &[INT], 2),
        ("O58", &[BOOLEAN], 1),
        ("O59 same", &[INT], 1),
        ("O59 two", &[none], 1),
        ("O60", &[a], 1),
        ("O61", &[array(1, INT), none], 2),
        ("O64 idle", &[none; 3], 3),
        ("O64 none", &[], 0),
        ("O65", &[INT; 3], 4),
        ("O68", &[0], 1),
    ];
    let telling = telling();
    for (name, answers, turns) in expected {
        let solved = &telling[name];
        assert_eq!(
            (solved.answers.as_slice(), solved.turns),
            (answers, turns),
            "{name}"
        );
        assert_eq!(solved.refusal, 0, "{name}");
    }
    assert_eq!(telling["O53 reads first"].answers[1], a);
    assert_eq!(telling["O61 alone"].answers[1], INT);
    assert_eq!(telling["O63 deep"].refusal, 20);
    assert_eq!(telling["O63 deep by a read"].refusal, 20);
    assert_eq!(telling["O63 not too deep"].refusal, 0);
    assert!(telling["O62"].bounds.contains(&[1, EXACT, unknown(&[INT])]));
    assert_eq!(telling["O62 not concrete"].bounds.len(), 1);
    // By type and not by number: [[I before [Unknown[].
    let order = [
        [0, UPPER, array(2, INT)],
        [0, UPPER, array(1, unknown(&[]))],
    ];
    assert_eq!(telling["O67"].bounds, order);
}

#[test]
fn each_fault_alone_and_two_at_once() {
    let cases = faulty();
    for (place, (table, columns, refusal)) in cases.iter().enumerate() {
        let said = |lent| table.solve_refusal(columns, lent);
        assert_eq!(said(columns.least()), *refusal, "{place}");
        let mut short = columns.least();
        short.work -= 1;
        assert_eq!(said(short), 22);
    }
    // The table of one and the problem of another: the first in order.
    let good = &cases[0].1;
    for (left, (table, of_left, _)) in cases.iter().enumerate() {
        for (right, (of_right, columns, _)) in cases.iter().enumerate() {
            let in_table = (of_left == good).then_some(left);
            let in_columns = (*of_right == no_records()).then_some(right);
            let first = in_table.into_iter().chain(in_columns).min();
            let expected = first.map_or(0, |place| cases[place].2);
            let refusal = table.solve_refusal(columns, columns.least());
            assert_eq!(refusal, expected, "{left} {right}");
        }
    }
}

#[test]
fn slices_that_are_too_short_come_first() {
    let mut columns = Columns::of(4);
    columns.flows[0].push(9);
    let least = columns.least();
    let table = no_records();
    let mut cases = vec![
        Lent {
            answers: 3,
            ..least
        },
        Lent {
            work: WORK - 1,
            ..least
        },
        Lent { work: 0, ..least },
    ];
    for place in 0..3 {
        let mut short = least;
        short.columns[place] = MAX_BOUNDS - 1;
        cases.push(short);
    }
    for lent in cases {
        assert_eq!(table.solve_refusal(&columns, lent), 22, "{lent:?}");
    }
    assert_eq!(table.solve_refusal(&columns, least), 3);
}

#[test]
fn every_limit_from_both_sides() {
    let table = no_records();
    for (name, columns, refusal) in full_problems() {
        assert_eq!(
            table.solve_refusal(&columns, columns.least()),
            refusal,
            "{name}"
        );
    }
    for (place, (columns, refusal)) in overfull_problems().into_iter().enumerate() {
        let solved = table.solve(&columns, columns.least());
        assert_eq!(solved.refusal, refusal, "{place}");
        assert!(refusal != 0 || solved.bounds.len() == MAX_BOUNDS, "{place}");
    }
}

#[test]
fn random_problems_are_answered_and_refused() {
    let mut rng = Rng::new(1, "solves");
    let mut met = BTreeMap::<u64, usize>::new();
    let mut added = 0;
    for number in 0..6_000 {
        let mut table = any_classes(&mut rng, 8);
        let names = table.names.at.len() as u64;
        let most = if number % 16 == 0 { 12 } else { 5 };
        let mut columns = any_problem(&mut rng, names, most);
        if number % 4 == 3 {
            (0..1 + rng.below(2)).for_each(|_| damage_problem(&mut rng, &mut columns));
        }
        if number % 16 == 5 {
            damage_classes(&mut rng, &mut table);
        }
        let solved = table.solve(&columns, columns.least());
        *met.entry(solved.refusal).or_default() += 1;
        if solved.refusal != 0 {
            assert!(solved.turns == 0 && solved.answers.is_empty() && solved.bounds.is_empty());
            continue;
        }
        assert_eq!(solved.answers.len(), columns.variables.len());
        let mut given: Vec<[u64; 3]> = (0..columns.bounds[0].len())
            .map(|row| columns.bounds.each_ref().map(|column| column[row]))
            .collect();
        given.sort_unstable();
        given.dedup();
        assert!(given.iter().all(|row| solved.bounds.contains(row)));
        let more = solved.bounds.len() - given.len();
        assert!(solved.turns <= columns.components + more as u64);
        added += more;
    }
    for refusal in [0, 3, 6, 7, 8, 20] {
        assert!(
            met.get(&refusal).copied().unwrap_or(0) >= 20,
            "{refusal}: {met:?}"
        );
    }
    assert!(added > 10_000, "{added}");
}
