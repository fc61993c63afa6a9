//! Cases for sets of numbers below 1,024, judged by `BTreeSet`.

use std::collections::BTreeSet;

use crate::out::{list, Out};
use crate::rng::Rng;

type Set = BTreeSet<u64>;

/// Members are below this; a larger number is in no set.
const LIMIT: u64 = 1024;

/// Numbers at the edges of words and of the set, and past it.
const EDGES: [u64; 14] = [
    0, 1, 62, 63, 64, 65, 127, 128, 511, 512, 959, 960, 1022, 1023,
];
const PAST: [u64; 9] = [
    1024,
    1025,
    1087,
    1088,
    2047,
    2048,
    1 << 32,
    1 << 63,
    u64::MAX,
];

fn member(rng: &mut Rng) -> u64 {
    match rng.below(3) {
        0 => *rng.pick(&EDGES),
        _ => rng.below(LIMIT),
    }
}

/// A set of at most `most` members: spread out, or neighbours in one or two words.
fn set(rng: &mut Rng, most: u64) -> Set {
    let most = if rng.below(8) == 0 { most } else { most.min(4) };
    let count = rng.below(most + 1);
    let start = rng.below(LIMIT - 80);
    let near = rng.below(3) == 0;
    let number = |rng: &mut Rng| {
        if near {
            start + rng.below(80)
        } else {
            member(rng)
        }
    };
    (0..count).map(|_| number(rng)).collect()
}

/// A number to ask about: any, a member, one past the end, one that is a member modulo the end.
fn asked(rng: &mut Rng, set: &Set) -> u64 {
    let members: Vec<u64> = set.iter().copied().collect();
    match rng.below(6) {
        0 | 1 if !members.is_empty() => *rng.pick(&members),
        2 if !members.is_empty() => rng.pick(&members) + (LIMIT << rng.below(54)),
        3 => *rng.pick(&PAST),
        _ => member(rng),
    }
}

/// A second set: any, or one that has to do with the first.
fn other(rng: &mut Rng, first: &Set, most: u64) -> Set {
    let mut second = match rng.below(3) {
        0 => return set(rng, most),
        1 => first.clone(),
        _ => first
            .iter()
            .copied()
            .filter(|_| rng.below(2) == 0)
            .collect(),
    };
    match rng.below(3) {
        0 => drop(second.pop_last()),
        1 if (second.len() as u64) < most => drop(second.insert(member(rng))),
        _ => {}
    }
    second
}

fn numbers(set: &Set) -> Vec<u64> {
    list(set.iter().copied())
}

/// How many random cases each form has in the smallest file.
const CASES: u64 = 640;

/// A set and a number: every edge, words of the set one by one, then random ones.
pub fn one(rng: &mut Rng, out: &mut Out) {
    let edges = EDGES.into_iter().chain(PAST);
    let mut cases: Vec<(Set, u64)> = edges.clone().map(|i| (Set::new(), i)).collect();
    cases.extend(edges.map(|i| (Set::from([0, 63, 64, 1023]), i)));
    cases.extend(EDGES.map(|i| (Set::from([i]), i)));
    cases.extend((0..16).map(|word| (Set::from([64 * word, 64 * word + 63]), 64 * word)));
    cases.push((EDGES.into_iter().collect(), 64));
    for _ in 0..out.cases(CASES) {
        let set = set(rng, 17);
        let i = asked(rng, &set);
        cases.push((set, i));
    }
    for (set, i) in cases {
        let mut arguments = numbers(&set);
        arguments.push(i);
        out.case(&arguments, &one_judge(&set, i));
    }
}

/// Has, count, lowest, with, without.
fn one_judge(set: &Set, i: u64) -> Vec<u64> {
    let (mut with, mut without) = (set.clone(), set.clone());
    if i < LIMIT {
        with.insert(i);
    }
    without.remove(&i);
    let lowest = set.first().copied().unwrap_or(LIMIT);
    let mut answer = vec![u64::from(set.contains(&i)), set.len() as u64, lowest];
    answer.extend(numbers(&with));
    answer.extend(numbers(&without));
    answer
}

/// Two sets: the empty one and a few others both ways, then random ones.
pub fn two(rng: &mut Rng, out: &mut Out) {
    let fixed = [
        Set::new(),
        Set::from([0]),
        Set::from([1023]),
        Set::from([63, 64]),
        Set::from([0, 63, 64, 1023]),
    ];
    let pairs = fixed
        .iter()
        .flat_map(|a| fixed.iter().map(move |b| (a.clone(), b.clone())));
    let mut cases: Vec<(Set, Set)> = pairs.collect();
    for _ in 0..out.cases(CASES) {
        let first = set(rng, 9);
        let second = other(rng, &first, 9);
        cases.push((first, second));
    }
    for (first, second) in cases {
        let mut arguments = numbers(&first);
        arguments.extend(numbers(&second));
        out.case(&arguments, &two_judge(&first, &second));
    }
}

/// Union, intersection, difference, same.
fn two_judge(a: &Set, b: &Set) -> Vec<u64> {
    let mut answer = list(a.union(b).copied());
    answer.extend(list(a.intersection(b).copied()));
    answer.extend(list(a.difference(b).copied()));
    answer.push(u64::from(a == b));
    answer
}
