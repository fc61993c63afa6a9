//! Cases for sorted entries at the front of a slice, judged by `BTreeSet` and by the standard binary search.

use std::collections::BTreeSet;

use crate::out::{list, Out};
use crate::rng::Rng;

/// How many random cases each function has in the smallest file.
const CASES: u64 = 540;

const EXTREMES: [u64; 8] = [
    0,
    1,
    2,
    1 << 32,
    (1 << 63) - 1,
    1 << 63,
    u64::MAX - 1,
    u64::MAX,
];

/// Divisors that the tables use, and the extremes of them.
const DIVISORS: [u64; 10] = [
    1,
    2,
    3,
    512,
    1024,
    1 << 52,
    1 << 55,
    1 << 63,
    u64::MAX - 1,
    u64::MAX,
];

/// A number below 2^`bits`, now and then an extreme one.
fn number(rng: &mut Rng, bits: u64) -> u64 {
    if rng.below(12) == 0 {
        return *rng.pick(&EXTREMES);
    }
    rng.draw() >> (64 - bits)
}

/// Sorted distinct entries, at most `most`, and the number of bits they were drawn from.
fn entries(rng: &mut Rng, most: u64) -> (Vec<u64>, u64) {
    let bits = *rng.pick(&[3, 4, 6, 8, 10, 12, 19, 64]);
    let most = if bits > 12 { most.min(5) } else { most };
    let drawn: BTreeSet<u64> = (0..rng.below(most + 1))
        .map(|_| number(rng, bits))
        .collect();
    (drawn.into_iter().collect(), bits)
}

/// A number to look for: an entry, a neighbour of one, or any.
fn sought(rng: &mut Rng, entries: &[u64], bits: u64) -> u64 {
    if entries.is_empty() || rng.below(4) == 0 {
        return number(rng, bits);
    }
    let entry = *rng.pick(entries);
    match rng.below(4) {
        0 => entry.wrapping_add(1),
        1 => entry.wrapping_sub(1),
        _ => entry,
    }
}

/// Short lists with every extreme sought in them.
fn small_cases() -> Vec<(Vec<u64>, u64)> {
    let lists = [
        vec![],
        vec![0],
        vec![u64::MAX],
        vec![0, u64::MAX],
        vec![1, 1 << 32, 1 << 63],
    ];
    let each = lists
        .into_iter()
        .flat_map(|list| EXTREMES.map(|x| (list.clone(), x)));
    each.collect()
}

fn cases(rng: &mut Rng, out: &Out, most: u64) -> Vec<(Vec<u64>, u64)> {
    let mut cases = small_cases();
    for _ in 0..out.cases(CASES) {
        let (entries, bits) = entries(rng, most);
        let x = sought(rng, &entries, bits);
        cases.push((entries, x));
    }
    cases
}

pub fn put(rng: &mut Rng, out: &mut Out) {
    for (entries, x) in cases(rng, out, 15) {
        let length = entries.len() as u64;
        let room = match rng.below(3) {
            0 => length,
            1 => length + 1,
            _ => length + rng.below(20),
        };
        let mut arguments = vec![room];
        arguments.extend(list(entries.iter().copied()));
        arguments.push(x);
        let mut answer = find_judge(&entries, x).to_vec();
        answer.extend(put_judge(room, entries, x));
        out.case(&arguments, &answer);
    }
}

/// Whether it is there, and where.
fn find_judge(entries: &[u64], x: u64) -> [u64; 2] {
    match entries.binary_search(&x) {
        Ok(place) => [1, place as u64],
        Err(place) => [0, place as u64],
    }
}

fn put_judge(room: u64, entries: Vec<u64>, x: u64) -> Vec<u64> {
    const OLD: u64 = 0;
    const NEW: u64 = 1;
    const FULL: u64 = 2;
    let mut set: BTreeSet<u64> = entries.into_iter().collect();
    let full = set.len() as u64 == room;
    let outcome = match set.insert(x) {
        false => OLD,
        true if full => {
            set.remove(&x);
            FULL
        }
        true => NEW,
    };
    let mut answer = vec![outcome];
    answer.extend(list(set));
    answer
}

pub fn run(rng: &mut Rng, out: &mut Out) {
    let mut cases = Vec::new();
    for (entries, c) in small_cases() {
        for k in [1, 1024, u64::MAX] {
            cases.push((entries.clone(), k, c));
        }
    }
    for _ in 0..out.cases(CASES) {
        cases.push(run_case(rng));
    }
    for (entries, k, c) in cases {
        let answer = run_judge(&entries, k, c);
        let mut arguments = list(entries);
        arguments.extend([k, c]);
        out.case(&arguments, &answer);
    }
}

/// Entries, many of them with a common prefix, a divisor, and a prefix: one of theirs, a neighbour, any.
fn run_case(rng: &mut Rng) -> (Vec<u64>, u64, u64) {
    let k = match rng.below(4) {
        0 => 1 + rng.below(40),
        _ => *rng.pick(&DIVISORS),
    };
    let (mut entries, bits) = entries(rng, 12);
    if rng.below(2) == 0 {
        // Few prefixes with several entries each.
        let grouped = |entry: &u64| (entry % 3).wrapping_mul(k).wrapping_add(entry / 3 % k);
        let distinct: BTreeSet<u64> = entries.iter().map(grouped).collect();
        entries = distinct.into_iter().collect();
    }
    let c = match rng.below(4) {
        // So large that c * k passes 2^64, where there is such a number.
        0 => (u64::MAX / k).saturating_add(rng.below(3)),
        1 => number(rng, bits),
        _ => sought(rng, &entries, bits) / k,
    };
    (entries, k, c)
}

fn run_judge(entries: &[u64], k: u64, c: u64) -> [u64; 2] {
    let below = |bound: u128| entries.iter().filter(|e| u128::from(**e) < bound).count() as u64;
    let (k, c) = (u128::from(k), u128::from(c));
    [below(c * k), below(c * k + k)]
}
