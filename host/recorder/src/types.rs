//! Cases for types and their words, judged by ty.rs, by lattice.rs and by `words`.

use std::cmp::Ordering;

use dexdec::lattice;
use dexdec::ArgType;
use dexdec::PrimitiveType::{self, *};
use words::{category_number, parse, word, CATEGORIES, MISSING};

use crate::out::{list, Out};
use crate::rng::Rng;

const OBJECT: &str = "java/lang/Object";
const NAMES: usize = 1024;

/// How many random words are asked about in the smallest file.
const CASES: u64 = 900;

/// 1,024 names, ascending, of many lengths; prefixes of each other and bytes past ASCII occur.
fn names() -> Vec<String> {
    let stems = ["", "a", "a/", "java/lang/", "\u{e9}"];
    let tails = (0..205).map(|number| format!("{number:b}"));
    let mut names: Vec<String> = tails
        .flat_map(|tail| stems.map(|stem| format!("{stem}{tail}")))
        .take(NAMES - 1)
        .collect();
    names.push(OBJECT.to_string());
    names.sort();
    names.dedup();
    assert_eq!(names.len(), NAMES);
    names
}

/// 1,024 names, ascending, of which number `object` is java/lang/Object.
fn names_with_object_at(object: u64) -> Vec<String> {
    let name = |number| match number {
        number if number < object => format!("a{number:04}"),
        number if number == object => OBJECT.to_string(),
        number => format!("k{number:04}"),
    };
    (0..NAMES as u64).map(name).collect()
}

fn deep(dimensions: u64, base: ArgType) -> ArgType {
    (0..dimensions).fold(base, |element, _| ArgType::array(element))
}

fn unknown(list: &[PrimitiveType]) -> ArgType {
    ArgType::Unknown(list.to_vec())
}

/// Types that tell the rules apart.
fn telling_types(names: &[String]) -> Vec<ArgType> {
    let class = |number: usize| ArgType::Object(names[number].clone());
    let mut types: Vec<ArgType> = CATEGORIES.map(ArgType::Primitive).to_vec();
    types.extend([0, 1, 5, 1023].map(class));
    types.extend(telling_lists());
    let deep_bases = [
        (1, ArgType::VOID),
        (1, ArgType::INT),
        (1, ArgType::Primitive(Array)),
        (1, class(0)),
        (1, class(1023)),
        (2, ArgType::INT),
        (2, ArgType::Primitive(Object)),
        (2, class(0)),
        (2, class(5)),
        (254, ArgType::INT),
        (254, class(1)),
        (255, ArgType::VOID),
        (255, ArgType::INT),
        (255, class(1023)),
        (1, unknown(&[])),
        (1, unknown(&[Void])),
        (1, unknown(&[Int])),
        (1, unknown(&[Boolean, Int])),
        (1, ArgType::unknown()),
        (2, unknown(&[])),
        (2, ArgType::unknown()),
        (254, unknown(&[Int])),
        (255, unknown(&[])),
        (255, ArgType::wide()),
    ];
    types.extend(deep_bases.map(|(dimensions, base)| deep(dimensions, base)));
    types
}

/// Those and more of each kind, every pair of which is put in order: some hundred types.
fn ordered_types(names: &[String]) -> Vec<ArgType> {
    let mut types = telling_types(names);
    types.extend([2, 512, 1022].map(|number: usize| ArgType::Object(names[number].clone())));
    for category in CATEGORIES {
        types.push(deep(1, ArgType::Primitive(category)));
        types.push(deep(3, ArgType::Primitive(category)));
        types.push(unknown(&[category]));
        types.push(deep(1, unknown(&[category])));
    }
    types.sort();
    types.dedup();
    types
}

/// Unknown lists that tell the rules apart: empty, single, prefixes, Void at each end and in the middle.
fn telling_lists() -> Vec<ArgType> {
    let lists: [&[PrimitiveType]; 19] = [
        &[],
        &[Void],
        &[Boolean],
        &[Int],
        &[Object],
        &[Array],
        &[Void, Boolean],
        &[Boolean, Void],
        &[Boolean, Int],
        &[Int, Boolean],
        &[Boolean, Void, Int],
        &[Boolean, Int, Void],
        &[Boolean, Int, Long],
        &[Object, Array],
        &[Int, Long, Float, Double],
        &[Int, Long, Float, Double, Boolean, Short, Byte, Char, Object],
        &[
            Int, Long, Float, Double, Boolean, Short, Byte, Char, Object, Array, Void,
        ],
        &CATEGORIES,
        &[
            Array, Object, Double, Float, Long, Int, Char, Short, Byte, Boolean, Void,
        ],
    ];
    let mut types: Vec<ArgType> = lists.map(unknown).to_vec();
    types.extend([
        ArgType::unknown(),
        ArgType::narrow(),
        ArgType::wide(),
        ArgType::equality_operand(),
    ]);
    types
}

/// Any type over these names.
fn any_type(rng: &mut Rng, names: &[String]) -> ArgType {
    let base = match rng.below(4) {
        0 => ArgType::Primitive(*rng.pick(&CATEGORIES)),
        1 => ArgType::Object(rng.pick(names).clone()),
        _ => ArgType::Unknown(any_list(rng)),
    };
    let dimensions = match rng.below(8) {
        0..=3 => 0,
        4 => 1 + rng.below(3),
        5 => 254 + rng.below(2),
        _ => rng.below(256),
    };
    deep(dimensions, base)
}

fn any_list(rng: &mut Rng) -> Vec<PrimitiveType> {
    let mut left = CATEGORIES.to_vec();
    let length = rng.below(12);
    let draw = |_| left.remove(rng.below(left.len() as u64) as usize);
    (0..length).map(draw).collect()
}

/// A type close to `ty`: one dimension more or less, another base, a list with a change at its end.
fn near(rng: &mut Rng, ty: &ArgType, names: &[String]) -> ArgType {
    match ty {
        ArgType::Array(element) if rng.below(3) > 0 => ArgType::array(near(rng, element, names)),
        ArgType::Array(element) => element.as_ref().clone(),
        ArgType::Unknown(list) => ArgType::Unknown(near_list(rng, list)),
        ArgType::Object(_) => ArgType::Object(rng.pick(names).clone()),
        ArgType::Primitive(_) => ArgType::Primitive(*rng.pick(&CATEGORIES)),
    }
}

fn near_list(rng: &mut Rng, list: &[PrimitiveType]) -> Vec<PrimitiveType> {
    let mut changed = list.to_vec();
    let added = *rng.pick(&CATEGORIES);
    if rng.below(2) == 0 {
        changed.pop();
    }
    if !changed.contains(&added) && rng.below(2) == 0 {
        changed.push(added);
    }
    changed
}

fn legal_word(ty: &ArgType, names: &[String]) -> u64 {
    word(ty, names).expect("a type with a word")
}

/// Some hundred types in one line, ascending: the order of every pair of them is that of their places.
pub fn pairs(_: &mut Rng, out: &mut Out) {
    let names = names();
    let mut lists = vec![ordered_types(&names)];
    lists.push(lists[0].iter().step_by(7).cloned().collect());
    lists.push(lists[0][..1].to_vec());
    for types in lists {
        let words = types.iter().map(|ty| legal_word(ty, &names));
        out.case(&list(words), &[(types.len() * types.len()) as u64]);
    }
}

/// Neighbours among those both ways, then random pairs, half of them close to each other.
pub fn order(rng: &mut Rng, out: &mut Out) {
    let names = names();
    for pair in ordered_types(&names).windows(2) {
        order_case(&pair[0], &pair[1], &names, out);
        order_case(&pair[1], &pair[0], &names, out);
        order_case(&pair[0], &pair[0], &names, out);
    }
    let telling = [
        (deep(2, ArgType::INT), deep(1, unknown(&[]))),
        (unknown(&[Int]), unknown(&[Boolean, Int])),
        (unknown(&[]), unknown(&[Void])),
    ];
    for (left, right) in telling {
        order_case(&left, &right, &names, out);
    }
    for _ in 0..out.cases(250) {
        let left = any_type(rng, &names);
        order_case(&left, &any_type(rng, &names), &names, out);
        order_case(&left, &near(rng, &left, &names), &names, out);
    }
}

fn order_case(left: &ArgType, right: &ArgType, names: &[String], out: &mut Out) {
    let answer = match left.cmp(right) {
        Ordering::Less => 0,
        Ordering::Equal => 1,
        Ordering::Greater => 2,
    };
    out.case(
        &[legal_word(left, names), legal_word(right, names)],
        &[answer],
    );
}

pub fn legal(rng: &mut Rng, out: &mut Out) {
    let names = names();
    let mut cases = fixed_legal_cases(&names);
    for _ in 0..out.cases(100) {
        let count = *rng.pick(&[0, 1, 5, 100, 1023, 1024]);
        let word = legal_word(&any_type(rng, &names), &names);
        let once = word ^ edit(rng);
        cases.extend([(count, word), (count, once), (count, once ^ edit(rng))]);
        cases.push((count, rng.draw() & 0xff03_ffff_ffff_ffff));
    }
    for (count, word) in cases {
        let answer = parse(word, &names[..count]).is_ok();
        out.case(&[count as u64, word], &[u64::from(answer)]);
    }
}

/// One hex digit that is not 0, at any place: to change a digit of a word by exclusive or.
fn edit(rng: &mut Rng) -> u64 {
    (1 + rng.below(15)) << (4 * rng.below(16))
}

fn fixed_legal_cases(names: &[String]) -> Vec<(usize, u64)> {
    let telling = telling_types(names);
    let mut cases: Vec<(usize, u64)> = telling
        .iter()
        .map(|ty| (NAMES, legal_word(ty, names)))
        .collect();
    // Class numbers around the number of names.
    for count in [0, 1, 2, 5, 256, 1023, 1024] {
        for number in [0, 1, 2, 4, 5, 6, 255, 256, 257, 1022, 1023, 1024, 1 << 47] {
            cases.push((count, 1 << 48 | number));
            cases.push((count, 0xff << 56 | 1 << 48 | number));
        }
    }
    cases
}

/// Words of every kind of base with every change of one digit: bit 16 p + d of answer q says whether the word is
/// legal after its digit 4 q + p, counted from the low end, was combined with d by exclusive or.
pub fn edits(rng: &mut Rng, out: &mut Out) {
    let names = names();
    let mut cases: Vec<(usize, u64)> = telling_types(&names)
        .iter()
        .map(|ty| (NAMES, legal_word(ty, &names)))
        .collect();
    for count in [0, 1, 2, 15, 16, 17, 255, 256, 273, 1023, 1024] {
        for number in [0, 1, 15, 16, 255, 256, 272, 1022, 1023] {
            cases.push((count, 1 << 48 | number));
        }
    }
    for _ in 0..out.cases(140) {
        let count = *rng.pick(&[0, 1, 5, 100, 1023, 1024]);
        // Few dimensions: they are never refused, and many cost time.
        let word = legal_word(&any_type(rng, &names), &names) & 0x03ff_ffff_ffff_ffff;
        cases.extend([(count, word), (NAMES, word ^ edit(rng) >> 8)]);
    }
    for (count, word) in cases {
        out.case(&[count as u64, word], &edits_judge(word, &names[..count]));
    }
}

fn edits_judge(word: u64, names: &[String]) -> [u64; 4] {
    let mut bits = [0; 4];
    for place in 0..16 {
        for digit in 0..16 {
            let is_legal = parse(word ^ digit << (4 * place), names).is_ok();
            bits[place / 4] |= u64::from(is_legal) << (16 * (place as u64 % 4) + digit);
        }
    }
    bits
}

/// Telling words, every list of one or two categories (of all types only seven are wide, five of them lists), and
/// random ones.
pub fn of_word(rng: &mut Rng, out: &mut Out) {
    let names = names();
    let mut types = telling_types(&names);
    for first in CATEGORIES {
        types.push(unknown(&[first]));
        let others = CATEGORIES.into_iter().filter(|second| *second != first);
        types.extend(others.map(|second| unknown(&[first, second])));
    }
    types.extend((0..out.cases(CASES)).map(|_| any_type(rng, &names)));
    for ty in types {
        out.case(&[legal_word(&ty, &names)], &of_word_judge(&ty, &names));
    }
}

fn of_word_judge(ty: &ArgType, names: &[String]) -> [u64; 7] {
    let categories = lattice::categories(ty).into_iter().map(category_number);
    let array = word(&ArgType::array(ty.clone()), names);
    let element = ty.as_array_element();
    [
        u64::from(ty.is_wide()),
        u64::from(ty.is_reference()),
        u64::from(ty.is_known()),
        u64::from(lattice::is_concrete(ty)),
        categories.fold(0, |set, category| set | 1 << category),
        array.unwrap_or(MISSING),
        element.map_or(MISSING, |element| legal_word(element, names)),
    ]
}

pub fn hint(rng: &mut Rng, out: &mut Out) {
    let objects = [0, 1, 5, 777, 1023];
    let tables = objects.map(names_with_object_at);
    let mut cases = Vec::new();
    for (at, names) in tables.iter().enumerate() {
        cases.extend(CATEGORIES.map(|category| (at, unknown(&[category]))));
        cases.extend(telling_types(names).into_iter().map(|ty| (at, ty)));
    }
    for _ in 0..out.cases(CASES / 4) {
        let at = rng.below(5) as usize;
        cases.push((at, any_type(rng, &tables[at])));
    }
    for (at, ty) in cases {
        let hint = lattice::concrete_hint(&ty);
        let answer = hint.map_or(MISSING, |hint| legal_word(&hint, &tables[at]));
        out.case(&[objects[at], legal_word(&ty, &tables[at])], &[answer]);
    }
}
