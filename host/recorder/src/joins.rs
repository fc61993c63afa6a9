//! Cases for types over class tables: a table and a list of types in one line, then each of them beside all of them,
//! judged by lattice.rs and, for what is refused, by the rules of the paper.

use dexdec::ArgType;
use dexdec::PrimitiveType::{self, *};
use judge::classes::{Classes, Judge, WORK};
use words::{word, CATEGORIES};

use crate::out::Out;
use crate::rng::Rng;
use crate::tables::{any_table, damage, layered_table, table_case, INT};

/// A word that is no type.
const NO_TYPE: u64 = 11;

fn unknown(list: &[PrimitiveType]) -> ArgType {
    ArgType::Unknown(list.to_vec())
}

/// The base types: every category, every class, and lists that tell the rules apart.
fn bases(names: &[String]) -> Vec<ArgType> {
    let mut types: Vec<ArgType> = CATEGORIES.map(ArgType::Primitive).to_vec();
    types.extend(names.iter().cloned().map(ArgType::Object));
    types.extend(CATEGORIES.map(|category| unknown(&[category])));
    types.extend([
        unknown(&[]),
        ArgType::unknown(),
        ArgType::narrow(),
        ArgType::wide(),
        ArgType::equality_operand(),
        unknown(&[Int, Float]),
        unknown(&[Object, Array]),
        unknown(&[Array, Object]),
        unknown(&[Boolean, Void, Int]),
    ]);
    types
}

/// Those, and arrays of one and more dimensions of some of them.
pub(crate) fn some_types(rng: &mut Rng, names: &[String], most: usize) -> Vec<u64> {
    let bases = bases(names);
    let mut types = bases.clone();
    types.extend(bases.iter().cloned().map(ArgType::array));
    types.extend(bases.iter().map(|base| {
        let more = ArgType::array(ArgType::array(base.clone()));
        match rng.below(12) {
            0 => (2..255).fold(more, |element, _| ArgType::array(element)),
            _ => more,
        }
    }));
    while types.len() > most {
        types.remove(rng.below(types.len() as u64) as usize);
    }
    let legal = types
        .iter()
        .map(|ty| word(ty, names).expect("a type with a word"));
    legal.collect()
}

/// An answer for each type, or the refusal of all and zeros.
fn answers(
    table: &Classes,
    judge: Option<&Judge>,
    left: u64,
    types: &[u64],
    room: usize,
    answer: impl Fn(&Judge, u64) -> u64,
) -> Vec<u64> {
    let refusal = table.word_refusal(&[left], room);
    let each = types.iter().map(|right| match (refusal, judge) {
        (0, Some(judge)) => answer(judge, *right),
        _ => 0,
    });
    [refusal].into_iter().chain(each).collect()
}

/// A table in a line, then each of the words asked about beside each of the types.
pub(crate) fn all(out: &mut Out, table: &Classes, types: &[u64], asked: &[u64], room: usize) {
    table_case(out, table, types, room);
    let judge = (table.word_refusal(&[INT], room) == 0).then(|| table.judge());
    let judge = judge.as_ref();
    for left in asked {
        let joins = answers(table, judge, *left, types, room, |judge, right| {
            judge.join(*left, right)
        });
        out.case_of("join", &[*left], &joins);
        let flags = answers(table, judge, *left, types, room, |judge, right| {
            judge.assignable(*left, right)
        });
        out.case_of("assign", &[*left], &flags);
    }
}

pub fn types(rng: &mut Rng, out: &mut Out) {
    // Every pair of some hundred types over one table, of some forty over others.
    let many = [(10, 96), (6, 34), (5, 34), (7, 34), (4, 34)];
    for (place, (count, most)) in many.into_iter().enumerate() {
        let table = match place % 2 {
            0 => layered_table(rng, count),
            _ => any_table(rng, count),
        };
        let names = table.names().expect("a sound table");
        let types = some_types(rng, &names, most);
        all(out, &table, &types, &types, WORK);
    }
    for _ in 0..out.cases(42) {
        let count = 1 + rng.below(5);
        let mut table = any_table(rng, count);
        let names = table.names().expect("a sound table");
        let types = some_types(rng, &names, 6);
        match rng.below(3) {
            0 => {}
            _ => damage(rng, &mut table),
        }
        let room = *rng.pick(&[WORK, WORK, WORK, WORK, WORK + 1, WORK - 1]);
        let class = 1 << 48 | count;
        let mut asked = types.clone();
        asked.extend([NO_TYPE, class, class - 1, 3 << 48]);
        // Damage may leave fewer names than the types are over.
        let legal = match table.names() {
            Ok(names) => {
                let is_type = |word: &u64| words::parse(*word, &names).is_ok();
                types.into_iter().filter(is_type).collect()
            }
            Err(_) => types,
        };
        all(out, &table, &legal, &asked, room);
    }
    let mut none = Classes::of(&["a", "b"]);
    none.push(1, 0, &[1]);
    all(out, &none, &[INT, 1 << 48], &[INT, 1 << 48, NO_TYPE], WORK);
}
