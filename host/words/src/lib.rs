//! Type words: a type of ty.rs as 64 bits, written as 16 hex digits, and back.
//!
//! Two digits of dimensions; two of the tag (0 primitive, 1 class, 2 Unknown); twelve of payload. The payload
//! of a primitive is its category, of a class its number, of Unknown one digit of length and then one digit
//! per category, the rest 0. A class number is the position in a list of names that is strictly ascending.

use dexdec::ArgType;
use dexdec::PrimitiveType::{self, *};

/// The refusal of a word that stands for no type.
pub const TYPE: u64 = 7;

/// How a missing answer is written.
pub const MISSING: u64 = u64::MAX;

/// The categories by number.
pub const CATEGORIES: [PrimitiveType; 11] = [
    Void, Boolean, Byte, Short, Char, Int, Long, Float, Double, Object, Array,
];

const PRIMITIVE: u64 = 0;
const CLASS: u64 = 1;
const UNKNOWN: u64 = 2;
const MAX_DIMENSIONS: u64 = 255;
const PAYLOAD_DIGITS: u32 = 12;

/// The word of a type; none for more than 255 dimensions, a name that is not in the list, or a repeated
/// category.
pub fn word(ty: &ArgType, names: &[String]) -> Option<u64> {
    let mut dimensions = 0;
    let mut base = ty;
    while let ArgType::Array(element) = base {
        dimensions += 1;
        base = element;
    }
    let (tag, payload) = match base {
        ArgType::Primitive(category) => (PRIMITIVE, category_number(*category)),
        ArgType::Object(name) => (CLASS, names.binary_search(name).ok()? as u64),
        ArgType::Unknown(list) => (UNKNOWN, list_payload(list)?),
        ArgType::Array(_) => unreachable!("dimensions were taken off"),
    };
    (dimensions <= MAX_DIMENSIONS).then_some(dimensions << 56 | tag << 48 | payload)
}

/// The type of a word, or refusal 7.
pub fn parse(word: u64, names: &[String]) -> Result<ArgType, u64> {
    let payload = word & 0xffff_ffff_ffff;
    let base = match word >> 48 & 0xff {
        PRIMITIVE => category(payload).map(ArgType::Primitive),
        CLASS => name(payload, names).map(ArgType::Object),
        UNKNOWN => parse_list(payload).map(ArgType::Unknown),
        _ => None,
    };
    let dimensions = word >> 56;
    let base = base.ok_or(TYPE)?;
    Ok((0..dimensions).fold(base, |element, _| ArgType::array(element)))
}

pub fn category_number(category: PrimitiveType) -> u64 {
    let place = CATEGORIES.iter().position(|other| *other == category);
    place.expect("every category is in the list") as u64
}

fn category(number: u64) -> Option<PrimitiveType> {
    CATEGORIES.get(usize::try_from(number).ok()?).copied()
}

fn name(number: u64, names: &[String]) -> Option<String> {
    names.get(usize::try_from(number).ok()?).cloned()
}

/// The hex digit of a payload at `place`, counted from the left.
fn digit(payload: u64, place: u32) -> u64 {
    payload >> (4 * (PAYLOAD_DIGITS - 1 - place)) & 0xf
}

fn has_repeats(list: &[PrimitiveType]) -> bool {
    (1..list.len()).any(|place| list[..place].contains(&list[place]))
}

fn list_payload(list: &[PrimitiveType]) -> Option<u64> {
    if has_repeats(list) {
        return None;
    }
    let mut digits = vec![list.len() as u64];
    digits.extend(list.iter().map(|category| category_number(*category)));
    digits.resize(PAYLOAD_DIGITS as usize, 0);
    Some(digits.iter().fold(0, |payload, digit| payload << 4 | digit))
}

fn parse_list(payload: u64) -> Option<Vec<PrimitiveType>> {
    let length = digit(payload, 0) as u32;
    if length >= PAYLOAD_DIGITS {
        return None;
    }
    let list: Option<Vec<_>> = (1..=length)
        .map(|place| category(digit(payload, place)))
        .collect();
    let rest_is_zero = (length + 1..PAYLOAD_DIGITS).all(|place| digit(payload, place) == 0);
    list.filter(|list| rest_is_zero && !has_repeats(list))
}
