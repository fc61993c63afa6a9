//! Type words: fixed words, round trips, refusals, and the order of types read off their words.

use std::cmp::Ordering;

use dexdec::ArgType;
use dexdec::PrimitiveType::{self, *};
use words::{parse, word, CATEGORIES, TYPE};

fn names() -> Vec<String> {
    ["a", "a/b", "ab", "java/lang/Object", "z"]
        .map(String::from)
        .to_vec()
}

fn word_of(ty: ArgType) -> String {
    format!("{:016x}", word(&ty, &names()).expect("a type with a word"))
}

fn deep(dimensions: usize, base: ArgType) -> ArgType {
    (0..dimensions).fold(base, |element, _| ArgType::array(element))
}

fn unknown(list: &[PrimitiveType]) -> ArgType {
    ArgType::Unknown(list.to_vec())
}

/// A stream of numbers that is the same in each run.
struct Numbers(u64);

impl Numbers {
    fn below(&mut self, limit: u64) -> u64 {
        self.0 = self
            .0
            .wrapping_mul(6364136223846793005)
            .wrapping_add(1442695040888963407);
        (self.0 >> 33) % limit
    }

    fn ty(&mut self) -> ArgType {
        let base = match self.below(4) {
            0 => ArgType::Primitive(CATEGORIES[self.below(11) as usize]),
            1 => ArgType::Object(names()[self.below(5) as usize].clone()),
            _ => self.list(),
        };
        let dimensions = [0, 0, 1, 2, 255][self.below(5) as usize];
        deep(dimensions, base)
    }

    /// An Unknown list, often short and of few categories, so that prefixes occur.
    fn list(&mut self) -> ArgType {
        let length = [0, 1, 2, 2, 3, 11][self.below(6) as usize];
        let mut list = Vec::new();
        let spread = if length > 3 { 11 } else { 4 };
        while list.len() < length {
            let category = CATEGORIES[self.below(spread) as usize];
            if !list.contains(&category) {
                list.push(category);
            }
        }
        ArgType::Unknown(list)
    }
}

#[test]
fn fixed_words() {
    assert_eq!(word_of(ArgType::unknown()), "0002a567813249a0");
    assert_eq!(word_of(ArgType::VOID), "0000000000000000");
    assert_eq!(word_of(ArgType::INT), "0000000000000005");
    assert_eq!(word_of(ArgType::Primitive(Array)), "000000000000000a");
    assert_eq!(word_of(ArgType::object("a")), "0001000000000000");
    assert_eq!(
        word_of(ArgType::object("java/lang/Object")),
        "0001000000000003"
    );
    assert_eq!(word_of(deep(2, ArgType::INT)), "0200000000000005");
    assert_eq!(word_of(deep(1, ArgType::VOID)), "0100000000000000");
    assert_eq!(word_of(deep(255, unknown(&[]))), "ff02000000000000");
    assert_eq!(word_of(unknown(&[Void])), "0002100000000000");
    assert_eq!(word_of(unknown(&[Long, Float])), "0002267000000000");
    assert_eq!(word_of(unknown(&CATEGORIES)), "0002b0123456789a");
}

#[test]
fn types_without_a_word() {
    assert_eq!(word(&deep(256, ArgType::INT), &names()), None);
    assert_eq!(word(&ArgType::object("b"), &names()), None);
    assert_eq!(word(&unknown(&[Int, Int]), &names()), None);
    assert_eq!(word(&unknown(&[Int; 20]), &names()), None);
}

#[test]
fn words_without_a_type() {
    let refused = [
        0x0000_0000_0000_000b, // no such category
        0x0000_0000_0000_0010,
        0x0000_8000_0000_0000,
        0x0001_0000_0000_0005, // no such class
        0x0001_8000_0000_0000,
        0x0002_c012_3456_789a, // length over 11
        0x0002_1b00_0000_0000, // no such category in a list
        0x0002_1550_0000_0000, // digits past the length
        0x0002_0000_0000_0001,
        0x0002_2550_0000_0000, // twice the same
        0x0002_2000_0000_0000,
        0x0003_0000_0000_0000, // no such tag
        0x0010_0000_0000_0000,
        u64::MAX,
    ];
    for word in refused {
        assert_eq!(parse(word, &names()), Err(TYPE), "{word:016x}");
    }
}

#[test]
fn a_class_word_is_judged_by_the_number_of_names() {
    for count in 0..=5 {
        for number in 0..7 {
            let parsed = parse(1 << 48 | number as u64, &names()[..count]);
            assert_eq!(parsed.is_ok(), number < count);
        }
    }
}

#[test]
fn a_type_comes_back_from_its_word() {
    let mut numbers = Numbers(1);
    for _ in 0..20_000 {
        let ty = numbers.ty();
        let word = word(&ty, &names()).expect("a type with a word");
        assert_eq!(parse(word, &names()), Ok(ty));
    }
}

#[test]
fn a_word_comes_back_from_its_type() {
    let mut numbers = Numbers(2);
    let mut legal = 0;
    for _ in 0..20_000 {
        let near = word(&numbers.ty(), &names()).expect("a type with a word");
        let tried = near ^ (1 + numbers.below(15)) << (4 * numbers.below(16));
        if let Ok(ty) = parse(tried, &names()) {
            assert_eq!(word(&ty, &names()), Some(tried));
            legal += 1;
        }
    }
    assert!(
        (1_000..19_000).contains(&legal),
        "both kinds of words were tried: {legal}"
    );
}

/// O7: the order of two types from their words. Common dimensions are taken off; then primitives come before
/// classes, these before arrays, these before Unknown; lists compare by their digits, then by length.
fn order_of_words(left: u64, right: u64) -> Ordering {
    let common = (left >> 56).min(right >> 56);
    let key = |word: u64| {
        let (dimensions, tag) = ((word >> 56) - common, word >> 48 & 0xff);
        match (dimensions, tag) {
            (0, 2) => (3, word & 0xfff_ffff_ffff, word >> 44 & 0xf),
            (0, _) => (tag, word & 0xffff_ffff_ffff, 0),
            _ => (2, 0, 0),
        }
    };
    key(left).cmp(&key(right))
}

#[test]
fn o7_the_order_of_types_can_be_read_off_their_words() {
    let mut numbers = Numbers(3);
    for _ in 0..30_000 {
        let (left, right) = (numbers.ty(), numbers.ty());
        let of_words = order_of_words(
            word(&left, &names()).expect("a type with a word"),
            word(&right, &names()).expect("a type with a word"),
        );
        assert_eq!(of_words, left.cmp(&right), "{left:?} {right:?}");
    }
}
