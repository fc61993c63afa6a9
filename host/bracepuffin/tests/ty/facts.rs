//! What is asked of a type alone, the types that have a name of their own, and words there and back.

use bracepuffin::{ArgType, ClassTableBuilder, PrimitiveType, TypeWord};
use judge::cases::any_word;
use judge::rng::Rng;

use crate::{names, owned_names, types, words, NAMES};

/// By word, which both have.
fn same(ours: ArgType, theirs: &dexdec::ArgType) -> bool {
    let word = words::word(theirs, &owned_names());
    word.is_some_and(|word| names().word(ours).map(TypeWord::bits) == Ok(word))
}

#[test]
fn types_with_a_name_of_their_own() {
    use dexdec::ArgType as Theirs;
    for (ours, theirs) in [
        (ArgType::VOID, Theirs::VOID),
        (ArgType::BOOLEAN, Theirs::BOOLEAN),
        (ArgType::BYTE, Theirs::BYTE),
        (ArgType::SHORT, Theirs::SHORT),
        (ArgType::CHAR, Theirs::CHAR),
        (ArgType::INT, Theirs::INT),
        (ArgType::LONG, Theirs::LONG),
        (ArgType::FLOAT, Theirs::FLOAT),
        (ArgType::DOUBLE, Theirs::DOUBLE),
        (ArgType::narrow(), Theirs::narrow()),
        (ArgType::wide(), Theirs::wide()),
        (ArgType::unknown_object(), Theirs::unknown_object()),
        (ArgType::equality_operand(), Theirs::equality_operand()),
        (ArgType::unknown(), Theirs::unknown()),
        (ArgType::object("a/b"), Theirs::object("a/b")),
        (ArgType::string(), Theirs::string()),
        (ArgType::class(), Theirs::class()),
        (ArgType::throwable(), Theirs::throwable()),
        (ArgType::int_array(), Theirs::int_array()),
        (ArgType::object_array(), Theirs::object_array()),
    ] {
        assert!(same(ours, &theirs), "{ours:?} {theirs:?}");
    }
}

#[test]
fn what_is_asked_of_a_type() {
    let names = names();
    for (ours, theirs) in types(&names) {
        assert_eq!(ours.is_known(), theirs.is_known(), "{theirs:?}");
        assert_eq!(ours.is_unknown(), !theirs.is_known(), "{theirs:?}");
        assert_eq!(ours.is_primitive(), theirs.is_primitive(), "{theirs:?}");
        assert_eq!(ours.is_object(), theirs.is_object(), "{theirs:?}");
        assert_eq!(ours.is_array(), theirs.is_array(), "{theirs:?}");
        assert_eq!(ours.is_reference(), theirs.is_reference(), "{theirs:?}");
        assert_eq!(ours.is_wide(), theirs.is_wide(), "{theirs:?}");
        assert_eq!(ours.as_object(), theirs.as_object(), "{theirs:?}");
        let number = theirs.as_primitive().map(words::category_number);
        assert_eq!(ours.as_primitive().map(PrimitiveType::number), number);
        match (ours.as_array_element(), theirs.as_array_element()) {
            (Some(ours), Some(theirs)) => assert!(same(ours, theirs), "{theirs:?}"),
            (ours, theirs) => assert!(ours.is_none() && theirs.is_none()),
        }
    }
}

#[test]
fn words_of_a_table_of_names() {
    let names = names();
    for word in words() {
        let word = names.word_from_bits(word);
        let ty = names.type_of(word).expect("a word of a type");
        assert_eq!(names.word(ty), Ok(word));
    }
    for word in [11, 1 << 48 | 9, 2 << 48 | 1, 3 << 48, u64::MAX] {
        assert_eq!(names.type_of(names.word_from_bits(word)), None);
    }
}

/// Words that are types and words that are none, as `words` and the archive have them.
#[test]
fn random_words() {
    let mut classes = ClassTableBuilder::new();
    for name in NAMES {
        classes.name(name);
    }
    let table = classes.build().expect("a table");
    let names = names();
    let mut rng = Rng::new(1, "words of types");
    for _ in 0..20_000 {
        let word = any_word(&mut rng, NAMES.len() + 1);
        let ours = names.type_of(names.word_from_bits(word));
        let of_table = table.names().word_from_bits(word);
        assert_eq!(ours, table.type_of(of_table));
        let written = names.write_type(names.word_from_bits(word));
        assert_eq!(ours.is_some(), written.is_ok());
        match words::parse(word, &owned_names()) {
            Ok(theirs) => assert!(ours.is_some_and(|ours| same(ours, &theirs)), "{word:016x}"),
            Err(_) => assert_eq!(ours, None, "{word:016x}"),
        }
    }
}
