//! Letters, descriptors of types and methods, and the conversions from text.

use std::str::FromStr;

use bracepuffin::{read_method, read_type, ArgType, MethodDescriptor, Names, PrimitiveType};
use bracepuffin::{read_method_strict, read_type_strict, Base, Refusal, TypeWord};
use judge::cases::{any_method, any_type, each_string, REAL_METHODS, REAL_TYPES};
use judge::rng::Rng;

use crate::{names, types};

#[test]
fn letters() {
    for (ours, theirs) in PrimitiveType::ALL.iter().zip(words::CATEGORIES) {
        assert_eq!(ours.descriptor(), theirs.descriptor());
    }
    for letter in ('\0'..='\u{2ff}').chain(['\u{10049}', char::MAX]) {
        let theirs = dexdec::PrimitiveType::from_descriptor(letter);
        let ours = PrimitiveType::from_descriptor(letter).map(PrimitiveType::number);
        assert_eq!(ours, theirs.map(words::category_number), "{letter:?}");
    }
}

#[test]
fn types_are_written_as_by_the_rust() {
    let names = names();
    for (ours, theirs) in types(&names) {
        assert_eq!(ours.to_descriptor(), Ok(theirs.to_descriptor()));
    }
    let mut rng = Rng::new(1, "types as text");
    let mut text = Vec::new();
    for _ in 0..10_000 {
        text.clear();
        any_type(&mut rng, &mut text);
        if let Ok(ty) = read_type(&text) {
            assert_eq!(ty.to_descriptor().map(String::into_bytes), Ok(text.clone()));
        }
    }
}

/// A longer name can be read, and a method with it printed, but no table holds it.
#[test]
fn names_that_no_table_holds() {
    let name = |length| "n".repeat(length);
    for length in [1, 254, 255] {
        let deep = ArgType {
            dimensions: 255,
            base: Base::Object(&name(length)),
        };
        let expected = format!("{}L{};", "[".repeat(255), name(length));
        assert_eq!(deep.to_descriptor(), Ok(expected));
    }
    for length in [0, 256, 257, 70_000] {
        let refused = ArgType::object(&name(length)).to_descriptor();
        assert_eq!(refused, Err(Refusal::Length), "{length}");
    }
    let long = format!("([L{};)L{};", name(256), name(70_000));
    let method = read_method(long.as_bytes()).expect("a method");
    assert_eq!(method.to_string(), long);
}

#[test]
fn methods_print_as_those_of_the_rust() {
    let mut rng = Rng::new(1, "methods as text");
    let mut random = vec![Vec::new(); 10_000];
    random
        .iter_mut()
        .for_each(|text| any_method(&mut rng, text));
    let real = REAL_METHODS.map(|text| text.as_bytes().to_vec());
    for text in random.into_iter().chain(real) {
        let Ok(method) = read_method(&text) else {
            continue;
        };
        let text = std::str::from_utf8(&text).expect("names are well-formed");
        let theirs = dexdec::MethodDescriptor::from_str(text).expect("a method");
        assert_eq!(method.to_string(), theirs.to_string());
        assert_eq!(written(&method), Ok(method.to_string()));
    }
}

/// The method as the archive writes it.
fn written(method: &MethodDescriptor) -> Result<String, Refusal> {
    let types = method.parameters.iter().chain([&method.return_type]);
    let names = types.filter_map(|ty| match ty.base {
        Base::Object(name) => Some(name),
        _ => None,
    });
    let names = Names::new(names)?;
    let words = method.parameters.iter().map(|ty| names.word(*ty));
    let words = words.collect::<Result<Vec<TypeWord>, Refusal>>()?;
    names.write_method(&words, names.word(method.return_type)?)
}

/// Unknowns too, and void where no reader takes it.
#[test]
fn methods_of_any_types_print_as_those_of_the_rust() {
    let names = names();
    let (ours, theirs): (Vec<_>, Vec<_>) = types(&names).into_iter().unzip();
    for (our_return, their_return) in ours.iter().zip(&theirs) {
        let method = MethodDescriptor {
            parameters: ours.clone(),
            return_type: *our_return,
        };
        let expected = dexdec::MethodDescriptor {
            parameters: theirs.clone(),
            return_type: their_return.clone(),
        };
        assert_eq!(method.to_string(), expected.to_string());
        assert_eq!(written(&method), Ok(method.to_string()));
    }
}

/// As the ordinary readers read, not the strict ones.
fn converted(text: &str) {
    let bytes = text.as_bytes();
    assert_eq!(ArgType::try_from(text), read_type(bytes));
    assert_eq!(ArgType::try_from(bytes), read_type(bytes));
    assert_eq!(MethodDescriptor::try_from(text), read_method(bytes));
    assert_eq!(MethodDescriptor::try_from(bytes), read_method(bytes));
}

#[test]
fn conversions_from_text() {
    REAL_TYPES
        .iter()
        .chain(&REAL_METHODS)
        .copied()
        .for_each(converted);
    each_string(b"()LVI[;.a", 4, &mut |text| {
        converted(std::str::from_utf8(text).expect("ASCII"))
    });
    for (ty, method) in [("La.b;", "(La.b;)V"), ("La//b;", "()La//b;")] {
        converted(ty);
        converted(method);
        assert_eq!(
            ArgType::try_from(ty),
            Ok(ArgType::object(&ty[1..ty.len() - 1]))
        );
        assert!(read_type_strict(ty.as_bytes()).is_err());
        let read = MethodDescriptor::try_from(method).map(|read| read.to_string());
        assert_eq!(read.as_deref(), Ok(method));
        assert!(read_method_strict(method.as_bytes()).is_err());
    }
    assert!(ArgType::try_from(&b"L\xff;"[..]).is_err());
    assert!(MethodDescriptor::try_from(&b"(L\xff;)V"[..]).is_err());
}

/// What was converted borrows from the text and outlives the conversion.
#[test]
fn names_are_borrowed_from_the_text() {
    let text = String::from("La/b;");
    let name = ArgType::try_from(text.as_str()).map(|ty| ty.as_object());
    let name = name.expect("a type").expect("a class");
    assert_eq!(name.as_ptr(), text[1..].as_ptr());
}

#[test]
fn types_print_as_those_of_the_rust() {
    let names = names();
    for (ours, theirs) in types(&names) {
        assert_eq!(ours.to_string(), theirs.to_string());
    }
    for (category, theirs) in PrimitiveType::ALL.into_iter().zip(words::CATEGORIES) {
        let theirs = dexdec::ArgType::Primitive(theirs);
        assert_eq!(category.name(), theirs.to_string());
    }
}
