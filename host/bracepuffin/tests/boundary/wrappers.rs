//! The types and errors of the Rust crate.

use bracepuffin::{read_method, read_method_into, read_method_strict, read_method_strict_into};
use bracepuffin::{read_type, read_type_strict, slices};
use bracepuffin::{ArgType, Base, Names, Offsets, Place, PrimitiveType, Refusal, TypeWord};
use judge::cases::REAL_METHODS;

#[test]
fn types() {
    let string = read_type(b"[[Ljava/lang/String;").expect("a type");
    assert_eq!(string.dimensions, 2);
    assert_eq!(string.base, Base::Object("java/lang/String"));
    assert!(string.is_array() && string.is_reference() && !string.is_object());
    let inner = string
        .as_array_element()
        .and_then(|element| element.as_array_element());
    assert_eq!(inner, Some(ArgType::object("java/lang/String")));
    assert_eq!(
        inner.and_then(|inner| inner.as_object()),
        Some("java/lang/String")
    );
    assert_eq!(inner.and_then(|inner| inner.as_array_element()), None);
    assert_eq!(read_type(b"J"), Ok(ArgType::LONG));
    assert!(ArgType::LONG.is_wide() && ArgType::DOUBLE.is_wide() && !ArgType::INT.is_wide());
    assert_eq!(
        read_type(b"V").map(|ty| ty.as_primitive()),
        Ok(Some(PrimitiveType::Void))
    );
    let longs = read_type(b"[J").expect("a type");
    assert!(!longs.is_wide() && !longs.is_primitive());
    assert_eq!(Some(longs), ArgType::LONG.array());
    let deepest = read_type(&[&[b'['; 255][..], b"I"].concat()).map(|ty| ty.dimensions);
    assert_eq!(deepest, Ok(255));
    assert_eq!(
        ArgType {
            dimensions: 255,
            ..ArgType::INT
        }
        .array(),
        None
    );
}

#[test]
fn every_letter_is_its_category() {
    for (letter, category) in b"VZBSCIJFD".iter().zip(PrimitiveType::ALL) {
        assert_eq!(read_type(&[*letter]), Ok(ArgType::primitive(category)));
    }
    let numbers = PrimitiveType::ALL.map(PrimitiveType::number);
    assert_eq!(numbers, [0, 1, 2, 3, 4, 5, 6, 7, 8, 9, 10]);
}

#[test]
fn methods() {
    let method = read_method(b"(I[La/b;J)La/c;").expect("a method");
    let array = ArgType::object("a/b").array().expect("one dimension");
    assert_eq!(method.parameters, [ArgType::INT, array, ArgType::LONG]);
    assert_eq!(method.return_type, ArgType::object("a/c"));
    assert_eq!(
        read_method(b"()V").map(|method| method.parameters.len()),
        Ok(0)
    );
    assert_eq!(
        read_method(b"(I"),
        Err(Refusal::MissingMethodEnd { offset: 2 })
    );
    assert_eq!(
        read_method(b"()"),
        Err(Refusal::UnexpectedEnd { offset: 2 })
    );
    assert_eq!(
        read_method_strict(b"(La.b;)V"),
        Err(Refusal::Strict { offset: 1 })
    );
    assert!(read_method_strict(b"(La/b;)V").is_ok());
}

#[test]
fn every_letter_is_its_category_in_a_parameter() {
    let method = read_method(b"(ZBSCIJFD[[ZLV;[LI;)V").expect("a method");
    let (letters, others) = method.parameters.split_at(8);
    let categories = PrimitiveType::ALL[1..9].iter().copied();
    assert!(categories
        .map(ArgType::primitive)
        .eq(letters.iter().copied()));
    let [booleans, class, array] = others else {
        panic!("three more");
    };
    assert_eq!(
        (booleans.dimensions, booleans.base),
        (2, ArgType::BOOLEAN.base)
    );
    assert_eq!((class.dimensions, class.base), (0, Base::Object("V")));
    assert_eq!((array.dimensions, array.base), (1, Base::Object("I")));
}

#[test]
fn methods_of_as_many_parameters_as_there_may_be() {
    let deep = ["[".repeat(255), "La;".to_string()].concat();
    let text = format!("({}{deep})Lb;", "J".repeat(254));
    let mut offsets = Offsets::new();
    let method = read_method_into(text.as_bytes(), &mut offsets).expect("a method");
    assert_eq!(method.count(), 255);
    assert_eq!(method.parameter_text(254), Some(deep.as_bytes()));
    assert_eq!(method.parameter_text(255), None);
    assert_eq!(method.parameter_text(256), None);
    assert_eq!(method.parameter_text(usize::MAX), None);
    let collected = read_method(text.as_bytes()).expect("a method");
    assert!(method.parameters().eq(collected.parameters.iter().copied()));
    assert_eq!(collected.parameters.len(), 255);
    assert_eq!(collected.parameters[253], ArgType::LONG);
    let last = collected.parameters[254];
    assert_eq!((last.dimensions, last.base), (255, Base::Object("a")));
    assert_eq!(collected.return_type, ArgType::object("b"));
    assert_eq!(read_method_strict(text.as_bytes()), Ok(collected));
}

#[test]
fn methods_without_the_heap() {
    let mut offsets = Offsets::new();
    let method = read_method_into(b"(I[La/b;J)V", &mut offsets).expect("a method");
    assert_eq!(method.count(), 3);
    assert_eq!(method.parameter_text(0), Some(&b"I"[..]));
    assert_eq!(method.parameter_text(1), Some(&b"[La/b;"[..]));
    assert_eq!(method.parameter_text(2), Some(&b"J"[..]));
    assert_eq!(method.parameter_text(3), None);
    assert_eq!(method.parameter(2), Some(ArgType::LONG));
    assert_eq!(method.parameter(3), None);
    assert_eq!(method.parameters().len(), 3);
    assert_eq!(method.parameters().last(), Some(ArgType::LONG));
    assert_eq!(method.return_type, ArgType::VOID);
    let strict = read_method_strict_into(b"(La/;)V", &mut offsets);
    assert_eq!(strict.err(), Some(Refusal::Strict { offset: 1 }));
}

#[test]
fn names_outlive_what_was_read() {
    let text = String::from("([Ljava/util/List;)V");
    let name = {
        let method = read_method(text.as_bytes()).expect("a method");
        method.parameters[0]
            .as_array_element()
            .and_then(|element| element.as_object())
    };
    assert_eq!(name, Some("java/util/List"));
}

#[test]
fn parameters_as_they_are_read_alone() {
    for text in REAL_METHODS {
        let mut offsets = Offsets::new();
        let method = read_method_into(text.as_bytes(), &mut offsets).expect("a method");
        for (number, ty) in method.parameters().enumerate() {
            let alone = method.parameter_text(number).expect("its text");
            assert_eq!(read_type(alone), Ok(ty), "{text}");
            assert_eq!(method.parameter(number), Some(ty));
        }
    }
}

#[test]
fn tables_take_names_in_any_order() {
    let names = Names::new(["b", "a", "java/lang/Object", "a", "a/b"]).expect("a table");
    assert_eq!(names.len(), 4);
    assert!(!names.is_empty());
    let listed = ["a", "a/b", "b", "java/lang/Object"];
    assert_eq!(names.iter().collect::<Vec<_>>(), listed);
    assert_eq!(format!("{names:?}"), format!("{listed:?}"));
    for (class, name) in names.classes().zip(listed) {
        assert_eq!(names.name(class), Some(name));
        assert_eq!(names.class_number(name), Ok(class));
    }
    let class = names.class_number("b").expect("in the table");
    assert_eq!(
        (class.get(), format!("{class:?}")),
        (2, "ClassNumber(2)".into())
    );
    assert_eq!(names.class_number("c"), Err(Refusal::Absent));
    assert_eq!(names.class_number(""), Err(Refusal::Absent));
    let nothing: [&str; 0] = [];
    assert!(Names::new(nothing).is_ok_and(|names| names.is_empty()));
}

/// What one table gives is nothing in another, though the same names may stand in both; a clone is the same table.
#[test]
fn words_and_numbers_of_another_table() {
    let names = Names::new(["a", "b"]).expect("a table");
    let same = Names::new(["b", "a"]).expect("a table");
    let other = Names::new(["b", "c"]).expect("a table");
    assert_eq!(names, same);
    assert_ne!(names, other);
    let class = names.class_number("b").expect("in the table");
    let word = names.word(ArgType::object("b")).expect("in the table");
    let deep = ArgType::object("b").array().expect("one dimension");
    let deep = names.word(deep).expect("in the table");
    let int = names.word(ArgType::INT).expect("a type");
    let clone = names.clone();
    assert_eq!(
        (clone.name(class), clone.type_of(word)),
        (Some("b"), Some(ArgType::object("b")))
    );
    assert_eq!(
        clone.write_method(&[word, deep], int).as_deref(),
        Ok("(Lb;[Lb;)I")
    );
    for table in [same, other] {
        assert_eq!((table.name(class), table.type_of(word)), (None, None));
        for foreign in [word, deep] {
            assert_eq!(table.write_type(foreign), Err(Refusal::Type));
            assert_eq!(table.write_type_into(foreign, &mut []), Err(Refusal::Type));
            assert_eq!(table.write_method(&[int, foreign], int), Err(Refusal::Type));
            assert_eq!(table.write_method(&[int], foreign), Err(Refusal::Type));
            assert_eq!(table.write_method(&[foreign; 256], int), Err(Refusal::Room));
        }
        // A word without a class is the same everywhere.
        assert_eq!(table.word(ArgType::INT), Ok(int));
        assert_eq!(table.write_type(int).as_deref(), Ok("I"));
        assert_eq!(table.type_of(int), Some(ArgType::INT));
    }
}

#[test]
fn tables_that_are_refused() {
    let refusal = |names: Vec<Vec<u8>>| Names::new(names).err().map(|error| error.refusal());
    assert_eq!(refusal(vec![b"a".to_vec(), vec![]]), Some(Refusal::Length));
    assert_eq!(refusal(vec![vec![b'n'; 256]]), Some(Refusal::Length));
    assert_eq!(refusal(vec![vec![0xff]]), Some(Refusal::Utf8));
    assert_eq!(refusal(many(1024)), None);
    assert_eq!(refusal(many(1025)), Some(Refusal::Room));
}

/// That many names that ascend.
fn many(count: u32) -> Vec<Vec<u8>> {
    let names = (0..count).map(|name| format!("{name:04}").into_bytes());
    names.collect()
}

#[test]
fn which_name_is_refused() {
    let error = |names: Vec<Vec<u8>>| Names::new(names).expect_err("a table that is refused");
    let place = |name: &str, row, of| Place::Name {
        name: name.to_string(),
        row,
        of,
    };
    let utf8 = error(vec![vec![b'b', 0xff], b"a".to_vec(), b"c".to_vec()]);
    assert_eq!(utf8.place(), &place("b\u{fffd}", 1, 3));
    assert_eq!(
        utf8.to_string(),
        "name is not well-formed UTF-8: name 2 of 3, \"b\u{fffd}\""
    );
    assert_eq!(error(many(1500)).place(), &place("1024", 1024, 1500));
    let long = (0..200).map(|name| format!("{name:03}{}", "n".repeat(197)).into_bytes());
    // 122 names of 200 bytes fit.
    let long = error(long.collect());
    assert!(matches!(
        long.place(),
        Place::Name {
            row: 122,
            of: 200,
            ..
        }
    ));
    assert_eq!(Refusal::from(long), Refusal::Room);
}

#[test]
fn words_and_descriptors() {
    let names = Names::new(["java/lang/String", "a"]).expect("a table");
    let read = |text: &'static str| read_type(text.as_bytes()).expect("a type");
    let bits = |text| names.word(read(text)).map(TypeWord::bits);
    assert_eq!(bits("[Ljava/lang/String;"), Ok(0x0101_0000_0000_0001));
    assert_eq!(bits("[[J"), Ok(0x0200_0000_0000_0006));
    assert_eq!(bits("Lb;"), Err(Refusal::Absent));
    let word = |bits| names.word_from_bits(bits);
    let array = word(0x0101_0000_0000_0001);
    assert_eq!(array.to_string(), "0101000000000001");
    assert_eq!(format!("{array:?}"), "TypeWord(0101000000000001)");
    assert_eq!(
        names.write_type(array).as_deref(),
        Ok("[Ljava/lang/String;")
    );
    assert_eq!(names.write_type(word(u64::MAX)), Err(Refusal::Type));
    assert_eq!(
        names.write_method(&[word(5); 256], word(0)),
        Err(Refusal::Room)
    );
    assert_eq!(names.write_type_into(word(5), &mut []), Err(Refusal::Short));
    assert_eq!(names.write_type_into(word(5), &mut [0; 1]), Ok("I"));
    assert_eq!(
        names.write_method_into(&[word(5)], word(0), &mut [0; 4]),
        Ok("(I)V")
    );
}

/// One of each, with its number, and the words that it prints.
#[test]
fn refusals_in_words() {
    let offset = 7;
    let all = [
        (3, Refusal::Length),
        (5, Refusal::NameOrder),
        (6, Refusal::Number),
        (7, Refusal::Type),
        (8, Refusal::Room),
        (9, Refusal::NoObject),
        (10, Refusal::Utf8),
        (11, Refusal::UnexpectedEnd { offset }),
        (12, Refusal::UnexpectedByte { offset, byte: 0x3b }),
        (13, Refusal::VoidNotAllowed { offset }),
        (14, Refusal::EmptyObject { offset }),
        (15, Refusal::TrailingInput { offset }),
        (16, Refusal::MissingMethodStart),
        (17, Refusal::MissingMethodEnd { offset }),
        (18, Refusal::TooManyDimensions { offset }),
        (19, Refusal::TooManyParameters { offset }),
        (20, Refusal::Deep),
        (21, Refusal::Bounds),
        (22, Refusal::Short),
        (23, Refusal::Absent),
        (24, Refusal::Strict { offset }),
        (99, Refusal::Other { number: 99 }),
    ];
    let mut texts = Vec::new();
    for (number, refusal) in all {
        assert_eq!(refusal.number(), number);
        let has_offset = [11, 12, 13, 14, 15, 17, 18, 19, 24].contains(&number);
        assert_eq!(refusal.offset(), has_offset.then_some(7));
        assert_eq!(refusal.byte(), (number == 12).then_some(0x3b));
        let text = refusal.to_string();
        assert!(text.starts_with(refusal.reason()));
        assert_eq!(text.ends_with(" at 7"), has_offset);
        assert_eq!(text.contains("0x3b"), number == 12);
        texts.push(text);
    }
    assert_eq!(texts[8], "unexpected descriptor byte 0x3b at 7");
    assert_eq!(texts[12], "method descriptor must start with '('");
    texts.sort();
    texts.dedup();
    assert_eq!(texts.len(), all.len());
}

/// The refusal that the boundary gives, number, offset and byte, is the one of the type.
#[test]
fn refusals_of_readers() {
    for text in [
        "", "[", "[[x", "[V", "L;", "La", "II", "L\u{e9}", "La.b;", "V", "[[[La/b;",
    ] {
        let d = text.as_bytes();
        for (read, raw) in [
            (read_type(d).err(), slices::read_type(d)),
            (read_type_strict(d).err(), slices::read_type_strict(d)),
        ] {
            assert_eq!(read.map_or(0, |refusal| refusal.number()), raw.refusal);
            let offset = read.and_then(|refusal| refusal.offset());
            assert_eq!(offset.unwrap_or(0) as u64, raw.offset);
            let byte = read.and_then(|refusal| refusal.byte());
            assert_eq!(u64::from(byte.unwrap_or(0)), raw.byte);
        }
    }
}

#[test]
fn a_refusal_is_an_error() {
    let error: Box<dyn std::error::Error> = read_type_strict(b"La.b;").expect_err("strict").into();
    assert_eq!(
        error.to_string(),
        "class name with '.', '[' or an empty part at 0"
    );
    let table: Box<dyn std::error::Error> = Names::new([""]).expect_err("an empty name").into();
    let source = table.source().map(ToString::to_string);
    assert_eq!(source, Some(Refusal::Length.to_string()));
}
