//! Writing against `to_descriptor` and `Display` of the Rust; its refusals; there and back.

use bracepuffin::{slices, Names, TypeWord};
use judge::cases::{any_method, any_names, any_table, any_word};
use judge::paper::Table;
use judge::rng::Rng;

use crate::{cases, columns, POISON_BYTE};

const INT: u64 = 5;
const CLASS: u64 = 1 << 48;

/// What the boundary writes into a slice of `room` bytes.
fn write_type(table: &Table, word: u64, room: usize) -> Result<String, u64> {
    let mut out = vec![POISON_BYTE; room];
    let written = slices::write_type(columns(table), word, &mut out);
    answer(written.refusal, written.length, out)
}

fn write_method(table: &Table, params: &[u64], result: u64, room: usize) -> Result<String, u64> {
    let mut out = vec![POISON_BYTE; room];
    let written = slices::write_method(columns(table), params, result, &mut out);
    answer(written.refusal, written.length, out)
}

fn answer(refusal: u64, length: u64, out: Vec<u8>) -> Result<String, u64> {
    let (written, rest) = out.split_at(length as usize);
    assert!(rest.iter().all(|byte| *byte == POISON_BYTE));
    match refusal {
        0 => Ok(String::from_utf8(written.to_vec()).expect("names are well-formed")),
        number => {
            assert_eq!(length, 0);
            Err(number)
        }
    }
}

#[test]
fn every_base_with_and_without_dimensions() {
    let table = Table::of(&["a", "java/lang/Object", "\u{e9}"]);
    let mut bases: Vec<u64> = (0..=11).collect();
    bases.extend((0..4).map(|class| CLASS | class));
    bases.extend([
        2 << 48,
        0x0002_1000_0000_0000,
        0x0002_a567_8132_49a0,
        3 << 48,
    ]);
    for base in bases {
        for dimensions in [0, 1, 2, 254, 255] {
            let word = dimensions << 56 | base;
            let expected = table.write_type(word, 600);
            assert_eq!(write_type(&table, word, 600), expected, "{word:016x}");
        }
    }
}

#[test]
fn fixed_descriptors() {
    let table = Table::of(&["a/b"]);
    let written = |word| write_type(&table, word, 10).expect("a legal word");
    assert_eq!(written(0), "V");
    assert_eq!(written(0x0200_0000_0000_0005), "[[I");
    assert_eq!(written(0x0101_0000_0000_0000), "[La/b;");
    assert_eq!(written(9), "L");
    assert_eq!(written(0x0100_0000_0000_000a), "[[");
    assert_eq!(written(0x0202_a567_8132_49a0), "[[?");
    let method = write_method(&table, &[INT, CLASS], 0, 10);
    assert_eq!(method.as_deref(), Ok("(ILa/b;)V"));
}

#[test]
fn words_that_are_refused() {
    let table = Table::of(&["a"]);
    for word in [
        11,
        16,
        1 << 47,
        CLASS | 1,
        CLASS | 1 << 10,
        CLASS | 1 << 47,
        0x0002_c012_3456_789a,
        0x0002_1b00_0000_0000,
        0x0002_1550_0000_0000,
        0x0002_2550_0000_0000,
        0x0002_0000_0000_0001,
        3 << 48,
        0x80 << 48,
        u64::MAX,
    ] {
        assert_eq!(write_type(&table, word, 600), Err(7), "{word:016x}");
        assert_eq!(write_method(&table, &[], word, 600), Err(7));
        assert_eq!(write_method(&table, &[INT, word], INT, 600), Err(7));
    }
}

#[test]
fn order_of_refusals() {
    let table = Table::of(&["a"]);
    let illegal = u64::MAX;
    assert_eq!(write_type(&table, illegal, 0), Err(7));
    assert_eq!(write_type(&table, INT, 0), Err(22));
    assert_eq!(write_method(&table, &[illegal; 256], illegal, 0), Err(8));
    assert_eq!(write_method(&table, &[illegal; 255], INT, 0), Err(7));
    assert_eq!(write_method(&table, &[INT; 255], illegal, 0), Err(7));
    assert_eq!(write_method(&table, &[INT; 255], INT, 257), Err(22));
    assert_eq!(write_method(&table, &[INT; 256], INT, 600), Err(8));
    assert!(write_method(&table, &[INT; 255], INT, 258).is_ok());
}

#[test]
fn the_longest_descriptors() {
    let name = "n".repeat(255);
    let table = Table::of(&[&name]);
    let word = 255 << 56 | CLASS;
    let text = format!("{}L{name};", "[".repeat(255));
    assert_eq!(text.len(), bracepuffin::TYPE_BYTES);
    assert_eq!(write_type(&table, word, 512).as_ref(), Ok(&text));
    assert_eq!(write_type(&table, word, 511), Err(22));
    let method = format!("({}){text}", text.repeat(255));
    assert_eq!(method.len(), 256 * 512 + 2);
    assert_eq!(
        write_method(&table, &[word; 255], word, method.len()).as_ref(),
        Ok(&method)
    );
    assert_eq!(
        write_method(&table, &[word; 255], word, method.len() - 1),
        Err(22)
    );
    let names = Names::new([&name]).expect("a sound table");
    let word = names.word_from_bits(word);
    assert_eq!(names.write_type(word).as_ref(), Ok(&text));
    assert_eq!(names.write_method(&[word; 255], word).as_ref(), Ok(&method));
}

#[test]
fn random_words() {
    let mut rng = Rng::new(1, "random words");
    for _ in 0..cases(50_000) {
        let table = any_table(&mut rng, 5);
        let names = table.at.len();
        let word = any_word(&mut rng, names);
        let room = [rng.below(20) as usize, 520][rng.below(2) as usize];
        assert_eq!(
            write_type(&table, word, room),
            table.write_type(word, room),
            "{table:?} {word:016x}"
        );
        let count = rng.below(5);
        let params: Vec<u64> = (0..count).map(|_| any_word(&mut rng, names)).collect();
        let room = [rng.below(60) as usize, 2600][rng.below(2) as usize];
        let expected = table.write_method(&params, word, room);
        assert_eq!(
            write_method(&table, &params, word, room),
            expected,
            "{table:?} {params:x?} {word:016x}"
        );
    }
}

#[test]
fn read_then_written_is_the_same_bytes() {
    let mut rng = Rng::new(1, "read then written");
    let mut d = Vec::new();
    for _ in 0..cases(20_000) {
        d.clear();
        any_method(&mut rng, &mut d);
        let Ok(method) = bracepuffin::read_method(&d) else {
            continue;
        };
        let types = || method.parameters.iter().chain([&method.return_type]);
        let mut classes: Vec<&str> = types()
            .filter_map(|ty| match ty.base {
                bracepuffin::Base::Object(name) => Some(name),
                _ => None,
            })
            .collect();
        classes.push("another");
        let names = Names::new(classes).expect("a sound table");
        let words: Vec<TypeWord> = types()
            .map(|ty| names.word(*ty).expect("in the table"))
            .collect();
        let (result, params) = words.split_last().expect("the return type");
        let written = names.write_method(params, *result).expect("legal words");
        assert_eq!(written.as_bytes(), d);
    }
}

#[test]
fn written_then_read_is_the_same_type() {
    let mut rng = Rng::new(1, "written then read");
    for _ in 0..cases(20_000) {
        let mut names = any_names(&mut rng, 5);
        names.push(b"zz".to_vec());
        names.sort();
        let table = Table::of(&names);
        let (category, class) = (rng.below(9), CLASS | rng.below(names.len() as u64));
        let dimensions = if category == 0 {
            0
        } else {
            *rng.pick(&[0, 1, 2, 255])
        };
        let word = dimensions << 56 | *rng.pick(&[category, class]);
        let names = Names::new(&names).expect("a sound table");
        let text = write_type(&table, word, 600).expect("a legal word");
        let read = bracepuffin::read_type(text.as_bytes()).expect("a descriptor");
        assert_eq!(names.word(read), Ok(names.word_from_bits(word)), "{text}");
    }
}

#[test]
fn a_type_that_reading_never_gives_is_written_all_the_same() {
    let table = Table::of(&["a;b"]);
    assert_eq!(write_type(&table, CLASS, 10).as_deref(), Ok("La;b;"));
    assert_eq!(write_type(&table, 1 << 56, 10).as_deref(), Ok("[V"));
    assert_eq!(write_method(&table, &[0], 0, 10).as_deref(), Ok("(V)V"));
}
