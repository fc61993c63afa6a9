//! Writers of `Names`, which lend the names that the words use, against the boundary over the whole table.

use bracepuffin::ffi::{BpWritten, BP_REFUSED_ROOM, BP_REFUSED_SHORT, BP_REFUSED_TYPE};
use bracepuffin::{slices, Names, Refusal, TypeWord, TYPE_BYTES};
use judge::cases::{any_names, any_word};
use judge::rng::Rng;

use crate::{cases, POISON_BYTE};

const CLASS: u64 = 1 << 48;

/// A table of a few names, or of many: up to 1,024, and at the edges of 64.
fn table(rng: &mut Rng) -> Names {
    let names = match rng.below(4) {
        0 => {
            let count = *rng.pick(&[0, 1, 63, 64, 65, 128, 600, 1023, 1024]);
            (0..count).map(|n| format!("{n:x}").into_bytes()).collect()
        }
        _ => any_names(rng, 8),
    };
    Names::new(names).expect("a sound table")
}

/// A legal word, mostly a class, and of these the first, the last and those at an edge of 64 more often.
fn legal(rng: &mut Rng, names: &Names) -> u64 {
    let count = names.len() as u64;
    let base = match rng.below(4) {
        1 if count > 0 => CLASS | *rng.pick(&[0, 63, 64, count - 1]).min(&(count - 1)),
        2.. if count > 0 => CLASS | rng.below(count),
        _ => *rng.pick(&[0, 5, 9, 10, 2 << 48, 0x0002_2150_0000_0000]),
    };
    *rng.pick(&[0, 0, 0, 1, 2, 255]) << 56 | base
}

/// A word of any kind: also of a class just past the table, or far from it.
fn any(rng: &mut Rng, names: &Names) -> u64 {
    let count = names.len() as u64;
    match rng.below(6) {
        0 => CLASS | *rng.pick(&[count, count + 1, 255, 256, 1023, 1024, 1 << 47]),
        1 => rng.draw(),
        _ => any_word(rng, names.len()),
    }
}

/// Two lent slices of that length: what one writer leaves must be what the other does, refusal and every byte.
fn same(
    room: usize,
    whole: impl FnOnce(&mut [u8]) -> BpWritten,
    part: impl FnOnce(&mut [u8]) -> Result<String, Refusal>,
) -> Result<String, u64> {
    let (mut expected, mut lent) = (vec![POISON_BYTE; room], vec![POISON_BYTE; room]);
    let written = whole(&mut expected);
    let answer = part(&mut lent);
    assert_eq!(lent, expected);
    let expected = match written.refusal {
        0 => Ok(text(&expected[..written.length as usize])),
        number => Err(number),
    };
    let answer = answer.map_err(|refusal| refusal.number());
    assert_eq!(answer, expected);
    answer
}

fn text(bytes: &[u8]) -> String {
    String::from_utf8(bytes.to_vec()).expect("names are well-formed")
}

/// Writes a type into that much room, both ways.
fn write_type(names: &Names, word: u64, room: usize) -> Result<String, u64> {
    same(
        room,
        |out| slices::write_type(names.columns(), word, out),
        |out| {
            let word = names.word_from_bits(word);
            names.write_type_into(word, out).map(str::to_owned)
        },
    )
}

fn write_method(names: &Names, params: &[u64], result: u64, room: usize) -> Result<String, u64> {
    same(
        room,
        |out| slices::write_method(names.columns(), params, result, out),
        |out| {
            let (params, result) = typed(names, params, result);
            let written = names.write_method_into(&params, result, out);
            written.map(str::to_owned)
        },
    )
}

/// The same bits as words of the table.
fn typed(names: &Names, params: &[u64], result: u64) -> (Vec<TypeWord>, TypeWord) {
    let words = params.iter().map(|bits| names.word_from_bits(*bits));
    (words.collect(), names.word_from_bits(result))
}

/// A room that is just enough, just too short, or any.
fn rooms(rng: &mut Rng, written: &Result<String, u64>) -> [usize; 3] {
    let length = written.as_ref().map_or(10, String::len);
    [length, length - 1, rng.below(length as u64 + 20) as usize]
}

#[test]
fn types_over_the_name_of_their_class() {
    let mut rng = Rng::new(1, "types over a part");
    for _ in 0..cases(8_000) {
        let names = table(&mut rng);
        for word in [legal(&mut rng, &names), any(&mut rng, &names)] {
            let written = write_type(&names, word, TYPE_BYTES + 3);
            assert_eq!(
                names
                    .write_type(names.word_from_bits(word))
                    .map_err(|refusal| refusal.number()),
                written
            );
            for room in rooms(&mut rng, &written) {
                let _ = write_type(&names, word, room);
            }
        }
    }
}

#[test]
fn methods_over_the_names_of_their_classes() {
    let mut rng = Rng::new(1, "methods over a part");
    let mut seen = [0; 4];
    for round in 0..cases(20) {
        for count in 0..=257 {
            let names = table(&mut rng);
            let mut words: Vec<u64> = (0..=count).map(|_| legal(&mut rng, &names)).collect();
            if round % 3 == 2 {
                let place = rng.below(words.len() as u64) as usize;
                words[place] = any(&mut rng, &names);
            }
            let (result, params) = words.split_last().expect("the result");
            let written = write_method(&names, params, *result, words.len() * TYPE_BYTES + 3);
            let (typed_params, typed_result) = typed(&names, params, *result);
            let owned = names.write_method(&typed_params, typed_result);
            assert_eq!(owned.map_err(|refusal| refusal.number()), written);
            for room in rooms(&mut rng, &written) {
                let again = write_method(&names, params, *result, room);
                seen[match again {
                    Ok(_) => 0,
                    Err(BP_REFUSED_ROOM) => 1,
                    Err(BP_REFUSED_TYPE) => 2,
                    Err(BP_REFUSED_SHORT) => 3,
                    Err(number) => panic!("refused {number}"),
                }] += 1;
            }
        }
    }
    assert!(cases(20) < 3 || seen.iter().all(|times| *times > 0));
}

#[test]
fn methods_whose_classes_all_differ() {
    let names = Names::new((0..1024).map(|n| format!("{n:04}"))).expect("a sound table");
    for (first, step) in [(0, 1), (63, 1), (768, 1), (0, 4), (3, 4)] {
        for count in 1..=258 {
            let mut words: Vec<u64> = (0..count).map(|n| CLASS | (first + n * step)).collect();
            for _ in 0..2 {
                let name = |word: &u64| format!("L{:04};", word - CLASS);
                let (result, params) = words.split_last().expect("the result");
                let written: String = params.iter().map(name).collect();
                let expected = match params.len() {
                    ..=255 => Ok(format!("({written}){}", name(result))),
                    _ => Err(BP_REFUSED_ROOM),
                };
                assert_eq!(write_method(&names, params, *result, 2000), expected);
                words.reverse();
            }
        }
    }
}

#[test]
fn refusals_keep_their_order() {
    let names = Names::new(["a", "b"]).expect("a sound table");
    let (class, past, illegal) = (CLASS | 1, CLASS | 2, u64::MAX);
    let write = |params: &[u64], result, room| write_method(&names, params, result, room);
    assert_eq!(write(&[illegal; 256], past, 0), Err(8));
    assert_eq!(write(&[class; 256], class, 2000), Err(8));
    assert_eq!(write(&[class; 255], past, 0), Err(7));
    assert_eq!(write(&[class, past], class, 0), Err(7));
    assert_eq!(write(&[class, illegal], class, 0), Err(7));
    assert_eq!(write(&[class], class, 7), Err(22));
    assert_eq!(write(&[class], class, 8).as_deref(), Ok("(Lb;)Lb;"));
    assert_eq!(write_type(&names, past, 0), Err(7));
    assert_eq!(write_type(&names, class, 2), Err(22));
    let nothing: [&str; 0] = [];
    let none = Names::new(nothing).expect("a sound table");
    assert_eq!(write_type(&none, CLASS, 10), Err(7));
    assert_eq!(write_method(&none, &[CLASS], 0, 10), Err(7));
}
