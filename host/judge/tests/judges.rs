//! The rules of the paper and the Rust agree wherever both answer.

use judge::cases::{any_descriptor, each_damaged, each_string, ALPHABET, REAL_METHODS, REAL_TYPES};
use judge::rng::Rng;
use judge::{paper, rust};

/// Both judges on one string. At a limit the Rust, which has none, goes on: it finds no fault before that place.
fn agree(d: &[u8]) {
    let Ok(text) = std::str::from_utf8(d) else {
        return;
    };
    let (rules, answer) = (paper::read_type(d, false), rust::read_type(text));
    match rules[0] {
        18 => assert!(answer[0] == 0 || answer[1] > rules[1], "{text:?}"),
        _ => assert_eq!(rules, answer, "{text:?}"),
    }
    let (rules, answer) = (paper::read_method(d, false), rust::read_method(text));
    match rules.numbers[0] {
        18 => assert!(answer.numbers[0] == 0 || answer.numbers[1] > rules.numbers[1]),
        19 => assert!(answer.numbers[0] == 0 || answer.numbers[1] >= rules.numbers[1]),
        _ => assert_eq!(rules, answer, "{text:?}"),
    }
}

#[test]
fn on_every_short_string() {
    each_string(&ALPHABET, 3, &mut agree);
    each_string(&ALPHABET, 2, &mut |inner| {
        agree(&[b"(", inner, b")V"].concat());
        agree(&[b"()", inner].concat());
        agree(&[b"L", inner, b";"].concat());
    });
}

#[test]
fn on_damaged_copies() {
    for real in REAL_TYPES.iter().chain(&REAL_METHODS) {
        agree(real.as_bytes());
        each_damaged(real.as_bytes(), &mut agree);
    }
}

#[test]
fn on_random_strings() {
    let mut rng = Rng::new(1, "judges");
    let mut d = Vec::new();
    for _ in 0..50_000 {
        any_descriptor(&mut rng, &mut d);
        agree(&d);
    }
}

#[test]
fn on_utf8() {
    let telling = [
        0x00, 0x41, 0x7f, 0x80, 0x8f, 0x90, 0x9f, 0xa0, 0xbf, 0xc0, 0xc1, 0xc2, 0xdf, 0xe0, 0xe1,
        0xec, 0xed, 0xee, 0xef, 0xf0, 0xf1, 0xf3, 0xf4, 0xf5, 0xff,
    ];
    each_string(&telling, 4, &mut |bytes| {
        assert_eq!(
            paper::valid_up_to(bytes),
            rust::valid_up_to(bytes),
            "{bytes:x?}"
        );
    });
}
