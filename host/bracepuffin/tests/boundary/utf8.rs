//! UTF-8 in names against the standard library: refusal 12 stands where `valid_up_to` says.

use bracepuffin::slices;
use judge::cases::{each_string, CHARACTERS};
use judge::rng::Rng;

use crate::cases;

/// A class with these bytes as its name, if they can be a name.
fn compare(name: &[u8]) {
    if name.is_empty() || name.contains(&b';') {
        return;
    }
    let d = [b"L", name, b";"].concat();
    let read = slices::read_type(&d);
    let answer = (read.refusal, read.offset, read.byte, read.name_len);
    let expected = match std::str::from_utf8(name) {
        Ok(_) => (0, 0, 0, name.len() as u64),
        Err(error) => {
            let at = error.valid_up_to();
            (12, 1 + at as u64, u64::from(name[at]), 0)
        }
    };
    assert_eq!(answer, expected, "{name:x?}");
}

/// Both ends of every range of Unicode's table, and their neighbours.
const EDGES: [u8; 24] = [
    0x00, 0x7f, 0x80, 0x8f, 0x90, 0x9f, 0xa0, 0xbf, 0xc0, 0xc1, 0xc2, 0xdf, 0xe0, 0xe1, 0xec, 0xed,
    0xee, 0xef, 0xf0, 0xf1, 0xf3, 0xf4, 0xf5, 0xff,
];

#[test]
fn every_pair_of_bytes() {
    for first in 0..=255 {
        compare(&[first]);
        for second in 0..=255 {
            compare(&[first, second]);
        }
    }
}

#[test]
fn every_second_byte_in_longer_sequences() {
    for first in 0xe0..=0xff {
        for second in 0..=255 {
            for third in EDGES {
                compare(&[first, second, third]);
                for fourth in [0x41, 0x80, 0xbf, 0xc0] {
                    compare(&[first, second, third, fourth]);
                    compare(&[b'a', first, second, third, fourth, b'a']);
                }
            }
        }
    }
}

#[test]
fn every_string_of_edges() {
    each_string(&EDGES, 4, &mut compare);
}

/// Long names are tested in blocks of sixteen bytes: the edges stand at both ends, and on each side of where blocks meet.
#[test]
fn edges_in_long_names() {
    let text = "a\u{df}\u{20ac}".repeat(3);
    let plain = "a".repeat(18);
    each_string(&EDGES, 3, &mut |edges| {
        for many in [0, 1, 2, 13, 14, 15, 16, 17, 18] {
            let some = &plain.as_bytes()[..many];
            compare(&[some, edges, text.as_bytes()].concat());
            compare(&[text.as_bytes(), some, edges].concat());
        }
    });
}

#[test]
fn every_scalar_value_in_one_name() {
    let name: String = ('\0'..=char::MAX).filter(|c| *c != ';').collect();
    assert_eq!(name.chars().count(), 0x110000 - 0x800 - 1);
    compare(name.as_bytes());
    compare(&name.as_bytes()[..name.len() - 1]);
}

#[test]
fn damaged_text() {
    let mut rng = Rng::new(1, "damaged text");
    for _ in 0..cases(100_000) {
        let text: String = (0..1 + rng.below(12))
            .map(|_| *rng.pick(&CHARACTERS))
            .collect();
        let mut name = text.into_bytes();
        for _ in 0..rng.below(3) {
            let at = rng.below(name.len() as u64) as usize;
            match rng.below(3) {
                0 => name[at] = *rng.pick(&EDGES),
                1 => name[at] ^= 1 << rng.below(8),
                _ => name.truncate(at + 1),
            }
        }
        compare(&name);
    }
}
