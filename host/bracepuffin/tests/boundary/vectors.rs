//! The stored vectors over the boundary.

use bracepuffin::slices;
use judge::paper::Table;

use crate::{columns, method_numbers, type_numbers, POISON, POISON_BYTE};

/// The tokens of a case, taken from the left.
struct Tokens<'a>(std::str::Split<'a, char>);

impl Tokens<'_> {
    fn number(&mut self) -> u64 {
        let digits = self.0.next().expect("a number");
        u64::from_str_radix(digits, 16).expect("hex digits")
    }

    fn list(&mut self) -> Vec<u64> {
        (0..self.number()).map(|_| self.number()).collect()
    }

    fn bytes(&mut self) -> Vec<u8> {
        let token = self.0.next().expect("bytes");
        let digits = token.strip_prefix('x').expect("an x");
        let byte = |at| u8::from_str_radix(&digits[at..at + 2], 16).expect("two hex digits");
        (0..digits.len()).step_by(2).map(byte).collect()
    }

    fn names(&mut self) -> Table {
        Table {
            store: self.bytes(),
            at: self.list(),
            len: self.list(),
        }
    }
}

/// The answer of the boundary in the words of the file; none where UTF-8 can't be asked through a name.
fn answer(function: &str, arguments: &mut Tokens) -> Option<String> {
    Some(match function {
        "d_type" => hex(&type_numbers(slices::read_type(&arguments.bytes()))),
        "d_strict" => hex(&type_numbers(slices::read_type_strict(&arguments.bytes()))),
        "d_method" => method(arguments, slices::read_method),
        "m_strict" => method(arguments, slices::read_method_strict),
        "w_type" => {
            let (names, word) = (arguments.names(), arguments.number());
            let mut out = vec![POISON_BYTE; arguments.number() as usize];
            let written = slices::write_type(columns(&names), word, &mut out);
            format!(
                "{:x} {}",
                written.refusal,
                bytes(&out[..written.length as usize])
            )
        }
        "w_method" => {
            let (names, params, result) = (arguments.names(), arguments.list(), arguments.number());
            let mut out = vec![POISON_BYTE; arguments.number() as usize];
            let written = slices::write_method(columns(&names), &params, result, &mut out);
            format!(
                "{:x} {}",
                written.refusal,
                bytes(&out[..written.length as usize])
            )
        }
        "lookup" => {
            let names = arguments.names();
            let found = slices::lookup(columns(&names), &arguments.bytes());
            hex(&[found.refusal, found.class_no])
        }
        "utf8" => return valid_up_to(&arguments.bytes()),
        _ => panic!("no such function: {function}"),
    })
}

fn method(
    arguments: &mut Tokens,
    read: fn(&[u8], &mut [u64]) -> bracepuffin::ffi::BpMethod,
) -> String {
    let d = arguments.bytes();
    let mut params = vec![POISON; arguments.number() as usize];
    let numbers = method_numbers(read(&d, &mut params));
    let count = numbers[3] as usize;
    hex(&[&numbers[..], &params[..count]].concat())
}

/// Through a class of that name: a fault stands after the valid prefix.
fn valid_up_to(name: &[u8]) -> Option<String> {
    let read = slices::read_type(&[b"L", name, b";"].concat());
    match read.refusal {
        0 => Some(hex(&[read.name_len])),
        12 => Some(hex(&[read.offset - 1])),
        _ => None,
    }
}

fn hex(numbers: &[u64]) -> String {
    let digits: Vec<String> = numbers.iter().map(|number| format!("{number:x}")).collect();
    digits.join(" ")
}

fn bytes(bytes: &[u8]) -> String {
    bytes
        .iter()
        .fold("x".to_string(), |token, byte| format!("{token}{byte:02x}"))
}

#[test]
fn every_stored_case() {
    let mut left_out = 0;
    for line in judge::stored::DESCRIPTORS
        .lines()
        .filter(|line| !line.starts_with('#'))
    {
        let (call, expected) = line.split_once(" = ").expect("an answer");
        let (function, arguments) = call.split_once(' ').expect("arguments");
        match answer(function, &mut Tokens(arguments.split(' '))) {
            Some(answer) => assert_eq!(answer, expected, "{call}"),
            None => left_out += 1,
        }
    }
    assert!(left_out <= 1, "only the empty name: {left_out}");
}
