//! What the boundary must answer about descriptors, names and classes.
//!
//! `rust` asks ty.rs and the standard library; they decide wherever they can. `paper` is written from the rules
//! of the scope paper alone and answers everything: bytes that are no UTF-8, limits, strict reading, tables of
//! names. `classes` has both for class tables, `types` for joins and assignability, `solves` for solves, and `lines` for
//! what the program prints; `layers` has class tables over one another. The functions here take the first where it
//! decides and the second elsewhere.

pub mod cases;
pub mod class_cases;
pub mod classes;
pub mod layer_cases;
pub mod layers;
pub mod line_cases;
pub mod lines;
pub mod paper;
pub mod rng;
pub mod rust;
pub mod solve_cases;
pub mod solves;
pub mod stored;
pub mod types;

/// refusal, offset, byte, dims, tag, category, name_at, name_len
pub type TypeAnswer = [u64; 8];

/// refusal, offset, byte, count, return_at, dims, tag, category, name_at, name_len
pub type MethodNumbers = [u64; 10];

/// The numbers, and the offset of each parameter.
#[derive(Debug, Clone, PartialEq, Eq)]
pub struct MethodAnswer {
    pub numbers: MethodNumbers,
    pub parameters: Vec<u64>,
}

/// Refusals that ty.rs does not have: it knows no limit.
const LIMITS: [u64; 2] = [18, 19];

/// Ordinary reading of a type.
pub fn read_type(descriptor: &[u8]) -> TypeAnswer {
    let by_rules = paper::read_type(descriptor, false);
    match std::str::from_utf8(descriptor) {
        Ok(text) if !LIMITS.contains(&by_rules[0]) => rust::read_type(text),
        _ => by_rules,
    }
}

/// Ordinary reading of a method into enough entries.
pub fn read_method(descriptor: &[u8]) -> MethodAnswer {
    let by_rules = paper::read_method(descriptor, false);
    match std::str::from_utf8(descriptor) {
        Ok(text) if !LIMITS.contains(&by_rules.numbers[0]) => rust::read_method(text),
        _ => by_rules,
    }
}

/// Strict reading of a type: the paper alone knows it, and asks for ordinary acceptance first.
pub fn read_type_strict(descriptor: &[u8]) -> TypeAnswer {
    match read_type(descriptor) {
        accepted if accepted[0] == 0 => paper::read_type(descriptor, true),
        refused => refused,
    }
}

/// Strict reading of a method into enough entries.
pub fn read_method_strict(descriptor: &[u8]) -> MethodAnswer {
    match read_method(descriptor) {
        accepted if accepted.numbers[0] == 0 => paper::read_method(descriptor, true),
        refused => refused,
    }
}
