//! The answers of ty.rs and of the standard library, in the form of the boundary.

use std::str::FromStr;

use dexdec::{ArgType, DescriptorParseError, MethodDescriptor};
use words::category_number;

use crate::{MethodAnswer, TypeAnswer};

/// `ArgType::from_str`.
pub fn read_type(descriptor: &str) -> TypeAnswer {
    match ArgType::from_str(descriptor) {
        Ok(ty) => {
            let [dims, tag, category, name_at, name_len] = type_at(&ty, 0);
            [0, 0, 0, dims, tag, category, name_at, name_len]
        }
        Err(error) => {
            let [number, offset, byte] = refusal(&error);
            [number, offset, byte, 0, 0, 0, 0, 0]
        }
    }
}

/// `MethodDescriptor::from_str`.
pub fn read_method(descriptor: &str) -> MethodAnswer {
    match MethodDescriptor::from_str(descriptor) {
        Ok(method) => accepted(&method),
        Err(error) => {
            let mut numbers = [0; 10];
            numbers[..3].copy_from_slice(&refusal(&error));
            MethodAnswer {
                numbers,
                parameters: Vec::new(),
            }
        }
    }
}

/// The parameters stand side by side after the first byte, and so their lengths give their places.
fn accepted(method: &MethodDescriptor) -> MethodAnswer {
    let mut at = 1;
    let mut parameters = Vec::new();
    for parameter in &method.parameters {
        parameters.push(at);
        at += parameter.to_descriptor().len() as u64;
    }
    let return_at = at + 1;
    let count = parameters.len() as u64;
    let [dims, tag, category, name_at, name_len] = type_at(&method.return_type, return_at);
    MethodAnswer {
        numbers: [
            0, 0, 0, count, return_at, dims, tag, category, name_at, name_len,
        ],
        parameters,
    }
}

/// dims, tag, category, name_at, name_len of a type whose descriptor begins at `start`.
fn type_at(ty: &ArgType, start: u64) -> [u64; 5] {
    let mut dims = 0;
    let mut base = ty;
    while let ArgType::Array(element) = base {
        dims += 1;
        base = element;
    }
    match base {
        ArgType::Primitive(category) => [dims, 0, category_number(*category), 0, 0],
        ArgType::Object(name) => [dims, 1, 0, start + dims + 1, name.len() as u64],
        ArgType::Array(_) | ArgType::Unknown(_) => unreachable!("never read"),
    }
}

/// Number, offset and byte: `DescriptorParseError` in source order from 11 on.
pub fn refusal(error: &DescriptorParseError) -> [u64; 3] {
    use DescriptorParseError::*;
    match *error {
        UnexpectedEnd { offset } => [11, offset as u64, 0],
        UnexpectedByte { offset, byte } => [12, offset as u64, u64::from(byte)],
        VoidNotAllowed { offset } => [13, offset as u64, 0],
        EmptyObject { offset } => [14, offset as u64, 0],
        TrailingInput { offset } => [15, offset as u64, 0],
        MissingMethodStart => [16, 0, 0],
        MissingMethodEnd { offset } => [17, offset as u64, 0],
    }
}

/// The length of the longest whole valid prefix.
pub fn valid_up_to(bytes: &[u8]) -> usize {
    match std::str::from_utf8(bytes) {
        Ok(text) => text.len(),
        Err(error) => error.valid_up_to(),
    }
}
