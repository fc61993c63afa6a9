//! The rules of the scope paper for descriptors and names, by counting and searching, without a parser's state.

use std::ops::RangeInclusive;

use dexdec::{ArgType, MethodDescriptor};

use crate::{MethodAnswer, TypeAnswer};

pub const MAX_DIMENSIONS: usize = 255;
pub const MAX_PARAMETERS: usize = 255;
pub const MAX_NAME: u64 = 255;
pub const MAX_NAMES: usize = 1024;
pub const MAX_NAME_BYTES: u64 = 24576;

// ---- UTF-8

const TAIL: RangeInclusive<u8> = 0x80..=0xbf;

/// Unicode's table 3-7: the bytes of well-formed sequences.
const WELL_FORMED: [&[RangeInclusive<u8>]; 9] = [
    &[0x00..=0x7f],
    &[0xc2..=0xdf, TAIL],
    &[0xe0..=0xe0, 0xa0..=0xbf, TAIL],
    &[0xe1..=0xec, TAIL, TAIL],
    &[0xed..=0xed, 0x80..=0x9f, TAIL],
    &[0xee..=0xef, TAIL, TAIL],
    &[0xf0..=0xf0, 0x90..=0xbf, TAIL, TAIL],
    &[0xf1..=0xf3, TAIL, TAIL, TAIL],
    &[0xf4..=0xf4, 0x80..=0x8f, TAIL, TAIL],
];

/// The length of the longest whole valid prefix.
pub fn valid_up_to(bytes: &[u8]) -> usize {
    let mut at = 0;
    while let Some(row) = WELL_FORMED.iter().find(|row| begins(&bytes[at..], row)) {
        at += row.len();
    }
    at
}

fn begins(bytes: &[u8], row: &[RangeInclusive<u8>]) -> bool {
    bytes.len() >= row.len() && row.iter().zip(bytes).all(|(range, b)| range.contains(b))
}

// ---- reading

/// Number, offset, byte.
type Refused = [u64; 3];

struct Read {
    dims: usize,
    base: Base,
    end: usize,
}

enum Base {
    Primitive(u64),
    Class { at: usize, len: usize },
}

impl Base {
    /// tag, category, name_at, name_len
    fn numbers(&self) -> [u64; 4] {
        match *self {
            Base::Primitive(category) => [0, category, 0, 0],
            Base::Class { at, len } => [1, 0, at as u64, len as u64],
        }
    }

    /// Where the class begins, if its name is one that strict reading refuses.
    fn fault(&self, d: &[u8]) -> Option<usize> {
        match *self {
            Base::Class { at, len } if !is_strict(&d[at..at + len]) => Some(at - 1),
            _ => None,
        }
    }
}

fn refuse<T>(number: u64, offset: usize) -> Result<T, Refused> {
    Err([number, offset as u64, 0])
}

fn refuse_byte<T>(d: &[u8], offset: usize) -> Result<T, Refused> {
    Err([12, offset as u64, u64::from(d[offset])])
}

fn is_strict(name: &[u8]) -> bool {
    let has_part = |part: &[u8]| !part.is_empty();
    !name.contains(&b'.') && !name.contains(&b'[') && name.split(|b| *b == b'/').all(has_part)
}

/// The type that begins at `start`.
fn one_type(d: &[u8], start: usize, void: bool) -> Result<Read, Refused> {
    let dims = d[start..].iter().take_while(|byte| **byte == b'[').count();
    if dims > MAX_DIMENSIONS {
        return refuse(18, start + MAX_DIMENSIONS);
    }
    let at = start + dims;
    let Some(byte) = d.get(at) else {
        return refuse(11, d.len());
    };
    let (base, end) = match byte {
        b'V' if dims > 0 || !void => return refuse(13, at),
        b'L' => class(d, at)?,
        byte => match b"VZBSCIJFD".iter().position(|letter| letter == byte) {
            Some(category) => (Base::Primitive(category as u64), at + 1),
            None => return refuse_byte(d, at),
        },
    };
    Ok(Read { dims, base, end })
}

fn class(d: &[u8], start: usize) -> Result<(Base, usize), Refused> {
    let at = start + 1;
    let Some(len) = d[at..].iter().position(|byte| *byte == b';') else {
        return refuse(11, d.len());
    };
    if len == 0 {
        return refuse(14, start);
    }
    let valid = valid_up_to(&d[at..at + len]);
    if valid < len {
        return refuse_byte(d, at + valid);
    }
    Ok((Base::Class { at, len }, at + len + 1))
}

fn finish(d: &[u8], end: usize) -> Result<(), Refused> {
    match end == d.len() {
        true => Ok(()),
        false => refuse(15, end),
    }
}

pub fn read_type(d: &[u8], strict: bool) -> TypeAnswer {
    match whole_type(d, strict) {
        Ok(read) => {
            let [tag, category, name_at, name_len] = read.base.numbers();
            let dims = read.dims as u64;
            [0, 0, 0, dims, tag, category, name_at, name_len]
        }
        Err([number, offset, byte]) => [number, offset, byte, 0, 0, 0, 0, 0],
    }
}

fn whole_type(d: &[u8], strict: bool) -> Result<Read, Refused> {
    let read = one_type(d, 0, true)?;
    finish(d, read.end)?;
    match read.base.fault(d) {
        Some(at) if strict => refuse(24, at),
        _ => Ok(read),
    }
}

/// Into at least 255 entries: fewer are refused 22 before anything else.
pub fn read_method(d: &[u8], strict: bool) -> MethodAnswer {
    let mut parameters = Vec::new();
    let numbers = match whole_method(d, strict, &mut parameters) {
        Ok((return_at, read)) => {
            let [tag, category, name_at, name_len] = read.base.numbers();
            let (count, return_at) = (parameters.len() as u64, return_at as u64);
            let dims = read.dims as u64;
            [
                0, 0, 0, count, return_at, dims, tag, category, name_at, name_len,
            ]
        }
        Err([number, offset, byte]) => {
            parameters.clear();
            [number, offset, byte, 0, 0, 0, 0, 0, 0, 0]
        }
    };
    MethodAnswer {
        numbers,
        parameters,
    }
}

fn whole_method(
    d: &[u8],
    strict: bool,
    parameters: &mut Vec<u64>,
) -> Result<(usize, Read), Refused> {
    if d.first() != Some(&b'(') {
        return refuse(16, 0);
    }
    let mut at = 1;
    let mut faults = Vec::new();
    while d.get(at) != Some(&b')') {
        if at == d.len() {
            return refuse(17, at);
        }
        if parameters.len() == MAX_PARAMETERS {
            return refuse(19, at);
        }
        let read = one_type(d, at, false)?;
        faults.extend(read.base.fault(d));
        parameters.push(at as u64);
        at = read.end;
    }
    let read = one_type(d, at + 1, true)?;
    finish(d, read.end)?;
    faults.extend(read.base.fault(d));
    match faults.first() {
        Some(at) if strict => refuse(24, *at),
        _ => Ok((at + 1, read)),
    }
}

// ---- names

/// A table of names as it is lent: name i is `len[i]` bytes of `store` from `at[i]` on.
#[derive(Debug, Clone, Default, PartialEq, Eq)]
pub struct Table {
    pub store: Vec<u8>,
    pub at: Vec<u64>,
    pub len: Vec<u64>,
}

impl Table {
    /// These names side by side, as they come.
    pub fn of<T: AsRef<[u8]>>(names: &[T]) -> Self {
        let mut table = Self::default();
        for name in names {
            table.push(name.as_ref());
        }
        table
    }

    pub fn push(&mut self, name: &[u8]) {
        self.at.push(self.store.len() as u64);
        self.len.push(name.len() as u64);
        self.store.extend_from_slice(name);
    }

    fn name(&self, row: usize) -> Option<&[u8]> {
        let at = usize::try_from(self.at[row]).ok()?;
        let len = usize::try_from(self.len[row]).ok()?;
        self.store.get(at..at.checked_add(len)?)
    }

    /// The names, or the first refusal in row order.
    pub fn names(&self) -> Result<Vec<String>, u64> {
        if self.at.len() != self.len.len() {
            return Err(3);
        }
        self.checked().map_err(|(number, _)| number)
    }

    /// Of columns of equal length: the names, or the first refusal and its row.
    pub fn checked(&self) -> Result<Vec<String>, (u64, usize)> {
        let mut names: Vec<String> = Vec::new();
        let mut bytes = 0;
        for row in 0..self.at.len() {
            let name = self.name(row).ok_or((3, row))?;
            bytes += name.len() as u64;
            if !(1..=MAX_NAME).contains(&self.len[row]) {
                return Err((3, row));
            }
            if valid_up_to(name) < name.len() {
                return Err((10, row));
            }
            if names.last().is_some_and(|last| last.as_bytes() >= name) {
                return Err((5, row));
            }
            if row >= MAX_NAMES || bytes > MAX_NAME_BYTES {
                return Err((8, row));
            }
            names.push(String::from_utf8(name.to_vec()).expect("well-formed"));
        }
        Ok(names)
    }

    /// The number of a name, or 23.
    pub fn lookup(&self, key: &[u8]) -> Result<u64, u64> {
        let names = self.names()?;
        let place = names.iter().position(|name| name.as_bytes() == key);
        place.map(|place| place as u64).ok_or(23)
    }

    /// The descriptor of a word, by `to_descriptor`, if `room` bytes are enough.
    pub fn write_type(&self, word: u64, room: usize) -> Result<String, u64> {
        let ty = words::parse(word, &self.names()?)?;
        within(ty.to_descriptor(), room)
    }

    /// The descriptor of a method, by `Display`, if `room` bytes are enough.
    pub fn write_method(&self, params: &[u64], result: u64, room: usize) -> Result<String, u64> {
        let names = self.names()?;
        if params.len() > MAX_PARAMETERS {
            return Err(8);
        }
        let parse = |word: &u64| words::parse(*word, &names);
        let parameters = params
            .iter()
            .map(parse)
            .collect::<Result<Vec<ArgType>, u64>>();
        let method = MethodDescriptor {
            parameters: parameters?,
            return_type: parse(&result)?,
        };
        within(method.to_string(), room)
    }
}

fn within(text: String, room: usize) -> Result<String, u64> {
    match text.len() <= room {
        true => Ok(text),
        false => Err(22),
    }
}
