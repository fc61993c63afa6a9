//! Reading descriptors.

use std::fmt;
use std::iter::FusedIterator;
use std::mem::MaybeUninit;
use std::slice::Windows;

use crate::ffi::{self, BpMethod, BpType};
use crate::types::{ArgType, Base, PrimitiveType};
use crate::{slices, Refusal};

/// The most parameters that a method may have.
pub const PARAMETERS: usize = 255;

/// The type of a descriptor, void included.
///
/// # Errors
///
/// The first fault in reading order, with its offset: refusals 11 to 15 and 18.
#[inline]
pub fn read_type(descriptor: &[u8]) -> Result<ArgType<'_>, Refusal> {
    type_of(descriptor, slices::read_type(descriptor))
}

/// The same for class names as the JVMS has them: no '.', no '[', no empty part beside a slash.
///
/// # Errors
///
/// Those of [`read_type`], then [`Refusal::Strict`].
#[inline]
pub fn read_type_strict(descriptor: &[u8]) -> Result<ArgType<'_>, Refusal> {
    type_of(descriptor, slices::read_type_strict(descriptor))
}

/// The parameters and the return type of a method's descriptor.
///
/// ```
/// let method = bracepuffin::read_method(b"([Ljava/lang/String;I)V")?;
/// assert_eq!(method.parameters[0].to_string(), "String[]");
/// assert_eq!(method.to_string(), "([Ljava/lang/String;I)V");
/// # Ok::<(), bracepuffin::Refusal>(())
/// ```
///
/// # Errors
///
/// The first fault in reading order, with its offset: refusals 11 to 19.
pub fn read_method(descriptor: &[u8]) -> Result<MethodDescriptor<'_>, Refusal> {
    Ok(read_method_into(descriptor, &mut Offsets::new())?.collect())
}

/// The same for class names as the JVMS has them.
///
/// # Errors
///
/// Those of [`read_method`], then [`Refusal::Strict`].
pub fn read_method_strict(descriptor: &[u8]) -> Result<MethodDescriptor<'_>, Refusal> {
    Ok(read_method_strict_into(descriptor, &mut Offsets::new())?.collect())
}

/// A method's descriptor read without the heap: the offsets of the parameters are put where the caller says.
///
/// # Errors
///
/// Those of [`read_method`].
#[inline]
pub fn read_method_into<'a, 'o>(
    descriptor: &'a [u8],
    offsets: &'o mut Offsets,
) -> Result<Method<'a, 'o>, Refusal> {
    // SAFETY: two live slices, one of them borrowed for writing. The function writes entries and reads none.
    let read = unsafe {
        let (d, params) = (descriptor.as_ptr(), offsets.0.as_mut_ptr().cast());
        ffi::bp_read_method(d, descriptor.len(), params, PARAMETERS)
    };
    method_of(descriptor, offsets, read)
}

/// The same for class names as the JVMS has them.
///
/// # Errors
///
/// Those of [`read_method_strict`].
#[inline]
pub fn read_method_strict_into<'a, 'o>(
    descriptor: &'a [u8],
    offsets: &'o mut Offsets,
) -> Result<Method<'a, 'o>, Refusal> {
    // SAFETY: as above.
    let read = unsafe {
        let (d, params) = (descriptor.as_ptr(), offsets.0.as_mut_ptr().cast());
        ffi::bp_read_method_strict(d, descriptor.len(), params, PARAMETERS)
    };
    method_of(descriptor, offsets, read)
}

/// Room for the offsets of a method's parameters and of the ')' after them. It costs nothing to make and may be lent
/// again.
pub struct Offsets([MaybeUninit<u64>; PARAMETERS + 1]);

impl Offsets {
    /// Room that holds nothing yet.
    pub const fn new() -> Self {
        Self([MaybeUninit::uninit(); PARAMETERS + 1])
    }
}

impl Default for Offsets {
    fn default() -> Self {
        Self::new()
    }
}

impl fmt::Debug for Offsets {
    fn fmt(&self, formatter: &mut fmt::Formatter<'_>) -> fmt::Result {
        formatter.write_str("Offsets")
    }
}

/// A method's descriptor with its types, after `MethodDescriptor` of ty.rs.
#[derive(Debug, Clone, PartialEq, Eq, PartialOrd, Ord, Hash)]
pub struct MethodDescriptor<'a> {
    /// The types of its parameters.
    pub parameters: Vec<ArgType<'a>>,
    /// The type of its result.
    pub return_type: ArgType<'a>,
}

/// A method's descriptor with the places of its parameters.
#[derive(Debug, Clone, Copy)]
pub struct Method<'a, 'o> {
    descriptor: &'a [u8],
    /// Where each parameter begins, and then the ')': a parameter ends where the next offset is.
    offsets: &'o [u64],
    /// The type of its result.
    pub return_type: ArgType<'a>,
}

impl<'a, 'o> Method<'a, 'o> {
    /// The number of parameters.
    pub fn count(&self) -> usize {
        self.offsets.len() - 1
    }

    /// The descriptor of a parameter.
    #[inline]
    pub fn parameter_text(&self, number: usize) -> Option<&'a [u8]> {
        let ends = self.offsets.get(number..)?.get(..2)?;
        Some(between(self.descriptor, ends))
    }

    /// The type of a parameter.
    #[inline]
    pub fn parameter(&self, number: usize) -> Option<ArgType<'a>> {
        self.parameter_text(number).map(accepted_type)
    }

    /// The types of all parameters.
    #[inline]
    pub fn parameters(&self) -> Parameters<'a, 'o> {
        Parameters {
            descriptor: self.descriptor,
            ends: self.offsets.windows(2),
        }
    }

    /// The same with the types in a `Vec`. It is always inlined: handed over in memory, a method is loaded in other
    /// pieces than it was just stored in, which x86-64 is slow at.
    #[inline(always)]
    fn collect(self) -> MethodDescriptor<'a> {
        MethodDescriptor {
            parameters: match self.count() {
                0 => Vec::new(),
                _ => types(self.descriptor, self.offsets),
            },
            return_type: self.return_type,
        }
    }
}

/// The types between these offsets.
fn types<'a>(descriptor: &'a [u8], offsets: &[u64]) -> Vec<ArgType<'a>> {
    let mut types = Vec::with_capacity(offsets.len() - 1);
    for ends in offsets.windows(2) {
        types.push(accepted_type(between(descriptor, ends)));
    }
    types
}

/// The bytes of a descriptor from one offset to the next.
#[inline]
fn between<'a>(descriptor: &'a [u8], ends: &[u64]) -> &'a [u8] {
    &descriptor[ends[0] as usize..ends[1] as usize]
}

/// The types of a method's parameters, each made when it is asked for.
#[derive(Debug, Clone)]
pub struct Parameters<'a, 'o> {
    descriptor: &'a [u8],
    ends: Windows<'o, u64>,
}

impl<'a> Iterator for Parameters<'a, '_> {
    type Item = ArgType<'a>;

    #[inline]
    fn next(&mut self) -> Option<ArgType<'a>> {
        let ends = self.ends.next()?;
        Some(accepted_type(between(self.descriptor, ends)))
    }

    #[inline]
    fn size_hint(&self) -> (usize, Option<usize>) {
        self.ends.size_hint()
    }
}

impl ExactSizeIterator for Parameters<'_, '_> {}
impl FusedIterator for Parameters<'_, '_> {}

#[inline]
fn type_of(descriptor: &[u8], read: BpType) -> Result<ArgType<'_>, Refusal> {
    accepted(read.refusal, read.offset, read.byte)?;
    let (at, len) = (read.name_at as usize, read.name_len as usize);
    Ok(ArgType {
        dimensions: read.dims as u8,
        base: base(read.tag, read.category, &descriptor[at..at + len]),
    })
}

#[inline]
fn method_of<'a, 'o>(
    descriptor: &'a [u8],
    offsets: &'o mut Offsets,
    read: BpMethod,
) -> Result<Method<'a, 'o>, Refusal> {
    accepted(read.refusal, read.offset, read.byte)?;
    let (at, len) = (read.name_at as usize, read.name_len as usize);
    let written = &mut offsets.0[..=read.count as usize];
    written[read.count as usize].write(read.return_at - 1);
    Ok(Method {
        descriptor,
        // SAFETY: an accepted call has written as many entries as it counts, and the one after them is written here.
        offsets: unsafe { std::slice::from_raw_parts(written.as_ptr().cast(), written.len()) },
        return_type: ArgType {
            dimensions: read.dims as u8,
            base: base(read.tag, read.category, &descriptor[at..at + len]),
        },
    })
}

#[inline]
fn accepted(number: u64, offset: u64, byte: u64) -> Result<(), Refusal> {
    if number == 0 {
        return Ok(());
    }
    Refusal::of(number, offset, byte).map_or(Ok(()), Err)
}

#[inline]
fn base(tag: u64, category: u64, name: &[u8]) -> Base<'_> {
    if tag == 0 {
        return Base::Primitive(PrimitiveType::ALL[category as usize]);
    }
    object(name)
}

/// The type of a parameter's text. It was accepted with the whole, so it is '[' as often as there are dimensions, and
/// then a letter, or a name between 'L' and ';': nothing is left to refuse, and the archive need not read it again.
#[inline]
fn accepted_type(text: &[u8]) -> ArgType<'_> {
    let dimensions = text.iter().take_while(|byte| **byte == b'[').count();
    let base = match text[dimensions..] {
        [letter] => Base::Primitive(primitive(letter)),
        [b'L', ref name @ .., b';'] => object(name),
        _ => unreachable!("a parameter that was accepted is a type"),
    };
    ArgType {
        dimensions: dimensions as u8,
        base,
    }
}

/// The category of a parameter's letter.
#[inline]
fn primitive(letter: u8) -> PrimitiveType {
    match letter {
        b'Z' => PrimitiveType::Boolean,
        b'B' => PrimitiveType::Byte,
        b'S' => PrimitiveType::Short,
        b'C' => PrimitiveType::Char,
        b'I' => PrimitiveType::Int,
        b'J' => PrimitiveType::Long,
        b'F' => PrimitiveType::Float,
        b'D' => PrimitiveType::Double,
        _ => unreachable!("a parameter that was accepted is a type"),
    }
}

/// The class of a name that was accepted.
#[inline]
fn object(name: &[u8]) -> Base<'_> {
    debug_assert!(std::str::from_utf8(name).is_ok());
    // SAFETY: a name that is accepted is well-formed by Unicode's table 3-7, which is what `str` asks for.
    Base::Object(unsafe { std::str::from_utf8_unchecked(name) })
}
