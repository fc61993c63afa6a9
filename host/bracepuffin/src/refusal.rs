//! Why a call came back without an answer.

use std::error::Error;
use std::fmt;

use crate::ffi;

/// Why a call was refused. The numbers are those of the manual and of the header.
///
/// Refusals of descriptors say where they are, as `DescriptorParseError` of ty.rs does.
///
/// ```
/// use bracepuffin::{read_type, Refusal};
///
/// let refusal = read_type(b"[[x").expect_err("no type");
/// assert!(matches!(refusal, Refusal::UnexpectedByte { offset: 2, byte: b'x' }));
/// assert_eq!((refusal.number(), refusal.offset()), (12, Some(2)));
/// assert_eq!(refusal.to_string(), "unexpected descriptor byte 0x78 at 2");
/// ```
#[derive(Debug, Clone, Copy, PartialEq, Eq, Hash)]
#[non_exhaustive]
pub enum Refusal {
    /// 3: a name of no bytes or more than 255; columns of unequal length, or a place that is not inside its slice; a row
    /// that opens a layer and has a class or parents.
    Length,
    /// 5: a name that is not above the one before it.
    NameOrder,
    /// 6: flags of a record, or a class number, out of range; a class number of another table.
    Number,
    /// 7: no type word, or its class is not in the table; a class's word of another table.
    Type,
    /// 8: more than 1,024 names, 24,576 bytes of names, 4,096 pairs of a class and a parent in a layer, four layers, or 255
    /// parameters.
    Room,
    /// 9: java/lang/Object is not among the names.
    NoObject,
    /// 10: a name that is not well-formed UTF-8.
    Utf8,
    /// 11: the descriptor ends too early.
    UnexpectedEnd {
        /// Its length.
        offset: usize,
    },
    /// 12: a byte that begins no type, or a name that is not well-formed from there on.
    UnexpectedByte {
        /// Where the byte is.
        offset: usize,
        /// Which one it is.
        byte: u8,
    },
    /// 13: a void where none is allowed.
    VoidNotAllowed {
        /// Where the 'V' is.
        offset: usize,
    },
    /// 14: a class without a name.
    EmptyObject {
        /// Where the 'L' is.
        offset: usize,
    },
    /// 15: something after the end.
    TrailingInput {
        /// Where it begins.
        offset: usize,
    },
    /// 16: a method that does not begin with '('.
    MissingMethodStart,
    /// 17: parameters that do not end.
    MissingMethodEnd {
        /// Where the ')' is missing.
        offset: usize,
    },
    /// 18: more than 255 dimensions.
    TooManyDimensions {
        /// Where the 256th '[' is.
        offset: usize,
    },
    /// 19: more than 255 parameters.
    TooManyParameters {
        /// Where the 256th one begins.
        offset: usize,
    },
    /// 20: a rule of the solve would make an array of 256 dimensions.
    Deep,
    /// 21: a rule of the solve would add a bound past 4,096.
    Bounds,
    /// 22: a lent slice that is too short.
    Short,
    /// 23: a name that is not in the table.
    Absent,
    /// 24: strictly read, a class name with '.', '[' or an empty part.
    Strict {
        /// Where its 'L' is.
        offset: usize,
    },
    /// A number that this version has no name for. An archive that links gives none.
    Other {
        /// The number.
        number: u64,
    },
}

impl Refusal {
    /// The refusal of a result that has a number, an offset and a byte; none for the number 0.
    pub(crate) fn of(number: u64, offset: u64, byte: u64) -> Option<Self> {
        let offset = offset as usize;
        Some(match number {
            0 => return None,
            ffi::BP_REFUSED_LENGTH => Self::Length,
            ffi::BP_REFUSED_NAME_ORDER => Self::NameOrder,
            ffi::BP_REFUSED_NUMBER => Self::Number,
            ffi::BP_REFUSED_TYPE => Self::Type,
            ffi::BP_REFUSED_ROOM => Self::Room,
            ffi::BP_REFUSED_NO_OBJECT => Self::NoObject,
            ffi::BP_REFUSED_UTF8 => Self::Utf8,
            ffi::BP_REFUSED_UNEXPECTED_END => Self::UnexpectedEnd { offset },
            ffi::BP_REFUSED_UNEXPECTED_BYTE => Self::UnexpectedByte {
                offset,
                byte: byte as u8,
            },
            ffi::BP_REFUSED_VOID_NOT_ALLOWED => Self::VoidNotAllowed { offset },
            ffi::BP_REFUSED_EMPTY_OBJECT => Self::EmptyObject { offset },
            ffi::BP_REFUSED_TRAILING_INPUT => Self::TrailingInput { offset },
            ffi::BP_REFUSED_MISSING_METHOD_START => Self::MissingMethodStart,
            ffi::BP_REFUSED_MISSING_METHOD_END => Self::MissingMethodEnd { offset },
            ffi::BP_REFUSED_TOO_MANY_DIMENSIONS => Self::TooManyDimensions { offset },
            ffi::BP_REFUSED_TOO_MANY_PARAMETERS => Self::TooManyParameters { offset },
            ffi::BP_REFUSED_DEEP => Self::Deep,
            ffi::BP_REFUSED_BOUNDS => Self::Bounds,
            ffi::BP_REFUSED_SHORT => Self::Short,
            ffi::BP_REFUSED_ABSENT => Self::Absent,
            ffi::BP_REFUSED_STRICT => Self::Strict { offset },
            number => Self::Other { number },
        })
    }

    /// The refusal of a result that has a number alone, or nothing.
    #[inline]
    pub(crate) fn accepted(number: u64) -> Result<(), Self> {
        match Self::of(number, 0, 0) {
            None => Ok(()),
            Some(refusal) => Err(refusal),
        }
    }

    /// The number of the refusal, as in the manual.
    pub const fn number(&self) -> u64 {
        match self {
            Self::Length => ffi::BP_REFUSED_LENGTH,
            Self::NameOrder => ffi::BP_REFUSED_NAME_ORDER,
            Self::Number => ffi::BP_REFUSED_NUMBER,
            Self::Type => ffi::BP_REFUSED_TYPE,
            Self::Room => ffi::BP_REFUSED_ROOM,
            Self::NoObject => ffi::BP_REFUSED_NO_OBJECT,
            Self::Utf8 => ffi::BP_REFUSED_UTF8,
            Self::UnexpectedEnd { .. } => ffi::BP_REFUSED_UNEXPECTED_END,
            Self::UnexpectedByte { .. } => ffi::BP_REFUSED_UNEXPECTED_BYTE,
            Self::VoidNotAllowed { .. } => ffi::BP_REFUSED_VOID_NOT_ALLOWED,
            Self::EmptyObject { .. } => ffi::BP_REFUSED_EMPTY_OBJECT,
            Self::TrailingInput { .. } => ffi::BP_REFUSED_TRAILING_INPUT,
            Self::MissingMethodStart => ffi::BP_REFUSED_MISSING_METHOD_START,
            Self::MissingMethodEnd { .. } => ffi::BP_REFUSED_MISSING_METHOD_END,
            Self::TooManyDimensions { .. } => ffi::BP_REFUSED_TOO_MANY_DIMENSIONS,
            Self::TooManyParameters { .. } => ffi::BP_REFUSED_TOO_MANY_PARAMETERS,
            Self::Deep => ffi::BP_REFUSED_DEEP,
            Self::Bounds => ffi::BP_REFUSED_BOUNDS,
            Self::Short => ffi::BP_REFUSED_SHORT,
            Self::Absent => ffi::BP_REFUSED_ABSENT,
            Self::Strict { .. } => ffi::BP_REFUSED_STRICT,
            Self::Other { number } => *number,
        }
    }

    /// Where in the descriptor, for the refusals that have a place there.
    pub const fn offset(&self) -> Option<usize> {
        match *self {
            Self::UnexpectedEnd { offset }
            | Self::UnexpectedByte { offset, .. }
            | Self::VoidNotAllowed { offset }
            | Self::EmptyObject { offset }
            | Self::TrailingInput { offset }
            | Self::MissingMethodEnd { offset }
            | Self::TooManyDimensions { offset }
            | Self::TooManyParameters { offset }
            | Self::Strict { offset } => Some(offset),
            _ => None,
        }
    }

    /// The byte that was not expected.
    pub const fn byte(&self) -> Option<u8> {
        match *self {
            Self::UnexpectedByte { byte, .. } => Some(byte),
            _ => None,
        }
    }

    /// The reason in words, without the place.
    pub const fn reason(&self) -> &'static str {
        match self {
            Self::Length => "length does not fit, or a place is not inside its slice",
            Self::NameOrder => "name is not above the one before it",
            Self::Number => "class number or flags out of range",
            Self::Type => "no type word, or its class is not in the table",
            Self::Room => "one entry too many",
            Self::NoObject => "java/lang/Object is not among the names",
            Self::Utf8 => "name is not well-formed UTF-8",
            Self::UnexpectedEnd { .. } => "unexpected end of descriptor",
            Self::UnexpectedByte { .. } => "unexpected descriptor byte",
            Self::VoidNotAllowed { .. } => "void type is not allowed",
            Self::EmptyObject { .. } => "empty object descriptor",
            Self::TrailingInput { .. } => "trailing descriptor input",
            Self::MissingMethodStart => "method descriptor must start with '('",
            Self::MissingMethodEnd { .. } => "method parameter list is not closed",
            Self::TooManyDimensions { .. } => "more than 255 array dimensions",
            Self::TooManyParameters { .. } => "more than 255 parameters",
            Self::Deep => "a rule would make an array of 256 dimensions",
            Self::Bounds => "a rule would add a bound past 4,096",
            Self::Short => "a lent slice is too short",
            Self::Absent => "name is not in the table",
            Self::Strict { .. } => "class name with '.', '[' or an empty part",
            Self::Other { .. } => "refused for a reason that has no name here",
        }
    }
}

/// Ends as `DescriptorParseError` of ty.rs does: the byte, then the offset, where there are any.
impl fmt::Display for Refusal {
    fn fmt(&self, formatter: &mut fmt::Formatter<'_>) -> fmt::Result {
        formatter.write_str(self.reason())?;
        if let Some(byte) = self.byte() {
            write!(formatter, " 0x{byte:02x}")?;
        }
        match self.offset() {
            Some(offset) => write!(formatter, " at {offset}"),
            None => Ok(()),
        }
    }
}

impl Error for Refusal {}
