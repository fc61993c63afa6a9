//! Types and methods as text, under the names of ty.rs: letters, descriptors, and the conversions from text.

use std::fmt::{self, Write};

use crate::part::NOTHING;
use crate::slices::{self, Columns};
use crate::types::{ArgType, Base, PrimitiveType};
use crate::{names, read_method, read_type, MethodDescriptor, Refusal};

impl PrimitiveType {
    /// The letter that stands for it, as the archive writes it: 'L' for Object and '[' for Array.
    pub fn descriptor(self) -> char {
        let mut letter = [0];
        let written = slices::write_type(NOTHING, self.number(), &mut letter);
        assert_eq!(written.refusal, 0, "a category is written in one byte");
        char::from(letter[0])
    }

    /// Its name as ty.rs prints it: the word of the language, and `Object` and `Array`.
    pub fn name(self) -> &'static str {
        match self {
            Self::Void => "void",
            Self::Boolean => "boolean",
            Self::Byte => "byte",
            Self::Short => "short",
            Self::Char => "char",
            Self::Int => "int",
            Self::Long => "long",
            Self::Float => "float",
            Self::Double => "double",
            Self::Object => "Object",
            Self::Array => "Array",
        }
    }

    /// The category of a letter; none for what is no letter of one.
    pub fn from_descriptor(letter: char) -> Option<Self> {
        let mut all = Self::ALL.into_iter();
        all.find(|category| category.descriptor() == letter)
    }
}

impl ArgType<'_> {
    /// The descriptor, written by the archive; '?' stands for an Unknown, as in ty.rs, and no reader takes it.
    ///
    /// # Errors
    ///
    /// [`Refusal::Length`] for a class name of no bytes or more than 255, since no table of names may hold it, though a
    /// descriptor with a longer name can be read. ty.rs writes any name.
    pub fn to_descriptor(&self) -> Result<String, Refusal> {
        let (name, len) = match self.base {
            Base::Object(name) => (name, [name.len() as u64]),
            _ => return names::written(NOTHING, *self, 1),
        };
        let alone = Columns {
            names: name.as_bytes(),
            name_at: &[0],
            name_len: &len,
        };
        names::written(alone, *self, name.len() + 2)
    }
}

/// As ty.rs prints it: `int`, `String` for java/lang/String, `byte[][]`, `?` for an Unknown and `?Int` for one with a
/// single category.
impl fmt::Display for ArgType<'_> {
    fn fmt(&self, formatter: &mut fmt::Formatter<'_>) -> fmt::Result {
        match self.base {
            Base::Primitive(category) => formatter.write_str(category.name())?,
            Base::Object(name) => formatter.write_str(name.rsplit('/').next().unwrap_or(name))?,
            Base::Unknown(categories) => match (categories.len(), categories.iter().next()) {
                (1, Some(category)) => write!(formatter, "?{category:?}")?,
                _ => formatter.write_char('?')?,
            },
        }
        (0..self.dimensions).try_for_each(|_| formatter.write_str("[]"))
    }
}

/// The descriptor, with names of any length, as ty.rs prints it. It never fails, so it is put together here, in Rust,
/// and is not proved. `Names::write_method` has the archive write it; the tests compare the two.
impl fmt::Display for MethodDescriptor<'_> {
    fn fmt(&self, formatter: &mut fmt::Formatter<'_>) -> fmt::Result {
        formatter.write_char('(')?;
        for parameter in &self.parameters {
            print(*parameter, formatter)?;
        }
        formatter.write_char(')')?;
        print(self.return_type, formatter)
    }
}

fn print(ty: ArgType, formatter: &mut fmt::Formatter<'_>) -> fmt::Result {
    for _ in 0..ty.dimensions {
        formatter.write_char('[')?;
    }
    match ty.base {
        Base::Primitive(category) => formatter.write_char(category.descriptor()),
        Base::Object(name) => write!(formatter, "L{name};"),
        Base::Unknown(_) => formatter.write_char('?'),
    }
}

/// The conversions from bytes and from text, by a reader. Names are borrowed from the text, which `FromStr` cannot do.
macro_rules! read_from_text {
    ($type:ident, $read:ident) => {
        impl<'a> TryFrom<&'a [u8]> for $type<'a> {
            type Error = Refusal;

            fn try_from(descriptor: &'a [u8]) -> Result<Self, Refusal> {
                $read(descriptor)
            }
        }

        impl<'a> TryFrom<&'a str> for $type<'a> {
            type Error = Refusal;

            fn try_from(descriptor: &'a str) -> Result<Self, Refusal> {
                $read(descriptor.as_bytes())
            }
        }
    };
}

read_from_text!(ArgType, read_type);
read_from_text!(MethodDescriptor, read_method);
