//! Types: those of ty.rs, with dimensions in place of boxes and names borrowed from the input or from a table.
//! What is asked of a type alone is answered here, from its parts; `tests/ty` compares it with ty.rs.

use std::fmt;

use crate::OBJECT;
use PrimitiveType::*;

/// The categories with their numbers: what a type is without its dimensions, and the members of an Unknown.
#[derive(Clone, Copy, Debug, Eq, Hash, Ord, PartialEq, PartialOrd)]
#[repr(u8)]
pub enum PrimitiveType {
    /// No value.
    Void = 0,
    /// `boolean`.
    Boolean = 1,
    /// `byte`.
    Byte = 2,
    /// `short`.
    Short = 3,
    /// `char`.
    Char = 4,
    /// `int`.
    Int = 5,
    /// `long`.
    Long = 6,
    /// `float`.
    Float = 7,
    /// `double`.
    Double = 8,
    /// A class that is not named.
    Object = 9,
    /// An array of which nothing is known.
    Array = 10,
}

impl PrimitiveType {
    /// All of them, by number.
    pub const ALL: [Self; 11] = [
        Self::Void,
        Self::Boolean,
        Self::Byte,
        Self::Short,
        Self::Char,
        Self::Int,
        Self::Long,
        Self::Float,
        Self::Double,
        Self::Object,
        Self::Array,
    ];

    /// The number of the category.
    pub fn number(self) -> u64 {
        self as u64
    }

    /// Whether it takes two registers.
    pub fn is_wide(self) -> bool {
        matches!(self, Self::Long | Self::Double)
    }
}

/// What the dimensions of a type stand over.
#[derive(Debug, Clone, Copy, PartialEq, Eq, PartialOrd, Ord, Hash)]
pub enum Base<'a> {
    /// A category.
    Primitive(PrimitiveType),
    /// A class by its name, which is borrowed from the descriptor or the table.
    Object(&'a str),
    /// One of these categories. Reading gives none; joins do.
    Unknown(Categories),
}

/// A list of categories without repeats, as the payload of a word: a digit for its length, one for each member in
/// order, zeros.
#[derive(Clone, Copy, PartialEq, Eq, Hash)]
pub struct Categories(u64);

const DIGITS: u32 = 12;

impl Categories {
    /// These categories in this order; none if one occurs twice.
    pub fn new(list: &[PrimitiveType]) -> Option<Self> {
        let repeats = |place: usize| list[..place].contains(&list[place]);
        if list.len() > PrimitiveType::ALL.len() || (0..list.len()).any(repeats) {
            return None;
        }
        Some(Self::of(list))
    }

    /// The same for at most eleven categories without repeats.
    const fn of(list: &[PrimitiveType]) -> Self {
        let mut payload = (list.len() as u64) << (4 * (DIGITS - 1));
        let mut place = 0;
        while place < list.len() {
            payload |= (list[place] as u64) << (4 * (DIGITS - 2 - place as u32));
            place += 1;
        }
        Self(payload)
    }

    /// The list of a payload; none if it is no list.
    pub fn from_payload(payload: u64) -> Option<Self> {
        let given = Self(payload);
        let list: Option<Vec<PrimitiveType>> = (0..given.len())
            .map(|place| PrimitiveType::ALL.get(given.digit(place)).copied())
            .collect();
        Self::new(&list?).filter(|same| same.0 == payload)
    }

    /// The payload of the word of such an Unknown.
    pub fn payload(self) -> u64 {
        self.0
    }

    /// How many there are.
    pub fn len(self) -> usize {
        (self.0 >> (4 * (DIGITS - 1)) & 0xf) as usize
    }

    /// Whether there is none.
    pub fn is_empty(self) -> bool {
        self.len() == 0
    }

    /// The categories in order.
    pub fn iter(self) -> impl Iterator<Item = PrimitiveType> {
        (0..self.len()).map(move |place| PrimitiveType::ALL[self.digit(place)])
    }

    fn digit(self, place: usize) -> usize {
        (self.0 >> (4 * (DIGITS as usize - 2).saturating_sub(place)) & 0xf) as usize
    }
}

impl fmt::Debug for Categories {
    fn fmt(&self, formatter: &mut fmt::Formatter<'_>) -> fmt::Result {
        formatter.debug_list().entries(self.iter()).finish()
    }
}

/// A type. It is copied freely: nothing in it is on the heap.
#[derive(Debug, Clone, Copy, PartialEq, Eq, Hash)]
pub struct ArgType<'a> {
    /// How often it is an array.
    pub dimensions: u8,
    /// Of what.
    pub base: Base<'a>,
}

impl<'a> ArgType<'a> {
    /// `void`.
    pub const VOID: ArgType<'static> = ArgType::primitive(PrimitiveType::Void);
    /// `boolean`.
    pub const BOOLEAN: ArgType<'static> = ArgType::primitive(PrimitiveType::Boolean);
    /// `byte`.
    pub const BYTE: ArgType<'static> = ArgType::primitive(PrimitiveType::Byte);
    /// `short`.
    pub const SHORT: ArgType<'static> = ArgType::primitive(PrimitiveType::Short);
    /// `char`.
    pub const CHAR: ArgType<'static> = ArgType::primitive(PrimitiveType::Char);
    /// `int`.
    pub const INT: ArgType<'static> = ArgType::primitive(PrimitiveType::Int);
    /// `long`.
    pub const LONG: ArgType<'static> = ArgType::primitive(PrimitiveType::Long);
    /// `float`.
    pub const FLOAT: ArgType<'static> = ArgType::primitive(PrimitiveType::Float);
    /// `double`.
    pub const DOUBLE: ArgType<'static> = ArgType::primitive(PrimitiveType::Double);

    /// A category as a type; ty.rs has the variant for it.
    pub const fn primitive(category: PrimitiveType) -> Self {
        Self {
            dimensions: 0,
            base: Base::Primitive(category),
        }
    }

    /// The class of this name, with slashes.
    pub const fn object(name: &'a str) -> Self {
        Self {
            dimensions: 0,
            base: Base::Object(name),
        }
    }

    /// One of these categories. ty.rs has the variant for it.
    pub const fn unknown_of(categories: Categories) -> Self {
        Self {
            dimensions: 0,
            base: Base::Unknown(categories),
        }
    }

    /// Any category but void: the list of all ten.
    pub const fn unknown() -> ArgType<'static> {
        one_of(&[
            Int, Long, Float, Double, Boolean, Short, Byte, Char, Object, Array,
        ])
    }

    /// Whatever takes one register.
    pub const fn narrow() -> ArgType<'static> {
        one_of(&[Int, Float, Boolean, Short, Byte, Char, Object, Array])
    }

    /// Whatever takes two registers.
    pub const fn wide() -> ArgType<'static> {
        one_of(&[Long, Double])
    }

    /// A class or an array, it is not known which.
    pub const fn unknown_object() -> ArgType<'static> {
        one_of(&[Object, Array])
    }

    /// What may be compared for equality: whatever takes one register, but no float.
    pub const fn equality_operand() -> ArgType<'static> {
        one_of(&[Int, Boolean, Short, Byte, Char, Object, Array])
    }

    /// java/lang/String.
    pub const fn string() -> ArgType<'static> {
        ArgType::object("java/lang/String")
    }

    /// java/lang/Class.
    pub const fn class() -> ArgType<'static> {
        ArgType::object("java/lang/Class")
    }

    /// java/lang/Throwable.
    pub const fn throwable() -> ArgType<'static> {
        ArgType::object("java/lang/Throwable")
    }

    /// The array of int.
    pub const fn int_array() -> ArgType<'static> {
        ArgType {
            dimensions: 1,
            ..ArgType::INT
        }
    }

    /// The array of java/lang/Object.
    pub const fn object_array() -> ArgType<'static> {
        ArgType {
            dimensions: 1,
            ..ArgType::object(OBJECT)
        }
    }

    /// The array of this type; none past 255 dimensions.
    pub fn array(self) -> Option<Self> {
        let dimensions = self.dimensions.checked_add(1)?;
        Some(Self { dimensions, ..self })
    }

    /// Whether it is a category, without dimensions.
    pub fn is_primitive(&self) -> bool {
        self.as_primitive().is_some()
    }

    /// Whether it is a class, without dimensions.
    pub fn is_object(&self) -> bool {
        self.as_object().is_some()
    }

    /// Whether it has dimensions.
    pub fn is_array(&self) -> bool {
        self.dimensions > 0
    }

    /// Whether it is a class or an array.
    pub fn is_reference(&self) -> bool {
        self.is_object() || self.is_array()
    }

    /// Whether it takes two registers; of an Unknown, whether each of its categories does.
    pub fn is_wide(&self) -> bool {
        match self.base {
            Base::Unknown(list) if self.dimensions == 0 => list.iter().all(PrimitiveType::is_wide),
            _ => self.as_primitive().is_some_and(PrimitiveType::is_wide),
        }
    }

    /// Whether it is anything but an Unknown. An array is known, whatever it is an array of.
    pub fn is_known(&self) -> bool {
        !self.is_unknown()
    }

    /// Whether it is an Unknown, without dimensions.
    pub fn is_unknown(&self) -> bool {
        self.dimensions == 0 && matches!(self.base, Base::Unknown(_))
    }

    /// The category, if it is one.
    pub fn as_primitive(&self) -> Option<PrimitiveType> {
        match self.base {
            Base::Primitive(category) if self.dimensions == 0 => Some(category),
            _ => None,
        }
    }

    /// The name of the class, if it is one.
    pub fn as_object(&self) -> Option<&'a str> {
        match self.base {
            Base::Object(name) if self.dimensions == 0 => Some(name),
            _ => None,
        }
    }

    /// The type that it is an array of, if it is one.
    pub fn as_array_element(&self) -> Option<Self> {
        let dimensions = self.dimensions.checked_sub(1)?;
        Some(Self {
            dimensions,
            ..*self
        })
    }
}

/// One of these categories, at most eleven and none twice.
const fn one_of(categories: &[PrimitiveType]) -> ArgType<'static> {
    ArgType::unknown_of(Categories::of(categories))
}
