//! Bracepuffin from Rust: descriptors read and written, and questions about classes and types answered, by functions
//! that are proved to meet their contracts.
//!
//! ```
//! use bracepuffin::{ClassTableBuilder, Names, Relation};
//!
//! let method = bracepuffin::read_method(b"([Ljava/lang/String;I)V")?;
//! assert_eq!(method.to_string(), "([Ljava/lang/String;I)V");
//! let names = Names::new(["java/lang/String", "java/lang/Object"])?;
//! let words = [
//!     names.word(method.parameters[0])?,
//!     names.word(method.parameters[1])?,
//! ];
//! let text = names.write_method(&words, names.word(method.return_type)?)?;
//! assert_eq!(text, "([Ljava/lang/String;I)V");
//!
//! let mut classes = ClassTableBuilder::new();
//! classes.add("java/lang/String", ["java/lang/Object", "java/lang/Comparable"]);
//! let table = classes.build()?;
//! let relation = table.relation("java/lang/String", "java/lang/Comparable");
//! assert_eq!(relation, Relation::Yes);
//! # Ok::<(), Box<dyn std::error::Error>>(())
//! ```
//!
//! [`ffi`] declares what the archive exports, [`slices`] calls it on any numbers and bytes, and the rest has the types
//! and errors that a Rust program wants. What a descriptor says, what is written, whether a table is accepted, and
//! every answer about classes and types comes from the archive. Around it stands Rust, which is tested, not proved:
//!
//! - Names are put in order, records numbered and split, layers put over a table whose records are numbered anew; for a
//!   write the names are picked that the words use, for a [`PartTable`] the classes that are above those asked for.
//! - Names that are asked about are looked up here. A class that the table does not name gets the answer of
//!   hierarchy.rs, which is put together from what the archive says of the other class.
//! - The types of a method's parameters are cut out of the text between the offsets that the archive gives.
//! - Type words are put together and taken apart (`word`, `type_of`, [`Categories`]).
//! - What a type says of itself (`is_wide` and the like), the order of types, and how types and methods print.
//! - [`Relations`] puts answers together: the ancestors of each class give the relations of all pairs.
//!
//! A [`TypeWord`] or a [`ClassNumber`] knows the table that it was made for, and is no type and no class in another.

#![warn(missing_docs)]

mod absent;
mod builder;
mod classes;
mod descriptors;
mod error;
mod names;
mod order;
mod part;
mod part_table;
mod read;
mod records;
mod refusal;
mod relations;
pub mod slices;
mod solving;
mod type_queries;
mod types;
mod word;

/// The functions as they are exported, from the crate `bracepuffin-sys`.
pub use bracepuffin_sys as ffi;

pub use builder::ClassTableBuilder;
pub use classes::{Ancestors, ClassTable, Distance, ReferenceTypeInfo, Relation, OBJECT, WORK};
pub use error::{LeftOut, Place, TableError};
pub use names::{Names, TYPE_BYTES};
pub use part_table::PartTable;
pub use read::{
    read_method, read_method_into, read_method_strict, read_method_strict_into, read_type,
    read_type_strict, Method, MethodDescriptor, Offsets, Parameters, PARAMETERS,
};
pub use refusal::Refusal;
pub use relations::Relations;
pub use solving::{ArrayConstraint, BoundKind, Solution, TypeConstraints};
pub use types::{ArgType, Base, Categories, PrimitiveType};
pub use word::{ClassNumber, TypeWord};
