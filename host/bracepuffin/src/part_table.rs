//! A part of a class table: the classes that some questions need, of a table that is too large as a whole.

use std::collections::HashSet;

use crate::types::{ArgType, Base};
use crate::{Ancestors, ClassTable, Distance, LeftOut, Relation};

/// The classes that were asked for and all above them, of a builder's table that may have any number.
///
/// About these, and about classes that the builder never named, it answers what the whole table would. A class that
/// the builder named and the part leaves out has records that are not here, so a question about it is an error.
#[derive(Debug, Clone)]
pub struct PartTable<'a> {
    table: ClassTable,
    left_out: HashSet<&'a str>,
}

/// What the questions have in common: no class that was left out.
type Answer<T> = Result<T, LeftOut>;

impl<'n> PartTable<'n> {
    pub(crate) fn new(table: ClassTable, left_out: HashSet<&'n str>) -> Self {
        Self { table, left_out }
    }

    /// The table of the part alone. It takes a class that was left out for one without a record.
    pub fn table(&self) -> &ClassTable {
        &self.table
    }

    /// Whether the part answers questions about this class.
    pub fn answers(&self, class: &str) -> bool {
        !self.left_out.contains(class)
    }

    /// [`ClassTable::relation`].
    ///
    /// # Errors
    ///
    /// A class that was left out; so with every question below.
    pub fn relation(&self, value: &str, expected: &str) -> Answer<Relation> {
        let table = self.about([value, expected])?;
        Ok(table.relation(value, expected))
    }

    /// [`ClassTable::distance`].
    ///
    /// # Errors
    ///
    /// A class that was left out.
    pub fn distance(&self, value: &str, expected: &str) -> Answer<Distance> {
        let table = self.about([value, expected])?;
        Ok(table.distance(value, expected))
    }

    /// [`ClassTable::ancestors`].
    ///
    /// # Errors
    ///
    /// A class that was left out.
    pub fn ancestors<'a>(&'a self, class: &'a str) -> Answer<Ancestors<'a>> {
        let table = self.about([class])?;
        Ok(table.ancestors(class))
    }

    /// [`ClassTable::supertype`].
    ///
    /// # Errors
    ///
    /// A class that was left out.
    pub fn supertype<'a>(&'a self, left: &'a str, right: &'a str) -> Answer<&'a str> {
        let table = self.about([left, right])?;
        Ok(table.supertype(left, right))
    }

    /// [`ClassTable::cast`].
    ///
    /// # Errors
    ///
    /// A class that was left out.
    pub fn cast(&self, source: &str, target: &str) -> Answer<bool> {
        let table = self.about([source, target])?;
        Ok(table.cast(source, target))
    }

    /// [`ClassTable::join`].
    ///
    /// # Errors
    ///
    /// A class that was left out.
    pub fn join<'a>(&'a self, left: ArgType<'a>, right: ArgType<'a>) -> Answer<ArgType<'a>> {
        let table = self.about([left, right].into_iter().filter_map(class_of))?;
        Ok(table.join(left, right))
    }

    /// [`ClassTable::is_assignable`].
    ///
    /// # Errors
    ///
    /// A class that was left out.
    pub fn is_assignable(&self, value: ArgType, expected: ArgType) -> Answer<bool> {
        let table = self.about([value, expected].into_iter().filter_map(class_of))?;
        Ok(table.is_assignable(value, expected))
    }

    /// The table, for a question about these classes.
    fn about<'c>(&self, classes: impl IntoIterator<Item = &'c str>) -> Answer<&ClassTable> {
        let mut classes = classes.into_iter();
        match classes.find(|class| !self.answers(class)) {
            Some(class) => Err(LeftOut::new(class)),
            None => Ok(&self.table),
        }
    }
}

/// The class that a type names, if it names one.
fn class_of(ty: ArgType<'_>) -> Option<&str> {
    match ty.base {
        Base::Object(name) => Some(name),
        _ => None,
    }
}
