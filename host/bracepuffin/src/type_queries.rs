//! What is asked of two types over a class table: their join, and whether one is assignable to the other.

use crate::absent::Query;
use crate::classes::{answered, ClassTable};
use crate::names::type_of;
use crate::types::ArgType;
use crate::{slices, Refusal, TypeWord};

impl ClassTable {
    /// The join of two types, as `join` of lattice.rs has it. It is not symmetric: a list of two primitives begins with
    /// the left one.
    ///
    /// ```
    /// use bracepuffin::{ArgType, ClassTableBuilder};
    ///
    /// let mut classes = ClassTableBuilder::new();
    /// classes.add("a/TrussA", ["a/Probe"]).add("a/TrussB", ["a/Probe"]);
    /// let table = classes.build()?;
    /// let joined = table.join(ArgType::object("a/TrussA"), ArgType::object("a/TrussB"));
    /// assert_eq!(joined, ArgType::object("a/Probe"));
    /// # Ok::<(), bracepuffin::TableError>(())
    /// ```
    pub fn join<'a>(&'a self, left: ArgType<'a>, right: ArgType<'a>) -> ArgType<'a> {
        match self.ask_types(slices::join, left, right) {
            Some(word) => {
                let ty = type_of(word, |class| self.names().name_at(class));
                ty.expect("a join is a type of the table")
            }
            None => self.ask_of_absent(slices::join, [left, right]).ty(),
        }
    }

    /// Whether a value of one type may stand where the other is expected, as `is_assignable` of lattice.rs has it.
    pub fn is_assignable(&self, value: ArgType, expected: ArgType) -> bool {
        let answer = match self.ask_types(slices::assignable, value, expected) {
            Some(answer) => answer,
            None => {
                self.ask_of_absent(slices::assignable, [value, expected])
                    .value
            }
        };
        answer == 1
    }

    /// The answer about two types whose classes the table names; none for others.
    fn ask_types(&self, query: Query, left: ArgType, right: ArgType) -> Option<u64> {
        let (left, right) = (self.word(left).ok()?, self.word(right).ok()?);
        let answer = self.ask(|columns, work| query(columns, left.bits(), right.bits(), work));
        Some(answered(answer.refusal, answer.value))
    }

    /// The word of a type.
    ///
    /// # Errors
    ///
    /// [`Refusal::Absent`] for a class that is not in the table.
    pub fn word(&self, ty: ArgType) -> Result<TypeWord, Refusal> {
        self.names().word(ty)
    }

    /// The type of a word; none for a word that is no type of this table.
    pub fn type_of(&self, word: TypeWord) -> Option<ArgType<'_>> {
        self.names().type_of(word)
    }
}
