//! Class tables, and what is asked of them, by name.

use std::cell::Cell;
use std::collections::BTreeSet;
use std::fmt;

use crate::ffi::{self, BpAnswer};
use crate::records::{Records, Row};
use crate::slices::{self, ClassColumns};
use crate::{ClassNumber, Names, Refusal, TableError};

/// The class above all others; every table has it.
pub const OBJECT: &str = "java/lang/Object";

/// The least number of words that a working slice must have.
pub const WORK: usize = ffi::BP_WORK;

const DECLARED: u64 = 1;
const INTERFACE: u64 = 2;
const FINAL: u64 = 4;

const NONE: u64 = u64::MAX;
const UNREACHED: u64 = 4_611_686_018_427_387_903;

/// How a class stands to another that is expected, after `SubtypeRelation` of hierarchy.rs.
#[derive(Debug, Clone, Copy, PartialEq, Eq, Hash)]
pub enum Relation {
    /// The other is an ancestor.
    Yes,
    /// It is none.
    No,
    /// It is none, as far as the table knows; but a class that is reached has no record.
    Unknown,
}

impl Relation {
    fn of(number: u64) -> Self {
        match number {
            0 => Self::Yes,
            1 => Self::No,
            _ => Self::Unknown,
        }
    }
}

/// How far an ancestor is.
#[derive(Debug, Clone, Copy, PartialEq, Eq, Hash)]
pub enum Distance {
    /// The least number of steps from parent to parent.
    Steps(u64),
    /// java/lang/Object, which is an ancestor of every class, though no record leads to it.
    UnreachedObject,
    /// No ancestor.
    NoAncestor,
}

impl Distance {
    fn of(number: u64) -> Self {
        match number {
            UNREACHED => Self::UnreachedObject,
            NONE => Self::NoAncestor,
            steps => Self::Steps(steps),
        }
    }
}

/// What a declaration says of a class besides its parents, after `ReferenceTypeInfo` of hierarchy.rs.
#[derive(Debug, Clone, Copy, PartialEq, Eq, Hash)]
pub struct ReferenceTypeInfo {
    /// Whether it is an interface.
    pub is_interface: bool,
    /// Whether nothing may be below it.
    pub is_final: bool,
}

impl ReferenceTypeInfo {
    /// A class that may be extended.
    pub const PLAIN: Self = Self {
        is_interface: false,
        is_final: false,
    };
    /// An interface.
    pub const INTERFACE: Self = Self {
        is_interface: true,
        is_final: false,
    };
    /// A class that may not be extended.
    pub const FINAL: Self = Self {
        is_interface: false,
        is_final: true,
    };

    pub(crate) fn flags(self) -> u64 {
        let interface = if self.is_interface { INTERFACE } else { 0 };
        let last = if self.is_final { FINAL } else { 0 };
        DECLARED | interface | last
    }
}

/// A class table that was checked, of one layer or several. Questions by name are never refused: a class that the table
/// does not name is answered as hierarchy.rs answers, which takes it for one without a record.
///
/// It may be shared between threads, which do not wait for each other: each has a working slice of its own.
#[derive(Clone)]
pub struct ClassTable {
    names: Names,
    records: Records,
    /// A bit for each class that has a record.
    recorded: [u64; 16],
    object: u64,
}

impl ClassTable {
    /// The table with these names, java/lang/Object among them, and rows of class, flags and parents.
    pub(crate) fn new(names: Names, rows: Vec<Row>) -> Result<Self, TableError> {
        let records = Records::over_empty(0, rows);
        check(&names, &records)?;
        Ok(Self::of_checked(names, records))
    }

    /// The same with one more layer, of these rows; the names are those of the table and more.
    ///
    /// A row is refused for the sake of the names and of its own layer. So the rows of the table, which were accepted, are
    /// so again, and what is checked is the new layer alone, over as many empty ones as there are layers below it.
    pub(crate) fn with_layer(&self, names: Names, rows: Vec<Row>) -> Result<Self, TableError> {
        let layer = Records::over_empty(self.layers(), rows);
        check(&names, &layer)?;
        let records = self.renumbered(&names).with_topmost_of(&layer);
        Ok(Self::of_checked(names, records))
    }

    /// The same records over these names too, which the table does not have.
    pub(crate) fn extended(&self, more: &BTreeSet<&str>) -> Result<Self, TableError> {
        let names = Names::new(self.names.iter().chain(more.iter().copied()))?;
        let records = self.renumbered(&names);
        Ok(Self::of_checked(names, records))
    }

    /// The records over other names, those of the table among them.
    fn renumbered(&self, names: &Names) -> Records {
        let found = self.names.iter().map(|name| names.find(name));
        let numbers: Option<Vec<u64>> = found.collect();
        let numbers = numbers.expect("every name is among them");
        self.records.renumbered(|class| numbers[class as usize])
    }

    fn of_checked(names: Names, records: Records) -> Self {
        let object = names.find(OBJECT);
        Self {
            object: object.expect("java/lang/Object is among the names"),
            recorded: records.recorded(),
            names,
            records,
        }
    }

    /// The names of the table.
    pub fn names(&self) -> &Names {
        &self.names
    }

    /// How many layers the table has, 1 to 4.
    pub fn layers(&self) -> usize {
        self.records.layers()
    }

    /// The columns, for the functions over slices.
    pub fn columns(&self) -> ClassColumns<'_> {
        self.records.columns(&self.names)
    }

    /// The number of a class.
    ///
    /// # Errors
    ///
    /// [`Refusal::Absent`] for a class that is not in the table.
    pub fn class_number(&self, class: &str) -> Result<ClassNumber, Refusal> {
        self.names.class_number(class)
    }

    /// How `value` stands to `expected`.
    #[doc(alias = "subtype_relation")]
    pub fn relation(&self, value: &str, expected: &str) -> Relation {
        match self.both(value, expected) {
            Some((value, expected)) => self.relation_between(value, expected),
            None => self.relation_of_absent(value, expected),
        }
    }

    /// Whether `expected` is an ancestor of `value`.
    pub fn is_subtype(&self, value: &str, expected: &str) -> bool {
        self.relation(value, expected) == Relation::Yes
    }

    /// How far `expected` is above `value`.
    pub fn distance(&self, value: &str, expected: &str) -> Distance {
        match self.both(value, expected) {
            Some((value, expected)) => self.distance_between(value, expected),
            None => self.distance_of_absent(value, expected),
        }
    }

    /// The ancestors of a class, itself and java/lang/Object among them.
    #[doc(alias = "ancestor_names")]
    pub fn ancestors<'a>(&'a self, class: &'a str) -> Ancestors<'a> {
        match self.names.find(class) {
            Some(class) => self.ancestors_of(class),
            None => Ancestors::of_absent(&self.names, self.object, class),
        }
    }

    /// The least common supertype. hierarchy.rs has an `Option` for it, but java/lang/Object is common to all.
    #[doc(alias = "least_common_supertype")]
    pub fn supertype<'a>(&'a self, left: &'a str, right: &'a str) -> &'a str {
        match self.both(left, right) {
            Some((left, right)) => {
                let class = self.ask_pair(slices::supertype, left, right);
                let name = self.names.name_at(class);
                name.expect("java/lang/Object is common to all")
            }
            None => self.supertype_of_absent(left, right),
        }
    }

    /// Whether a cast from `source` to `target` can succeed.
    #[doc(alias = "is_cast_convertible")]
    pub fn cast(&self, source: &str, target: &str) -> bool {
        match self.both(source, target) {
            Some((source, target)) => self.ask_pair(slices::cast, source, target) == 1,
            None => self.cast_of_absent(source, target),
        }
    }

    /// The numbers of two classes, if the table has both.
    pub(crate) fn both(&self, left: &str, right: &str) -> Option<(u64, u64)> {
        Some((self.names.find(left)?, self.names.find(right)?))
    }

    pub(crate) fn object(&self) -> u64 {
        self.object
    }

    pub(crate) fn recorded(&self) -> &[u64; 16] {
        &self.recorded
    }

    pub(crate) fn relation_between(&self, value: u64, expected: u64) -> Relation {
        let found = self.ask(|columns, work| slices::relation(columns, value, expected, work));
        Relation::of(answered(found.refusal, found.relation))
    }

    pub(crate) fn distance_between(&self, value: u64, expected: u64) -> Distance {
        Distance::of(self.ask_pair(slices::distance, value, expected))
    }

    pub(crate) fn ancestors_of(&self, class: u64) -> Ancestors<'_> {
        let set = self.ask(|columns, work| slices::ancestors(columns, class, work));
        Ancestors {
            names: &self.names,
            absent: None,
            count: set.count,
            lowest: set.lowest,
            words: answered(set.refusal, set.words),
        }
    }

    fn ask_pair(
        &self,
        query: fn(ClassColumns, u64, u64, &mut [u64]) -> BpAnswer,
        left: u64,
        right: u64,
    ) -> u64 {
        let answer = self.ask(|columns, work| query(columns, left, right, work));
        answered(answer.refusal, answer.value)
    }

    /// A call with the columns and a working slice.
    pub(crate) fn ask<T>(&self, query: impl FnOnce(ClassColumns, &mut [u64]) -> T) -> T {
        with_work(|work| query(self.columns(), work))
    }
}

impl fmt::Debug for ClassTable {
    fn fmt(&self, formatter: &mut fmt::Formatter<'_>) -> fmt::Result {
        let mut shown = formatter.debug_struct("ClassTable");
        shown.field("names", &self.names.len());
        shown.field("layers", &self.layers());
        shown.field("records", &self.records.len());
        shown.finish_non_exhaustive()
    }
}

/// The ancestors of a class, a bit for each name of the table.
#[derive(Clone, Copy)]
pub struct Ancestors<'t> {
    names: &'t Names,
    /// The class itself, where the table does not name it: java/lang/Object alone is above it.
    absent: Option<&'t str>,
    count: u64,
    lowest: u64,
    words: [u64; 16],
}

impl<'t> Ancestors<'t> {
    /// Those of a class that the table does not name.
    fn of_absent(names: &'t Names, object: u64, class: &'t str) -> Self {
        let mut words = [0; 16];
        words[object as usize / 64] = 1 << (object % 64);
        Self {
            names,
            absent: Some(class),
            count: 2,
            lowest: object,
            words,
        }
    }

    /// How many there are; never 0.
    #[allow(clippy::len_without_is_empty)]
    pub fn len(&self) -> usize {
        self.count as usize
    }

    /// The first one in the order of names.
    pub fn lowest(&self) -> &'t str {
        let name = self.names.name_at(self.lowest);
        let name = name.expect("a class is among its ancestors");
        self.absent.map_or(name, |absent| absent.min(name))
    }

    /// Whether a class is among them.
    pub fn contains(&self, class: &str) -> bool {
        let number = self.names.find(class);
        self.absent == Some(class) || number.is_some_and(|number| has(&self.words, number))
    }

    /// Their names, ascending.
    pub fn names(&self) -> impl Iterator<Item = &'t str> + '_ {
        let (before, after) = match self.absent {
            Some(class) if class < OBJECT => (Some(class), None),
            class => (None, class),
        };
        let listed = self.places().filter_map(|place| self.names.name_at(place));
        before.into_iter().chain(listed).chain(after)
    }

    /// The numbers of those that the table names, ascending.
    pub fn numbers(&self) -> impl Iterator<Item = ClassNumber> + '_ {
        let mark = self.names.mark();
        self.places()
            .map(move |place| ClassNumber::new(place, mark))
    }

    /// The set itself, of those that the table names: bit i % 64 of word i / 64 is name i.
    pub fn words(&self) -> &[u64; 16] {
        &self.words
    }

    fn places(&self) -> impl Iterator<Item = u64> + '_ {
        (0..self.names.len() as u64).filter(|place| has(&self.words, *place))
    }
}

impl fmt::Debug for Ancestors<'_> {
    fn fmt(&self, formatter: &mut fmt::Formatter<'_>) -> fmt::Result {
        formatter.debug_set().entries(self.names()).finish()
    }
}

/// Whether these names and records are accepted.
fn check(names: &Names, records: &Records) -> Result<(), TableError> {
    let checked = slices::check_table(records.columns(names));
    match checked.refusal {
        0 => Ok(()),
        _ => Err(TableError::of(checked, names, records)),
    }
}

#[inline]
pub(crate) fn has(words: &[u64; 16], number: u64) -> bool {
    words[number as usize / 64] >> (number % 64) & 1 == 1
}

/// A call with a working slice. A thread keeps the one that it used last: every call leaves it zero, and what it holds
/// is without effect.
pub(crate) fn with_work<T>(call: impl FnOnce(&mut [u64]) -> T) -> T {
    thread_local! {
        static KEPT: Cell<Option<Box<[u64]>>> = const { Cell::new(None) };
    }
    let kept = KEPT.try_with(Cell::take).ok().flatten();
    let mut work = kept.unwrap_or_else(|| vec![0; WORK].into_boxed_slice());
    let answer = call(&mut work);
    // Where the thread is ending there is no place to keep it.
    let _ = KEPT.try_with(|kept| kept.set(Some(work)));
    answer
}

/// The answer of a query over a checked table about classes or types of it, which is never refused.
pub(crate) fn answered<T>(refusal: u64, answer: T) -> T {
    assert_eq!(refusal, 0, "a question that a checked table refuses");
    answer
}
