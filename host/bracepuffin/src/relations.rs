//! The relations of all pairs of a table, asked once a class instead of once a pair.

use std::sync::OnceLock;

use crate::classes::{has, ClassTable, Relation, OBJECT};
use crate::{ClassNumber, Refusal};

/// How each class of a table stands to each. A call over a table checks and builds it, so a class is asked about once,
/// when it is first needed, which costs one or two calls; an answer afterwards is the look at a bit. It may be shared
/// between threads.
///
/// ```
/// use bracepuffin::{ClassTableBuilder, Relation, Relations};
///
/// let mut classes = ClassTableBuilder::new();
/// classes.add("a/Round", ["a/Shape"]);
/// let table = classes.build()?;
/// let relations = Relations::of(&table);
/// assert_eq!(relations.relation("a/Round", "a/Shape"), Relation::Yes);
/// # Ok::<(), bracepuffin::TableError>(())
/// ```
#[derive(Debug, Clone)]
pub struct Relations<'t> {
    table: &'t ClassTable,
    rows: Box<[OnceLock<Row>]>,
}

/// The ancestors of a class, and how it stands to each class that is none.
#[derive(Debug, Clone)]
struct Row {
    ancestors: [u64; 16],
    other: Relation,
}

impl<'t> Relations<'t> {
    /// The relations of this table, none of them asked for yet.
    pub fn of(table: &'t ClassTable) -> Self {
        let rows = (0..table.names().len()).map(|_| OnceLock::new());
        Self {
            table,
            rows: rows.collect(),
        }
    }

    /// How `value` stands to `expected`, by their names: [`ClassTable::relation`].
    pub fn relation(&self, value: &str, expected: &str) -> Relation {
        let names = self.table.names();
        match (names.find(value), names.find(expected)) {
            (Some(value), Some(expected)) => self.between(value, expected),
            _ if value == expected || expected == OBJECT => Relation::Yes,
            (Some(value), None) => self.row(value).other,
            (None, _) => Relation::Unknown,
        }
    }

    /// How `value` stands to `expected`, by their numbers.
    ///
    /// # Errors
    ///
    /// [`Refusal::Number`] for a number of another table.
    #[inline]
    pub fn relation_of(
        &self,
        value: ClassNumber,
        expected: ClassNumber,
    ) -> Result<Relation, Refusal> {
        let mark = self.table.names().mark();
        let (value, expected) = (value.within(mark), expected.within(mark));
        let count = self.rows.len() as u64;
        if value >= count || expected >= count {
            return Err(Refusal::Number);
        }
        Ok(self.between(value, expected))
    }

    #[inline]
    fn between(&self, value: u64, expected: u64) -> Relation {
        let row = self.row(value);
        match has(&row.ancestors, expected) {
            true => Relation::Yes,
            false => row.other,
        }
    }

    #[inline]
    fn row(&self, class: u64) -> &Row {
        self.rows[class as usize].get_or_init(|| {
            let ancestors = *self.table.ancestors_of(class).words();
            let other = self.table.relation_to_others(class, &ancestors);
            Row { ancestors, other }
        })
    }
}
