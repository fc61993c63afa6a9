//! Class tables in layers: their rows, what they show as the rows of one plain table, and hierarchy.rs with an index for
//! each layer, so that the two can be asked the same.

use std::sync::Arc;

use dexdec::hierarchy::ClassHierarchyIndex;

use crate::classes::{Classes, Judge};

/// The flags of a row that opens a layer.
pub const OPENS: u64 = 0x8e;

/// No table has more.
pub const MAX_LAYERS: usize = 4;

/// A record of the topmost layer, or the opening of a layer above all rows before it.
#[derive(Debug, Clone, PartialEq, Eq)]
pub struct Row {
    pub flags: u64,
    pub class: u64,
    pub parents: Vec<u64>,
}

impl Row {
    pub fn record(flags: u64, class: u64, parents: &[u64]) -> Self {
        Self {
            flags,
            class,
            parents: parents.to_vec(),
        }
    }

    pub fn opening() -> Self {
        Self::record(OPENS, 0, &[])
    }

    pub fn opens(&self) -> bool {
        self.flags == OPENS
    }
}

/// Whether some record of these rows is of the class.
pub fn has_record(class: u64, rows: &[Row]) -> bool {
    rows.iter().any(|row| !row.opens() && row.class == class)
}

/// Whether a layer that opens among these rows records the class.
pub fn recorded_above(class: u64, rows: &[Row]) -> bool {
    match rows.iter().position(Row::opens) {
        Some(opening) => has_record(class, &rows[opening + 1..]),
        None => false,
    }
}

/// The records of all layers as those of one. Where a layer above records a class again, the parents that a row lists
/// for it are hidden; the facts that it declares are not.
pub fn shown_rows(rows: &[Row]) -> Vec<Row> {
    let mut shown = Vec::new();
    let mut left = rows;
    while let Some((row, rest)) = left.split_first() {
        left = rest;
        if row.opens() {
            continue;
        }
        match recorded_above(row.class, rest) {
            true => shown.push(Row::record(row.flags, row.class, &[])),
            false => shown.push(row.clone()),
        }
    }
    shown
}

/// One list of names, ascending, and the rows of all layers over it, the lowest first.
#[derive(Debug, Clone, PartialEq, Eq)]
pub struct Layers {
    pub names: Vec<String>,
    pub rows: Vec<Row>,
}

impl Layers {
    /// The table as it is lent.
    pub fn lent(&self) -> Classes {
        Classes::of_rows(&self.names, &self.rows)
    }

    /// The plain table that shows the same.
    pub fn shown(&self) -> Classes {
        Classes::of_rows(&self.names, &shown_rows(&self.rows))
    }

    /// The indexes of hierarchy.rs over one another, asked through the topmost.
    pub fn stack(&self) -> Judge {
        self.lent().judge()
    }
}

impl Classes {
    /// These names, ascending, and these rows.
    pub fn of_rows<T: AsRef<[u8]>>(names: &[T], rows: &[Row]) -> Self {
        let mut classes = Self::of(names);
        for row in rows {
            classes.push(row.flags, row.class, &row.parents);
        }
        classes
    }
}

impl Judge {
    /// This index with one more record, or a layer above it.
    pub fn with_row(mut self, row: &Row) -> Self {
        match row.opens() {
            true => self.index = ClassHierarchyIndex::layered(Arc::new(self.index)),
            false => self.record(row.flags, row.class, &row.parents),
        }
        self
    }
}
