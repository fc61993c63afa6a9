//! The records of a class table as the columns that are lent, in up to four layers: a row with flags of its own opens a layer
//! above all rows before it.

use crate::ffi::BP_OPENS_LAYER;
use crate::slices::ClassColumns;
use crate::Names;

/// The most parents that one record may have. A class may have more in several records.
const PARENTS: usize = 254;

/// Class, flags and parents of a record.
pub(crate) type Row = (u64, u64, Vec<u64>);

/// Where a row stands: its layer, from 0; its place among the records of that layer; how many these are.
pub(crate) struct InLayer {
    pub(crate) layer: usize,
    pub(crate) row: usize,
    pub(crate) of: usize,
}

/// An entry of each column is a row, but for the parents, which rows cut theirs from.
#[derive(Clone, Default)]
pub(crate) struct Records {
    flags: Vec<u64>,
    class: Vec<u64>,
    at: Vec<u64>,
    len: Vec<u64>,
    parents: Vec<u64>,
}

impl Records {
    /// Those of the topmost layer over so many that are left empty.
    pub(crate) fn over_empty(layers: usize, rows: Vec<Row>) -> Self {
        let mut records = Self::default();
        for _ in 0..layers {
            records.row(BP_OPENS_LAYER, 0, &[]);
        }
        for (class, flags, parents) in rows {
            records.push(class, flags, &parents);
        }
        records
    }

    /// A record: as many rows as its parents need, one for none.
    fn push(&mut self, class: u64, flags: u64, parents: &[u64]) {
        let rows = parents.len().div_ceil(PARENTS).max(1);
        for row in 0..rows {
            let rest = &parents[row * PARENTS..];
            self.row(flags, class, &rest[..rest.len().min(PARENTS)]);
        }
    }

    fn row(&mut self, flags: u64, class: u64, parents: &[u64]) {
        self.flags.push(flags);
        self.class.push(class);
        self.at.push(self.parents.len() as u64);
        self.len.push(parents.len() as u64);
        self.parents.extend_from_slice(parents);
    }

    /// These and, opened above them, the topmost layer of others.
    pub(crate) fn with_topmost_of(mut self, others: &Self) -> Self {
        let opening = others.flags.iter().rposition(opens);
        let opening = opening.expect("a layer was opened there");
        for row in opening..others.flags.len() {
            self.row(others.flags[row], others.class[row], others.parents_of(row));
        }
        self
    }

    fn parents_of(&self, row: usize) -> &[u64] {
        let (at, len) = (self.at[row] as usize, self.len[row] as usize);
        &self.parents[at..at + len]
    }

    /// The same rows where each class has another number. What opens a layer is of no class.
    pub(crate) fn renumbered(&self, number: impl Fn(u64) -> u64) -> Self {
        let rows = self.flags.iter().zip(&self.class);
        let class = rows.map(|(flags, class)| match opens(flags) {
            true => *class,
            false => number(*class),
        });
        Self {
            flags: self.flags.clone(),
            class: class.collect(),
            at: self.at.clone(),
            len: self.len.clone(),
            parents: self.parents.iter().copied().map(&number).collect(),
        }
    }

    /// The columns, for the functions over slices.
    pub(crate) fn columns<'a>(&'a self, names: &'a Names) -> ClassColumns<'a> {
        ClassColumns {
            names: names.columns(),
            rec_flags: &self.flags,
            rec_class: &self.class,
            rec_at: &self.at,
            rec_len: &self.len,
            parents: &self.parents,
        }
    }

    /// How many layers there are; never 0.
    pub(crate) fn layers(&self) -> usize {
        1 + self.flags.iter().filter(|flags| opens(flags)).count()
    }

    /// How many records there are in all layers.
    pub(crate) fn len(&self) -> usize {
        self.flags.len() + 1 - self.layers()
    }

    /// A bit for each class that has a record in some layer.
    pub(crate) fn recorded(&self) -> [u64; 16] {
        let mut recorded = [0; 16];
        let rows = self.flags.iter().zip(&self.class);
        for (_, class) in rows.filter(|(flags, _)| !opens(flags)) {
            recorded[*class as usize / 64] |= 1 << (class % 64);
        }
        recorded
    }

    /// The class of a row; none for one that opens a layer.
    pub(crate) fn class_of(&self, row: usize) -> Option<u64> {
        (!opens(&self.flags[row])).then_some(self.class[row])
    }

    /// Where a record stands; for a row that opens a layer, where it stands in the layer below.
    pub(crate) fn in_layer(&self, row: usize) -> InLayer {
        let (before, after) = self.flags.split_at(row);
        let start = before.iter().rposition(opens).map_or(0, |row| row + 1);
        let left = after.iter().position(opens).unwrap_or(after.len());
        InLayer {
            layer: before.iter().filter(|flags| opens(flags)).count(),
            row: row - start,
            of: row + left - start,
        }
    }
}

fn opens(flags: &u64) -> bool {
    *flags == BP_OPENS_LAYER
}
