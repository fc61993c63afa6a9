//! What the boundary must answer about classes: the rules of the paper for what is refused, and hierarchy.rs for the
//! answer to everything that is not.

use std::collections::BTreeSet;

use dexdec::hierarchy::{
    self, ClassHierarchyIndex, ReferenceTypeInfo, SubtypeRelation, TypeHierarchy,
};

use crate::layers::{Row, MAX_LAYERS, OPENS};
use crate::paper::Table;

pub const WORK: usize = 8192;
pub const MAX_PARENTS: u64 = 254;
pub const MAX_PAIRS: usize = 4096;
pub const OBJECT: &str = "java/lang/Object";

const NONE: u64 = u64::MAX;

/// A class table as it is lent: record i has flags, a class, and `len[i]` entries of `parents` from `at[i]` on. One whose
/// flags are 0x8e opens a layer.
#[derive(Debug, Clone, Default, PartialEq, Eq)]
pub struct Classes {
    pub names: Table,
    pub flags: Vec<u64>,
    pub class: Vec<u64>,
    pub at: Vec<u64>,
    pub len: Vec<u64>,
    pub parents: Vec<u64>,
}

impl Classes {
    /// These names, ascending, and no record.
    pub fn of<T: AsRef<[u8]>>(names: &[T]) -> Self {
        Self {
            names: Table::of(names),
            ..Self::default()
        }
    }

    pub fn push(&mut self, flags: u64, class: u64, parents: &[u64]) {
        self.flags.push(flags);
        self.class.push(class);
        self.at.push(self.parents.len() as u64);
        self.len.push(parents.len() as u64);
        self.parents.extend_from_slice(parents);
    }

    fn parents_of(&self, row: usize) -> Option<&[u64]> {
        let at = usize::try_from(self.at[row]).ok()?;
        let len = usize::try_from(self.len[row]).ok()?;
        self.parents.get(at..at.checked_add(len)?)
    }

    /// The records, each of which lies inside its slice.
    pub fn rows(&self) -> Vec<Row> {
        let row = |row| {
            let parents = self.parents_of(row).expect("inside");
            Row::record(self.flags[row], self.class[row], parents)
        };
        (0..self.flags.len()).map(row).collect()
    }

    /// The names, if all rows are sound; else the first refusal in row order.
    pub fn names(&self) -> Result<Vec<String>, u64> {
        self.checked().map_err(|[number, ..]| number)
    }

    /// The names; else the refusal, the part it is about (0 columns, 1 names, 2 records) and the row.
    fn checked(&self) -> Result<Vec<String>, [u64; 3]> {
        let records = self.flags.len();
        let equal = self.class.len() == records && self.at.len() == records;
        if self.names.at.len() != self.names.len.len() || !equal || self.len.len() != records {
            return Err([3, 0, 0]);
        }
        let of_names = |(number, row): (u64, usize)| [number, 1, row as u64];
        let names = self.names.checked().map_err(of_names)?;
        let mut made = Made::default();
        for row in 0..records {
            let taken = match self.flags[row] {
                OPENS => self.opening(row, &mut made),
                _ => self.record(row, names.len() as u64, &mut made.pairs),
            };
            taken.map_err(|number| [number, 2, row as u64])?;
        }
        Ok(names)
    }

    /// A row that opens a layer, after those before it: of class 0, without parents; there is no room for a fifth layer.
    fn opening(&self, row: usize, made: &mut Made) -> Result<(), u64> {
        let parents = self.parents_of(row).ok_or(3_u64)?;
        if self.class[row] != 0 || !parents.is_empty() {
            return Err(3);
        }
        made.opened += 1;
        made.pairs.clear();
        match 1 + made.opened > MAX_LAYERS {
            true => Err(8),
            false => Ok(()),
        }
    }

    /// One record over that many names, after the pairs of those before it in its layer.
    fn record(&self, row: usize, names: u64, pairs: &mut BTreeSet<(u64, u64)>) -> Result<(), u64> {
        let parents = self.parents_of(row).ok_or(3_u64)?;
        if self.len[row] > MAX_PARENTS {
            return Err(3);
        }
        let is_class = |number: &u64| *number < names;
        if !is_flags(self.flags[row]) || !is_class(&self.class[row]) {
            return Err(6);
        }
        if !parents.iter().all(is_class) {
            return Err(6);
        }
        pairs.extend(parents.iter().map(|parent| (self.class[row], *parent)));
        match pairs.len() > MAX_PAIRS {
            true => Err(8),
            false => Ok(()),
        }
    }

    /// What the check of the table says: refusal, part and row; 9 and part 3 where no name is java/lang/Object.
    pub fn check(&self) -> [u64; 3] {
        match self.checked() {
            Ok(names) if names.iter().any(|name| name == OBJECT) => [0, 0, 0],
            Ok(_) => [9, 3, 0],
            Err(fault) => fault,
        }
    }

    /// What a query about these numbers is refused with a working slice of that many words: 22, the table, 6, 9.
    pub fn refusal(&self, numbers: &[u64], work: usize) -> u64 {
        if work < WORK {
            return 22;
        }
        let names = match self.names() {
            Ok(names) => names,
            Err(number) => return number,
        };
        if numbers.iter().any(|number| *number >= names.len() as u64) {
            return 6;
        }
        match names.iter().any(|name| name == OBJECT) {
            true => 0,
            false => 9,
        }
    }

    /// The indexes of hierarchy.rs over the same records, one for each layer, for a table that is not refused.
    pub fn judge(&self) -> Judge {
        let lowest = Judge::without_records(self.names().expect("a sound table"));
        self.rows().iter().fold(lowest, Judge::with_row)
    }
}

/// What rows have made: how many layers over the lowest, and the distinct pairs of the topmost.
#[derive(Default)]
struct Made {
    opened: usize,
    pairs: BTreeSet<(u64, u64)>,
}

/// 1 is declared, 2 interface, 4 final; the last two need the first.
pub(crate) fn is_flags(flags: u64) -> bool {
    [0, 1, 3, 5, 7].contains(&flags)
}

fn facts(flags: u64) -> ReferenceTypeInfo {
    ReferenceTypeInfo {
        is_interface: flags & 2 != 0,
        is_final: flags & 4 != 0,
    }
}

/// hierarchy.rs asked by numbers, and its answers in the form of the boundary.
pub struct Judge {
    pub names: Vec<String>,
    pub index: ClassHierarchyIndex,
}

impl Judge {
    /// These names, ascending, and an index of one layer without a record.
    pub fn without_records(names: Vec<String>) -> Self {
        Self {
            names,
            index: ClassHierarchyIndex::default(),
        }
    }

    /// One more record: `add`, or `add_declared_type` where the flags say so.
    pub fn record(&mut self, flags: u64, class: u64, parents: &[u64]) {
        let name = |number: &u64| self.names[*number as usize].clone();
        let (class, parents) = (name(&class), parents.iter().map(name));
        match flags {
            0 => self.index.add(class, parents),
            flags => self.index.add_declared_type(class, parents, facts(flags)),
        }
    }

    fn name(&self, number: u64) -> &str {
        &self.names[number as usize]
    }

    fn number(&self, name: &String) -> u64 {
        self.names.binary_search(name).expect("a name of the table") as u64
    }

    /// `subtype_relation`.
    pub fn relation(&self, value: u64, expected: u64) -> u64 {
        let (value, expected) = (self.name(value), self.name(expected));
        match self.index.subtype_relation(value, expected) {
            SubtypeRelation::Yes => 0,
            SubtypeRelation::No => 1,
            SubtypeRelation::Unknown => 2,
        }
    }

    /// The entry of `distances`.
    pub fn distance(&self, value: u64, expected: u64) -> u64 {
        let distances = hierarchy::distances(&self.index, self.name(value));
        let distance = distances.get(self.name(expected));
        distance.map_or(NONE, |distance| *distance as u64)
    }

    /// `ancestor_names`, ascending.
    pub fn ancestors(&self, class: u64) -> Vec<u64> {
        let names = self.index.ancestor_names(self.name(class));
        names.iter().map(|name| self.number(name)).collect()
    }

    /// `least_common_supertype`.
    pub fn supertype(&self, left: u64, right: u64) -> u64 {
        let (left, right) = (self.name(left), self.name(right));
        let found = self.index.least_common_supertype(left, right);
        found.map_or(NONE, |name| self.number(&name))
    }

    /// `is_cast_convertible`.
    pub fn cast(&self, source: u64, target: u64) -> u64 {
        let (source, target) = (self.name(source), self.name(target));
        u64::from(self.index.is_cast_convertible(source, target))
    }
}
