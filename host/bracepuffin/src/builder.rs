//! Class tables from records by name, in any order.

use std::collections::{HashMap, HashSet};

use crate::classes::{ClassTable, ReferenceTypeInfo, OBJECT};
use crate::records::Row;
use crate::{Names, PartTable, TableError};

/// Records of classes as they come. Names need no order: every name that occurs is numbered at the end, and
/// java/lang/Object with them.
///
/// ```
/// use bracepuffin::{ClassTableBuilder, ReferenceTypeInfo, Relation};
///
/// let mut classes = ClassTableBuilder::new();
/// classes.add_declared_type("a/Shape", ["java/lang/Object"], ReferenceTypeInfo::INTERFACE);
/// classes.add_declared_type("a/Round", ["java/lang/Object", "a/Shape"], ReferenceTypeInfo::FINAL);
/// classes.add("java/lang/Object", []);
/// let table = classes.build()?;
/// assert_eq!(table.relation("a/Round", "a/Shape"), Relation::Yes);
/// assert_eq!(table.relation("a/Round", "x/Never"), Relation::No);
/// assert_eq!(table.relation("x/Never", "a/Round"), Relation::Unknown);
/// # Ok::<(), bracepuffin::TableError>(())
/// ```
#[derive(Debug, Clone, Default)]
pub struct ClassTableBuilder<'a> {
    names: Vec<&'a str>,
    records: Vec<Record<'a>>,
}

#[derive(Debug, Clone)]
struct Record<'a> {
    flags: u64,
    class: &'a str,
    parents: Vec<&'a str>,
}

impl<'a> ClassTableBuilder<'a> {
    /// No record and no name yet.
    pub fn new() -> Self {
        Self::default()
    }

    /// A name without a record of it. By-name questions need no such name: a class that was never named is answered
    /// as one without a record. Numbers and words do.
    pub fn name(&mut self, class: &'a str) -> &mut Self {
        self.names.push(class);
        self
    }

    /// A record of `class` and its direct parents. Several records of one class unite their parents.
    pub fn add(&mut self, class: &'a str, parents: impl IntoIterator<Item = &'a str>) -> &mut Self {
        self.record(0, class, parents)
    }

    /// A record of a declared class. Of several such records the last one's facts count.
    pub fn add_declared_type(
        &mut self,
        class: &'a str,
        parents: impl IntoIterator<Item = &'a str>,
        info: ReferenceTypeInfo,
    ) -> &mut Self {
        self.record(info.flags(), class, parents)
    }

    /// Records of many declared classes.
    pub fn extend_declared_types<P>(
        &mut self,
        declarations: impl IntoIterator<Item = (&'a str, P, ReferenceTypeInfo)>,
    ) -> &mut Self
    where
        P: IntoIterator<Item = &'a str>,
    {
        for (class, parents, info) in declarations {
            self.add_declared_type(class, parents, info);
        }
        self
    }

    fn record(
        &mut self,
        flags: u64,
        class: &'a str,
        parents: impl IntoIterator<Item = &'a str>,
    ) -> &mut Self {
        self.records.push(Record {
            flags,
            class,
            parents: parents.into_iter().collect(),
        });
        self
    }

    /// The table, numbered and checked.
    ///
    /// # Errors
    ///
    /// A name of no bytes or more than 255, more than 1,024 names, 24,576 bytes of names or 4,096 distinct pairs of a
    /// class and its parent. The error says which name or record is the first too many; where a table is too large,
    /// [`build_for`](Self::build_for) may still do.
    pub fn build(&self) -> Result<ClassTable, TableError> {
        self.table(self.every_name(), self.records.iter())
    }

    /// The table with these records as a layer over another table, which stays as it is and may serve others too. That
    /// one may have layers itself: four in all, the first of them made by [`build`](Self::build).
    ///
    /// What a layer records of a class takes the place of the records below it, a record without parents too; within the
    /// layer records unite. Interface and final are those of the topmost layer that declares the class, whatever records
    /// stand above that. The layer may name classes that the table below does not. Names of all layers are one list, so a
    /// [`ClassNumber`](crate::ClassNumber) of the table below, or a class's [`TypeWord`](crate::TypeWord), is none of the
    /// new one.
    ///
    /// ```
    /// use bracepuffin::{ClassTableBuilder, Distance, Relation};
    ///
    /// // What all models share is checked once.
    /// let mut shared = ClassTableBuilder::new();
    /// shared.add("java/lang/Object", []);
    /// shared.add("a/Device", ["java/lang/Object"]);
    /// shared.add("a/Radio", ["a/Device"]);
    /// let shared = shared.build()?;
    ///
    /// // A model brings a class of its own, and has another one above a/Radio.
    /// let mut model = ClassTableBuilder::new();
    /// model.add("m/Antenna", ["a/Device"]);
    /// model.add("a/Radio", ["m/Antenna"]);
    /// let table = model.build_over(&shared)?;
    /// assert_eq!(table.layers(), 2);
    /// assert_eq!(table.relation("a/Radio", "m/Antenna"), Relation::Yes);
    /// assert_eq!(table.distance("a/Radio", "a/Device"), Distance::Steps(2));
    /// assert_eq!(shared.distance("a/Radio", "a/Device"), Distance::Steps(1));
    /// # Ok::<(), bracepuffin::TableError>(())
    /// ```
    ///
    /// Checked here are the names of all layers together and the records of this one. The records below were checked when
    /// their table was built, and are not checked again here: what a record is refused for lies in the names and in its
    /// own layer. As with every table, a question goes through all that it is lent.
    ///
    /// # Errors
    ///
    /// Those of [`build`](Self::build), where the names are those of all layers and the pairs those of this one; and a
    /// fifth layer. The error says which name, record or layer is the first too many.
    pub fn build_over(&self, below: &ClassTable) -> Result<ClassTable, TableError> {
        let names = below.names().iter().chain(self.every_name());
        let names = Names::unchecked(names);
        let rows = numbered(&names, self.records.iter());
        below.with_layer(names, rows)
    }

    /// The part of the table that questions about these classes need: they and all above them, with their records. A
    /// builder may hold any number of classes; only the part is limited. Questions about these classes, about those
    /// above them, and about classes that were never named get the answers that the whole table would give.
    ///
    /// ```
    /// use bracepuffin::{ClassTableBuilder, Relation};
    ///
    /// let names: Vec<String> = (0..5000).map(|number| format!("app/C{number}")).collect();
    /// let mut classes = ClassTableBuilder::new();
    /// for name in &names {
    ///     classes.add(name, ["java/lang/Object"]);
    /// }
    /// assert!(classes.build().is_err());
    /// let part = classes.build_for(["app/C17", "app/C4711"])?;
    /// assert_eq!(part.relation("app/C17", "java/lang/Object"), Ok(Relation::Yes));
    /// assert!(part.relation("app/C17", "app/C18").is_err());
    /// # Ok::<(), bracepuffin::TableError>(())
    /// ```
    ///
    /// # Errors
    ///
    /// Those of [`build`](Self::build), where the part itself is still too large.
    pub fn build_for<'q>(
        &self,
        asked: impl IntoIterator<Item = &'q str>,
    ) -> Result<PartTable<'a>, TableError> {
        let mut needed = HashSet::new();
        let mut every = self.every_name();
        let asked = asked.into_iter().filter_map(|name| every.get(name));
        let mut pending: Vec<&'a str> = asked.copied().chain([OBJECT]).collect();
        let mut parents: HashMap<&str, Vec<&'a str>> = HashMap::new();
        for record in &self.records {
            let above = parents.entry(record.class).or_default();
            above.extend(&record.parents);
        }
        while let Some(class) = pending.pop() {
            if needed.insert(class) {
                pending.extend(parents.get(class).into_iter().flatten());
            }
        }
        every.retain(|name| !needed.contains(name));
        let records = self.records.iter();
        let records = records.filter(|record| needed.contains(record.class));
        let table = self.table(needed.clone(), records)?;
        Ok(PartTable::new(table, every))
    }

    fn every_name(&self) -> HashSet<&'a str> {
        let mut distinct: HashSet<&'a str> = self.names.iter().copied().chain([OBJECT]).collect();
        for record in &self.records {
            distinct.insert(record.class);
            distinct.extend(&record.parents);
        }
        distinct
    }

    /// The table of these names and of records that name no other.
    fn table<'r>(
        &self,
        names: HashSet<&'a str>,
        records: impl Iterator<Item = &'r Record<'a>>,
    ) -> Result<ClassTable, TableError>
    where
        'a: 'r,
    {
        let names = Names::unchecked(names);
        let rows = numbered(&names, records);
        ClassTable::new(names, rows)
    }
}

/// The row of each record. Pairs that ascend cost a call the least; records of one class stay in their order.
fn numbered<'a: 'r, 'r>(names: &Names, records: impl Iterator<Item = &'r Record<'a>>) -> Vec<Row> {
    let numbers: HashMap<&str, u64> = names.iter().zip(0..).collect();
    let numbered = records.map(|record| {
        let mut parents: Vec<u64> = record.parents.iter().map(|name| numbers[name]).collect();
        parents.sort_unstable();
        parents.dedup();
        (numbers[record.class], record.flags, parents)
    });
    let mut numbered: Vec<_> = numbered.collect();
    numbered.sort_by_key(|(class, _, _)| *class);
    numbered
}
