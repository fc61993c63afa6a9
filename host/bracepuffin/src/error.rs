//! Which name or record of a table is refused, and what a part of a table leaves out.

use std::error::Error;
use std::fmt;

use crate::ffi::{self, BpTable};
use crate::records::{InLayer, Records};
use crate::{Names, Refusal};

/// Why a table was not made: the refusal, and which of its names or records is the first that is refused.
///
/// ```
/// use bracepuffin::{Place, Refusal, TableError};
///
/// let error: TableError = bracepuffin::Names::new(["a/B", ""]).expect_err("no name is empty");
/// assert_eq!(error.refusal(), Refusal::Length);
/// assert!(matches!(error.place(), Place::Name { name, .. } if name.is_empty()));
/// ```
#[derive(Debug, Clone, PartialEq, Eq)]
pub struct TableError {
    refusal: Refusal,
    place: Place,
}

/// What of a table is refused.
#[derive(Debug, Clone, PartialEq, Eq)]
#[non_exhaustive]
pub enum Place {
    /// A name.
    Name {
        /// The name; bytes that are not well-formed are shown as U+FFFD.
        name: String,
        /// Its place among all names in order, from 0.
        row: usize,
        /// How many names there are.
        of: usize,
    },
    /// A record.
    Record {
        /// The class that it is of.
        class: String,
        /// Its layer, from 0, which is the lowest.
        layer: usize,
        /// Its place among the records of its layer in order of their classes, from 0; one of more than 254 parents is
        /// several.
        row: usize,
        /// How many records the layer has.
        of: usize,
    },
    /// A layer as a whole: one too many.
    Layer {
        /// Which one, from 0.
        layer: usize,
    },
    /// The table as a whole.
    Table,
}

impl TableError {
    /// The error of a refused table with these records.
    pub(crate) fn of(checked: BpTable, names: &Names, records: &Records) -> Self {
        let row = checked.row as usize;
        let place = match checked.part {
            ffi::BP_PART_NAMES => Place::Name {
                name: shown(names, row),
                row,
                of: names.len(),
            },
            ffi::BP_PART_RECORDS => Place::of_row(row, names, records),
            _ => Place::Table,
        };
        let refusal = Refusal::of(checked.refusal, 0, 0);
        Self {
            refusal: refusal.expect("a table that is refused"),
            place,
        }
    }

    /// The refusal.
    pub fn refusal(&self) -> Refusal {
        self.refusal
    }

    /// Which name or record.
    pub fn place(&self) -> &Place {
        &self.place
    }
}

impl Place {
    fn of_row(row: usize, names: &Names, records: &Records) -> Self {
        let InLayer {
            layer,
            row: place,
            of,
        } = records.in_layer(row);
        match records.class_of(row) {
            Some(class) => Self::Record {
                class: shown(names, class as usize),
                layer,
                row: place,
                of,
            },
            None => Self::Layer { layer: layer + 1 },
        }
    }
}

/// A name that may not be well-formed.
fn shown(names: &Names, class: usize) -> String {
    String::from_utf8_lossy(names.bytes_of(class)).into_owned()
}

impl fmt::Display for TableError {
    fn fmt(&self, formatter: &mut fmt::Formatter<'_>) -> fmt::Result {
        let refusal = self.refusal;
        match &self.place {
            Place::Name { name, row, of } => {
                write!(formatter, "{refusal}: name {} of {of}, {name:?}", row + 1)
            }
            Place::Record {
                class,
                layer,
                row,
                of,
            } => {
                write!(formatter, "{refusal}: record {} of {of}", row + 1)?;
                if *layer > 0 {
                    write!(formatter, " in layer {}", layer + 1)?;
                }
                write!(formatter, ", of {class:?}")
            }
            Place::Layer { layer } => write!(formatter, "{refusal}: layer {}", layer + 1),
            Place::Table => refusal.fmt(formatter),
        }
    }
}

impl Error for TableError {
    fn source(&self) -> Option<&(dyn Error + 'static)> {
        Some(&self.refusal)
    }
}

/// The refusal without the place.
impl From<TableError> for Refusal {
    fn from(error: TableError) -> Self {
        error.refusal
    }
}

/// A question to a part of a table about a class that the part leaves out.
#[derive(Debug, Clone, PartialEq, Eq)]
pub struct LeftOut {
    class: String,
}

impl LeftOut {
    pub(crate) fn new(class: &str) -> Self {
        Self {
            class: class.to_owned(),
        }
    }

    /// The class that was asked about.
    pub fn class(&self) -> &str {
        &self.class
    }
}

impl fmt::Display for LeftOut {
    fn fmt(&self, formatter: &mut fmt::Formatter<'_>) -> fmt::Result {
        write!(
            formatter,
            "{:?} was left out of this part of the table",
            self.class
        )
    }
}

impl Error for LeftOut {}
