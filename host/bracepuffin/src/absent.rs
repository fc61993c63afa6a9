//! Questions about classes that a table does not name, answered as hierarchy.rs and lattice.rs answer them.
//!
//! To these, such a class is one without a record: nothing is above it but java/lang/Object, and it is above none but
//! itself. So a class that is named stands to every such class in the same way, which its own ancestors tell.

use crate::classes::{answered, has, with_work, ClassTable, Distance, Relation, OBJECT};
use crate::ffi::BpAnswer;
use crate::names::{bits_of, type_of};
use crate::slices::{ClassColumns, Columns};
use crate::types::{ArgType, Base};

impl ClassTable {
    pub(crate) fn relation_of_absent(&self, value: &str, expected: &str) -> Relation {
        if value == expected || expected == OBJECT {
            return Relation::Yes;
        }
        match self.names().find(value) {
            None => Relation::Unknown,
            Some(value) => self.relation_to_others(value, self.ancestors_of(value).words()),
        }
    }

    pub(crate) fn distance_of_absent(&self, value: &str, expected: &str) -> Distance {
        match expected {
            _ if value == expected => Distance::Steps(0),
            OBJECT => Distance::UnreachedObject,
            _ => Distance::NoAncestor,
        }
    }

    pub(crate) fn supertype_of_absent<'a>(&self, left: &'a str, right: &'a str) -> &'a str {
        match left == right {
            true => left,
            false => OBJECT,
        }
    }

    pub(crate) fn cast_of_absent(&self, source: &str, target: &str) -> bool {
        source == target || source == OBJECT || target == OBJECT
    }

    /// How a class with these ancestors stands to every class that is none of them: Unknown where a class without a
    /// record is reached, else No. java/lang/Object is among the ancestors though it may not be reached; its distance
    /// tells.
    pub(crate) fn relation_to_others(&self, class: u64, ancestors: &[u64; 16]) -> Relation {
        let mut unrecorded = *ancestors;
        for (word, recorded) in unrecorded.iter_mut().zip(self.recorded()) {
            *word &= !recorded;
        }
        let object = self.object();
        let object_too = has(&unrecorded, object);
        unrecorded[object as usize / 64] &= !(1 << (object % 64));
        let reached = || self.distance_between(class, object) != Distance::UnreachedObject;
        match unrecorded != [0; 16] || object_too && reached() {
            true => Relation::Unknown,
            false => Relation::No,
        }
    }

    /// The answer of a query about two types, of which at least one names a class that the table does not.
    ///
    /// What lattice.rs asks of two types depends on the three names that it knows, and on how the class of the first
    /// stands to that of the second. A table of these names and of two that stand for any others gives the same answer
    /// if the first has a record in it, without parents, where its relation is No.
    pub(crate) fn ask_of_absent<'a>(&self, query: Query, pair: [ArgType<'a>; 2]) -> Answer<'a> {
        let classes = pair.map(|ty| match ty.base {
            Base::Object(name) => Some(name),
            _ => None,
        });
        let numbers = numbers(classes);
        let apart = match classes {
            [Some(left), Some(right)] => self.relation(left, right) == Relation::No,
            _ => false,
        };
        let columns = columns(&numbers[..usize::from(apart)]);
        let words = [bits_of(pair[0], numbers[0]), bits_of(pair[1], numbers[1])];
        let answer = with_work(|work| query(columns, words[0], words[1], work));
        Answer {
            value: answered(answer.refusal, answer.value),
            classes,
            numbers,
        }
    }
}

/// A question about two type words.
pub(crate) type Query = fn(ClassColumns, u64, u64, &mut [u64]) -> BpAnswer;

/// What was answered over the five names, and what the numbers stand for.
pub(crate) struct Answer<'a> {
    pub(crate) value: u64,
    classes: [Option<&'a str>; 2],
    numbers: [u64; 2],
}

impl<'a> Answer<'a> {
    /// The type, if the answer is a word.
    pub(crate) fn ty(&self) -> ArgType<'a> {
        let found = type_of(self.value, |number| {
            let known = usize::try_from(number)
                .ok()
                .and_then(|place| KNOWN.get(place));
            let asked = (0..2).find(|side| self.numbers[*side] == number);
            known.copied().or_else(|| self.classes[asked?])
        });
        found.expect("a join is a type of the table")
    }
}

/// The names that lattice.rs knows, ascending; the two after them stand for any others.
const KNOWN: [&str; 3] = ["java/io/Serializable", "java/lang/Cloneable", OBJECT];
const BYTES: &[u8] = b"java/io/Serializablejava/lang/Cloneablejava/lang/Objectlr";
const AT: [u64; 5] = [0, 20, 39, 55, 56];
const LEN: [u64; 5] = [20, 19, 16, 1, 1];
const LEFT: u64 = 3;
const RIGHT: u64 = 4;

/// The numbers of two classes among the five names.
fn numbers(classes: [Option<&str>; 2]) -> [u64; 2] {
    let known = |class: Option<&str>| KNOWN.iter().position(|name| Some(*name) == class);
    let left = known(classes[0]).map_or(LEFT, |place| place as u64);
    let right = match known(classes[1]) {
        Some(place) => place as u64,
        None if classes[0] == classes[1] => LEFT,
        None => RIGHT,
    };
    [left, right]
}

/// The five names, and an empty record of each of these classes, of which there is one at most.
fn columns(recorded: &[u64]) -> ClassColumns<'_> {
    let zeros = &[0][..recorded.len()];
    ClassColumns {
        names: Columns {
            names: BYTES,
            name_at: &AT,
            name_len: &LEN,
        },
        rec_flags: zeros,
        rec_class: recorded,
        rec_at: zeros,
        rec_len: zeros,
        parents: &[],
    }
}
