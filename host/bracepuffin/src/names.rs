//! Tables of names: class numbers, type words, and the descriptors written from them.

use std::cmp::Ordering;
use std::fmt;

use crate::ffi::{self, BpWritten};
use crate::part::{self, Used};
use crate::records::Records;
use crate::slices::{self, Columns};
use crate::types::{ArgType, Base, Categories, PrimitiveType};
use crate::word::{Mark, CLASS, PAYLOAD, PRIMITIVE, UNKNOWN};
use crate::{ClassNumber, Refusal, TableError, TypeWord};

/// The most bytes that the descriptor of a type has: 255 dimensions and a name of 255 bytes.
pub const TYPE_BYTES: usize = 512;

/// Methods of fewer parameters have their words in less memory, since it has to be cleared.
const FEW: usize = 16;
const MORE: usize = 64;

/// Names that were checked, ascending. The number of a class is its place among them, from 0.
///
/// What a descriptor costs to write does not grow with the table: the boundary checks the names that it is lent, and
/// it is lent those that the words use. A name is looked up here, in Rust, among names that ascend.
///
/// A clone is the same table: numbers and words of the one are good for the other. Names that are equal but were
/// made apart are two tables.
///
/// ```
/// use bracepuffin::{ArgType, Names};
///
/// let names = Names::new(["java/lang/String", "java/lang/Object"])?;
/// let word = names.word(ArgType::string())?;
/// assert_eq!(names.write_method(&[word], names.word(ArgType::INT)?)?, "(Ljava/lang/String;)I");
///
/// // A word of a class is good for its own table alone.
/// let others = Names::new(["a/B", "java/lang/String"])?;
/// assert_eq!(others.write_type(word), Err(bracepuffin::Refusal::Type));
/// assert_eq!(others.type_of(word), None);
/// # Ok::<(), bracepuffin::Refusal>(())
/// ```
#[derive(Clone)]
pub struct Names {
    bytes: Vec<u8>,
    at: Vec<u64>,
    len: Vec<u64>,
    mark: Mark,
}

impl Names {
    /// A table of these names, which may come in any order and more than once.
    ///
    /// # Errors
    ///
    /// A name of no bytes or more than 255, one that is not well-formed, more than 1,024 names, or more than 24,576
    /// bytes; the error says which name.
    pub fn new<N: AsRef<[u8]>>(names: impl IntoIterator<Item = N>) -> Result<Self, TableError> {
        let table = Self::unchecked(names);
        // No table holds the empty name, so a sound one says that it is absent. This costs less than the check of a
        // class table, which has room for pairs to clear, and says which row is refused.
        match slices::lookup(table.columns(), b"").refusal {
            ffi::BP_REFUSED_ABSENT => Ok(table),
            _ => {
                let none = Records::default();
                let checked = slices::check_table(none.columns(&table));
                Err(TableError::of(checked, &table, &none))
            }
        }
    }

    /// The same, not checked yet.
    pub(crate) fn unchecked<N: AsRef<[u8]>>(names: impl IntoIterator<Item = N>) -> Self {
        let mut sorted: Vec<N> = names.into_iter().collect();
        sorted.sort_by(|left, right| left.as_ref().cmp(right.as_ref()));
        sorted.dedup_by(|left, right| (*left).as_ref() == (*right).as_ref());
        let mut table = Self {
            bytes: Vec::new(),
            at: Vec::with_capacity(sorted.len()),
            len: Vec::with_capacity(sorted.len()),
            mark: Mark::new(),
        };
        for name in &sorted {
            let name = name.as_ref();
            table.at.push(table.bytes.len() as u64);
            table.len.push(name.len() as u64);
            table.bytes.extend_from_slice(name);
        }
        table
    }

    /// The number of names.
    pub fn len(&self) -> usize {
        self.at.len()
    }

    /// Whether there is no name.
    pub fn is_empty(&self) -> bool {
        self.at.is_empty()
    }

    /// The columns, for the functions over slices.
    pub fn columns(&self) -> Columns<'_> {
        Columns {
            names: &self.bytes,
            name_at: &self.at,
            name_len: &self.len,
        }
    }

    /// The names, ascending.
    pub fn iter(&self) -> impl ExactSizeIterator<Item = &str> {
        (0..self.len()).map(|place| text(self.bytes_of(place)))
    }

    /// The numbers of all classes, ascending.
    pub fn classes(&self) -> impl ExactSizeIterator<Item = ClassNumber> + '_ {
        (0..self.len()).map(|place| ClassNumber::new(place as u64, self.mark))
    }

    /// The name of a class; none for a number of another table.
    pub fn name(&self, class: ClassNumber) -> Option<&str> {
        self.name_at(class.within(self.mark))
    }

    /// The number of a class.
    ///
    /// # Errors
    ///
    /// [`Refusal::Absent`] for a name that is not in the table.
    pub fn class_number(&self, name: &str) -> Result<ClassNumber, Refusal> {
        let found = self.find(name).ok_or(Refusal::Absent)?;
        Ok(ClassNumber::new(found, self.mark))
    }

    pub(crate) fn mark(&self) -> Mark {
        self.mark
    }

    pub(crate) fn name_at(&self, class: u64) -> Option<&str> {
        let class = usize::try_from(class).ok()?;
        (class < self.len()).then(|| text(self.bytes_of(class)))
    }

    pub(crate) fn bytes_of(&self, place: usize) -> &[u8] {
        let (at, len) = (self.at[place] as usize, self.len[place] as usize);
        &self.bytes[at..at + len]
    }

    /// A call of the boundary would check all names again: they were checked when the table was made, and ascend.
    pub(crate) fn find(&self, name: &str) -> Option<u64> {
        let (mut low, mut high) = (0, self.len());
        while low < high {
            let middle = (low + high) / 2;
            match self.bytes_of(middle).cmp(name.as_bytes()) {
                Ordering::Less => low = middle + 1,
                Ordering::Equal => return Some(middle as u64),
                Ordering::Greater => high = middle,
            }
        }
        None
    }

    /// The word of a type.
    ///
    /// # Errors
    ///
    /// [`Refusal::Absent`] for a class that is not in the table.
    pub fn word(&self, ty: ArgType) -> Result<TypeWord, Refusal> {
        let class = match ty.base {
            Base::Object(name) => self.find(name).ok_or(Refusal::Absent)?,
            _ => 0,
        };
        Ok(TypeWord::new(bits_of(ty, class), self.mark))
    }

    /// These bits as a word of this table. Nothing is decided here: what takes the word refuses it
    /// ([`Refusal::Type`]) if it is no type of the table.
    pub fn word_from_bits(&self, bits: u64) -> TypeWord {
        TypeWord::new(bits, self.mark)
    }

    /// The type of a word; none for a word that is no type of this table.
    pub fn type_of(&self, word: TypeWord) -> Option<ArgType<'_>> {
        type_of(word.within(self.mark), |class| self.name_at(class))
    }

    /// The descriptor of a type word.
    ///
    /// # Errors
    ///
    /// [`Refusal::Type`] for a word that is no type of this table.
    #[inline]
    pub fn write_type(&self, word: TypeWord) -> Result<String, Refusal> {
        let bits = word.within(self.mark);
        let mut out = room(self.length(bits));
        let written = self.write_word(bits, &mut out);
        owned(written, out)
    }

    /// The descriptor of a method.
    ///
    /// # Errors
    ///
    /// [`Refusal::Room`] for more than 255 parameters, [`Refusal::Type`] for a word that is no type of this table.
    #[inline]
    pub fn write_method(
        &self,
        parameters: &[TypeWord],
        result: TypeWord,
    ) -> Result<String, Refusal> {
        let mut out = room(self.method_length(parameters, result));
        let written = self.write_words(parameters, result, &mut out);
        owned(written, out)
    }

    /// The descriptor of a type word, written to the front of `out`; bytes past it stay.
    ///
    /// # Errors
    ///
    /// [`Refusal::Type`] for a word that is no type of this table, [`Refusal::Short`] for too little room; `out` stays.
    #[inline]
    pub fn write_type_into<'o>(
        &self,
        word: TypeWord,
        out: &'o mut [u8],
    ) -> Result<&'o str, Refusal> {
        let written = self.write_word(word.within(self.mark), out);
        borrowed(written, out)
    }

    /// The descriptor of a method, written to the front of `out`; bytes past it stay.
    ///
    /// # Errors
    ///
    /// Those of [`write_method`](Self::write_method), and [`Refusal::Short`] for too little room; `out` stays.
    #[inline]
    pub fn write_method_into<'o>(
        &self,
        parameters: &[TypeWord],
        result: TypeWord,
        out: &'o mut [u8],
    ) -> Result<&'o str, Refusal> {
        let written = self.write_words(parameters, result, out);
        borrowed(written, out)
    }

    /// How long the descriptor of a word is, if it is written: what room to make, and nothing that is decided.
    #[inline]
    fn length(&self, bits: u64) -> usize {
        let base = match part::class_of(bits, self.len()) {
            Some(class) => self.len[class] as usize + 2,
            None => 1,
        };
        (bits >> 56) as usize + base
    }

    /// How long the descriptor of a method is, if it is written.
    #[inline]
    fn method_length(&self, parameters: &[TypeWord], result: TypeWord) -> usize {
        let length = |word: &TypeWord| self.length(word.within(self.mark));
        let at_most = parameters.iter().take(crate::PARAMETERS);
        at_most.map(length).sum::<usize>() + length(&result) + 2
    }

    /// Writes a word, and lends no name but that of its class.
    #[inline]
    fn write_word(&self, bits: u64, out: &mut [u8]) -> BpWritten {
        match part::class_of(bits, self.len()) {
            None => slices::write_type(part::NOTHING, bits, out),
            Some(class) => {
                let alone = Columns {
                    names: &self.bytes,
                    name_at: &self.at[class..=class],
                    name_len: &self.len[class..=class],
                };
                slices::write_type(alone, part::renumbered(bits, 0), out)
            }
        }
    }

    /// Writes a method, and lends no names but those of its classes.
    fn write_words(&self, parameters: &[TypeWord], result: TypeWord, out: &mut [u8]) -> BpWritten {
        match parameters.len() {
            0..FEW => self.write_part::<FEW>(parameters, result, out),
            FEW..MORE => self.write_part::<MORE>(parameters, result, out),
            MORE..=crate::PARAMETERS => self.write_part::<256>(parameters, result, out),
            // The number of parameters alone is refused, whatever they are.
            _ => slices::write_method(part::NOTHING, &[0; crate::PARAMETERS + 1], 0, out),
        }
    }

    /// The same for at most N words, the result among them.
    fn write_part<const N: usize>(
        &self,
        parameters: &[TypeWord],
        result: TypeWord,
        out: &mut [u8],
    ) -> BpWritten {
        let mut words = [0; N];
        for (bits, word) in words.iter_mut().zip(parameters) {
            *bits = word.within(self.mark);
        }
        let (words, result) = (&mut words[..parameters.len()], result.within(self.mark));
        let mut used = Used::by(words, result, self.len());
        if !used.is_any() {
            return slices::write_method(part::NOTHING, words, result, out);
        }
        let (mut at, mut len) = ([0; N], [0; N]);
        let count = used.number(|class, place| {
            at[place] = self.at[class];
            len[place] = self.len[class];
        });
        for word in words.iter_mut() {
            *word = used.over_part(*word);
        }
        let part = Columns {
            names: &self.bytes,
            name_at: &at[..count],
            name_len: &len[..count],
        };
        slices::write_method(part, words, used.over_part(result), out)
    }
}

/// Two tables with the same names.
impl PartialEq for Names {
    fn eq(&self, other: &Self) -> bool {
        self.iter().eq(other.iter())
    }
}

impl Eq for Names {}

impl fmt::Debug for Names {
    fn fmt(&self, formatter: &mut fmt::Formatter<'_>) -> fmt::Result {
        formatter.debug_list().entries(self.iter()).finish()
    }
}

/// The descriptor of a type over a table that has its class alone, or nothing; its base takes so many bytes.
pub(crate) fn written(table: Columns, ty: ArgType, base: usize) -> Result<String, Refusal> {
    let word = bits_of(ty, 0);
    let mut out = room(usize::from(ty.dimensions) + base);
    let written = slices::write_type(table, word, &mut out);
    owned(written, out)
}

/// Bytes to be written over. Any byte serves but 0: memory that is all 0 is asked for in another way, which is slower.
#[inline]
fn room(length: usize) -> Vec<u8> {
    vec![b' '; length]
}

#[inline]
fn borrowed(written: BpWritten, out: &[u8]) -> Result<&str, Refusal> {
    Refusal::accepted(written.refusal)?;
    Ok(text(&out[..written.length as usize]))
}

#[inline]
fn owned(written: BpWritten, mut out: Vec<u8>) -> Result<String, Refusal> {
    Refusal::accepted(written.refusal)?;
    out.truncate(written.length as usize);
    debug_assert!(std::str::from_utf8(&out).is_ok());
    // SAFETY: as in `text`.
    Ok(unsafe { String::from_utf8_unchecked(out) })
}

/// The bits of a type, whose class has that number, if it is one.
#[inline]
pub(crate) fn bits_of(ty: ArgType, class: u64) -> u64 {
    let base = match ty.base {
        Base::Primitive(category) => PRIMITIVE << 48 | category.number(),
        Base::Object(_) => CLASS << 48 | class,
        Base::Unknown(categories) => UNKNOWN << 48 | categories.payload(),
    };
    u64::from(ty.dimensions) << 56 | base
}

/// The type of these bits, where the numbers of classes have these names; none if they are no type's.
pub(crate) fn type_of<'a>(
    bits: u64,
    name: impl FnOnce(u64) -> Option<&'a str>,
) -> Option<ArgType<'a>> {
    let payload = bits & PAYLOAD;
    let base = match bits >> 48 & 0xff {
        PRIMITIVE => Base::Primitive(*PrimitiveType::ALL.get(payload as usize)?),
        CLASS => Base::Object(name(payload)?),
        UNKNOWN => Base::Unknown(Categories::from_payload(payload)?),
        _ => return None,
    };
    let dimensions = (bits >> 56) as u8;
    Some(ArgType { dimensions, base })
}

fn text(bytes: &[u8]) -> &str {
    debug_assert!(std::str::from_utf8(bytes).is_ok());
    // SAFETY: names were checked when the table was made, and what is written is ASCII and whole names.
    unsafe { std::str::from_utf8_unchecked(bytes) }
}
