//! What the boundary must answer about two types: the rules of the paper for what is refused, and lattice.rs for the
//! answer to everything that is not.

use dexdec::{lattice, ArgType};

use crate::classes::{Classes, Judge, OBJECT, WORK};

impl Classes {
    /// What a query about these words is refused with a working slice of that many words: 22, the table, 7, 9.
    pub fn word_refusal(&self, asked: &[u64], work: usize) -> u64 {
        if work < WORK {
            return 22;
        }
        let names = match self.names() {
            Ok(names) => names,
            Err(number) => return number,
        };
        if asked
            .iter()
            .any(|word| words::parse(*word, &names).is_err())
        {
            return words::TYPE;
        }
        match names.iter().any(|name| name == OBJECT) {
            true => 0,
            false => 9,
        }
    }
}

impl Judge {
    /// The type of a legal word.
    pub fn type_of(&self, word: u64) -> ArgType {
        words::parse(word, &self.names).expect("a legal word")
    }

    /// `join`.
    pub fn join(&self, left: u64, right: u64) -> u64 {
        let joined = lattice::join(self.type_of(left), self.type_of(right), &self.index);
        words::word(&joined, &self.names).expect("a type of the table")
    }

    /// `join_all`, which sorts its types first.
    pub fn join_all(&self, words: &[u64]) -> Option<u64> {
        let types = words.iter().map(|word| self.type_of(*word));
        let joined = lattice::join_all(types, &self.index)?;
        Some(words::word(&joined, &self.names).expect("a type of the table"))
    }

    /// `is_assignable`.
    pub fn assignable(&self, value: u64, expected: u64) -> u64 {
        let (value, expected) = (self.type_of(value), self.type_of(expected));
        u64::from(lattice::is_assignable(&value, &expected, &self.index))
    }
}
