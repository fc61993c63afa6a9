//! The lines of one function, in the one format of all vectors.

use std::collections::HashSet;

/// No line is longer, so that a reader can have a fixed buffer.
pub const MAX_BYTES: usize = 4096;

pub struct Out {
    name: &'static str,
    size: u64,
    most_tokens: usize,
    lines: Vec<String>,
    seen: HashSet<String>,
}

impl Out {
    pub fn new(name: &'static str, size: u64, most_tokens: usize) -> Self {
        Self {
            name,
            size,
            most_tokens,
            lines: Vec::new(),
            seen: HashSet::new(),
        }
    }

    /// How many random cases to try where the smallest file tries `count`.
    pub fn cases(&self, count: u64) -> u64 {
        count * self.size
    }

    /// Writes one case; one that was written before is left out.
    pub fn case(&mut self, arguments: &[u64], answer: &[u64]) {
        let fits = self.tokens_if_short(&numbers(arguments), &numbers(answer));
        assert!(fits, "{} {arguments:x?}", self.name);
    }

    /// Writes one case that those after it are about: what was written before it counts no more as written.
    pub fn begin(&mut self, name: &str, arguments: &[String], answer: &[String]) {
        self.seen.clear();
        let fits = self.tokens_of(name, arguments, answer);
        assert!(fits, "{name} {arguments:?}");
    }

    /// Writes one case of a function of that name.
    pub fn case_of(&mut self, name: &str, arguments: &[u64], answer: &[u64]) {
        let fits = self.tokens_of(name, &numbers(arguments), &numbers(answer));
        assert!(fits, "{name} {arguments:x?}");
    }

    /// Writes one case of a function of that name unless it would make too long a line.
    pub fn case_if_short(&mut self, name: &str, arguments: &[u64], answer: &[u64]) {
        self.tokens_of(name, &numbers(arguments), &numbers(answer));
    }

    /// Writes one case of tokens unless it would make too long a line; whether it fits.
    pub fn tokens_if_short(&mut self, arguments: &[String], answer: &[String]) -> bool {
        self.tokens_of(self.name, arguments, answer)
    }

    /// The same for a function of that name.
    pub fn tokens_of(&mut self, name: &str, arguments: &[String], answer: &[String]) -> bool {
        let line = format!("{name} {} = {}\n", arguments.join(" "), answer.join(" "));
        // The line break counts.
        if arguments.len() + answer.len() > self.most_tokens || line.len() > MAX_BYTES {
            return false;
        }
        if self.seen.insert(line.clone()) {
            self.lines.push(line);
        }
        true
    }

    pub fn lines(self) -> String {
        self.lines.concat()
    }
}

/// Numbers as tokens: hex digits.
pub fn numbers(numbers: &[u64]) -> Vec<String> {
    numbers.iter().map(|number| format!("{number:x}")).collect()
}

/// A byte string as one token: `x` and two hex digits a byte.
pub fn bytes(bytes: &[u8]) -> String {
    let digits = bytes.iter().map(|byte| format!("{byte:02x}"));
    digits.fold(String::from("x"), |token, byte| token + &byte)
}

/// A list as numbers: its length, then its members.
pub fn list(members: impl IntoIterator<Item = u64>) -> Vec<u64> {
    let mut numbers = vec![0];
    numbers.extend(members);
    numbers[0] = numbers.len() as u64 - 1;
    numbers
}
