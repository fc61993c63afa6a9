//! What the program `typeline` must print for the bytes of an input: the rules of the paper for hex frames, written row by
//! row, and the Rust of docs/src for every answer: hierarchy.rs for classes, lattice.rs for solves.

use std::collections::BTreeSet;

use crate::classes::{is_flags, Classes, Judge, MAX_PAIRS, OBJECT};
use crate::layers::{MAX_LAYERS, OPENS};
use crate::paper::{MAX_NAMES, MAX_NAME_BYTES};
use crate::solves::{
    Columns, Solved, KINDS, MAX_ARRAYS, MAX_BOUNDS, MAX_COMPONENTS, MAX_FLOWS, MAX_UPPER_FLOWS,
    MAX_VARIABLES,
};

/// A frame's first byte.
pub const NAME: u8 = 0x01;
pub const RECORD: u8 = 0x02;
pub const COUNT: u8 = 0x03;
pub const VARIABLE: u8 = 0x04;
pub const BOUND: u8 = 0x05;
pub const FLOW: u8 = 0x06;
pub const UPPER_FLOW: u8 = 0x07;
pub const READ: u8 = 0x08;
pub const WRITE: u8 = 0x09;
pub const SOLVE: u8 = 0x0a;
pub const RELATION: u8 = 0x0b;
pub const SUPERTYPE: u8 = 0x0c;
pub const CAST: u8 = 0x0d;
pub const OPEN: u8 = 0x0e;

/// No frame has more bytes.
pub const MAX_FRAME: usize = 512;

/// The lines of an input: LF ends one, and the last may lack it.
pub fn lines(input: &[u8]) -> Vec<&[u8]> {
    let mut lines: Vec<&[u8]> = input.split(|byte| *byte == b'\n').collect();
    // What stands after the last LF is a line only if there is something.
    if lines.last().is_some_and(|line| line.is_empty()) {
        lines.pop();
    }
    lines
}

/// All that is printed.
pub fn printed(input: &[u8]) -> String {
    let mut state = Lines::default();
    let each = lines(input).into_iter().enumerate();
    each.map(|(place, line)| match state.take(line) {
        Ok(answer) => answer,
        Err(refusal) => format!("E {} {refusal}\n", place + 1),
    })
    .collect()
}

/// A frame that is not refused, as what it says.
enum Frame {
    Name(String),
    /// Flags, class, parents.
    Record(u64, u64, Vec<u64>),
    Open,
    Count(u64),
    Variable(u64),
    Bound([u64; 3]),
    Link(u8, u64, u64),
    Solve,
    Question(u8, u64, u64),
}

/// What the frames that were accepted have said.
#[derive(Default)]
pub struct Lines {
    names: Vec<String>,
    name_bytes: usize,
    /// How many layers were opened, and the pairs of the topmost.
    opened: usize,
    pairs: BTreeSet<(u64, u64)>,
    classes: Classes,
    problem: Columns,
    bounds: BTreeSet<[u64; 3]>,
    /// Distinct ones: flows, upper flows, and both kinds of array constraint together.
    links: [BTreeSet<(u8, u64, u64)>; 3],
    /// The highest kind; 0a stands for 0b to 0d too, 02 for 0e.
    rank: u8,
    /// Both are made when asked for, and gone with the next row that changes them.
    judge: Option<Judge>,
    solved: Option<Result<Solved, u64>>,
}

impl Lines {
    /// What a line prints, or what it is refused with; then it is as if it had not come.
    pub fn take(&mut self, line: &[u8]) -> Result<String, u64> {
        let (frame, rank) = self.checked(line)?;
        let answer = match frame {
            Frame::Solve => self.solve()?,
            Frame::Question(kind, left, right) => self.ask(kind, left, right),
            row => {
                self.put(row);
                String::new()
            }
        };
        self.rank = rank;
        Ok(answer)
    }

    /// What a line is refused with before anything runs; 0 for nothing.
    pub fn refusal(&self, line: &[u8]) -> u64 {
        self.checked(line).err().unwrap_or(0)
    }

    /// The frame and its rank, or the first refusal of 1, 2, 3, 4, 6, 7, 10, 5, 8, 9.
    fn checked(&self, line: &[u8]) -> Result<(Frame, u8), u64> {
        let bytes = bytes_of(line).ok_or(1_u64)?;
        let (kind, body) = (bytes[0], &bytes[1..]);
        if !(NAME..=OPEN).contains(&kind) {
            return Err(2);
        }
        if !is_length(kind, body.len()) {
            return Err(3);
        }
        let rank = match kind {
            OPEN => RECORD,
            _ => kind.min(SOLVE),
        };
        if rank < self.rank || kind == COUNT && self.rank == COUNT {
            return Err(4);
        }
        Ok((self.frame(kind, body)?, rank))
    }

    /// A frame of a length that its kind may have.
    fn frame(&self, kind: u8, body: &[u8]) -> Result<Frame, u64> {
        match kind {
            NAME => self.name(body),
            RECORD => self.record(u64::from(body[0]), &numbers(&body[1..])),
            COUNT => self.count(numbers(body)[0]),
            VARIABLE => self.variable(numbers(body)[0]),
            BOUND => self.bound([numbers(body)[0], u64::from(body[2]), whole(&body[3..])]),
            SOLVE => self.has_object().map(|()| Frame::Solve),
            OPEN => self.open(),
            FLOW..=WRITE => self.link(kind, &numbers(body)),
            _ => self.question(kind, &numbers(body)),
        }
    }

    fn name(&self, name: &[u8]) -> Result<Frame, u64> {
        let text = std::str::from_utf8(name).map_err(|_| 10_u64)?;
        let last = self.names.last().map(String::as_bytes);
        if last.is_some_and(|last| last >= name) {
            return Err(5);
        }
        room(self.names.len() + 1, MAX_NAMES)?;
        room(self.name_bytes + name.len(), MAX_NAME_BYTES as usize)?;
        Ok(Frame::Name(text.to_string()))
    }

    /// A class, then its parents.
    fn record(&self, flags: u64, numbers: &[u64]) -> Result<Frame, u64> {
        if !is_flags(flags) {
            return Err(6);
        }
        below(numbers, self.names.len() as u64)?;
        let (class, parents) = (numbers[0], &numbers[1..]);
        let pairs: BTreeSet<(u64, u64)> = parents.iter().map(|parent| (class, *parent)).collect();
        let added = pairs.difference(&self.pairs).count();
        if added > 0 {
            room(self.pairs.len() + added, MAX_PAIRS)?;
        }
        Ok(Frame::Record(flags, class, parents.to_vec()))
    }

    /// The lowest layer is there without being opened.
    fn open(&self) -> Result<Frame, u64> {
        room(1 + self.opened + 1, MAX_LAYERS)?;
        Ok(Frame::Open)
    }

    fn count(&self, count: u64) -> Result<Frame, u64> {
        room(count as usize, MAX_COMPONENTS as usize)?;
        Ok(Frame::Count(count))
    }

    /// Each is a new one.
    fn variable(&self, component: u64) -> Result<Frame, u64> {
        below(&[component], self.problem.components)?;
        room(self.problem.variables.len() + 1, MAX_VARIABLES)?;
        Ok(Frame::Variable(component))
    }

    fn bound(&self, row: [u64; 3]) -> Result<Frame, u64> {
        let [component, kind, word] = row;
        below(&[component], self.problem.components)?;
        below(&[kind], KINDS.len() as u64)?;
        words::parse(word, &self.names)?;
        if !self.bounds.contains(&row) {
            room(self.bounds.len() + 1, MAX_BOUNDS)?;
        }
        Ok(Frame::Bound(row))
    }

    fn link(&self, kind: u8, ends: &[u64]) -> Result<Frame, u64> {
        below(ends, self.problem.components)?;
        let (place, most) = share(kind);
        let link = (kind, ends[0], ends[1]);
        if !self.links[place].contains(&link) {
            room(self.links[place].len() + 1, most)?;
        }
        Ok(Frame::Link(kind, ends[0], ends[1]))
    }

    fn question(&self, kind: u8, classes: &[u64]) -> Result<Frame, u64> {
        below(classes, self.names.len() as u64)?;
        self.has_object()?;
        Ok(Frame::Question(kind, classes[0], classes[1]))
    }

    fn has_object(&self) -> Result<(), u64> {
        match self.names.iter().any(|name| name == OBJECT) {
            true => Ok(()),
            false => Err(9),
        }
    }

    /// An accepted row into the tables.
    fn put(&mut self, row: Frame) {
        self.solved = None;
        if matches!(row, Frame::Name(_) | Frame::Record(..) | Frame::Open) {
            self.judge = None;
        }
        let problem = &mut self.problem;
        match row {
            Frame::Name(text) => {
                self.name_bytes += text.len();
                self.classes.names.push(text.as_bytes());
                self.names.push(text);
            }
            Frame::Record(flags, class, parents) => {
                self.pairs
                    .extend(parents.iter().map(|parent| (class, *parent)));
                self.classes.push(flags, class, &parents);
            }
            Frame::Open => {
                self.opened += 1;
                self.pairs.clear();
                self.classes.push(OPENS, 0, &[]);
            }
            Frame::Count(count) => problem.components = count,
            Frame::Variable(component) => problem.variables.push(component),
            Frame::Bound(row) => {
                if self.bounds.insert(row) {
                    problem.bound(row[0], row[1], row[2]);
                }
            }
            Frame::Link(kind, left, right) => {
                let columns = match kind {
                    FLOW => &mut problem.flows,
                    UPPER_FLOW => &mut problem.upper_flows,
                    READ => &mut problem.reads,
                    _ => &mut problem.writes,
                };
                if self.links[share(kind).0].insert((kind, left, right)) {
                    columns[0].push(left);
                    columns[1].push(right);
                }
            }
            Frame::Solve | Frame::Question(..) => unreachable!("not a row"),
        }
    }

    /// hierarchy.rs over the table.
    fn ask(&mut self, kind: u8, left: u64, right: u64) -> String {
        let judge = self.judge.get_or_insert_with(|| self.classes.judge());
        match kind {
            RELATION => format!("R {}\n", judge.relation(left, right)),
            SUPERTYPE => format!("L {}\n", or_dash(judge.supertype(left, right), decimal)),
            _ => format!("C {}\n", judge.cast(left, right)),
        }
    }

    /// lattice.rs over table and problem, or the limit that its run passes.
    fn solve(&mut self) -> Result<String, u64> {
        let judge = self.judge.get_or_insert_with(|| self.classes.judge());
        let solved = self.solved.get_or_insert_with(|| judge.run(&self.problem));
        let solved = solved.as_ref().map_err(|refusal| *refusal)?;
        let each = solved.answers.iter().enumerate();
        Ok(each
            .map(|(variable, word)| format!("V {variable} {}\n", or_dash(*word, digits)))
            .collect())
    }
}

/// Which set of links a kind is kept in, and how many that one may have.
fn share(kind: u8) -> (usize, usize) {
    match kind {
        FLOW => (0, MAX_FLOWS),
        UPPER_FLOW => (1, MAX_UPPER_FLOWS),
        _ => (2, MAX_ARRAYS),
    }
}

/// 8 where there would be more than may be.
fn room(count: usize, most: usize) -> Result<(), u64> {
    match count <= most {
        true => Ok(()),
        false => Err(8),
    }
}

/// 6 where one is not.
fn below(numbers: &[u64], limit: u64) -> Result<(), u64> {
    match numbers.iter().all(|number| *number < limit) {
        true => Ok(()),
        false => Err(6),
    }
}

fn or_dash(answer: u64, show: fn(u64) -> String) -> String {
    match answer == words::MISSING {
        true => "-".to_string(),
        false => show(answer),
    }
}

fn decimal(number: u64) -> String {
    number.to_string()
}

fn digits(word: u64) -> String {
    format!("{word:016x}")
}

/// The bytes of a line of lower-case hex digits: 1 to 512 of them.
fn bytes_of(line: &[u8]) -> Option<Vec<u8>> {
    if line.is_empty() || line.len() % 2 != 0 || line.len() > 2 * MAX_FRAME {
        return None;
    }
    let nibble = |digit: &u8| {
        b"0123456789abcdef"
            .iter()
            .position(|other| other == digit)
            .map(|value| value as u8)
    };
    line.chunks(2)
        .map(|pair| Some(nibble(&pair[0])? << 4 | nibble(&pair[1])?))
        .collect()
}

/// Whether a frame of that kind may have so many bytes after it.
fn is_length(kind: u8, length: usize) -> bool {
    match kind {
        NAME => (1..=255).contains(&length),
        // Flags and class; then two bytes a parent.
        RECORD => (3..=3 + 2 * 254).contains(&length) && length % 2 == 1,
        COUNT | VARIABLE => length == 2,
        BOUND => length == 2 + 1 + 8,
        SOLVE | OPEN => length == 0,
        _ => length == 4,
    }
}

/// Numbers of two bytes, high first; what is left of an odd length is left out.
fn numbers(bytes: &[u8]) -> Vec<u64> {
    bytes.chunks_exact(2).map(whole).collect()
}

/// One number of all bytes, high first.
fn whole(bytes: &[u8]) -> u64 {
    bytes
        .iter()
        .fold(0, |number, byte| number << 8 | u64::from(*byte))
}
