//! What the boundary must answer to a solve: the rules of the paper for what is refused before it runs, and lattice.rs for
//! the run: its refusals 20 and 21, the answers, the final bounds and the turns.

use std::collections::{BTreeMap, BTreeSet};

use dexdec::{lattice, limits, turns, Kind, Problem, SsaVar};

use crate::classes::{Classes, Judge, OBJECT, WORK};

pub const MAX_COMPONENTS: u64 = 512;
pub const MAX_VARIABLES: usize = 2048;
pub const MAX_BOUNDS: usize = 4096;
pub const MAX_FLOWS: usize = 2048;
pub const MAX_UPPER_FLOWS: usize = 1024;
/// Reads and writes together.
pub const MAX_ARRAYS: usize = 1024;

pub(crate) const KINDS: [Kind; 5] = [
    Kind::Domain,
    Kind::Fallback,
    Kind::Upper,
    Kind::Lower,
    Kind::Exact,
];

/// A problem as it is lent: a column of variables, three of bounds, two of each kind of link.
#[derive(Debug, Clone, Default, PartialEq, Eq)]
pub struct Columns {
    pub components: u64,
    pub variables: Vec<u64>,
    /// Component, kind, word.
    pub bounds: [Vec<u64>; 3],
    /// Source, target.
    pub flows: [Vec<u64>; 2],
    pub upper_flows: [Vec<u64>; 2],
    /// Array, result.
    pub reads: [Vec<u64>; 2],
    /// Array, value.
    pub writes: [Vec<u64>; 2],
}

/// How long the slices are that are lent to be written.
#[derive(Debug, Clone, Copy, PartialEq, Eq)]
pub struct Lent {
    pub answers: usize,
    /// The columns of final bounds: component, kind, word.
    pub columns: [usize; 3],
    pub work: usize,
}

/// A refusal and nothing else; or a word a variable, the final bounds as rows, and the turns.
#[derive(Debug, Clone, Default, PartialEq, Eq)]
pub struct Solved {
    pub refusal: u64,
    pub turns: u64,
    pub answers: Vec<u64>,
    pub bounds: Vec<[u64; 3]>,
}

impl Columns {
    pub fn of(components: u64) -> Self {
        Self {
            components,
            variables: (0..components).collect(),
            ..Self::default()
        }
    }

    pub fn bound(&mut self, component: u64, kind: u64, word: u64) {
        for (column, entry) in self.bounds.iter_mut().zip([component, kind, word]) {
            column.push(entry);
        }
    }

    /// The slices that are just long enough.
    pub fn least(&self) -> Lent {
        Lent {
            answers: self.variables.len(),
            columns: [MAX_BOUNDS; 3],
            work: WORK,
        }
    }

    fn is_short(&self, lent: Lent) -> bool {
        lent.answers < self.variables.len()
            || lent.columns.iter().any(|length| *length < MAX_BOUNDS)
            || lent.work < WORK
    }

    fn links(&self) -> [&[Vec<u64>; 2]; 4] {
        [&self.flows, &self.upper_flows, &self.reads, &self.writes]
    }

    fn is_even(&self) -> bool {
        let bounds = self.bounds.each_ref().map(Vec::len);
        let pair = |link: &[Vec<u64>; 2]| link[0].len() == link[1].len();
        bounds[1] == bounds[0] && bounds[2] == bounds[0] && self.links().into_iter().all(pair)
    }

    /// The rows in order of kind, over these names: the first refusal, 0 for none.
    fn rows_refusal(&self, names: &[String]) -> u64 {
        let checks = [
            self.count_refusal(),
            self.variables_refusal(),
            self.bounds_refusal(names),
            self.links_refusal(&[&self.flows], MAX_FLOWS),
            self.links_refusal(&[&self.upper_flows], MAX_UPPER_FLOWS),
            // Reads first; both share one room.
            self.links_refusal(&[&self.reads, &self.writes], MAX_ARRAYS),
        ];
        checks
            .into_iter()
            .find(|refusal| *refusal != 0)
            .unwrap_or(0)
    }

    fn count_refusal(&self) -> u64 {
        match self.components > MAX_COMPONENTS {
            true => 8,
            false => 0,
        }
    }

    /// A variable is never there already: each row is a new one.
    fn variables_refusal(&self) -> u64 {
        for (row, component) in self.variables.iter().enumerate() {
            if *component >= self.components {
                return 6;
            }
            if row >= MAX_VARIABLES {
                return 8;
            }
        }
        0
    }

    fn bounds_refusal(&self, names: &[String]) -> u64 {
        let mut distinct = BTreeSet::new();
        for row in 0..self.bounds[0].len() {
            let [component, kind, word] = self.bounds.each_ref().map(|column| column[row]);
            if component >= self.components || kind >= KINDS.len() as u64 {
                return 6;
            }
            if words::parse(word, names).is_err() {
                return words::TYPE;
            }
            distinct.insert((component, kind, word));
            if distinct.len() > MAX_BOUNDS {
                return 8;
            }
        }
        0
    }

    /// Links of some kinds that share a room, one kind after the other.
    fn links_refusal(&self, kinds: &[&[Vec<u64>; 2]], most: usize) -> u64 {
        let mut distinct = BTreeSet::new();
        for (kind, [left, right]) in kinds.iter().enumerate() {
            for (left, right) in left.iter().zip(right) {
                if *left >= self.components || *right >= self.components {
                    return 6;
                }
                distinct.insert((kind, *left, *right));
                if distinct.len() > most {
                    return 8;
                }
            }
        }
        0
    }

    /// The same problem as the Rust has it, of columns that are not refused over these names.
    pub fn problem(&self, names: &[String]) -> Problem {
        let variable = |number: &u64| SsaVar(*number as u32);
        let pairs = |link: &[Vec<u64>; 2]| {
            let rows = link[0].iter().zip(&link[1]);
            rows.map(|(left, right)| (variable(left), variable(right)))
                .collect()
        };
        let mut members: BTreeMap<SsaVar, BTreeSet<SsaVar>> = (0..self.components)
            .map(|component| (variable(&component), BTreeSet::new()))
            .collect();
        for (row, component) in self.variables.iter().enumerate() {
            let set = members.get_mut(&variable(component));
            set.expect("a component").insert(SsaVar(row as u32));
        }
        let [components, kinds, types] = &self.bounds;
        let bounds = components.iter().zip(kinds).zip(types);
        Problem {
            members,
            bounds: bounds
                .map(|((component, kind), word)| {
                    let ty = words::parse(*word, names).expect("a legal word");
                    (variable(component), KINDS[*kind as usize], ty)
                })
                .collect(),
            flows: pairs(&self.flows),
            upper_flows: pairs(&self.upper_flows),
            reads: pairs(&self.reads),
            writes: pairs(&self.writes),
        }
    }
}

impl Classes {
    /// What a solve is refused before it runs: 22, 3, the table's rows, the problem's rows, 9; 0 for nothing.
    pub fn solve_refusal(&self, problem: &Columns, lent: Lent) -> u64 {
        if problem.is_short(lent) {
            return 22;
        }
        // Unequal columns, of the table or of the problem, come before any row.
        if !problem.is_even() {
            return 3;
        }
        let names = match self.names() {
            Ok(names) => names,
            Err(number) => return number,
        };
        match problem.rows_refusal(&names) {
            0 if !names.iter().any(|name| name == OBJECT) => 9,
            refusal => refusal,
        }
    }

    /// What a solve comes to.
    pub fn solve(&self, problem: &Columns, lent: Lent) -> Solved {
        let refused = |refusal| Solved {
            refusal,
            ..Solved::default()
        };
        match self.solve_refusal(problem, lent) {
            0 => self.judge().run(problem).unwrap_or_else(refused),
            refusal => refused(refusal),
        }
    }
}

impl Judge {
    /// `solve` and `propagate` of lattice.rs, and the turns; or which limit they pass. Of columns that are not refused.
    pub(crate) fn run(&self, columns: &Columns) -> Result<Solved, u64> {
        let problem = columns.problem(&self.names);
        match limits::refusal(&problem, &self.index) {
            0 => {}
            refusal => return Err(refusal),
        }
        let word = |ty| words::word(ty, &self.names).expect("a type of the table");
        let (answers, turns) = turns::solve(&problem, &self.index);
        let bounds = lattice::propagate(&problem, &self.index);
        Ok(Solved {
            refusal: 0,
            turns,
            answers: (0..columns.variables.len())
                .map(|row| {
                    answers
                        .get(&SsaVar(row as u32))
                        .map_or(words::MISSING, word)
                })
                .collect(),
            bounds: bounds
                .iter()
                .map(|(root, kind, ty)| [u64::from(root.0), *kind as u64, word(ty)])
                .collect(),
        })
    }
}
