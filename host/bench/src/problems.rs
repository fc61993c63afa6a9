//! Problems as the variables of a method give them, over the classes of a program, as each side takes them.

use std::collections::BTreeSet;

use bracepuffin::ffi::{BpSolved, BP_BOUNDS};
use bracepuffin::slices::{self, ClassColumns, ProblemColumns, SolvedColumns};
use bracepuffin::{ClassTable, TypeConstraints, WORK};
use dexdec::hierarchy::ClassHierarchyIndex;
use dexdec::{Problem, SsaVar};
use judge::classes::MAX_PAIRS;
use judge::rng::Rng;
use judge::solve_cases::{
    array, class, unknown, BOOLEAN, DOMAIN, EXACT, FALLBACK, INT, LOWER, UPPER,
};
use judge::solves::Columns;

use crate::classes::{program, Declared};
use crate::dressed;
use crate::layered::{index, split, table};

/// How large a problem is, and its table.
#[derive(Debug, Clone, Copy)]
pub struct Size {
    pub names: usize,
    pub components: usize,
    /// Given ones; fewer where the components have no room for so many different ones.
    pub bounds: usize,
    pub flows: usize,
}

impl Size {
    pub const fn new(names: usize, components: usize, bounds: usize, flows: usize) -> Self {
        Self {
            names,
            components,
            bounds,
            flows,
        }
    }
}

/// A problem and its table, for the Rust and for us.
pub struct Case {
    pub classes: Vec<Declared>,
    pub index: ClassHierarchyIndex,
    pub table: ClassTable,
    pub columns: Columns,
    pub problem: Problem,
}

impl Case {
    /// A problem of that size that is not refused.
    pub fn of(size: Size) -> Self {
        Self::in_layers(size, 1)
    }

    /// The same over a table of that many layers.
    pub fn in_layers(size: Size, layers: usize) -> Self {
        let classes = declared(size.names);
        let layers = split(&classes, layers);
        let (index, table) = (index(&layers), table(&layers));
        let names: Vec<String> = table.names().iter().map(str::to_string).collect();
        let columns = realistic(size, &classes, &names);
        let solved = Lent::of(&columns).solve(table.columns(), &columns);
        assert_eq!(solved.refusal, 0, "{size:?}");
        Self {
            index,
            problem: columns.problem(&names),
            classes,
            table,
            columns,
        }
    }

    /// As the wrapper takes it.
    pub fn constraints(&self) -> TypeConstraints<'_, SsaVar> {
        dressed::constraints(&self.problem)
    }
}

/// The slices that a solve writes, kept between calls.
pub struct Lent {
    answers: Vec<u64>,
    out: [Vec<u64>; 3],
    work: Vec<u64>,
}

impl Lent {
    /// Long enough for these columns.
    pub fn of(columns: &Columns) -> Self {
        Self {
            answers: vec![0; columns.variables.len()],
            out: [(); 3].map(|()| vec![0; BP_BOUNDS]),
            work: vec![0; WORK],
        }
    }

    pub fn solve(&mut self, table: ClassColumns, columns: &Columns) -> BpSolved {
        let [out_comp, out_kind, out_type] = &mut self.out;
        let out = SolvedColumns {
            answers: &mut self.answers,
            out_comp,
            out_kind,
            out_type,
        };
        slices::solve(table, lent(columns), out, &mut self.work)
    }

    #[cfg(test)]
    pub fn answers(&self) -> &[u64] {
        &self.answers
    }
}

fn lent(columns: &Columns) -> ProblemColumns<'_> {
    ProblemColumns {
        components: columns.components,
        var_comp: &columns.variables,
        bnd_comp: &columns.bounds[0],
        bnd_kind: &columns.bounds[1],
        bnd_type: &columns.bounds[2],
        flow_src: &columns.flows[0],
        flow_dst: &columns.flows[1],
        up_src: &columns.upper_flows[0],
        up_dst: &columns.upper_flows[1],
        read_arr: &columns.reads[0],
        read_res: &columns.reads[1],
        write_arr: &columns.writes[0],
        write_val: &columns.writes[1],
    }
}

/// A program of that many names; where it has too many pairs, its last classes have an interface less.
fn declared(names: usize) -> Vec<Declared> {
    let mut classes = program(names);
    let pairs: usize = classes.iter().map(|class| class.parents.len()).sum();
    let last = classes.iter_mut().rev();
    for class in last
        .filter(|class| class.parents.len() > 3)
        .take(pairs.saturating_sub(MAX_PAIRS))
    {
        class.parents.pop();
    }
    classes
}

/// Components that values flow between: most of them have classes of one family.
const WEB: usize = 16;
/// In a web with arrays these are the first ones; the others are what they hold.
const ARRAYS: usize = WEB / 4;

struct Web {
    lower: Vec<u64>,
    upper: Vec<u64>,
    domain: u64,
    has_arrays: bool,
}

impl Web {
    fn any(rng: &mut Rng, classes: &[Declared], names: &[String]) -> Self {
        match rng.below(8) {
            0 => Self::of_primitives(rng),
            sort => Self {
                has_arrays: sort == 1,
                ..Self::of_classes(rng, classes, names)
            },
        }
    }

    fn of_primitives(rng: &mut Rng) -> Self {
        const SHORT: u64 = 3;
        const LONG: u64 = 6;
        let [lower, upper] = *rng.pick(&[[SHORT, INT], [INT, INT], [INT, LONG], [LONG, LONG]]);
        Self {
            lower: vec![lower, INT],
            upper: vec![upper],
            domain: unknown(&[BOOLEAN, INT]),
            has_arrays: false,
        }
    }

    /// Two classes, and two of what is above the first.
    fn of_classes(rng: &mut Rng, classes: &[Declared], names: &[String]) -> Self {
        const OBJECT: u64 = 9;
        const ARRAY: u64 = 10;
        let word = |name: &String| class(names.binary_search(name).expect("a name") as u64);
        let last = classes.len() as u64 - 1;
        let [first, second] = [(); 2].map(|()| &classes[1 + rng.below(last) as usize]);
        let upper = [(); 2].map(|()| word(rng.pick(&first.parents)));
        Self {
            lower: [first, second].map(|class| word(&class.name)).to_vec(),
            upper: upper.to_vec(),
            domain: unknown(&[OBJECT, ARRAY]),
            has_arrays: false,
        }
    }
}

/// Most components have lower or exact bounds, some what a call expects and what an instruction takes; flows go on in
/// chains, one in 24 goes back; a few arrays are read and written.
fn realistic(size: Size, classes: &[Declared], names: &[String]) -> Columns {
    let rng = &mut Rng::new(size.components as u64, "the variables of a method");
    let count = size.components.div_ceil(WEB);
    let webs: Vec<Web> = (0..count).map(|_| Web::any(rng, classes, names)).collect();
    let mut columns = Columns::of(size.components as u64);
    for (component, kind, word) in bounds(rng, size, &webs) {
        columns.bound(component as u64, kind, word);
    }
    columns.flows = pairs(&flows(rng, size, size.flows, &webs));
    columns.upper_flows = pairs(&flows(rng, size, size.components / 8, &webs));
    let (reads, writes) = arrays(rng, size, &webs);
    columns.reads = pairs(&reads);
    columns.writes = pairs(&writes);
    columns
}

fn is_array(webs: &[Web], component: usize) -> bool {
    webs[component / WEB].has_arrays && component % WEB < ARRAYS
}

fn bounds(rng: &mut Rng, size: Size, webs: &[Web]) -> BTreeSet<(usize, u64, u64)> {
    let mut bounds = BTreeSet::new();
    let mut add = |rng: &mut Rng, component: usize, kind: u64| {
        let web = &webs[component / WEB];
        let word = match kind {
            DOMAIN => web.domain,
            UPPER => *rng.pick(&web.upper),
            FALLBACK => web.lower[0],
            _ => *rng.pick(&web.lower),
        };
        let dimensions = u64::from(kind != DOMAIN && is_array(webs, component));
        if bounds.len() < size.bounds {
            bounds.insert((component, kind, array(dimensions, word)));
        }
    };
    for component in 0..size.components {
        match rng.below(16) {
            0 | 1 => {}
            2 => add(rng, component, EXACT),
            _ => add(rng, component, LOWER),
        }
    }
    const KINDS: [u64; 8] = [LOWER, LOWER, LOWER, UPPER, UPPER, UPPER, DOMAIN, FALLBACK];
    for _ in 0..4 * size.bounds {
        let component = rng.below(size.components as u64) as usize;
        let kind = *rng.pick(&KINDS);
        add(rng, component, kind);
    }
    bounds
}

/// So many flows within webs: first along chains.
fn flows(rng: &mut Rng, size: Size, wanted: usize, webs: &[Web]) -> BTreeSet<(usize, usize)> {
    let joined = |(source, target): &(usize, usize)| {
        *target < size.components
            && source / WEB == target / WEB
            && is_array(webs, *source) == is_array(webs, *target)
    };
    let chain = (0..size.components).map(|source| (source, source + 1));
    let mut flows: BTreeSet<_> = chain.filter(joined).take(wanted).collect();
    for _ in 0..20 * wanted {
        let source = rng.below(size.components as u64) as usize;
        let flow = (source, source + 1 + rng.below(WEB as u64) as usize);
        let goes_back = rng.below(24) == 0;
        if flows.len() < wanted && joined(&flow) {
            flows.insert(if goes_back { (flow.1, flow.0) } else { flow });
        }
    }
    flows
}

type Pairs = BTreeSet<(usize, usize)>;

/// Reads and writes: one of each array, of what its web holds.
fn arrays(rng: &mut Rng, size: Size, webs: &[Web]) -> (Pairs, Pairs) {
    let (mut reads, mut writes) = (BTreeSet::new(), BTreeSet::new());
    for component in (0..size.components).filter(|component| is_array(webs, *component)) {
        let held = ARRAYS + rng.below((WEB - ARRAYS) as u64) as usize;
        let other = component / WEB * WEB + held;
        match rng.below(2) {
            _ if other >= size.components => false,
            0 => reads.insert((component, other)),
            _ => writes.insert((component, other)),
        };
    }
    (reads, writes)
}

fn pairs(pairs: &Pairs) -> [Vec<u64>; 2] {
    [
        pairs.iter().map(|pair| pair.0 as u64).collect(),
        pairs.iter().map(|pair| pair.1 as u64).collect(),
    ]
}
