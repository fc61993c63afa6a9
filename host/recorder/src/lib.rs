//! Test vectors: for each function its arguments and the answer that the Rust gives, one case a line.
//!
//! `FILES` lists the files and each file its functions; a new function is one more row there. Each function draws
//! from a stream of its own, made of the seed and its name, so a new row changes no line of the others. Cases of the same
//! functions over tables of several layers stand at the end. `run` makes a whole input of the program that reads hex lines,
//! with its output.

mod descriptors;
mod joins;
mod layers;
pub mod out;
mod sets;
mod solves;
mod sorted;
mod tables;
mod types;

pub use judge::rng;

use out::Out;
use rng::Rng;

/// A file of vectors.
pub struct File {
    /// What the file is called, without its ending.
    pub name: &'static str,
    /// Lines of the header that say how arguments and answers are written.
    pub about: &'static str,
    /// No line has more tokens, arguments and answers together.
    pub most_tokens: usize,
    /// What is recorded, in the order of the file.
    pub functions: &'static [Function],
    /// Writes cases of these over tables of several layers, which stand after all others.
    pub over_layers: fn(&mut Rng, &mut Out),
}

/// A recorded function.
pub struct Function {
    /// One word of a to z, 0 to 9 and `_`.
    pub name: &'static str,
    /// Arguments and answer, for the header.
    pub form: &'static str,
    /// What decides the answer.
    pub judge: &'static str,
    pub record: fn(&mut Rng, &mut Out),
}

const fn function(
    name: &'static str,
    form: &'static str,
    judge: &'static str,
    record: fn(&mut Rng, &mut Out),
) -> Function {
    Function {
        name,
        form,
        judge,
        record,
    }
}

#[rustfmt::skip]
const LEAVES: &[Function] = &[
    function("pairs", "list of words = how many pairs of them have the order of their places", "derived Ord of ArgType in ty.rs", types::pairs),
    function("order", "a b = 0 less, 1 equal, 2 greater", "derived Ord of ArgType", types::order),
    function("legal", "names w = 0 or 1", "words::parse over that many names", types::legal),
    function("edits", "names w = four numbers: bit 10 p + d of number q says whether w is legal after an exclusive or of d with its digit 4 q + p, the lowest digit being 0", "words::parse", types::edits),
    function("word", "w = wide reference known concrete categories array element", "ArgType::is_wide, is_reference, is_known; TypeLattice::is_concrete, categories (a bit each); ArgType::array, none past 255 dimensions; as_array_element", types::of_word),
    function("hint", "object w = word", "TypeLattice::concrete_hint, class `object` named java/lang/Object", types::hint),
    function("set", "set i = has count lowest with without: lowest is 400 if empty, with and without are sets", "BTreeSet::contains, len, first, insert where i is below 400, remove", sets::one),
    function("sets", "set set = union intersection difference same", "BTreeSet::union, intersection, difference, eq", sets::two),
    function("put", "room entries x = found position outcome entries: outcome 0 old, 1 new, 2 full", "slice::binary_search; BTreeSet::insert", sorted::put),
    function("run", "entries k c = first, past: where e / k = c", "entries below c k and below c k + k", sorted::run),
];

#[rustfmt::skip]
const DESCRIPTORS: &[Function] = &[
    function("d_type", "bytes = refusal offset byte dims tag category name_at name_len", "ArgType::from_str; rules for bytes that are no UTF-8", descriptors::read_type),
    function("d_strict", "bytes = as d_type", "as d_type; rules for 24", descriptors::read_type_strict),
    function("d_method", "bytes entries = refusal offset byte count return_at dims tag category name_at name_len, offset of each parameter", "MethodDescriptor::from_str; rules for bytes that are no UTF-8 and for 22", descriptors::read_method),
    function("m_strict", "bytes entries = as d_method", "as d_method; rules for 24", descriptors::read_method_strict),
    function("w_type", "names word room = refusal bytes", "ArgType::to_descriptor of words::parse; rules for names and 22", descriptors::write_type),
    function("w_method", "names parameters result room = refusal bytes", "Display of MethodDescriptor over words::parse; rules for names and 22", descriptors::write_method),
    function("lookup", "names bytes = refusal number", "rules for names; the place among them", descriptors::lookup),
    function("utf8", "bytes = length of the longest whole valid prefix", "std::str::from_utf8", descriptors::utf8),
];

#[rustfmt::skip]
const QUERIES: &[Function] = &[
    function("table", "room names types rec_flags rec_class rec_at rec_len parents = refusal, and the join of Int and Int", "rules", tables::tables),
    function("pair", "a b = refusal relation distance supertype cast of a and b over the last table: relation 0 yes, 1 no, 2 unknown", "subtype_relation, distances, least_common_supertype, is_cast_convertible of ClassHierarchyIndex in hierarchy.rs; rules for refusals", with_the_table),
    function("ancestors", "class = refusal count lowest and the list of words of the set of its ancestors, without the zeros at its end", "ancestor_names of ClassHierarchyIndex; rules for refusals", with_the_table),
    function("join", "w = refusal, and the join of w and each of the types of the last table", "TypeLattice::join over ClassHierarchyIndex; rules for refusals", joins::types),
    function("assign", "w = refusal, and whether w is assignable to each of the types of the last table", "TypeLattice::is_assignable over ClassHierarchyIndex; rules for refusals", with_the_table),
    function("t_check", "as table = refusal part row: part 0 columns, 1 names, 2 records, 3 no java/lang/Object; row the first refused of names or records", "rules", tables::checks),
];

const AS_SOLVE: &str = "as solve";
const LATTICE: &str = "lattice.rs; the point of that number in docs/DECISIONS.md";

#[rustfmt::skip]
const SOLVES: &[Function] = &[
    function("table", "names rec_flags rec_class rec_at rec_len parents = as solve, for a problem without components", "rules", solves::telling),
    function("o52", AS_SOLVE, LATTICE, with_the_table),
    function("o53", AS_SOLVE, LATTICE, with_the_table),
    function("o54", AS_SOLVE, LATTICE, with_the_table),
    function("o55", AS_SOLVE, LATTICE, with_the_table),
    function("o56", AS_SOLVE, LATTICE, with_the_table),
    function("o57", AS_SOLVE, LATTICE, with_the_table),
    function("o58", AS_SOLVE, LATTICE, with_the_table),
    function("o59", AS_SOLVE, LATTICE, with_the_table),
    function("o60", AS_SOLVE, LATTICE, with_the_table),
    function("o61", AS_SOLVE, LATTICE, with_the_table),
    function("o62", AS_SOLVE, LATTICE, with_the_table),
    function("o63", AS_SOLVE, LATTICE, with_the_table),
    function("o64", AS_SOLVE, LATTICE, with_the_table),
    function("o65", AS_SOLVE, LATTICE, with_the_table),
    function("o67", AS_SOLVE, LATTICE, with_the_table),
    function("o68", AS_SOLVE, LATTICE, with_the_table),
    function("o69", AS_SOLVE, LATTICE, with_the_table),
    function("o70", AS_SOLVE, LATTICE, with_the_table),
    function("o71", AS_SOLVE, LATTICE, with_the_table),
    function("solve", "room components variables bounds flows upper_flows reads writes = refusal turns, the list of answers, three lists of final bounds, over the last table", "solve and propagate of lattice.rs over ClassHierarchyIndex, and its turns; rules for refusals", solves::random),
    function("fault", AS_SOLVE, "rules for refusals; else as solve", solves::faults),
    function("limit", AS_SOLVE, "rules for 8, 20 and 21; else as solve", solves::limits),
];

/// For a function whose lines stand after those of the tables that they are about.
fn with_the_table(_: &mut Rng, _: &mut Out) {}

/// For a file that knows no tables.
fn no_tables(_: &mut Rng, _: &mut Out) {}

/// Every file that can be recorded.
pub static FILES: [File; 4] = [
    File {
        name: "leaves",
        about: "\
            # Numbers are lower-case hex without leading zeros. A list, a set or entries: the length, then the\n\
            # members, ascending. A word w stands for a type over 1,024 names. ffffffffffffffff: no answer.\n",
        most_tokens: 128,
        functions: LEAVES,
        over_layers: no_tables,
    },
    File {
        name: "descriptors",
        about: "\
            # Numbers are lower-case hex without leading zeros. bytes: one token, x and two digits a byte, x alone\n\
            # if there are none. A list: the length, then the members. names: the bytes that names are cut from,\n\
            # the list of their places, the list of their lengths. parameters: a list of words. entries, room: how\n\
            # many entries or bytes are lent. A refused answer has its number, with offset and byte where there are\n\
            # any, then zeros and no bytes.\n\
            # rules: those of the scope paper, written apart in host/judge/src/paper.rs. Tables of 1,025 names are\n\
            # too long for a line; the tests of host/bracepuffin have them.\n",
        most_tokens: 400,
        functions: DESCRIPTORS,
        over_layers: no_tables,
    },
    File {
        name: "queries",
        about: "\
            # Numbers are lower-case hex without leading zeros. A list: the length, then the members. names: the\n\
            # bytes that names are cut from (one token, x and two digits a byte), name_at, the list of their places,\n\
            # and name_len, the list of their lengths. rec_flags, rec_class, rec_at, rec_len: a list each, an entry a\n\
            # record; parents: the list that records cut theirs from. types: a list of words, none where classes are\n\
            # asked about. room: how many working words are lent. A table holds until the next one. A refused answer\n\
            # has its number, then zeros. ffffffffffffffff: no answer.\n\
            # rules: those of the scope paper, written apart in host/judge/src/classes.rs and types.rs. Tables that\n\
            # pass the limits (8) are too long for a line; the tests of host/bracepuffin have them.\n\
            # At the end: tables of several layers, where a record with flags 8e opens one; a fifth is 8.\n",
        most_tokens: 1600,
        functions: QUERIES,
        over_layers: layers::queries,
    },
    File {
        name: "solves",
        about: "\
            # Numbers are lower-case hex without leading zeros. A list: the length, then the members. names and records\n\
            # as in the vectors of queries. room: how many entries are lent for the answers, for each of three columns of\n\
            # final bounds, and how many working words. variables: the list of their components. bounds: three lists, an\n\
            # entry each a row: component, kind (0 Domain, 1 Fallback, 2 Upper, 3 Lower, 4 Exact), word. flows and\n\
            # upper_flows: lists of sources and of targets; reads: of arrays and results; writes: of arrays and values. A\n\
            # table holds until the next one. A refused answer has its number, then zeros. ffffffffffffffff: no type.\n\
            # rules: those of the scope paper, written apart in host/judge/src/solves.rs. Problems with too many rows (8),\n\
            # and those with thousands of final bounds, are too long for a line; the tests of host/bracepuffin have them.\n\
            # At the end: tables of several layers, where a record with flags 8e opens one.\n",
        most_tokens: 1600,
        functions: SOLVES,
        over_layers: layers::solves,
    },
];

/// The whole file for a seed; `size` multiplies the number of random cases.
pub fn record(file: &File, seed: u64, size: u64) -> String {
    let mut text = header(file, seed, size);
    for function in file.functions {
        let mut out = Out::new(function.name, size, file.most_tokens);
        (function.record)(&mut Rng::new(seed, function.name), &mut out);
        text.push_str(&out.lines());
    }
    let mut out = Out::new("layers", size, file.most_tokens);
    (file.over_layers)(&mut Rng::new(seed, "layers"), &mut out);
    text + &out.lines()
}

/// The seed of the stored run of the program that reads hex lines.
pub const RUN_SEED: u64 = 1;

/// A run of the program that reads hex lines: its input, and what it must print.
pub fn run(seed: u64) -> (Vec<u8>, String) {
    let input = judge::line_cases::stored_script(seed);
    let output = judge::lines::printed(&input);
    (input, output)
}

fn header(file: &File, seed: u64, size: u64) -> String {
    let mut text = String::from(
        "# Test vectors: what the Rust answers. One case a line: function, arguments, =, answer.\n",
    );
    text.push_str(file.about);
    text.push_str(&format!(
        "# Made by host/recorder with\n# seed {seed}\n# size {size}\n#\n"
    ));
    text.push_str("# function: form; what decides the answer\n");
    for function in file.functions {
        let Function {
            name, form, judge, ..
        } = function;
        text.push_str(&format!("# {name}: {form}; {judge}\n"));
    }
    text
}
