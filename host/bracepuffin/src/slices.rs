//! The exported functions over slices: any numbers, any bytes, and borrows that keep the slices apart.
//!
//! Numbers and words are plain here, and mean what the table makes of them. `include/bracepuffin.h` says what each
//! function does and what it refuses.

use crate::ffi::{
    self, BpAnswer, BpFound, BpMethod, BpRelation, BpSet, BpSolved, BpTable, BpType, BpWritten,
};

/// The three slices of a table of names, checked or not.
#[derive(Debug, Clone, Copy)]
pub struct Columns<'a> {
    /// The bytes of all names.
    pub names: &'a [u8],
    /// Where each name begins.
    pub name_at: &'a [u64],
    /// How many bytes each name has.
    pub name_len: &'a [u64],
}

/// The slices of a class table, checked or not.
#[derive(Debug, Clone, Copy)]
pub struct ClassColumns<'a> {
    /// The names.
    pub names: Columns<'a>,
    /// The flags of each record; [`ffi::BP_OPENS_LAYER`] for a row that opens a layer.
    pub rec_flags: &'a [u64],
    /// The class of each record.
    pub rec_class: &'a [u64],
    /// Where the parents of each record begin.
    pub rec_at: &'a [u64],
    /// How many parents each record has.
    pub rec_len: &'a [u64],
    /// The parents of all records.
    pub parents: &'a [u64],
}

/// The slices of a problem to solve, checked or not.
#[derive(Debug, Clone, Copy)]
pub struct ProblemColumns<'a> {
    /// How many components there are.
    pub components: u64,
    /// The component of each variable.
    pub var_comp: &'a [u64],
    /// The component of each bound.
    pub bnd_comp: &'a [u64],
    /// The kind of each bound, 0 to 4: domain, fallback, upper, lower, exact.
    pub bnd_kind: &'a [u64],
    /// The type word of each bound.
    pub bnd_type: &'a [u64],
    /// The source of each flow.
    pub flow_src: &'a [u64],
    /// The target of each flow.
    pub flow_dst: &'a [u64],
    /// The source of each upper flow.
    pub up_src: &'a [u64],
    /// The target of each upper flow.
    pub up_dst: &'a [u64],
    /// The array of each read.
    pub read_arr: &'a [u64],
    /// The result of each read.
    pub read_res: &'a [u64],
    /// The array of each write.
    pub write_arr: &'a [u64],
    /// The value of each write.
    pub write_val: &'a [u64],
}

/// What a solve writes to.
#[derive(Debug)]
pub struct SolvedColumns<'a> {
    /// The type word of each variable, all ones for none.
    pub answers: &'a mut [u64],
    /// The component of each final bound; at least [`ffi::BP_BOUNDS`] entries, as the next two.
    pub out_comp: &'a mut [u64],
    /// The kind of each final bound.
    pub out_kind: &'a mut [u64],
    /// The type word of each final bound.
    pub out_type: &'a mut [u64],
}

/// Reads a type.
#[inline]
pub fn read_type(d: &[u8]) -> BpType {
    // SAFETY: pointer and length of a live slice.
    unsafe { ffi::bp_read_type(d.as_ptr(), d.len()) }
}

/// Reads a type with a class name as the JVMS has them.
#[inline]
pub fn read_type_strict(d: &[u8]) -> BpType {
    // SAFETY: pointer and length of a live slice.
    unsafe { ffi::bp_read_type_strict(d.as_ptr(), d.len()) }
}

/// Reads a method; the offset of each parameter is written to `params`.
#[inline]
pub fn read_method(d: &[u8], params: &mut [u64]) -> BpMethod {
    // SAFETY: pointers and lengths of live slices; the one that is written is borrowed for that alone.
    unsafe { ffi::bp_read_method(d.as_ptr(), d.len(), params.as_mut_ptr(), params.len()) }
}

/// Reads a method with class names as the JVMS has them.
#[inline]
pub fn read_method_strict(d: &[u8], params: &mut [u64]) -> BpMethod {
    // SAFETY: as above.
    unsafe { ffi::bp_read_method_strict(d.as_ptr(), d.len(), params.as_mut_ptr(), params.len()) }
}

/// Writes the descriptor of a word to the front of `out`.
#[inline]
pub fn write_type(table: Columns, word: u64, out: &mut [u8]) -> BpWritten {
    // SAFETY: pointers and lengths of live slices; the one that is written is borrowed for that alone.
    unsafe {
        ffi::bp_write_type(
            table.names.as_ptr(),
            table.names.len(),
            table.name_at.as_ptr(),
            table.name_at.len(),
            table.name_len.as_ptr(),
            table.name_len.len(),
            word,
            out.as_mut_ptr(),
            out.len(),
        )
    }
}

/// Writes the descriptor of a method to the front of `out`.
#[inline]
pub fn write_method(table: Columns, params: &[u64], result: u64, out: &mut [u8]) -> BpWritten {
    // SAFETY: pointers and lengths of live slices; the one that is written is borrowed for that alone.
    unsafe {
        ffi::bp_write_method(
            table.names.as_ptr(),
            table.names.len(),
            table.name_at.as_ptr(),
            table.name_at.len(),
            table.name_len.as_ptr(),
            table.name_len.len(),
            params.as_ptr(),
            params.len(),
            result,
            out.as_mut_ptr(),
            out.len(),
        )
    }
}

/// The class number of a name.
#[inline]
pub fn lookup(table: Columns, key: &[u8]) -> BpFound {
    // SAFETY: pointers and lengths of live slices, none of which is written.
    unsafe {
        ffi::bp_lookup(
            table.names.as_ptr(),
            table.names.len(),
            table.name_at.as_ptr(),
            table.name_at.len(),
            table.name_len.as_ptr(),
            table.name_len.len(),
            key.as_ptr(),
            key.len(),
        )
    }
}

/// A call of an exported function: the slices of a class table, then what is given. Not safe, as the call is not.
macro_rules! over_a_table {
    ($exported:ident, $table:ident $(, $more:expr)* $(,)?) => {
        ffi::$exported(
            $table.names.names.as_ptr(),
            $table.names.names.len(),
            $table.names.name_at.as_ptr(),
            $table.names.name_at.len(),
            $table.names.name_len.as_ptr(),
            $table.names.name_len.len(),
            $table.rec_flags.as_ptr(),
            $table.rec_flags.len(),
            $table.rec_class.as_ptr(),
            $table.rec_class.len(),
            $table.rec_at.as_ptr(),
            $table.rec_at.len(),
            $table.rec_len.as_ptr(),
            $table.rec_len.len(),
            $table.parents.as_ptr(),
            $table.parents.len(),
            $($more,)*
        )
    };
}

/// Whether a class table is accepted, and which row is refused if it is not.
#[inline]
pub fn check_table(table: ClassColumns) -> BpTable {
    // SAFETY: pointers and lengths of live slices, none of which is written.
    unsafe { over_a_table!(bp_check_table, table) }
}

/// Queries over a class table, which take the numbers asked about and the working slice.
macro_rules! queries {
    ($($(#[$doc:meta])* fn $name:ident($($number:ident),+) -> $answer:ty = $exported:ident;)+) => {$(
        $(#[$doc])*
        #[inline]
        pub fn $name(table: ClassColumns, $($number: u64,)+ work: &mut [u64]) -> $answer {
            // SAFETY: pointers and lengths of live slices; the one that is written is borrowed for that alone.
            unsafe {
                over_a_table!($exported, table, $($number,)+ work.as_mut_ptr(), work.len())
            }
        }
    )+};
}

queries! {
    /// How a class stands to another.
    fn relation(value, expected) -> BpRelation = bp_relation;
    /// How far an ancestor is.
    fn distance(value, expected) -> BpAnswer = bp_distance;
    /// The ancestors of a class.
    fn ancestors(class_no) -> BpSet = bp_ancestors;
    /// The least common supertype of two classes.
    fn supertype(left, right) -> BpAnswer = bp_supertype;
    /// Whether a cast can succeed.
    fn cast(source, target) -> BpAnswer = bp_cast;
    /// The word of the join of two types.
    fn join(left, right) -> BpAnswer = bp_join;
    /// Whether a value of one type may stand where the other is expected.
    fn assignable(value, expected) -> BpAnswer = bp_assignable;
}

/// Solves a problem over a class table.
#[inline]
pub fn solve(
    table: ClassColumns,
    problem: ProblemColumns,
    out: SolvedColumns,
    work: &mut [u64],
) -> BpSolved {
    // SAFETY: pointers and lengths of live slices; those that are written are each borrowed for that alone.
    unsafe {
        over_a_table!(
            bp_solve,
            table,
            problem.components,
            problem.var_comp.as_ptr(),
            problem.var_comp.len(),
            problem.bnd_comp.as_ptr(),
            problem.bnd_comp.len(),
            problem.bnd_kind.as_ptr(),
            problem.bnd_kind.len(),
            problem.bnd_type.as_ptr(),
            problem.bnd_type.len(),
            problem.flow_src.as_ptr(),
            problem.flow_src.len(),
            problem.flow_dst.as_ptr(),
            problem.flow_dst.len(),
            problem.up_src.as_ptr(),
            problem.up_src.len(),
            problem.up_dst.as_ptr(),
            problem.up_dst.len(),
            problem.read_arr.as_ptr(),
            problem.read_arr.len(),
            problem.read_res.as_ptr(),
            problem.read_res.len(),
            problem.write_arr.as_ptr(),
            problem.write_arr.len(),
            problem.write_val.as_ptr(),
            problem.write_val.len(),
            out.answers.as_mut_ptr(),
            out.answers.len(),
            out.out_comp.as_mut_ptr(),
            out.out_comp.len(),
            out.out_kind.as_mut_ptr(),
            out.out_kind.len(),
            out.out_type.as_mut_ptr(),
            out.out_type.len(),
            work.as_mut_ptr(),
            work.len(),
        )
    }
}
