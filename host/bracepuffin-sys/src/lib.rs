//! The functions that libbracepuffin.a exports, declared as in `include/bracepuffin.h`, which says what each does.
//!
//! Every pointer is that of a slice: non-null, aligned, good for as many elements as the length after it says.
//! A slice that is written overlaps no other. The numbers and bytes may be any. The crate `bracepuffin` has safe
//! functions over these.
//!
//! Whoever links this crate refers to `bp_abi_1`, as every C file does that includes the header: an archive whose
//! structs or parameters are others exports another number, and does not link.

#![no_std]
#![warn(missing_docs)]

/// A length or a place does not fit.
pub const BP_REFUSED_LENGTH: u64 = 3;
/// A name not above the one before it.
pub const BP_REFUSED_NAME_ORDER: u64 = 5;
/// Flags or a class number out of range.
pub const BP_REFUSED_NUMBER: u64 = 6;
/// No type word, or its class not in the table.
pub const BP_REFUSED_TYPE: u64 = 7;
/// One entry too many.
pub const BP_REFUSED_ROOM: u64 = 8;
/// No java/lang/Object.
pub const BP_REFUSED_NO_OBJECT: u64 = 9;
/// A name that is not well-formed.
pub const BP_REFUSED_UTF8: u64 = 10;
/// A descriptor that ends too early.
pub const BP_REFUSED_UNEXPECTED_END: u64 = 11;
/// A byte that begins no type.
pub const BP_REFUSED_UNEXPECTED_BYTE: u64 = 12;
/// A void where none is allowed.
pub const BP_REFUSED_VOID_NOT_ALLOWED: u64 = 13;
/// An empty class name.
pub const BP_REFUSED_EMPTY_OBJECT: u64 = 14;
/// Bytes after the end.
pub const BP_REFUSED_TRAILING_INPUT: u64 = 15;
/// A method without '('.
pub const BP_REFUSED_MISSING_METHOD_START: u64 = 16;
/// Parameters that do not end.
pub const BP_REFUSED_MISSING_METHOD_END: u64 = 17;
/// The 256th dimension.
pub const BP_REFUSED_TOO_MANY_DIMENSIONS: u64 = 18;
/// The 256th parameter.
pub const BP_REFUSED_TOO_MANY_PARAMETERS: u64 = 19;
/// A solve would make an array of 256 dimensions.
pub const BP_REFUSED_DEEP: u64 = 20;
/// A solve would add a bound past 4,096.
pub const BP_REFUSED_BOUNDS: u64 = 21;
/// A lent slice that is too short.
pub const BP_REFUSED_SHORT: u64 = 22;
/// A name that is not in the table.
pub const BP_REFUSED_ABSENT: u64 = 23;
/// A class name that the JVMS does not allow.
pub const BP_REFUSED_STRICT: u64 = 24;

/// Part of a table: columns of unequal length.
pub const BP_PART_COLUMNS: u64 = 0;
/// Part of a table: the names.
pub const BP_PART_NAMES: u64 = 1;
/// Part of a table: the records.
pub const BP_PART_RECORDS: u64 = 2;
/// Part of a table: java/lang/Object is not among the names.
pub const BP_PART_OBJECT: u64 = 3;

/// The flags of a row of the records that opens a layer above all rows before it; its class is 0, and it has no parents.
pub const BP_OPENS_LAYER: u64 = 0x8e;

/// The least number of words that a working slice must have.
pub const BP_WORK: usize = 8192;

/// The most final bounds of a solve: the least number of entries of each column that takes them.
pub const BP_BOUNDS: usize = 4096;

/// A type that was read.
#[repr(C)]
#[derive(Debug, Clone, Copy, PartialEq, Eq)]
pub struct BpType {
    /// Its number, 0 for none.
    pub refusal: u64,
    /// Where a descriptor is refused, for refusals that have an offset.
    pub offset: u64,
    /// The byte there, for refusal 12.
    pub byte: u64,
    /// Array dimensions.
    pub dims: u64,
    /// 0 for a primitive, 1 for a class.
    pub tag: u64,
    /// The category of a primitive.
    pub category: u64,
    /// Where the class's name begins in the descriptor.
    pub name_at: u64,
    /// How many bytes the name has.
    pub name_len: u64,
}

/// A method that was read, with its return type.
#[repr(C)]
#[derive(Debug, Clone, Copy, PartialEq, Eq)]
pub struct BpMethod {
    /// Its number, 0 for none.
    pub refusal: u64,
    /// Where a descriptor is refused, for refusals that have an offset.
    pub offset: u64,
    /// The byte there, for refusal 12.
    pub byte: u64,
    /// How many there are.
    pub count: u64,
    /// Where the return type begins.
    pub return_at: u64,
    /// Array dimensions.
    pub dims: u64,
    /// 0 for a primitive, 1 for a class.
    pub tag: u64,
    /// The category of a primitive.
    pub category: u64,
    /// Where the class's name begins in the descriptor.
    pub name_at: u64,
    /// How many bytes the name has.
    pub name_len: u64,
}

/// The number of bytes written.
#[repr(C)]
#[derive(Debug, Clone, Copy, PartialEq, Eq)]
pub struct BpWritten {
    /// Its number, 0 for none.
    pub refusal: u64,
    /// How many bytes.
    pub length: u64,
}

/// The class number of a name.
#[repr(C)]
#[derive(Debug, Clone, Copy, PartialEq, Eq)]
pub struct BpFound {
    /// Its number, 0 for none.
    pub refusal: u64,
    /// The name's place in the table.
    pub class_no: u64,
}

/// How a class stands to another.
#[repr(C)]
#[derive(Debug, Clone, Copy, PartialEq, Eq)]
pub struct BpRelation {
    /// Its number, 0 for none.
    pub refusal: u64,
    /// 0 Yes, 1 No, 2 Unknown.
    pub relation: u64,
}

/// A number, a class number, a word, or 0 and 1.
#[repr(C)]
#[derive(Debug, Clone, Copy, PartialEq, Eq)]
pub struct BpAnswer {
    /// Its number, 0 for none.
    pub refusal: u64,
    /// The answer.
    pub value: u64,
}

/// A set of classes.
#[repr(C)]
#[derive(Debug, Clone, Copy, PartialEq, Eq)]
pub struct BpSet {
    /// Its number, 0 for none.
    pub refusal: u64,
    /// How many there are.
    pub count: u64,
    /// The lowest class number.
    pub lowest: u64,
    /// Bit i % 64 of word i / 64 is class i.
    pub words: [u64; 16],
}

/// Whether a table is accepted, and where it is refused.
#[repr(C)]
#[derive(Debug, Clone, Copy, PartialEq, Eq)]
pub struct BpTable {
    /// Its number, 0 for none.
    pub refusal: u64,
    /// `BP_PART_COLUMNS` to `BP_PART_OBJECT`, 0 where nothing is refused.
    pub part: u64,
    /// The first refused row of that part.
    pub row: u64,
}

/// How a solve ended.
#[repr(C)]
#[derive(Debug, Clone, Copy, PartialEq, Eq)]
pub struct BpSolved {
    /// Its number, 0 for none.
    pub refusal: u64,
    /// How many final bounds there are.
    pub bounds: u64,
    /// How many turns it took.
    pub turns: u64,
}

extern "C" {
    /// The version of structs and parameters, which its name says: an archive with others has no function of this name.
    pub fn bp_abi_1() -> u64;
}

#[used]
static ABI: unsafe extern "C" fn() -> u64 = bp_abi_1;

extern "C" {
    /// Reads a type.
    pub fn bp_read_type(d: *const u8, d_n: usize) -> BpType;

    /// The same for class names as the JVMS has them.
    pub fn bp_read_type_strict(d: *const u8, d_n: usize) -> BpType;

    /// Reads a method.
    pub fn bp_read_method(d: *const u8, d_n: usize, params: *mut u64, params_n: usize) -> BpMethod;

    /// The same for class names as the JVMS has them.
    pub fn bp_read_method_strict(
        d: *const u8,
        d_n: usize,
        params: *mut u64,
        params_n: usize,
    ) -> BpMethod;

    /// Writes the descriptor of a type word.
    pub fn bp_write_type(
        names: *const u8,
        names_n: usize,
        name_at: *const u64,
        name_at_n: usize,
        name_len: *const u64,
        name_len_n: usize,
        r#type: u64,
        out: *mut u8,
        out_n: usize,
    ) -> BpWritten;

    /// Writes the descriptor of a method.
    pub fn bp_write_method(
        names: *const u8,
        names_n: usize,
        name_at: *const u64,
        name_at_n: usize,
        name_len: *const u64,
        name_len_n: usize,
        params: *const u64,
        params_n: usize,
        result: u64,
        out: *mut u8,
        out_n: usize,
    ) -> BpWritten;

    /// The class number of a name.
    pub fn bp_lookup(
        names: *const u8,
        names_n: usize,
        name_at: *const u64,
        name_at_n: usize,
        name_len: *const u64,
        name_len_n: usize,
        key: *const u8,
        key_n: usize,
    ) -> BpFound;
}

/// Functions over a class table: its eight slices come before what each takes more.
macro_rules! over_a_table {
    ($($(#[$doc:meta])* fn $name:ident($($more:ident: $kind:ty),* $(,)?) -> $answer:ty;)+) => {
        extern "C" {
            $($(#[$doc])* pub fn $name(
                names: *const u8,
                names_n: usize,
                name_at: *const u64,
                name_at_n: usize,
                name_len: *const u64,
                name_len_n: usize,
                rec_flags: *const u64,
                rec_flags_n: usize,
                rec_class: *const u64,
                rec_class_n: usize,
                rec_at: *const u64,
                rec_at_n: usize,
                rec_len: *const u64,
                rec_len_n: usize,
                parents: *const u64,
                parents_n: usize,
                $($more: $kind,)*
            ) -> $answer;)+
        }
    };
}

over_a_table! {
    /// How a class stands to another.
    fn bp_relation(value: u64, expected: u64, work: *mut u64, work_n: usize) -> BpRelation;
    /// How far an ancestor is.
    fn bp_distance(value: u64, expected: u64, work: *mut u64, work_n: usize) -> BpAnswer;
    /// The ancestors of a class.
    fn bp_ancestors(class_no: u64, work: *mut u64, work_n: usize) -> BpSet;
    /// The least common supertype.
    fn bp_supertype(left: u64, right: u64, work: *mut u64, work_n: usize) -> BpAnswer;
    /// Whether a cast can succeed.
    fn bp_cast(source: u64, target: u64, work: *mut u64, work_n: usize) -> BpAnswer;
    /// The join of two type words.
    fn bp_join(left: u64, right: u64, work: *mut u64, work_n: usize) -> BpAnswer;
    /// Whether a value of one type may stand where the other is expected.
    fn bp_assignable(value: u64, expected: u64, work: *mut u64, work_n: usize) -> BpAnswer;
    /// Whether a class table is accepted, and where it is refused.
    fn bp_check_table() -> BpTable;
    /// Solves a problem over a class table.
    fn bp_solve(
        components: u64,
        var_comp: *const u64,
        var_comp_n: usize,
        bnd_comp: *const u64,
        bnd_comp_n: usize,
        bnd_kind: *const u64,
        bnd_kind_n: usize,
        bnd_type: *const u64,
        bnd_type_n: usize,
        flow_src: *const u64,
        flow_src_n: usize,
        flow_dst: *const u64,
        flow_dst_n: usize,
        up_src: *const u64,
        up_src_n: usize,
        up_dst: *const u64,
        up_dst_n: usize,
        read_arr: *const u64,
        read_arr_n: usize,
        read_res: *const u64,
        read_res_n: usize,
        write_arr: *const u64,
        write_arr_n: usize,
        write_val: *const u64,
        write_val_n: usize,
        answers: *mut u64,
        answers_n: usize,
        out_comp: *mut u64,
        out_comp_n: usize,
        out_kind: *mut u64,
        out_kind_n: usize,
        out_type: *mut u64,
        out_type_n: usize,
        work: *mut u64,
        work_n: usize,
    ) -> BpSolved;
}
