/*
 * Bracepuffin from C: descriptors, names, class tables, joins of types, solves.
 *
 * Every function takes arbitrary numbers and bytes, allocates nothing and keeps nothing. A slice is a pointer and a
 * length in elements. The pointer is never null, not even for length 0; slices that are written overlap no other slice
 * of the call. A compiler that knows the attribute warns of a null.
 *
 * Each function over a table comes in two forms. Its own takes every slice, a query up to twenty arguments, a solve
 * fifty-one. The one with _of takes structs of them, a BpNames, a BpClasses or a BpProblem, and there a null with
 * length 0 is an empty slice, but for memory that is written.
 *
 * Whoever includes this header refers to bp_abi_1, so a program must be linked with an archive whose structs and
 * parameters are those below: one with others exports another number, and the linker says so.
 *
 * A result begins with its refusal, 0 for none: test it before any other field. In a refused result every other field
 * is 0, but for offset and byte where the refusal has them. A refused call leaves all lent memory as it came, but for
 * the working slice of a query or of a solve. The numbers below are those of BP_REFUSED_LENGTH and so on.
 *
 * UTF-8 is standard UTF-8, well-formed by Unicode. The modified form of class files is refused where it differs, c0 80
 * for NUL and six bytes for a supplementary character: 10 in a table of names, 12 in a descriptor. Convert it first.
 *
 * What a call takes from the stack at most, in KB of 1,024 bytes (tools/stack measures it). Give a thread that much more.
 *
 * stack: begin
 *     bp_read_type              9
 *     bp_read_type_strict       9
 *     bp_read_method           49
 *     bp_read_method_strict    49
 *     bp_write_type             1
 *     bp_write_method           1
 *     bp_lookup                 1
 *     bp_check_table          260
 *     bp_relation             262
 *     bp_distance             262
 *     bp_ancestors            262
 *     bp_supertype            264
 *     bp_cast                 262
 *     bp_join                 284
 *     bp_assignable           262
 *     bp_solve                641
 * stack: end
 *
 * A type is handed over as a word of 64 bits, see BP_PRIMITIVE, BP_CLASS and BP_ARRAY.
 */
#ifndef BRACEPUFFIN_H
#define BRACEPUFFIN_H

#include <stddef.h>
#include <stdint.h>

#ifdef __cplusplus
extern "C" {
#endif

#if defined(__GNUC__) || defined(__clang__)
#define BP_NONNULL __attribute__((nonnull))
#define BP_USED    __attribute__((used))
#else
#define BP_NONNULL
#define BP_USED
#endif

/* The version, which is in the name. */
uint64_t bp_abi_1(void);
static uint64_t (*const bp_abi)(void) BP_USED = bp_abi_1;

/* Refusals. After the colon: which of offset and byte they have. */
enum {
    BP_REFUSED_LENGTH = 3,                /* columns of unequal length; a name of no bytes or of more than 255, or not
                                             inside its slice; a record of more than 254 parents, or whose parents are
                                             not inside their slice; a row that opens a layer and has a class other
                                             than 0, or parents, or a place that is not inside */
    BP_REFUSED_NAME_ORDER = 5,            /* a name not above the one before it */
    BP_REFUSED_NUMBER = 6,                /* flags, a class or a parent of a record, a class asked about, or a component
                                             or kind of a problem's row, out of range */
    BP_REFUSED_TYPE = 7,                  /* no type word, or its class number not in the table */
    BP_REFUSED_ROOM = 8,                  /* more than 1,024 names, 24,576 name bytes, 4,096 distinct pairs of a class
                                             and a parent in one layer, four layers, or 255 parameters; of a problem,
                                             see BP_PROBLEM */
    BP_REFUSED_NO_OBJECT = 9,             /* a query or a solve over a table without the name java/lang/Object */
    BP_REFUSED_UTF8 = 10,                 /* a name that is not well-formed UTF-8 */
    BP_REFUSED_UNEXPECTED_END = 11,       /* the descriptor ends too early: offset */
    BP_REFUSED_UNEXPECTED_BYTE = 12,      /* a byte that begins no type, or a name not well-formed from here on:
                                             offset, byte */
    BP_REFUSED_VOID_NOT_ALLOWED = 13,     /* V where no void is allowed: offset */
    BP_REFUSED_EMPTY_OBJECT = 14,         /* an empty class name: offset, of the L */
    BP_REFUSED_TRAILING_INPUT = 15,       /* bytes after the end: offset */
    BP_REFUSED_MISSING_METHOD_START = 16, /* a method that does not begin with ( */
    BP_REFUSED_MISSING_METHOD_END = 17,   /* a parameter list that is not closed: offset */
    BP_REFUSED_TOO_MANY_DIMENSIONS = 18,  /* the 256th dimension of one type: offset */
    BP_REFUSED_TOO_MANY_PARAMETERS = 19,  /* the 256th parameter: offset */
    BP_REFUSED_DEEP = 20,                 /* a rule of the solve would insert an array of 256 dimensions */
    BP_REFUSED_BOUNDS = 21,               /* a rule of the solve would insert a new bound past 4,096 */
    BP_REFUSED_SHORT = 22,                /* fewer than 255 entries for parameters, less room than what is to be
                                             written, a working slice of fewer than 8,192 words, or too few entries
                                             for what a solve answers */
    BP_REFUSED_ABSENT = 23,               /* the name looked up is not in the table */
    BP_REFUSED_STRICT = 24                /* a name with '.', '[' or an empty part beside a slash: offset, of the L */
};

/* A slice as two parameters, read or written: BP_IN8(d) is `const uint8_t *d, size_t d_n`. */
#define BP_IN8(x)   const uint8_t *x, size_t x##_n
#define BP_IN64(x)  const uint64_t *x, size_t x##_n
#define BP_OUT8(x)  uint8_t *x, size_t x##_n
#define BP_OUT64(x) uint64_t *x, size_t x##_n

/*
 * A table of names: name i is the name_len[i] bytes of `names` from name_at[i] on, and its class number is i. Names
 * have 1 to 255 bytes of well-formed UTF-8 and come strictly ascending in byte order, a prefix first. Bytes of `names`
 * may be shared or unused.
 *
 * Each call checks its table: 3 for columns of unequal length, then name by name 3, 10, 5, 8.
 */
#define BP_NAMES BP_IN8(names), BP_IN64(name_at), BP_IN64(name_len)

/*
 * A class table: names as above, and records. Record j says that class rec_class[j] has the rec_len[j] entries of
 * `parents` from rec_at[j] on among its direct parents, 0 to 254 of them, all of them class numbers. Its flags are the
 * sum of BP_DECLARED, and with it BP_INTERFACE and BP_FINAL. Records come in any order. Several of one class unite
 * their parents, and the last declared one gives interface and final. A class is recorded when it has a record, even
 * one without parents. Cycles and parents of java/lang/Object are allowed; parents may be shared or unused.
 *
 * A row of the records whose flags are BP_OPENS_LAYER is no record: it opens a layer above all rows before it, and the
 * records after it are of that layer. Its rec_class and its rec_len are 0, and its rec_at lies inside `parents` or at
 * its end. A table has one layer without such a row, and four at most. What a layer records of a class takes the place
 * of what the layers below record of it; the records of one layer unite. Interface and final come from the topmost
 * layer with a declared record of the class, be its parents replaced or not. A class is recorded when a layer has a
 * record of it. All answers are those over the table that the layers show together.
 *
 * Each call checks its table: 3 for columns of unequal length, of names and of records; then name by name 3, 10, 5, 8;
 * then row by row of the records 3, 6, 8, where one that opens a layer has 3 and 8 alone. 4,096 pairs a layer: a pair
 * that the layer has already is never refused 8, one that only a layer below has counts anew.
 */
#define BP_TABLE BP_NAMES, BP_IN64(rec_flags), BP_IN64(rec_class), BP_IN64(rec_at), BP_IN64(rec_len), BP_IN64(parents)

/*
 * A problem for bp_solve: `components` components, and rows in columns. var_comp[i] is the component of variable i. A
 * bound says of its component a kind, BP_KIND_, and a type word. A flow and an upper flow lead from a source to a
 * target; a read takes a result out of an array, a write puts a value into one.
 *
 * Each call checks its problem: 3 for columns of unequal length; then 8 for more than 512 components; variables 6, 8;
 * bounds 6, 7, 8; flows, upper flows, reads and writes 6, 8. At most 2,048 variables, 4,096 distinct bounds, 2,048
 * flows, 1,024 upper flows, and 1,024 reads and writes together; a row that is already there is never refused 8.
 */
#define BP_PROBLEM uint64_t components, BP_IN64(var_comp), BP_IN64(bnd_comp), BP_IN64(bnd_kind), BP_IN64(bnd_type), \
                   BP_IN64(flow_src), BP_IN64(flow_dst), BP_IN64(up_src), BP_IN64(up_dst), \
                   BP_IN64(read_arr), BP_IN64(read_res), BP_IN64(write_arr), BP_IN64(write_val)

/* Kinds of bounds. */
enum { BP_KIND_DOMAIN = 0, BP_KIND_FALLBACK = 1, BP_KIND_UPPER = 2, BP_KIND_LOWER = 3, BP_KIND_EXACT = 4 };

/* Flags of a record; 0 is a record that is not declared. And those of a row that opens a layer, see BP_TABLE. */
enum { BP_DECLARED = 1, BP_INTERFACE = 2, BP_FINAL = 4 };
#define BP_OPENS_LAYER 0x8e

/* The least number of words that a working slice must have, and one that has them. */
#define BP_WORK 8192

typedef struct BpWork {
    uint64_t words[BP_WORK];
} BpWork;

/*
 * The same tables as structs, for the functions with _of. One count stands for all columns of names and one for all of
 * records, so none is longer than another. A pointer may be null where its length or count is 0.
 */
typedef struct BpNames {
    const uint8_t *names;
    size_t names_n;
    const uint64_t *name_at, *name_len;
    size_t name_count;
} BpNames;

typedef struct BpClasses {
    BpNames names;
    const uint64_t *rec_flags, *rec_class, *rec_at, *rec_len;
    size_t rec_count;
    const uint64_t *parents;
    size_t parents_n;
} BpClasses;

/* Categories of primitives. 9 and 10 stand for a class and an array that are not named; they are written L and [. */
enum {
    BP_VOID = 0, BP_BOOLEAN = 1, BP_BYTE = 2, BP_SHORT = 3, BP_CHAR = 4, BP_INT = 5, BP_LONG = 6, BP_FLOAT = 7,
    BP_DOUBLE = 8, BP_OBJECT = 9, BP_ARRAY_OF_ANY = 10
};

/* Tags of what was read and of words. An Unknown is written as '?'. */
enum { BP_TAG_PRIMITIVE = 0, BP_TAG_CLASS = 1, BP_TAG_UNKNOWN = 2 };

/* A problem as a struct: one count stands for all columns of a kind of row. */
typedef struct BpProblem {
    uint64_t components;
    const uint64_t *var_comp;
    size_t var_count;
    const uint64_t *bnd_comp, *bnd_kind, *bnd_type;
    size_t bnd_count;
    const uint64_t *flow_src, *flow_dst;
    size_t flow_count;
    const uint64_t *up_src, *up_dst;
    size_t up_count;
    const uint64_t *read_arr, *read_res;
    size_t read_count;
    const uint64_t *write_arr, *write_val;
    size_t write_count;
} BpProblem;

/* The most final bounds, and columns that take them. */
#define BP_BOUNDS 4096

typedef struct BpBounds {
    uint64_t comp[BP_BOUNDS], kind[BP_BOUNDS], type[BP_BOUNDS];
} BpBounds;

/*
 * Type words: a primitive by its category, a class by its number, and the array with so many more dimensions over a
 * word, which may be an array's. In sum at most 255: beyond it the word wraps, and 256 dimensions are none. No call
 * can see that.
 */
#define BP_PRIMITIVE(category)   ((uint64_t)(category))
#define BP_CLASS(class_no)       ((uint64_t)BP_TAG_CLASS << 48 | (uint64_t)(class_no))
#define BP_ARRAY(dims, word)     (((uint64_t)(dims) << 56) + (uint64_t)(word))

/* The most parameters a method may have; the least number of entries that a parameter slice must have. */
#define BP_PARAMS 255

/*
 * Room for whatever may be written: a type has at most 255 dimensions and a name of 255 bytes between L and ;, a method
 * 255 parameters and a result between and after its brackets.
 */
#define BP_TYPE_BYTES   512
#define BP_METHOD_BYTES 131074

/*
 * A type that was read. tag BP_TAG_PRIMITIVE: category is 0 to 8 and the name fields are 0. tag BP_TAG_CLASS: category
 * is 0, and the name is the name_len bytes of the descriptor from name_at on, of any length.
 */
typedef struct BpType {
    uint64_t refusal, offset, byte;
    uint64_t dims, tag, category, name_at, name_len;
} BpType;

/* A method that was read: the number of parameters, where the return type begins, and the return type as in BpType. */
typedef struct BpMethod {
    uint64_t refusal, offset, byte;
    uint64_t count, return_at;
    uint64_t dims, tag, category, name_at, name_len;
} BpMethod;

/* The number of bytes written. */
typedef struct BpWritten {
    uint64_t refusal, length;
} BpWritten;

/* The class number of a name. */
typedef struct BpFound {
    uint64_t refusal, class_no;
} BpFound;

/* How a class stands to another. */
typedef struct BpRelation {
    uint64_t refusal, relation;
} BpRelation;

/* A number, a class number, or 0 and 1. */
typedef struct BpAnswer {
    uint64_t refusal, value;
} BpAnswer;

/* A set of classes: bit i % 64, from the low end, of words[i / 64] is class i. */
typedef struct BpSet {
    uint64_t refusal, count, lowest;
    uint64_t words[16];
} BpSet;

/* Whether a table is accepted, and if not, which row of which part is refused first. */
typedef struct BpTable {
    uint64_t refusal, part, row;
} BpTable;

/* A solve: how many final bounds there are, and how many turns it took. */
typedef struct BpSolved {
    uint64_t refusal, bounds, turns;
} BpSolved;

/* Parts of a table: columns of unequal length, a name, a record, no java/lang/Object. row is 0 for the first and last. */
enum { BP_PART_COLUMNS = 0, BP_PART_NAMES = 1, BP_PART_RECORDS = 2, BP_PART_OBJECT = 3 };

/* Values of BpRelation. BP_REL_UNKNOWN: no, as far as is recorded, but a class that is reached has no record. */
enum { BP_REL_YES = 0, BP_REL_NO = 1, BP_REL_UNKNOWN = 2 };

/* The distance of a java/lang/Object that is not reached; of a class that is no ancestor; no class. */
#define BP_UNREACHED UINT64_C(4611686018427387903)
#define BP_NONE      UINT64_MAX

/*
 * Reads a type; V alone is one. The first fault in reading order is refused:
 * 11, 12, 13, 14, 18; then 15. In a class 11 (no ';') comes before 14, and 14 before 12.
 */
BpType bp_read_type(BP_IN8(d)) BP_NONNULL;

/* The same, and a type that would be accepted is refused 24 where its class name is not as the JVMS has it. */
BpType bp_read_type_strict(BP_IN8(d)) BP_NONNULL;

/*
 * Reads a method. params[i] becomes the offset of the first byte of parameter i, for i below count; entries from count
 * on stay. Parameter i ends where the next one begins, the last one before the ')' at return_at - 1.
 * 22 first, even where there is no parameter; 16; then in reading order 17, 19 and the faults of a type (in a
 * parameter V is 13), those of the return type, 15.
 */
BpMethod bp_read_method(BP_IN8(d), BP_OUT64(params)) BP_NONNULL;

/* The same, and a method that would be accepted is refused 24 at its first class name that is not as the JVMS has it. */
BpMethod bp_read_method_strict(BP_IN8(d), BP_OUT64(params)) BP_NONNULL;

/*
 * Writes the descriptor of a type word to the front of out; bytes past the length stay. At most BP_TYPE_BYTES.
 * 3, 10, 5, 8 for the table; 7; 22.
 */
BpWritten bp_write_type(BP_NAMES, uint64_t type, BP_OUT8(out)) BP_NONNULL;

/*
 * Writes the descriptor of a method to the front of out; bytes past the length stay. At most BP_METHOD_BYTES.
 * 3, 10, 5, 8 for the table; 8 for more than 255 parameters; 7 for any of the words; 22.
 */
BpWritten bp_write_method(BP_NAMES, BP_IN64(params), uint64_t result, BP_OUT8(out)) BP_NONNULL;

/* The class number of a name; the key may be any bytes, of any number. 3, 10, 5, 8 for the table; 23. */
BpFound bp_lookup(BP_NAMES, BP_IN8(key)) BP_NONNULL;

/*
 * Queries over a class table. They refuse 22; 3, 10, 5, 6, 8 for the table, as above; 6 for a class number asked about;
 * 9. `work` is scratch: what it holds before is without effect, and afterwards every word of it is 0, also where
 * the call is refused. Only 22 leaves it as it came. It is read, so that only words that are not 0 are written: under a
 * tool that watches for memory without a value, such as valgrind, give it one before the first call.
 *
 * An ancestor of a class is the class itself, every class reached from it by the parents that are recorded, and
 * java/lang/Object.
 */

/* BP_REL_YES where `expected` is an ancestor of `value`; else BP_REL_UNKNOWN where a class that is reached from `value`, or it
 * itself, has no record; else BP_REL_NO. */
BpRelation bp_relation(BP_TABLE, uint64_t value, uint64_t expected, BP_OUT64(work)) BP_NONNULL;

/* The least number of steps from `value` to `expected`; BP_UNREACHED for a java/lang/Object that no step leads to;
 * BP_NONE for no ancestor. */
BpAnswer bp_distance(BP_TABLE, uint64_t value, uint64_t expected, BP_OUT64(work)) BP_NONNULL;

/* The ancestors of a class, how many they are, and the lowest. */
BpSet bp_ancestors(BP_TABLE, uint64_t class_no, BP_OUT64(work)) BP_NONNULL;

/*
 * The least common supertype: `right` where it is an ancestor of `left`; else `left` where it is one of `right`; else,
 * of the common ancestors that have no other strictly below them, the first by the greater of its two distances, by
 * their sum, by name. BP_NONE would be none, but java/lang/Object is always common.
 */
BpAnswer bp_supertype(BP_TABLE, uint64_t left, uint64_t right, BP_OUT64(work)) BP_NONNULL;

/*
 * 1 where a cast from `source` to `target` can succeed, else 0. It can where either is an ancestor of the other; else
 * where both are declared and both are interfaces, or one is and the other is not final.
 */
BpAnswer bp_cast(BP_TABLE, uint64_t source, uint64_t target, BP_OUT64(work)) BP_NONNULL;

/*
 * Queries about two type words over a class table. They refuse 22; 3, 10, 5, 6, 8 for the table; 7 for either word;
 * 9, also where no class is asked about. `work` is as above.
 */

/* The word of the join of two types. It is not symmetric: a list of two primitives begins with the left one. */
BpAnswer bp_join(BP_TABLE, uint64_t left, uint64_t right, BP_OUT64(work)) BP_NONNULL;

/*
 * 1 where a value of one type may stand where the other is expected, else 0. Of two classes only the relation BP_REL_NO
 * keeps the one from being assignable to the other.
 */
BpAnswer bp_assignable(BP_TABLE, uint64_t value, uint64_t expected, BP_OUT64(work)) BP_NONNULL;

/*
 * Whether queries over this table are refused for its sake, and where: refusal is what each of them is refused with
 * that has a working slice long enough and asks about classes or types of the table. part is a BP_PART_, and row the
 * first refused one of it: name row of the names, row of the records, those that open a layer counted too. What is
 * accepted is 0, 0, 0.
 */
BpTable bp_check_table(BP_TABLE) BP_NONNULL;

/*
 * Solves a problem over a class table: answers[i] becomes the type word of variable i, or BP_NONE for none, and the
 * first `bounds` rows of the out columns the final bounds, ascending by component, kind and type. Entries past these
 * stay. answers has at least as many entries as there are variables, each out column BP_BOUNDS, work BP_WORK.
 * 22; 3 for the table, 3 for the problem; the table, the problem, 9; then, where a rule would insert a bound, 20 or 21.
 * A refused call leaves answers and the out columns as they came; work is 0 afterwards, but for 22.
 */
BpSolved bp_solve(BP_TABLE, BP_PROBLEM, BP_OUT64(answers), BP_OUT64(out_comp), BP_OUT64(out_kind), BP_OUT64(out_type),
                  BP_OUT64(work)) BP_NONNULL;

/*
 * The forms over structs. Each calls the function of its name, to which all above applies.
 */
static const uint64_t bp_nothing[1] = {0};
#define BP_BYTES_(p)   ((p) ? (p) : (const uint8_t *)bp_nothing)
#define BP_WORDS_(p)   ((p) ? (p) : bp_nothing)
#define BP_NAMES_(t)   BP_BYTES_((t)->names), (t)->names_n, BP_WORDS_((t)->name_at), (t)->name_count, \
                       BP_WORDS_((t)->name_len), (t)->name_count
#define BP_CLASSES_(t) BP_NAMES_(&(t)->names), BP_WORDS_((t)->rec_flags), (t)->rec_count, \
                       BP_WORDS_((t)->rec_class), (t)->rec_count, BP_WORDS_((t)->rec_at), (t)->rec_count, \
                       BP_WORDS_((t)->rec_len), (t)->rec_count, BP_WORDS_((t)->parents), (t)->parents_n

static inline BpWritten bp_write_type_of(const BpNames *t, uint64_t type, uint8_t *out, size_t out_n) {
    return bp_write_type(BP_NAMES_(t), type, out, out_n);
}

static inline BpWritten bp_write_method_of(const BpNames *t, const uint64_t *params, size_t params_n, uint64_t result,
                                           uint8_t *out, size_t out_n) {
    return bp_write_method(BP_NAMES_(t), BP_WORDS_(params), params_n, result, out, out_n);
}

static inline BpFound bp_lookup_of(const BpNames *t, const uint8_t *key, size_t key_n) {
    return bp_lookup(BP_NAMES_(t), BP_BYTES_(key), key_n);
}

static inline BpTable bp_check_table_of(const BpClasses *t) {
    return bp_check_table(BP_CLASSES_(t));
}

static inline BpRelation bp_relation_of(const BpClasses *t, uint64_t value, uint64_t expected, BpWork *work) {
    return bp_relation(BP_CLASSES_(t), value, expected, work->words, BP_WORK);
}

static inline BpAnswer bp_distance_of(const BpClasses *t, uint64_t value, uint64_t expected, BpWork *work) {
    return bp_distance(BP_CLASSES_(t), value, expected, work->words, BP_WORK);
}

static inline BpSet bp_ancestors_of(const BpClasses *t, uint64_t class_no, BpWork *work) {
    return bp_ancestors(BP_CLASSES_(t), class_no, work->words, BP_WORK);
}

static inline BpAnswer bp_supertype_of(const BpClasses *t, uint64_t left, uint64_t right, BpWork *work) {
    return bp_supertype(BP_CLASSES_(t), left, right, work->words, BP_WORK);
}

static inline BpAnswer bp_cast_of(const BpClasses *t, uint64_t source, uint64_t target, BpWork *work) {
    return bp_cast(BP_CLASSES_(t), source, target, work->words, BP_WORK);
}

static inline BpAnswer bp_join_of(const BpClasses *t, uint64_t left, uint64_t right, BpWork *work) {
    return bp_join(BP_CLASSES_(t), left, right, work->words, BP_WORK);
}

static inline BpAnswer bp_assignable_of(const BpClasses *t, uint64_t value, uint64_t expected, BpWork *work) {
    return bp_assignable(BP_CLASSES_(t), value, expected, work->words, BP_WORK);
}

/* answers has an entry for each variable; null has none, and is refused 22 where there are variables. */
static inline BpSolved bp_solve_of(const BpClasses *t, const BpProblem *p, uint64_t *answers, BpBounds *out,
                                   BpWork *work) {
    static uint64_t none[1];
    return bp_solve(BP_CLASSES_(t), p->components, BP_WORDS_(p->var_comp), p->var_count,
                    BP_WORDS_(p->bnd_comp), p->bnd_count, BP_WORDS_(p->bnd_kind), p->bnd_count,
                    BP_WORDS_(p->bnd_type), p->bnd_count, BP_WORDS_(p->flow_src), p->flow_count,
                    BP_WORDS_(p->flow_dst), p->flow_count, BP_WORDS_(p->up_src), p->up_count,
                    BP_WORDS_(p->up_dst), p->up_count, BP_WORDS_(p->read_arr), p->read_count,
                    BP_WORDS_(p->read_res), p->read_count, BP_WORDS_(p->write_arr), p->write_count,
                    BP_WORDS_(p->write_val), p->write_count, answers ? answers : none, answers ? p->var_count : 0,
                    out->comp, BP_BOUNDS, out->kind, BP_BOUNDS, out->type, BP_BOUNDS, work->words, BP_WORK);
}

/*
 * How many bytes a writer needs, which its 22 does not say: of a legal word over names that are accepted. Of others it
 * is some number, and the writer refuses them.
 */
static inline size_t bp_type_length(const BpNames *t, uint64_t type) {
    uint64_t class_no = type & UINT64_C(0xffffffffffff);
    size_t dims = (size_t)(type >> 56), base = 1;
    if (((type >> 48) & 0xff) == BP_TAG_CLASS && class_no < t->name_count) base = (size_t)t->name_len[class_no] + 2;
    return dims + base;
}

static inline size_t bp_method_length(const BpNames *t, const uint64_t *params, size_t params_n, uint64_t result) {
    size_t i, length = 2 + bp_type_length(t, result);
    for (i = 0; i < params_n; i++) length += bp_type_length(t, params[i]);
    return length;
}

#ifdef __cplusplus
}
#endif

#endif
