/*
 * Worked calls from C, task by task as in docs/MANUAL.md: a method's descriptor read and written again, questions to a
 * class table, where a table is refused, questions about types, a solve. The manual shows the parts between the marks
 * `manual: NAME` and `manual: end`, and every line that is printed; a test compares both.
 *
 *     cc -I include examples/call.c ../target/staticlib/libbracepuffin.a -o call && ./call
 */
#include "bracepuffin.h"
#include <inttypes.h>
#include <stdbool.h>
#include <stdio.h>
#include <string.h>

/* manual: table */
static const uint8_t bytes[] = "a/Probea/TrussAa/TrussBjava/lang/Objectjava/lang/String";
static const uint64_t name_at[] = {0, 7, 15, 23, 39};
static const uint64_t name_len[] = {7, 8, 8, 16, 16};
static const uint64_t rec_class[] = {0, 1, 2, 3};
static const uint64_t rec_flags[] = {BP_DECLARED | BP_INTERFACE, BP_DECLARED,
                                     BP_DECLARED | BP_FINAL, BP_DECLARED};
static const uint64_t rec_at[] = {0, 1, 1, 0};
static const uint64_t rec_len[] = {1, 1, 1, 0};
static const uint64_t parents[] = {3, 0};
static const BpClasses table = {
    .names = {.names = bytes, .names_n = sizeof bytes - 1,
              .name_at = name_at, .name_len = name_len, .name_count = 5},
    .rec_flags = rec_flags, .rec_class = rec_class, .rec_at = rec_at, .rec_len = rec_len,
    .rec_count = 4, .parents = parents, .parents_n = 2
};
enum { PROBE, TRUSS_A, TRUSS_B, OBJECT, STRING };
/* manual: end */

/* manual: refused */
/* Whether a call was refused; if so, says with what. A descriptor's refusal has an offset. */
static bool refused(const char *call, uint64_t refusal, uint64_t offset) {
    if (refusal == 0) return false;
    printf("%s: refusal %" PRIu64 ", offset %" PRIu64 "\n", call, refusal, offset);
    return true;
}
/* manual: end */

/* manual: word */
/* The word of the type whose descriptor is the n bytes at d. */
static bool word_of(const uint8_t *d, size_t n, uint64_t *word) {
    BpType t = bp_read_type(d, n);
    if (refused("bp_read_type", t.refusal, t.offset)) return false;
    uint64_t base = BP_PRIMITIVE(t.category);
    if (t.tag == BP_TAG_CLASS) {
        BpFound found = bp_lookup_of(&table.names, d + t.name_at, t.name_len);
        if (refused("bp_lookup", found.refusal, 0)) return false;
        base = BP_CLASS(found.class_no);
    }
    *word = BP_ARRAY(t.dims, base);
    printf("%.*s is %016" PRIx64 "\n", (int)n, (const char *)d, *word);
    return true;
}
/* manual: end */

/* manual: method */
/* Reads the descriptor of a method, and writes it again from the words of its types. */
static bool rewrite(const char *text) {
    const uint8_t *d = (const uint8_t *)text;
    size_t n = strlen(text);
    static uint8_t out[BP_METHOD_BYTES];
    uint64_t params[BP_PARAMS], words[BP_PARAMS], result;

    BpMethod m = bp_read_method(d, n, params, BP_PARAMS);
    if (refused("bp_read_method", m.refusal, m.offset)) return false;
    for (size_t i = 0; i < m.count; i++) {
        size_t end = i + 1 < m.count ? params[i + 1] : m.return_at - 1;
        if (!word_of(d + params[i], end - params[i], &words[i])) return false;
    }
    if (!word_of(d + m.return_at, n - m.return_at, &result)) return false;
    BpWritten w = bp_write_method_of(&table.names, words, m.count, result, out, sizeof out);
    if (refused("bp_write_method", w.refusal, 0)) return false;
    printf("%" PRIu64 " parameters, written: %.*s\n", m.count, (int)w.length, (char *)out);
    return true;
}
/* manual: end */

/* manual: questions */
static BpWork work; /* 64 KB of scratch: every question is lent one */

static void relation(const char *what, uint64_t value, uint64_t expected) {
    static const char *const said[] = {"Yes", "No", "Unknown"};
    BpRelation r = bp_relation_of(&table, value, expected, &work);
    if (!refused("bp_relation", r.refusal, 0)) printf("%s: %s\n", what, said[r.relation]);
}

static void answer(const char *what, BpAnswer a) {
    if (!refused(what, a.refusal, 0)) printf("%s: %" PRIu64 "\n", what, a.value);
}

static void ask_classes(void) {
    relation("is a TrussA a Probe", TRUSS_A, PROBE);
    relation("is a Probe a TrussA", PROBE, TRUSS_A);
    relation("is a String a Probe", STRING, PROBE);
    answer("steps from TrussA to Object", bp_distance_of(&table, TRUSS_A, OBJECT, &work));
    answer("first above TrussA and TrussB", bp_supertype_of(&table, TRUSS_A, TRUSS_B, &work));
    answer("cast from TrussA to TrussB", bp_cast_of(&table, TRUSS_A, TRUSS_B, &work));
    BpSet above = bp_ancestors_of(&table, TRUSS_A, &work);
    if (!refused("bp_ancestors", above.refusal, 0))
        printf("above TrussA: %" PRIu64 ", bits %" PRIx64 "\n", above.count, above.words[0]);
    answer("bp_distance", bp_distance_of(&table, TRUSS_A, 5, &work)); /* there is no class 5 */
}
/* manual: end */

/* manual: fault */
static void find_fault(void) {
    static const uint64_t wrong[] = {3, 9}; /* record 1 is the first with parent 9 */
    BpClasses faulty = table;
    faulty.parents = wrong;
    BpTable t = bp_check_table_of(&faulty);
    printf("refusal %" PRIu64 ", part %" PRIu64 ", row %" PRIu64 "\n",
           t.refusal, t.part, t.row);
}
/* manual: end */

/* manual: types */
static void word(const char *what, BpAnswer a) {
    if (!refused(what, a.refusal, 0)) printf("%s: %016" PRIx64 "\n", what, a.value);
}

static void ask_types(void) {
    uint64_t z = BP_PRIMITIVE(BP_BOOLEAN), c = BP_PRIMITIVE(BP_CHAR);
    uint64_t s = BP_PRIMITIVE(BP_SHORT), i = BP_PRIMITIVE(BP_INT);
    word("TrussA with TrussB", bp_join_of(&table, BP_CLASS(TRUSS_A), BP_CLASS(TRUSS_B), &work));
    word("boolean with int", bp_join_of(&table, z, i, &work));
    word("int[] with char[]", bp_join_of(&table, BP_ARRAY(1, i), BP_ARRAY(1, c), &work));
    answer("char to int", bp_assignable_of(&table, c, i, &work));
    answer("char to short", bp_assignable_of(&table, c, s, &work));
    answer("String to Probe",
           bp_assignable_of(&table, BP_CLASS(STRING), BP_CLASS(PROBE), &work));
    word("bp_join", bp_join_of(&table, BP_CLASS(5), i, &work)); /* there is no class 5 */
}
/* manual: end */

/* manual: solve */
static void solve(void) {
    static const uint64_t var_comp[] = {0, 1};
    static const uint64_t bnd_comp[] = {0, 0, 1};
    static const uint64_t bnd_kind[] = {BP_KIND_LOWER, BP_KIND_LOWER, BP_KIND_UPPER};
    static const uint64_t bnd_type[] = {BP_CLASS(TRUSS_A), BP_CLASS(TRUSS_B), BP_CLASS(PROBE)};
    static const uint64_t flow_src[] = {0}, flow_dst[] = {1};
    const BpProblem problem = {
        .components = 2, .var_comp = var_comp, .var_count = 2,
        .bnd_comp = bnd_comp, .bnd_kind = bnd_kind, .bnd_type = bnd_type, .bnd_count = 3,
        .flow_src = flow_src, .flow_dst = flow_dst, .flow_count = 1
    };
    static BpBounds final; /* 96 KB: the bounds that the solve ends with */
    uint64_t answers[2];

    BpSolved s = bp_solve_of(&table, &problem, answers, &final, &work);
    if (refused("bp_solve", s.refusal, 0)) return;
    for (size_t i = 0; i < problem.var_count; i++)
        printf("variable %zu: %016" PRIx64 "\n", i, answers[i]);
    printf("%" PRIu64 " bounds after %" PRIu64 " turns\n", s.bounds, s.turns);
    for (size_t i = 0; i < s.bounds; i++)
        printf("component %" PRIu64 ", kind %" PRIu64 ": %016" PRIx64 "\n",
               final.comp[i], final.kind[i], final.type[i]);
}
/* manual: end */

/* What is not printed: nulls where there is nothing, how much a writer needs, and a byte less. */
static bool beside(void) {
    static const uint64_t at[] = {0}, len[] = {16};
    const uint8_t *object = bytes + 23;
    BpClasses alone = {.names = {.names = object, .names_n = 16, .name_at = at, .name_len = len, .name_count = 1}};
    BpNames none = {0};
    uint64_t params[] = {BP_ARRAY(2, BP_CLASS(STRING)), BP_PRIMITIVE(BP_LONG)}, result = BP_CLASS(OBJECT);
    size_t length = bp_method_length(&table.names, params, 2, result);
    uint8_t out[64];
    BpWritten w = bp_write_type_of(&none, BP_ARRAY(1, BP_INT), out, 2);
    return w.refusal == 0 && w.length == 2 && memcmp(out, "[I", 2) == 0
        && bp_lookup_of(&none, NULL, 0).refusal == BP_REFUSED_ABSENT
        && bp_check_table_of(&alone).refusal == 0 && bp_relation_of(&alone, 0, 0, &work).refusal == 0
        && bp_check_table_of(&table).refusal == 0
        && bp_write_method_of(&table.names, params, 2, result, out, length).length == length
        && bp_write_method_of(&table.names, params, 2, result, out, length - 1).refusal == BP_REFUSED_SHORT;
}

int main(void) {
    /* manual: calls */
    rewrite("([La/TrussA;I)Ljava/lang/String;");
    rewrite("(I[V)V");
    rewrite("()La/Other;");
    /* manual: end */
    ask_classes();
    find_fault();
    ask_types();
    solve();
    return beside() ? 0 : 1;
}
