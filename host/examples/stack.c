/*
 * The stack that each call takes, in bytes, on the inputs that take most: each is run on a stack of its own that was
 * painted before, and from its caller's frame down what is no longer paint is counted, the call's arguments among it.
 * tools/stack makes it, runs it, and holds the documents to what it prints.
 */
#define _GNU_SOURCE
#include <inttypes.h>
#include <pthread.h>
#include <stdint.h>
#include <stdio.h>
#include <stdlib.h>
#include <string.h>
#include <sys/mman.h>

#include "bracepuffin.h"

enum { STACK = 2 << 20, NAMES = 1024, PAIRS = 4092, LAYERS = 4, ROWS = LAYERS * (NAMES + 1), PAINT = 0xa5 };

/* ---- the largest table: 1,023 names that are not ASCII and java/lang/Object, four parents a class. With cycles, classes 2
   to 65 are above each other, and 0 and 1 below them, so that no order of the classes settles a supertype. Of several
   layers each has all records. */

#define PREFIX "a\xc3\x9f\xc3\x9f\xc3\x9f\xc3\x9f\xc3\x9f\xc3\x9f\xf0\x9f\x98\x80"

static uint8_t bytes[NAMES * 24];
static uint64_t name_at[NAMES], name_len[NAMES];
static uint64_t rec_flags[ROWS], rec_class[ROWS], rec_at[ROWS], rec_len[ROWS], parents[PAIRS];
static size_t bytes_n, rows;
static uint64_t work[BP_WORK];

static void add_row(uint64_t flags, uint64_t class_no, uint64_t at, uint64_t len) {
    rec_flags[rows] = flags;
    rec_class[rows] = class_no;
    rec_at[rows] = at;
    rec_len[rows] = len;
    rows++;
}

static void make_table(int cycles, int layers) {
    bytes_n = rows = 0;
    for (size_t i = 0; i < NAMES; i++) {
        char text[32];
        int n = i + 1 < NAMES ? snprintf(text, sizeof text, PREFIX "%04zu", i) : snprintf(text, sizeof text, "java/lang/Object");
        name_at[i] = bytes_n;
        name_len[i] = (uint64_t)n;
        memcpy(bytes + bytes_n, text, (size_t)n);
        bytes_n += (size_t)n;
    }
    for (int layer = 0; layer < layers; layer++) {
        if (layer > 0) add_row(BP_OPENS_LAYER, 0, 0, 0);
        for (size_t i = 0; i < NAMES; i++) add_row(BP_DECLARED, i, 4 * i, i + 1 < NAMES ? 4 : 0);
    }
    for (size_t i = 0; i < NAMES; i++) {
        for (size_t j = 0; i + 1 < NAMES && j < 4; j++) {
            size_t above = i / 8 * 8 + 8 + (i + j) % 8;
            if (cycles && i < 2) above = 2 + j;
            if (cycles && i >= 2 && i < 66) above = 2 + (i - 1 + j) % 64;
            parents[4 * i + j] = above < NAMES ? above : NAMES - 1;
        }
    }
}

#define TABLE \
    bytes, bytes_n, name_at, NAMES, name_len, NAMES, rec_flags, rows, rec_class, rows, rec_at, rows, rec_len, rows, parents, PAIRS

/* ---- the largest problem: every kind of row, arrays of up to 255 dimensions; and one that joins such arrays and asks them of many
   upper bounds, and comes to its end */

enum { COMPONENTS = 512, VARIABLES = 2048, BOUNDS = 2048, FLOWS = 2048, UPPERS = 1024, READS = 512, WRITES = 512 };
static uint64_t var_comp[VARIABLES], bnd_comp[BOUNDS], bnd_kind[BOUNDS], bnd_type[BOUNDS], flow_src[FLOWS], flow_dst[FLOWS];
static uint64_t up_src[UPPERS], up_dst[UPPERS], read_arr[READS], read_res[READS], write_arr[WRITES], write_val[WRITES];
static uint64_t answers[VARIABLES], out_comp[BP_BOUNDS], out_kind[BP_BOUNDS], out_type[BP_BOUNDS];

static void make_problem(void) {
    for (size_t i = 0; i < VARIABLES; i++) var_comp[i] = i % COMPONENTS;
    for (size_t i = 0; i < BOUNDS; i++) {
        bnd_comp[i] = i % COMPONENTS;
        bnd_kind[i] = i % 5;
        bnd_type[i] = BP_ARRAY(i % 256, BP_CLASS(i % (NAMES - 1)));
    }
    for (size_t i = 0; i < FLOWS; i++) flow_src[i] = i % COMPONENTS, flow_dst[i] = (i * 7 + i / COMPONENTS) % COMPONENTS;
    for (size_t i = 0; i < UPPERS; i++) up_src[i] = i % COMPONENTS, up_dst[i] = (i * 5 + i / COMPONENTS) % COMPONENTS;
    for (size_t i = 0; i < READS; i++) read_arr[i] = i, read_res[i] = (i * 3) % COMPONENTS;
    for (size_t i = 0; i < WRITES; i++) write_arr[i] = i, write_val[i] = (i * 11) % COMPONENTS;
}

enum { DEEP = 64 };
static uint64_t deep_comp[DEEP], deep_kind[DEEP], deep_type[DEEP];

static void make_deep(void) {
    for (size_t i = 0; i < DEEP; i++) {
        deep_comp[i] = 0;
        deep_kind[i] = i < 8 ? BP_KIND_LOWER : i < 24 ? BP_KIND_UPPER : i < 32 ? BP_KIND_FALLBACK : BP_KIND_DOMAIN;
        deep_type[i] = BP_ARRAY(255, BP_CLASS(i % 8));
    }
}

/* ---- one call each; a refusal that is not expected ends the program */

static void must(const char *call, uint64_t refusal, uint64_t expected) {
    if (refusal == expected) return;
    printf("%s: refusal %" PRIu64 "\n", call, refusal);
    exit(1);
}

static void solve_deep(void) {
    static const uint64_t from[] = {0}, to[] = {1};
    BpSolved s = bp_solve(TABLE, 2, var_comp, 2, deep_comp, DEEP, deep_kind, DEEP, deep_type, DEEP, from, 1, to, 1,
                          from, 0, to, 0, from, 0, to, 0, from, 0, to, 0, answers, VARIABLES,
                          out_comp, BP_BOUNDS, out_kind, BP_BOUNDS, out_type, BP_BOUNDS, work, BP_WORK);
    must("bp_solve", s.refusal, 0);
}

static uint8_t text[80000], out[BP_METHOD_BYTES];
static size_t text_n;
static uint64_t params[BP_PARAMS];

static const char named[] = "L" PREFIX "0000;";
enum { NAMED = sizeof named - 1 };

static void type_text(void) {
    memset(text, '[', 255);
    memcpy(text + 255, named, NAMED);
    text_n = 255 + NAMED;
}

static void method_text(void) {
    text_n = 0;
    text[text_n++] = '(';
    for (int i = 0; i < BP_PARAMS; i++) {
        memset(text + text_n, '[', 255);
        memcpy(text + text_n + 255, named, NAMED);
        text_n += 255 + NAMED;
    }
    text[text_n++] = ')';
    memset(text + text_n, '[', 255);
    text[text_n + 255] = 'I';
    text_n += 256;
}

static void read_type(void) { type_text(); must("bp_read_type", bp_read_type(text, text_n).refusal, 0); }
static void read_type_strict(void) { type_text(); must("bp_read_type_strict", bp_read_type_strict(text, text_n).refusal, 0); }
static void read_method(void) { method_text(); must("bp_read_method", bp_read_method(text, text_n, params, BP_PARAMS).refusal, 0); }
static void read_method_strict(void) {
    method_text();
    must("bp_read_method_strict", bp_read_method_strict(text, text_n, params, BP_PARAMS).refusal, 0);
}
static void write_type(void) {
    must("bp_write_type", bp_write_type(bytes, bytes_n, name_at, NAMES, name_len, NAMES, BP_ARRAY(255, BP_CLASS(3)), out, sizeof out).refusal, 0);
}
static void write_method(void) {
    for (int i = 0; i < BP_PARAMS; i++) params[i] = BP_ARRAY(255, BP_CLASS(3));
    must("bp_write_method",
         bp_write_method(bytes, bytes_n, name_at, NAMES, name_len, NAMES, params, BP_PARAMS, BP_ARRAY(255, BP_CLASS(4)), out, sizeof out).refusal, 0);
}
static void lookup(void) {
    must("bp_lookup", bp_lookup(bytes, bytes_n, name_at, NAMES, name_len, NAMES, (const uint8_t *)PREFIX "0512", 21).refusal, 0);
}
static void check_table(void) { must("bp_check_table", bp_check_table(TABLE).refusal, 0); }
static void relation(void) { must("bp_relation", bp_relation(TABLE, 0, NAMES - 2, work, BP_WORK).refusal, 0); }
static void distance(void) { must("bp_distance", bp_distance(TABLE, 0, NAMES - 2, work, BP_WORK).refusal, 0); }
static void ancestors(void) { must("bp_ancestors", bp_ancestors(TABLE, 0, work, BP_WORK).refusal, 0); }
static void supertype(void) { must("bp_supertype", bp_supertype(TABLE, 0, 1, work, BP_WORK).refusal, 0); }
static void cast(void) { must("bp_cast", bp_cast(TABLE, 0, 1, work, BP_WORK).refusal, 0); }
static void join(void) {
    must("bp_join", bp_join(TABLE, BP_ARRAY(255, BP_CLASS(0)), BP_ARRAY(255, BP_CLASS(1)), work, BP_WORK).refusal, 0);
}
static void assignable(void) {
    must("bp_assignable", bp_assignable(TABLE, BP_ARRAY(255, BP_CLASS(0)), BP_ARRAY(255, BP_CLASS(1)), work, BP_WORK).refusal, 0);
}
static void solve(void) {
    BpSolved s = bp_solve(TABLE, COMPONENTS, var_comp, VARIABLES, bnd_comp, BOUNDS, bnd_kind, BOUNDS, bnd_type, BOUNDS, flow_src, FLOWS, flow_dst, FLOWS,
                          up_src, UPPERS, up_dst, UPPERS, read_arr, READS, read_res, READS, write_arr, WRITES, write_val, WRITES, answers, VARIABLES,
                          out_comp, BP_BOUNDS, out_kind, BP_BOUNDS, out_type, BP_BOUNDS, work, BP_WORK);
    must("bp_solve", s.refusal != 0 && s.refusal != 20 && s.refusal != 21, 0);
}

/* A thread: its stack, the call to make, and how far below the thread's own frame the call changed the stack. */
typedef struct Run {
    uint8_t *stack;
    void (*call)(void);
    size_t used;
} Run;

static void *run(void *given) {
    Run *r = given;
    uint8_t *frame = __builtin_frame_address(0), *lowest = r->stack;
    r->call();
    while (*lowest == PAINT) lowest++;
    r->used = (size_t)(frame - lowest);
    return NULL;
}

static size_t stack_of(void (*call)(void)) {
    Run r = {mmap(NULL, STACK, PROT_READ | PROT_WRITE, MAP_PRIVATE | MAP_ANONYMOUS, -1, 0), call, 0};
    pthread_attr_t attr;
    pthread_t thread;
    if (r.stack == MAP_FAILED) exit(1);
    memset(r.stack, PAINT, STACK);
    pthread_attr_init(&attr);
    if (pthread_attr_setstack(&attr, r.stack, STACK) || pthread_create(&thread, &attr, run, &r)) exit(1);
    pthread_join(thread, NULL);
    munmap(r.stack, STACK);
    return r.used;
}

int main(void) {
    static const struct { const char *name; void (*call)(void), (*also)(void); } calls[] = {
        {"bp_read_type", read_type, read_type},
        {"bp_read_type_strict", read_type_strict, read_type_strict},
        {"bp_read_method", read_method, read_method},
        {"bp_read_method_strict", read_method_strict, read_method_strict},
        {"bp_write_type", write_type, write_type},
        {"bp_write_method", write_method, write_method},
        {"bp_lookup", lookup, lookup},
        {"bp_check_table", check_table, check_table},
        {"bp_relation", relation, relation},
        {"bp_distance", distance, distance},
        {"bp_ancestors", ancestors, ancestors},
        {"bp_supertype", supertype, supertype},
        {"bp_cast", cast, cast},
        {"bp_join", join, join},
        {"bp_assignable", assignable, assignable},
        {"bp_solve", solve, solve_deep},
    };
    enum { CALLS = sizeof calls / sizeof *calls };
    size_t most[CALLS] = {0};
    make_problem();
    make_deep();
    for (int table = 0; table < 4; table++) {
        make_table(table % 2, table < 2 ? 1 : LAYERS);
        for (size_t i = 0; i < CALLS; i++) {
            size_t used = stack_of(calls[i].call), other = stack_of(calls[i].also);
            if (used > most[i]) most[i] = used;
            if (other > most[i]) most[i] = other;
        }
    }
    for (size_t i = 0; i < CALLS; i++) printf("%s %zu\n", calls[i].name, most[i]);
    return 0;
}
