/* For the fuzzer: the tables that it lends, and what every call is held to, among it the plain implementation's answer
 * to the same on copies. */
#ifndef HOLD_H
#define HOLD_H

#include "guard.h"
#include "gypsumtrot.h"
#include "meshes.h"

static uint64_t state;
static size_t calls, accepted_calls, rounds_done;
static guarded valences, rings, positions, map, bytes, list, moves;
static size_t valences_length, rings_length, positions_length, map_length;

static void fail(const char *what) {
    printf("fuzz: round %zu: %s\n", rounds_done, what);
    exit(1);
}

extern __typeof__(gt_check) twin_check;
extern __typeof__(gt_refine) twin_refine;
extern __typeof__(gt_moves) twin_moves;
extern __typeof__(gt_split_edge) twin_split_edge;
extern __typeof__(gt_split_face) twin_split_face;
extern __typeof__(gt_flip) twin_flip;
extern __typeof__(gt_read) twin_read;
extern __typeof__(gt_write) twin_write;
extern __typeof__(gt_read_off) twin_read_off;
extern __typeof__(gt_write_off) twin_write_off;
extern __typeof__(gt_make) twin_make;
extern __typeof__(gt_erase) twin_erase;
extern __typeof__(gt_replace) twin_replace, twin_insert_after, twin_insert_before;
extern __typeof__(gt_contains) twin_contains, twin_next, twin_prev;
extern __typeof__(gt_valence) twin_valence;

#define HOLD(condition) ((condition) ? (void)0 : fail(#condition))

static size_t below(size_t n) { return random_below(&state, n); }

static void *lend(guarded *g, const void *contents, size_t size) {
    int at_end = (int)below(2), null_if_empty = (int)below(2);
    return guard_lend(g, contents, size, at_end, null_if_empty);
}

/* Lends a table of random bits or of small numbers. */
static void *lend_noise(guarded *g, size_t item, size_t length) {
    size_t size = item * length, small = below(3);
    unsigned char *noise = calloc(size + 8, 1);
    for (size_t i = 0; i < size; i += small ? item : 8) {
        uint64_t bits = random_bits(&state);
        if (small) noise[i] = bits % 8;
        else memcpy(noise + i, &bits, 8);
    }
    void *table = lend(g, noise, size);
    free(noise);
    return table;
}

static void lend_noise_tables(void) {
    size_t rows = below(12);
    valences_length = rows + below(2);
    rings_length = GT_RING_PLACES * rows + below(2) * below(40);
    positions_length = 3 * rows + below(3);
    map_length = below(20);
    lend_noise(&valences, 2, valences_length);
    lend_noise(&rings, 2, rings_length);
    lend_noise(&positions, 4, positions_length);
    lend_noise(&map, 4, map_length);
}

/* Lends a control mesh with room for so many rows in all; what lies behind the mesh is noise. */
static void lend_mesh(const control_mesh *m, size_t rows, size_t words) {
    valences_length = rows, rings_length = GT_RING_PLACES * rows, positions_length = 3 * rows, map_length = words;
    lend_noise(&valences, 2, valences_length);
    lend_noise(&rings, 2, rings_length);
    lend_noise(&positions, 4, positions_length);
    lend_noise(&map, 4, map_length);
    memcpy(valences.begin, m->valences, 2 * m->count);
    memcpy(rings.begin, m->rings, 2 * GT_RING_PLACES * m->count);
    memcpy(positions.begin, m->positions, 12 * m->count);
}

static void remember(guarded *g) { memcpy(g->was, g->begin, g->bytes); }

static void remember_tables(void) {
    remember(&valences), remember(&rings), remember(&positions), remember(&map);
}

static int tables_unchanged(void) {
    return guard_unchanged(&valences) && guard_unchanged(&rings) && guard_unchanged(&positions) && guard_unchanged(&map);
}

/* After every call: the memory beside the tables stays, and a refusal leaves all as it was. */
static void hold_call(uint32_t number, size_t place, int any_count) {
    calls++;
    accepted_calls += number == 0;
    HOLD(guard_intact(&valences) && guard_intact(&rings) && guard_intact(&positions) && guard_intact(&map));
    HOLD(number <= GT_OPEN_RING || number == GT_UNKNOWN_KIND);
    if (number == 0) HOLD(place == 0);
    else HOLD(tables_unchanged() && !any_count);
}

static void hold_value(gt_value answer) { hold_call(answer.number, answer.place, answer.value != 0); }
static void hold_counts(gt_counts answer) { hold_call(answer.number, answer.place, answer.v || answer.e || answer.f); }

/* The tables as a call gets them: the guarded ones, or copies for the twin. */
typedef struct {
    uint16_t *valences, *rings;
    int32_t *positions;
    uint32_t *map;
    uint8_t *bytes;
} tables;

static tables lent;

#define VALENCES lent.valences, valences_length
#define RINGS lent.rings, rings_length
#define POSITIONS lent.positions, positions_length
#define MAP lent.map, map_length

static tables originals(void) {
    tables t = {(uint16_t *)valences.table, (uint16_t *)rings.table, (int32_t *)positions.table, (uint32_t *)map.table,
                bytes.table};
    return t;
}

static void *copy(const guarded *g) {
    void *same = malloc(g->bytes + 1);
    if (g->bytes) memcpy(same, g->begin, g->bytes);
    return same;
}

static tables copies(void) {
    tables t = {copy(&valences), copy(&rings), copy(&positions), copy(&map), copy(&bytes)};
    return t;
}

static int same(const guarded *g, const void *other) { return g->bytes == 0 || memcmp(g->begin, other, g->bytes) == 0; }

static void give_back(tables t) { free(t.valences), free(t.rings), free(t.positions), free(t.map), free(t.bytes); }

/* Compares the tables with the copies in which the twin has worked, and gives these back. */
static void hold_copies(tables t) {
    HOLD(same(&valences, t.valences) && same(&rings, t.rings) && same(&positions, t.positions));
    HOLD(same(&map, t.map) && same(&bytes, t.bytes));
    give_back(t);
}

/* Asks the twin and the library the same, and compares what they answer and what they leave. */
#define ASK(answer, call, ...) do { \
        tables copied = lent = copies(); \
        __typeof__(answer) twin = twin_##call(__VA_ARGS__); \
        lent = originals(); \
        answer = gt_##call(__VA_ARGS__); \
        hold_copies(copied); \
        HOLD(same_answer(&answer, &twin, sizeof answer)); \
    } while (0)

/* Answers are compared word by word; the padding behind the number is left out. */
static int same_answer(const void *one, const void *other, size_t size) {
    const size_t *a = one, *b = other;
    size_t differ = (uint32_t)a[0] != (uint32_t)b[0];
    for (size_t i = 1; i < size / sizeof *a; i++) differ |= a[i] != b[i];
    return !differ;
}

#endif
