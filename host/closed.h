/* For the program that tries what is closed to reading: the tables that it lends, what is closed of them, and a call
 * that is watched. Unused places and tails hold numbers that would do as neighbours, valences and coordinates. */
#ifndef CLOSED_H
#define CLOSED_H

#include <stdio.h>
#include <stdlib.h>
#include "meshes.h"
#include "watch.h"

enum { ROWS = 24000, TAIL = 3, FILE_BYTES = 90000, LONG_LIST = 1000000 };

static uint64_t state = 31;
static control_mesh mesh;
static uint16_t valences[ROWS], rings[GT_RING_PLACES * ROWS];
static int32_t positions[3 * ROWS];
static uint32_t map[ROWS / 32 + TAIL];
static uint8_t file[FILE_BYTES];
static gt_move moves[LONG_LIST];
static size_t rows;                        /* so many are lent */

#define RING_TABLES valences, rows, rings, GT_RING_PLACES * rows
#define TABLES RING_TABLES, positions, 3 * rows

static inline size_t below(size_t n) { return random_below(&state, n); }

static inline void fail(const char *call, const char *how, uint32_t number, uint32_t wanted) {
    printf("closed: %s (%s) answers %u where %u is wanted\n", call, how, (unsigned)number, (unsigned)wanted);
    exit(1);
}

/* A call whose loads are looked at, and the number that it must answer. */
#define WATCH(how, wanted, call, ...) do { \
        watch_begin(#call, how); \
        uint32_t number = call(__VA_ARGS__).number; \
        watch_end(); \
        if (number != (wanted)) fail(#call, how, number, wanted); \
    } while (0)

/* Puts numbers of no meaning into the places of some rows behind their rings. */
static inline void scatter(size_t from, size_t to) {
    for (size_t v = from; v < to; v++)
        for (size_t i = valences[v]; i < GT_RING_PLACES; i++)
            rings[GT_RING_PLACES * v + i] = (uint16_t)below(mesh.count);
}

/* Lends so many rows, the first of which hold the mesh. */
static inline void lay(size_t lent) {
    size_t count = mesh.count;
    rows = lent;
    for (size_t v = 0; v < rows; v++) {
        valences[v] = (uint16_t)(v < count ? mesh.valences[v] : 3 + below(4));
        for (size_t i = 3 * v; i < 3 * v + 3; i++) positions[i] = v < count ? mesh.positions[i] : (int32_t)below(9999);
    }
    memcpy(rings, mesh.rings, sizeof *rings * GT_RING_PLACES * count);
    scatter(0, count);
    for (size_t i = GT_RING_PLACES * count; i < GT_RING_PLACES * rows; i++) rings[i] = (uint16_t)below(count);
    for (size_t i = 0; i < sizeof map / sizeof *map; i++) map[i] = (uint32_t)random_bits(&state);
}

/* Closes the items from one number to another of a table. */
#define CLOSE(table, from, to, what) watch_close((table) + (from), sizeof *(table) * ((to) - (from)), what, from)

static inline void close_unused_of(size_t v) {
    size_t valence = valences[v], begin = GT_RING_PLACES * v;
    if (valence < GT_RING_PLACES)
        watch_close(rings + begin + valence, sizeof *rings * (GT_RING_PLACES - valence), "unused of row", v);
}

/* Closes the three tables from a row on. */
static inline void close_rows(size_t from) {
    CLOSE(valences, from, rows, "valences from");
    CLOSE(rings, GT_RING_PLACES * from, GT_RING_PLACES * rows, "rings from");
    CLOSE(positions, 3 * from, 3 * rows, "positions from");
}

/* Closes all that is no mesh or stack of `count` rows, by the valences that stand in the table. */
static inline void close_behind(size_t count) {
    watch_forget();
    for (size_t v = 0; v < count; v++) close_unused_of(v);
    close_rows(count);
}

/* Closes the same but for the valence of a new vertex, which a split counts after it has written it. */
static inline void close_behind_new(size_t count) {
    watch_forget();
    for (size_t v = 0; v < count; v++) close_unused_of(v);
    CLOSE(valences, count + 1, rows, "valences from");
    CLOSE(rings, GT_RING_PLACES * count, GT_RING_PLACES * rows, "rings from");
    CLOSE(positions, 3 * count, 3 * rows, "positions from");
}

/* Closes all tables. */
static inline void close_all(void) {
    watch_forget();
    close_rows(0);
}

/* Closes all but row and valence of v. */
static inline void close_others(size_t v) {
    watch_forget();
    CLOSE(valences, 0, v, "valences from");
    CLOSE(valences, v + 1, rows, "valences from");
    CLOSE(rings, 0, GT_RING_PLACES * v, "rings from");
    CLOSE(rings, GT_RING_PLACES * (v + 1), GT_RING_PLACES * rows, "rings from");
    close_unused_of(v);
}

/* Copies of the tables, to be put back after a call that writes or after an alteration. */
static uint16_t kept_valences[ROWS], kept_rings[GT_RING_PLACES * ROWS];
static int32_t kept_positions[3 * ROWS];

static inline void keep(void) {
    memcpy(kept_valences, valences, sizeof *valences * rows);
    memcpy(kept_rings, rings, sizeof *rings * GT_RING_PLACES * rows);
    memcpy(kept_positions, positions, sizeof *positions * 3 * rows);
}

static inline void put_back(void) {
    memcpy(valences, kept_valences, sizeof *valences * rows);
    memcpy(rings, kept_rings, sizeof *rings * GT_RING_PLACES * rows);
    memcpy(positions, kept_positions, sizeof *positions * 3 * rows);
}

#endif
