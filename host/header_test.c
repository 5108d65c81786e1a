/* Holds what the header itself defines, versions and helpers, to what it says of them and to the library, and the library
 * to having every call. It reads as C99 and as C++11. Ends with 1 at the first claim that is not true. */
#include <stdio.h>
#include <stdlib.h>
#include "meshes.h"

#if GT_VERSION < 10000 || GT_VERSION != GT_VERSION_MAJOR * 10000 + GT_VERSION_MINOR * 100 + GT_VERSION_PATCH
#error "GT_VERSION is not the three numbers as one"
#endif

enum { MOST_ROWS = 70000, MOST_WORDS = MOST_ROWS / 32 + 1 };

static control_mesh mesh;
static uint16_t valences[MOST_ROWS], rings[GT_RING_PLACES * MOST_ROWS];
static int32_t positions[3 * MOST_ROWS], before[3 * MOST_ROWS];
static uint32_t map[MOST_WORDS];
static uint8_t text[GT_MOST_OFF_BYTES], again[GT_MOST_OFF_BYTES];
static size_t stacks, lists, texts;

#define HOLD(claim) ((claim) ? (void)0 : fail(#claim, __LINE__))

static void fail(const char *claim, int line) {
    printf("header_test: line %d: not true: %s\n", line, claim);
    exit(1);
}

static int is_reason(uint32_t number) { return number <= GT_OPEN_RING || number == GT_UNKNOWN_KIND; }

/* Every reason has a text of its own, and no other number has one. */
static void try_reasons(void) {
    for (uint32_t n = 0; n < 1000; n++) {
        int unknown = strcmp(gt_reason(n), "unknown reason") == 0;
        HOLD(gt_reason(n)[0] != 0 && unknown == !is_reason(n));
        for (uint32_t other = 0; other < n; other++)
            if (is_reason(n)) HOLD(strcmp(gt_reason(n), gt_reason(other)) != 0);
    }
    HOLD(strcmp(gt_reason(GT_ACCEPTED), "accepted") == 0);
    HOLD(strcmp(gt_reason(UINT32_MAX), "unknown reason") == 0);
}

/* Every call that the header declares is in the archive; answers how many they are. */
static size_t try_calls(void) {
    typedef void (*any_call)(void);
    static const any_call all[] = {
        (any_call)gt_check, (any_call)gt_refine, (any_call)gt_moves, (any_call)gt_read, (any_call)gt_write,
        (any_call)gt_read_off, (any_call)gt_write_off, (any_call)gt_split_edge, (any_call)gt_split_face, (any_call)gt_flip,
        (any_call)gt_make, (any_call)gt_erase, (any_call)gt_replace, (any_call)gt_insert_after, (any_call)gt_insert_before,
        (any_call)gt_contains, (any_call)gt_next, (any_call)gt_prev, (any_call)gt_valence,
    };
    size_t count = sizeof all / sizeof *all;
    for (size_t i = 0; i < count; i++)
        for (size_t k = 0; k < i; k++) HOLD(all[k] != all[i]);
    return count;
}

static gt_counts refine(size_t rows, size_t places, size_t coordinates, size_t levels) {
    return gt_refine(valences, rows, rings, places, positions, coordinates, mesh.count, levels);
}

/* Refinement is accepted in tables of just the rows that gt_stack_rows gives, and refused by 10 with one item less. */
static size_t try_rows(size_t edges, size_t levels) {
    size_t rows = gt_stack_rows(mesh.count, edges, levels), places = GT_RING_PLACES * rows;
    HOLD(rows <= MOST_ROWS);
    HOLD(refine(rows - 1, places - GT_RING_PLACES, 3 * rows - 3, levels).number == GT_NO_ROOM);
    HOLD(refine(rows - 1, places, 3 * rows, levels).number == GT_NO_ROOM);
    HOLD(refine(rows, places - 1, 3 * rows, levels).number == GT_NO_ROOM);
    HOLD(refine(rows, places, 3 * rows - 1, levels).number == GT_NO_ROOM);
    gt_counts last = refine(rows, places, 3 * rows, levels);
    HOLD(last.number == GT_ACCEPTED && last.v == rows - gt_stack_rows(mesh.count, edges, levels - 1));
    stacks++;
    return rows;
}

static gt_value move(size_t rows, size_t words, size_t levels, const gt_move *moves, size_t length) {
    return gt_moves(valences, rows, rings, GT_RING_PLACES * rows, positions, 3 * rows, map, words, mesh.count, levels,
                    moves, length);
}

/* A list of moves is accepted with just the words that gt_map_words gives, and refused by 10 with one less. The points
 * that gt_is_touched says are touched are as many as answered, and at level 0 just the named; no other has changed. */
static void try_map(size_t rows, size_t levels) {
    size_t words = gt_map_words(rows), touched = 0;
    uint32_t last = (uint32_t)mesh.count - 1;
    const gt_move moves[2] = {{last, GT_PLACE, (double)levels, -2.5, 3.5}, {last / 2, GT_PLACE, 0.25, 0.5, 0.75}};
    memcpy(before, positions, sizeof before);
    HOLD(words <= MOST_WORDS && move(rows, words - 1, levels, moves, 2).number == GT_NO_ROOM);
    gt_value answer = move(rows, words, levels, moves, 2);
    HOLD(answer.number == GT_ACCEPTED && answer.value > 2);
    for (size_t i = 0; i < rows; i++) {
        int is = gt_is_touched(map, i), changed = memcmp(before + 3 * i, positions + 3 * i, 3 * sizeof *positions) != 0;
        HOLD((is == 0 && !changed) || is == 1);
        if (i < mesh.count) HOLD(is == (i == last || i == last / 2));
        touched += (size_t)is;
    }
    HOLD(touched == answer.value);
    lists++;
}

static gt_value write_text(uint8_t *room, size_t length) {
    return gt_write_off(valences, mesh.count, rings, GT_RING_PLACES * mesh.count, positions, 3 * mesh.count, mesh.count, room,
                        length);
}

/* A mesh as text has no more bytes than the header says, is refused by 10 in one byte less, and read back and written again
 * it is the same text. */
static void try_text(gt_counts control) {
    gt_value bytes = write_text(text, sizeof text);
    HOLD(bytes.number == GT_ACCEPTED && bytes.value <= 21 + 27 * control.v + 17 * control.f);
    HOLD(write_text(text, bytes.value - 1).number == GT_NO_ROOM);
    gt_value back = gt_read_off(text, bytes.value, valences, mesh.count, rings, GT_RING_PLACES * mesh.count, positions,
                                3 * mesh.count);
    HOLD(back.number == GT_ACCEPTED && back.value == control.v);
    HOLD(write_text(again, bytes.value).value == bytes.value && memcmp(text, again, bytes.value) == 0);
    texts++;
}

static void try_mesh(size_t levels) {
    uint64_t state = 1;
    mesh_random_positions(&mesh, &state, GT_GREATEST_COORDINATE);
    memcpy(valences, mesh.valences, sizeof mesh.valences);
    memcpy(rings, mesh.rings, sizeof mesh.rings);
    memcpy(positions, mesh.positions, sizeof mesh.positions);
    gt_counts control = gt_check(valences, mesh.count, rings, GT_RING_PLACES * mesh.count, positions, 3 * mesh.count,
                                 mesh.count);
    HOLD(control.number == GT_ACCEPTED && gt_stack_rows(control.v, control.e, 0) == control.v);
    try_text(control);
    for (size_t k = 1; k <= levels; k++) try_map(try_rows(control.e, k), k);
}

static void try_bits(void) {
    static const uint32_t bits[2] = {0x80000001u, 2};
    for (size_t i = 0; i < 64; i++) HOLD(gt_is_touched(bits, i) == (i == 0 || i == 31 || i == 33));
    HOLD(gt_map_words(0) == 0 && gt_map_words(1) == 1 && gt_map_words(32) == 1 && gt_map_words(33) == 2);
    HOLD(gt_map_words(SIZE_MAX) == SIZE_MAX / 32 + 1);
}

int main(void) {
    uint64_t state = 5;
    HOLD(GT_VERSION_MAJOR == 2 && GT_VERSION_MINOR == 1 && GT_VERSION_PATCH == 1 && GT_VERSION == 20101);
    HOLD(gt_stack_rows(4, 6, 1) == 14 && gt_stack_rows(6, 12, 4) == 1374);
    try_reasons();
    try_bits();
    mesh_tetrahedron(&mesh), try_mesh(4);
    mesh_double_cone(&mesh, 4), try_mesh(4);
    mesh_double_cone(&mesh, GT_RING_PLACES), try_mesh(4);
    mesh_torus(&mesh, 4, 8), try_mesh(4);     /* rows that fill their last word */
    mesh_sphere(&mesh, &state, 200), try_mesh(4);
    mesh_sphere(&mesh, &state, GT_MOST_VERTICES), try_mesh(2);
    printf("the header's helpers hold: version %d.%d.%d, %zu calls, %d reasons, %zu stacks, %zu lists of moves, %zu texts\n",
           GT_VERSION_MAJOR, GT_VERSION_MINOR, GT_VERSION_PATCH, try_calls(), GT_OPEN_RING + 2, stacks, lists, texts);
    return 0;
}
