/* Puts two points where the toe of a last needs them, turns an edge round, refines, and raises the toe by the first of them.
 *
 *   toe MESH FILE
 *
 * The toe is the point furthest in front, along x. The edge from it to its highest neighbour is split, then a face in front
 * of the new vertex; then the first edge opposite to the face's new vertex that can be flipped is flipped, so that it gets
 * a fourth neighbour. FILE is the edited mesh, before it is raised. */
#include "drag.h"

enum { LEVELS = 2, ROWS = 25000 };       /* enough for 1,024 vertices on a mesh without holes */

/* All that the library works in. */
static uint16_t valences[ROWS], rings[GT_RING_PLACES * ROWS];
static int32_t positions[3 * ROWS];
static uint32_t map[ROWS / 32 + 1];
static uint8_t file[14 + 84 * GT_MOST_VERTICES];

#define RING_TABLES valences, ROWS, rings, GT_RING_PLACES * ROWS
#define TABLES RING_TABLES, positions, 3 * ROWS

static gt_counts mesh;                   /* of the control mesh, as the last call answered it */

/* Takes over what an edit has answered, and prints it. */
static void edited(gt_counts answer) {
    if (answer.number) drag_stop("editing", answer.number, answer.place);
    mesh = answer;
    printf(": %zu vertices, %zu edges, %zu faces\n", mesh.v, mesh.e, mesh.f);
}

static void open_mesh(const char *path) {
    size_t length;
    uint8_t *bytes = drag_bytes(path, &length);
    gt_value read = gt_read(bytes, length, TABLES);
    if (read.number) drag_stop(path, read.number, read.place);
    free(bytes);
    printf("control mesh");
    edited(gt_check(TABLES, read.value));
}

/* Of the vertices of a list the one that lies furthest along an axis. */
static size_t furthest(const uint16_t *list, size_t length, size_t axis) {
    size_t best = list[0];
    for (size_t i = 1; i < length; i++)
        if (positions[3 * list[i] + axis] > positions[3 * best + axis]) best = list[i];
    return best;
}

static size_t find_toe(void) {
    uint16_t all[GT_MOST_VERTICES];
    for (size_t v = 0; v < mesh.v; v++) all[v] = (uint16_t)v;
    return furthest(all, mesh.v, 0);
}

/* A new vertex between two neighbours; answers its number. */
static size_t split_edge(size_t u, size_t v) {
    size_t x = mesh.v;
    printf("edge %zu %zu split by vertex %zu", u, v, x);
    edited(gt_split_edge(TABLES, mesh.v, u, v));
    return x;
}

/* A new vertex in the face of v behind its neighbour u; answers its number. */
static size_t split_face(size_t u, size_t v) {
    size_t x = mesh.v, w = gt_next(RING_TABLES, mesh.v, v, u).value;
    printf("face %zu %zu %zu split by vertex %zu", u, v, w, x);
    edited(gt_split_face(TABLES, mesh.v, u, v, w));
    return x;
}

/* Flips the first edge opposite to x that can be flipped: u and w follow each other around x, and y lies across. An edge
 * that cannot be flipped is refused, and nothing has changed. */
static void flip_opposite(size_t x) {
    for (size_t i = 0; i < valences[x]; i++) {
        size_t u = rings[GT_RING_PLACES * x + i], w = gt_next(RING_TABLES, mesh.v, x, u).value;
        size_t y = gt_prev(RING_TABLES, mesh.v, u, w).value;
        gt_counts flipped = gt_flip(TABLES, mesh.v, u, w);
        if (flipped.number == GT_CANNOT_FLIP || flipped.number == GT_RING_FULL) continue;
        printf("edge %zu %zu flipped, %zu and %zu are joined", u, w, x, y);
        edited(flipped);
        return;
    }
}

int main(int argc, char **argv) {
    if (argc != 3) {
        fprintf(stderr, "toe MESH FILE\n");
        return 2;
    }
    open_mesh(argv[1]);
    size_t toe = find_toe(), above = furthest(rings + GT_RING_PLACES * toe, valences[toe], 2);
    size_t ridge = split_edge(toe, above);
    flip_opposite(split_face(toe, ridge));
    drag_save(argv[2], file, gt_write(TABLES, mesh.v, file, sizeof file));

    gt_counts finest = gt_refine(TABLES, mesh.v, LEVELS);    /* the levels come after the edits */
    if (finest.number) drag_stop("refining", finest.number, finest.place);
    printf("level %d: %zu vertices, %zu edges, %zu faces\n", LEVELS, finest.v, finest.e, finest.f);

    const gt_move raise = {(uint32_t)ridge, GT_SHIFT, 1.5, 0.0, 5.0};
    gt_value touched = gt_moves(TABLES, map, gt_map_words(ROWS), mesh.v, LEVELS, &raise, 1);
    if (touched.number) drag_stop("raising the toe", touched.number, touched.place);
    printf("toe raised: %zu of %zu points touched\n", touched.value, gt_stack_rows(mesh.v, mesh.e, LEVELS));
    return 0;
}
