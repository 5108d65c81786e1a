/* Is the right shoe the left shoe? Makes the mirror image of a mesh, refines both, drags both by mirrored lists, and
 * compares every level, vertex by vertex.
 *
 *   pair MESH MOVES..
 *
 * Each file of moves is one list (see drag_moves): the left gets it as it is, the right with the x of placings and
 * shifts negated. A list may be refused, then on both sides. The first difference ends the program with status 1. */
#include "drag.h"
#include "mirror.h"

static drag_stack left, right;

static void differ(const char *what, size_t at) {
    printf("%s %zu differs\n", what, at);
    exit(1);
}

/* The mirror image of the left control mesh, in tables of the same sizes, refined. */
static void make_right(void) {
    right = left;
    right.valences = drag_room(right.rows, sizeof *right.valences);
    right.rings = drag_room(GT_RING_PLACES * right.rows, sizeof *right.rings);
    right.positions = drag_room(3 * right.rows, sizeof *right.positions);
    right.map = drag_room(right.words, sizeof *right.map);
    mirror_mesh(left.count[0], left.valences, left.rings, left.positions, right.valences, right.rings, right.positions);
    gt_counts last = gt_refine(right.valences, right.rows, right.rings, GT_RING_PLACES * right.rows, right.positions,
                               3 * right.rows, right.count[0], right.levels);
    if (last.number) drag_stop("refining the image", last.number, last.place);
}

static gt_value give(drag_stack *s, const gt_move *moves, size_t length) {
    return gt_moves(s->valences, s->rows, s->rings, GT_RING_PLACES * s->rows, s->positions, 3 * s->rows, s->map,
                    s->words, s->count[0], s->levels, moves, length);
}

/* One list on the left and its mirror image on the right: answered alike, and the same points marked. */
static void give_both(size_t list, const char *path) {
    gt_move moves[GT_MOST_MOVES], image[GT_MOST_MOVES];
    size_t length = drag_moves(moves, path);
    for (size_t i = 0; i < length; i++) image[i] = mirror_move(moves[i]);
    gt_value here = give(&left, moves, length), there = give(&right, image, length);
    if (here.number != there.number || here.place != there.place || here.value != there.value)
        differ("answer to list", list);
    for (size_t w = 0; w < left.words; w++)
        if (left.map[w] != right.map[w]) differ("map word", w);
    if (here.number) printf("list %zu: refused %u at move %zu, on both sides\n", list, here.number, here.place);
    else printf("list %zu: %zu of %zu points touched, on both sides\n", list, here.value, left.rows);
}

/* Every vertex of a level, its valence, ring and point. */
static void compare(size_t level) {
    for (size_t v = left.start[level]; v < left.start[level] + left.count[level]; v++) {
        const uint16_t *ring = left.rings + GT_RING_PLACES * v, *image = right.rings + GT_RING_PLACES * v;
        if (left.valences[v] != right.valences[v]) differ("valence of stack vertex", v);
        if (!mirror_rings(ring, image, left.valences[v])) differ("ring of stack vertex", v);
        if (!mirror_points(left.positions + 3 * v, right.positions + 3 * v)) differ("point of stack vertex", v);
    }
    printf("level %zu: %zu points and rings mirrored\n", level, left.count[level]);
}

int main(int argc, char **argv) {
    if (argc < 2) {
        fprintf(stderr, "pair MESH MOVES..\n");
        return 2;
    }
    drag_open(&left, argv[1], GT_MOST_LEVELS);
    make_right();
    for (int i = 2; i < argc; i++) give_both((size_t)i - 1, argv[i]);
    for (size_t k = 0; k <= left.levels; k++) compare(k);
    printf("the right one mirrors the left one\n");
    return 0;
}
