/* Drags points of a mesh and says how much had to be worked out anew.
 *
 *   drag MESH [MOVES]
 *
 * Refines the mesh four levels, or as many as fit, and moves its points by a list (see drag_moves). */
#include "drag.h"

int main(int argc, char **argv) {
    drag_stack s;
    gt_move moves[GT_MOST_MOVES];
    if (argc < 2) {
        fprintf(stderr, "drag MESH [MOVES]\n");
        return 2;
    }
    drag_open(&s, argv[1], GT_MOST_LEVELS);
    size_t length = drag_moves(moves, argc > 2 ? argv[2] : NULL), total = drag_apply(&s, moves, length);
    for (size_t k = 0; k <= s.levels; k++) {
        size_t touched = 0;
        for (size_t i = 0; i < s.count[k]; i++) touched += (size_t)gt_is_touched(s.map, s.start[k] + i);
        printf("level %zu: %zu of %zu points touched\n", k, touched, s.count[k]);
    }
    printf("%zu moves, %zu of %zu points touched\n", length, total, s.rows);
    return 0;
}
