/* Writes one level of a mesh as a Wavefront OBJ file, which nearly every viewer opens: points in millimetres, faces
 * counter-clockwise as seen from outside.
 *
 *   obj MESH LEVEL [MOVES] >FILE
 *
 * With MOVES the points are first moved by a list (see drag_moves). */
#include "faces.h"

int main(int argc, char **argv) {
    drag_stack stack;
    gt_move moves[GT_MOST_MOVES];
    if (argc < 3) {
        fprintf(stderr, "obj MESH LEVEL [MOVES] >FILE\n");
        return 2;
    }
    size_t level = drag_open_level(&stack, argv[1], argv[2]);
    if (argc > 3) drag_apply(&stack, moves, drag_moves(moves, argv[3]));
    level_faces faces = faces_of(&stack, level);
    printf("# level %zu: %zu vertices, %zu faces; the rings turn %s as seen from outside\n", level, stack.count[level],
           faces.count, faces.clockwise ? "clockwise" : "counter-clockwise");
    for (size_t v = 0; v < stack.count[level]; v++) {
        const int32_t *point = faces.points + 3 * v;
        double unit = 1.0 / GT_UNITS_A_MILLIMETRE;
        printf("v %.14g %.14g %.14g\n", unit * point[0], unit * point[1], unit * point[2]);  /* 14 digits: exact */
    }
    for (size_t i = 0; i < faces.count; i++)
        printf("f %d %d %d\n", faces.corners[i][0] + 1, faces.corners[i][1] + 1, faces.corners[i][2] + 1);
    return 0;
}
