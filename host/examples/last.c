/* Makes a coarse shoe last from nothing, refines it, raises its instep and writes it as a mesh file.
 *
 *   last FILE
 *
 * The last lies along x with its toe in front; y is to the left, z up. It is made of seven hoops of eight points each,
 * from the heel to the toe, and one more point at each end: 58 in all. */
#include "drag.h"

enum {
    HOOPS = 7, AROUND = 8,
    HEEL = 0, TOE = 1 + HOOPS * AROUND, VERTICES = TOE + 1,
    LEVELS = 3,
    ROWS = 5000                  /* more than are needed, which is no fault */
};

/* All that the library works in. */
static uint16_t valences[ROWS], rings[GT_RING_PLACES * ROWS];
static int32_t positions[3 * ROWS];
static uint32_t map[ROWS / 32 + 1];
static uint8_t file[14 + 84 * VERTICES];

#define RING_TABLES valences, ROWS, rings, GT_RING_PLACES * ROWS
#define TABLES RING_TABLES, positions, 3 * ROWS

/* A hoop, in millimetres: x at the sole; y of the middle; half the width; z of the sole and of the top; how far forward
 * the top leans. Last, how wide the top is, as a part of the width. */
static const struct { double x, y, half, sole, top, lean, part; } hoops[HOOPS] = {
    { 12,  0, 28, 22, 128,  18, 0.34},  /* heel */
    { 52,  0, 36, 22, 136,  12, 0.34},
    { 98,  2, 32, 19, 132,   2, 0.40},  /* waist */
    {144,  2, 40,  8,  90, -16, 0.58},  /* instep */
    {194, -2, 55, -4,  56, -16, 0.80},  /* ball */
    {240, -5, 51, -1,  38,  -8, 0.85},
    {276, -2, 34,  7,  31,  -4, 0.85},  /* toe */
};

/* The points of a hoop, counter-clockwise as seen from the heel: right edge of the sole, right side, three of the top
 * from right to left, left side, left edge and middle of the sole. How far left, in half widths, and how far up. */
static const struct { double left, up; int top; } around[AROUND] = {
    {-0.85, 0, 0}, {-1, 0.36, 0}, {-1, 0.97, 1}, {0, 1, 1}, {1, 0.97, 1}, {1, 0.36, 0}, {0.85, 0, 0}, {0, 0, 0},
};

/* The number of point j of a hoop; j counts round and round. */
static uint16_t at(size_t hoop, size_t j) { return (uint16_t)(1 + hoop * AROUND + j % AROUND); }

static void place(size_t v, double x, double y, double z) {
    positions[3 * v] = (int32_t)(x * GT_UNITS_A_MILLIMETRE);
    positions[3 * v + 1] = (int32_t)(y * GT_UNITS_A_MILLIMETRE);
    positions[3 * v + 2] = (int32_t)(z * GT_UNITS_A_MILLIMETRE);
}

static void place_points(void) {
    for (size_t h = 0; h < HOOPS; h++)
        for (size_t j = 0; j < AROUND; j++) {
            double up = around[j].up, half = around[j].top ? hoops[h].part * hoops[h].half : hoops[h].half;
            place(at(h, j), hoops[h].x + hoops[h].lean * up, hoops[h].y + half * around[j].left,
                  hoops[h].sole + (hoops[h].top - hoops[h].sole) * up);
        }
    place(HEEL, -8, 0, 48);
    place(TOE, 296, 2, 18);
}

static void make_ring(size_t v, const uint16_t *neighbours, size_t valence) {
    gt_value made = gt_make(RING_TABLES, VERTICES, v, neighbours, valence);
    if (made.number) drag_stop("making a ring", made.number, made.place);
}

/* The ring of a point of a hoop, counter-clockwise as seen from outside. Point j is joined to points j and j + 1 of the
 * hoop in front, and so to points j and j - 1 of the hoop behind; where there is no such hoop, to the end point. */
static void make_hoop_ring(size_t h, size_t j) {
    uint16_t list[6];
    size_t n = 0;
    if (h + 1 < HOOPS) list[n++] = at(h + 1, j), list[n++] = at(h + 1, j + 1);
    else list[n++] = TOE;
    list[n++] = at(h, j + 1);
    if (h > 0) list[n++] = at(h - 1, j), list[n++] = at(h - 1, j + AROUND - 1);
    else list[n++] = HEEL;
    list[n++] = at(h, j + AROUND - 1);
    make_ring(at(h, j), list, n);
}

static void make_rings(void) {
    uint16_t heel[AROUND], toe[AROUND];
    for (size_t j = 0; j < AROUND; j++) {
        for (size_t h = 0; h < HOOPS; h++) make_hoop_ring(h, j);
        heel[j] = at(0, j);                                  /* seen from behind */
        toe[j] = at(HOOPS - 1, AROUND - j);                  /* seen from the front, the other way round */
    }
    make_ring(HEEL, heel, AROUND);
    make_ring(TOE, toe, AROUND);
}

int main(int argc, char **argv) {
    if (argc != 2) {
        fprintf(stderr, "last FILE\n");
        return 2;
    }
    place_points();
    make_rings();

    gt_counts control = gt_check(TABLES, VERTICES);          /* rings that do not fit together show here */
    if (control.number) drag_stop("checking", control.number, control.place);
    printf("control mesh: %zu vertices, %zu edges, %zu faces\n", control.v, control.e, control.f);

    gt_counts finest = gt_refine(TABLES, VERTICES, LEVELS);
    if (finest.number) drag_stop("refining", finest.number, finest.place);
    printf("level %d: %zu vertices, %zu edges, %zu faces\n", LEVELS, finest.v, finest.e, finest.f);

    const gt_move raise = {at(3, 3), GT_SHIFT, 0.0, 0.0, 6.0};   /* the top of the hoop at the instep, 6 mm up */
    gt_value touched = gt_moves(TABLES, map, gt_map_words(ROWS), VERTICES, LEVELS, &raise, 1);
    if (touched.number) drag_stop("raising the instep", touched.number, touched.place);
    printf("instep raised: %zu of %zu points touched\n", touched.value, gt_stack_rows(control.v, control.e, LEVELS));

    /* Only the control mesh is kept, since refinement gives the levels again. */
    drag_save(argv[1], file, gt_write(TABLES, VERTICES, file, sizeof file));
    return 0;
}
