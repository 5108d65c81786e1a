/* Draws a mesh as an SVG: on the left its control mesh, on the right one of its levels, after a list of moves. Moved
 * points are ringed, and a line leads to each from where it was; points that the moves touched are marked. Only faces
 * that look at the viewer are drawn.
 *
 *   svg MESH LEVEL [MOVES] >FILE
 *
 * Without MOVES vertex 0 is shifted by a millimetre (see drag_moves). */
#include "faces.h"

enum { WIDTH = 600, HEIGHT = 390, MARGIN = 36, CAPTION = 44 };

/* Directions of length 1: to the sheet's right and top, to the viewer and to the light. The viewer stands 70 degrees to
 * the right of the x axis and 21 degrees above it. */
static const double right[3] = {0.9397, 0.3420, 0}, up[3] = {-0.1226, 0.3368, 0.9336};
static const double toward[3] = {0.3193, -0.8773, 0.3584}, light[3] = {-0.1, -0.7, 0.7071};

static double along(const double *axis, const int32_t *point) {
    return axis[0] * point[0] + axis[1] * point[1] + axis[2] * point[2];
}

/* What leads from units to one half of the sheet. */
typedef struct {
    double x, y, scale;
} sheet;

static double across(sheet s, const int32_t *point) { return s.x + s.scale * along(right, point); }
static double down(sheet s, const int32_t *point) { return s.y - s.scale * along(up, point); }

/* Puts the points into the middle of the left half, as large as they fit. */
static sheet fit(const int32_t *points, size_t count) {
    double low[2], high[2];
    for (size_t v = 0; v < count; v++)
        for (size_t c = 0; c < 2; c++) {
            double at = along(c ? up : right, points + 3 * v);
            if (v == 0 || at < low[c]) low[c] = at;
            if (v == 0 || at > high[c]) high[c] = at;
        }
    double wide = (WIDTH - 2 * MARGIN) / (high[0] - low[0] + 1), tall = (HEIGHT - 2 * MARGIN) / (high[1] - low[1] + 1);
    double scale = wide < tall ? wide : tall;
    sheet s = {WIDTH / 2.0 - scale * (low[0] + high[0]) / 2, HEIGHT / 2.0 + scale * (low[1] + high[1]) / 2, scale};
    return s;
}

/* A face that looks at the viewer: how near it is, and how bright, 0 to 1. */
typedef struct {
    const uint16_t *corners;
    double nearness, brightness;
} front;

static int by_nearness(const void *one, const void *other) {
    const front *a = one, *b = other;
    if (a->nearness != b->nearness) return a->nearness < b->nearness ? -1 : 1;
    return a->corners < b->corners ? -1 : a->corners > b->corners;
}

/* Does the face look at the viewer? Then its normal leads towards it. The nearer to the light, the brighter it is. */
static int is_front(const level_faces *faces, const uint16_t *corners, front *f) {
    const int32_t *a = faces->points + 3 * corners[0], *b = faces->points + 3 * corners[1];
    const int32_t *c = faces->points + 3 * corners[2];
    double seen = 0, lit = 0, square = 0;
    for (size_t i = 0; i < 3; i++) {
        size_t j = (i + 1) % 3, k = (i + 2) % 3;
        double normal = (double)(b[j] - a[j]) * (c[k] - a[k]) - (double)(b[k] - a[k]) * (c[j] - a[j]);
        seen += normal * toward[i], lit += normal * light[i], square += normal * normal;
    }
    lit = lit > 0 ? lit * lit / square : 0;
    f->corners = corners;
    f->nearness = along(toward, a) + along(toward, b) + along(toward, c);
    f->brightness = lit * (2 - lit);
    return seen > 0;
}

static int is_touched(const drag_stack *stack, size_t level, size_t v) {
    return gt_is_touched(stack->map, stack->start[level] + v);
}

/* Draws a face like plaster, or in a warm colour if its corners are all touched. */
static void draw_face(sheet s, const drag_stack *stack, size_t level, const int32_t *points, front f) {
    static const int dark[2][3] = {{104, 112, 122}, {150, 84, 50}}, bright[2][3] = {{246, 242, 232}, {255, 205, 150}};
    int warm = 1, colour[3];
    for (size_t k = 0; k < 3; k++) warm &= is_touched(stack, level, f.corners[k]);
    for (size_t k = 0; k < 3; k++) colour[k] = (int)(dark[warm][k] + f.brightness * (bright[warm][k] - dark[warm][k]));
    printf("<path d='");
    for (size_t k = 0; k < 3; k++) {
        const int32_t *corner = points + 3 * f.corners[k];
        printf("%c%.1f %.1f", k ? 'L' : 'M', across(s, corner), down(s, corner));
    }
    printf("Z' fill='#%02x%02x%02x'/>\n", colour[0], colour[1], colour[2]);
}

/* Draws a level, the far faces first, then the touched points of these faces. */
static void draw_level(sheet s, const drag_stack *stack, size_t level, double dot) {
    level_faces faces = faces_of(stack, level);
    front *fronts = drag_room(faces.count, sizeof *fronts);
    char *seen = drag_room(stack->count[level], 1);
    size_t count = 0;
    for (size_t i = 0; i < faces.count; i++) count += (size_t)is_front(&faces, faces.corners[i], fronts + count);
    qsort(fronts, count, sizeof *fronts, by_nearness);
    printf("<g stroke='#26323e' stroke-opacity='.5' stroke-width='%.1f' stroke-linejoin='round'>\n", dot / 4);
    for (size_t i = 0; i < count; i++) {
        draw_face(s, stack, level, faces.points, fronts[i]);
        for (size_t k = 0; k < 3; k++) seen[fronts[i].corners[k]] = 1;
    }
    printf("</g>\n<g fill='#d9400b'>\n");
    for (size_t v = 0; v < stack->count[level]; v++) {
        const int32_t *point = faces.points + 3 * v;
        if (!seen[v] || !is_touched(stack, level, v)) continue;
        printf("<circle cx='%.1f' cy='%.1f' r='%.1f'/>\n", across(s, point), down(s, point), dot);
    }
    printf("</g>\n");
    free(faces.corners), free(fronts), free(seen);
}

/* Rings the moved points at a level, where they keep their numbers, and leads a line to each from where it was. */
static void draw_moved(sheet s, const int32_t *was, const int32_t *points, const gt_move *moves, size_t length) {
    printf("<g fill='none' stroke='#0a84ff' stroke-width='3'>\n");
    for (size_t i = 0; i < length; i++) {
        const int32_t *from = was + 3 * moves[i].vertex, *to = points + 3 * moves[i].vertex;
        printf("<circle cx='%.1f' cy='%.1f' r='10'/>\n", across(s, to), down(s, to));
        printf("<path d='M%.1f %.1fL%.1f %.1f'/>\n", across(s, from), down(s, from), across(s, to), down(s, to));
    }
    printf("</g>\n");
}

static void draw_caption(double x, const drag_stack *stack, size_t level) {
    size_t touched = 0;
    for (size_t v = 0; v < stack->count[level]; v++) touched += (size_t)is_touched(stack, level, v);
    printf("<text x='%.1f' y='%d'>%slevel %zu: %zu of %zu points touched</text>\n", x, HEIGHT + CAPTION / 4,
           level ? "" : "control mesh, ", level, touched, stack->count[level]);
}

int main(int argc, char **argv) {
    drag_stack stack;
    gt_move moves[GT_MOST_MOVES];
    if (argc < 3) {
        fprintf(stderr, "svg MESH LEVEL [MOVES] >FILE\n");
        return 2;
    }
    size_t level = drag_open_level(&stack, argv[1], argv[2]), length = drag_moves(moves, argc > 3 ? argv[3] : NULL);
    int32_t *was = drag_room(3 * stack.rows, sizeof *was);
    memcpy(was, stack.positions, 3 * stack.rows * sizeof *was);
    drag_apply(&stack, moves, length);
    sheet s = fit(stack.positions, stack.count[0]);
    printf("<svg xmlns='http://www.w3.org/2000/svg' viewBox='0 0 %d %d'>\n", 2 * WIDTH, HEIGHT + CAPTION);
    printf("<rect width='%d' height='%d' rx='18' fill='#26323e'/>\n", 2 * WIDTH, HEIGHT + CAPTION);
    draw_level(s, &stack, 0, 5);
    draw_moved(s, was, stack.positions, moves, length);
    s.x += WIDTH;
    draw_level(s, &stack, level, 2.4);
    draw_moved(s, was + 3 * stack.start[level], stack.positions + 3 * stack.start[level], moves, length);
    printf("<g font-family='sans-serif' font-size='20' text-anchor='middle' fill='#e9e5da'>\n");
    draw_caption(WIDTH / 2.0, &stack, 0);
    draw_caption(WIDTH * 1.5, &stack, level);
    printf("</g>\n</svg>\n");
    return 0;
}
