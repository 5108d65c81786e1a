/* The program that docs/USING.md goes through piece by piece: a mesh from nothing, refined, shown, dragged and edited. */
#include <stdio.h>
#include <stdlib.h>
#include "gypsumtrot.h"

enum { LEVELS = 3 };

/* The tables, all with the same number of rows, and the map; V and E of the control mesh, F of the last level. */
typedef struct {
    size_t v, e, f, rows;
    uint16_t *valences, *rings;
    int32_t *positions;
    uint32_t *map;
} mesh;

#define RING_TABLES(m) (m)->valences, (m)->rows, (m)->rings, GT_RING_PLACES * (m)->rows
#define TABLES(m) RING_TABLES(m), (m)->positions, 3 * (m)->rows
#define MAP(m) (m)->map, gt_map_words((m)->rows)

static void *need(void *memory) {
    if (memory) return memory;
    perror("memory");
    exit(1);
}

/* Gives the tables so many rows; what stands in the first ones stays. */
static void set_rows(mesh *m, size_t rows) {
    m->rows = rows;
    m->valences = need(realloc(m->valences, rows * sizeof *m->valences));
    m->rings = need(realloc(m->rings, GT_RING_PLACES * rows * sizeof *m->rings));
    m->positions = need(realloc(m->positions, 3 * rows * sizeof *m->positions));
    m->map = need(realloc(m->map, gt_map_words(rows) * sizeof *m->map));
}

static void must(const char *what, uint32_t number, size_t place) {
    if (number == GT_ACCEPTED) return;
    fprintf(stderr, "%s: refused %u at %zu (%s)\n", what, number, place, gt_reason(number));
    exit(1);
}

static void build(mesh *m) {
    static const uint16_t rings[6][4] = {{1, 2, 3, 4}, {0, 4, 5, 2}, {0, 1, 5, 3}, {0, 2, 5, 4}, {0, 3, 5, 1}, {1, 4, 3, 2}};
    static const int millimetres[6][3] = {{0, 0, 10}, {10, 0, 0}, {0, 10, 0}, {-10, 0, 0}, {0, -10, 0}, {0, 0, -10}};
    m->v = 6;
    set_rows(m, m->v);
    for (size_t v = 0; v < 6; v++) {
        gt_value made = gt_make(RING_TABLES(m), m->v, v, rings[v], 4);
        must("make", made.number, made.place);
        for (size_t axis = 0; axis < 3; axis++) m->positions[3 * v + axis] = GT_UNITS_A_MILLIMETRE * millimetres[v][axis];
    }
    gt_counts counts = gt_check(TABLES(m), m->v);
    must("check", counts.number, counts.place);
    m->e = counts.e;
    printf("built: %zu vertices, %zu edges, %zu faces\n", counts.v, counts.e, counts.f);
}

static void refine(mesh *m) {
    set_rows(m, gt_stack_rows(m->v, m->e, LEVELS));
    gt_counts last = gt_refine(TABLES(m), m->v, LEVELS);
    must("refine", last.number, last.place);
    m->f = last.f;
    printf("refined: %zu rows; level %d has %zu vertices, %zu edges, %zu faces\n", m->rows, LEVELS, last.v, last.e, last.f);
}

/* The row where a level begins. */
static size_t start(const mesh *m, size_t level) { return level == 0 ? 0 : gt_stack_rows(m->v, m->e, level - 1); }

/* The triangles of a level, each once, at its lowest corner; answers how many there are. */
static size_t triangles(const mesh *m, size_t level, uint16_t *corners) {
    size_t from = start(m, level), count = start(m, level + 1) - from, faces = 0;
    for (size_t v = 0; v < count; v++) {
        const uint16_t *ring = m->rings + GT_RING_PLACES * (from + v);
        size_t valence = m->valences[from + v];
        for (size_t i = 0; i < valence; i++) {
            uint16_t u = ring[i], w = ring[(i + 1) % valence];
            if (u < v || w < v) continue;
            corners[3 * faces] = (uint16_t)v;
            corners[3 * faces + 1] = u;
            corners[3 * faces + 2] = w;
            faces++;
        }
    }
    return faces;
}

/* Six times the volume inside: positive if the corners turn counter-clockwise seen from outside. */
static double six_volumes(const int32_t *p, const uint16_t *corners, size_t faces) {
    double sum = 0;
    for (size_t f = 0; f < faces; f++) {
        const int32_t *a = p + 3 * corners[3 * f], *b = p + 3 * corners[3 * f + 1], *c = p + 3 * corners[3 * f + 2];
        sum += (double)a[0] * ((double)b[1] * c[2] - (double)b[2] * c[1])
             + (double)a[1] * ((double)b[2] * c[0] - (double)b[0] * c[2])
             + (double)a[2] * ((double)b[0] * c[1] - (double)b[1] * c[0]);
    }
    return sum;
}

/* The screen's copy of the last level: its points in millimetres, and its triangles. */
static float *screen;
static uint16_t *corners;

static void show(const mesh *m, size_t i) {
    for (size_t axis = 0; axis < 3; axis++)
        screen[3 * i + axis] = (float)m->positions[3 * (start(m, LEVELS) + i) + axis] / GT_UNITS_A_MILLIMETRE;
}

/* After refining: all points and all triangles are shown. */
static void show_all(const mesh *m) {
    size_t from = start(m, LEVELS), count = m->rows - from;
    screen = need(realloc(screen, 3 * count * sizeof *screen));
    for (size_t i = 0; i < count; i++) show(m, i);
    corners = need(realloc(corners, 3 * m->f * sizeof *corners));
    size_t faces = triangles(m, LEVELS, corners);
    double volume = six_volumes(m->positions + 3 * from, corners, faces);
    printf("%zu triangles, %s seen from outside\n", faces, volume > 0 ? "counter-clockwise" : "clockwise");
}

/* One step of a drag: the vertex goes to a place, and the touched points of the last level are shown anew. */
static void drag(mesh *m, uint32_t vertex, double x, double y, double z) {
    const gt_move move = {vertex, GT_PLACE, x, y, z};
    gt_value touched = gt_moves(TABLES(m), MAP(m), m->v, LEVELS, &move, 1);
    if (touched.number != GT_ACCEPTED) {
        printf("refused %u at %zu: nothing has changed\n", touched.number, touched.place);
        return;
    }
    size_t from = start(m, LEVELS), shown = 0;
    for (size_t i = 0; from + i < m->rows; i++)
        if (gt_is_touched(m->map, from + i)) {
            show(m, i);
            shown++;
        }
    printf("%zu points touched, %zu of them shown anew\n", touched.value, shown);
}

/* Takes V and E over from an edit of the mesh. */
static void edited(mesh *m, const char *what, gt_counts after) {
    must(what, after.number, after.place);
    m->v = after.v;
    m->e = after.e;
    printf("%s: %zu vertices, %zu edges, %zu faces\n", what, after.v, after.e, after.f);
}

/* Vertex 6 comes into the face at 0 between 1 and 2, vertex 7 on the edge 3, 4; then 5 and 6 are joined instead of 1 and 2. */
static void edit(mesh *m) {
    edited(m, "face split", gt_split_face(TABLES(m), m->v, 1, 0, 2));
    edited(m, "edge split", gt_split_edge(TABLES(m), m->v, 4, 3));
    edited(m, "edge flipped", gt_flip(TABLES(m), m->v, 1, 2));
}

static void save(const mesh *m, const char *path) {
    size_t room = 14 + 20 * m->v + 4 * m->e;
    uint8_t *bytes = need(malloc(room));
    gt_value written = gt_write(TABLES(m), m->v, bytes, room);
    must("write", written.number, written.place);
    FILE *file = fopen(path, "wb");
    if (!file || fwrite(bytes, 1, written.value, file) != written.value || fclose(file) != 0) {
        perror(path);
        exit(1);
    }
    free(bytes);
    printf("saved: %zu bytes\n", written.value);
}

int main(void) {
    mesh m = {0, 0, 0, 0, NULL, NULL, NULL, NULL};
    build(&m);
    refine(&m);
    show_all(&m);
    drag(&m, 0, 0.0, 0.0, 11.0);
    drag(&m, 0, 0.0, 0.0, 12.0);
    edit(&m);
    refine(&m);
    show_all(&m);
    drag(&m, 6, 7.0, 7.0, 7.0);
    drag(&m, 6, 8.0, 8.0, 2000.0);
    edited(&m, "edge flipped back", gt_flip(TABLES(&m), m.v, 5, 6));
    drag(&m, 6, 8.0, 8.0, 8.0);
    save(&m, "using.mesh");
    return 0;
}
