/* Does one operation of the library a number of times on one mesh, so that its instructions can be counted: those of a
 * run with repetitions less those of one with none.
 *
 *   bench MESH LEVELS OPERATION REPETITIONS
 *
 * MESH is sphere:V, torus:AxB (all valences 6), wild:V (valences up to 32), tubes:AxB:N (most valences N), or cone:N (two
 * tips of valence N, the first vertex and the last). OPERATION is check, refine, drag, list, read or write; on OFF text
 * off-read (as written), off-mixed (read with its faces shuffled and turned) or off-write; an edit of the mesh at an edge
 * near the middle of the tables, each repetition from where the one before left it: edge, face (which split one), flip; or
 * a ring call on the first vertex and the last in turn: contains, next, valence, make (the ring as it is), erase (the
 * neighbour in the middle; two repetitions at most, one a vertex). Prints the number of vertices of the stack, and its mean
 * valence at level 0. */
#include <stdio.h>
#include <stdlib.h>
#include "../meshes.h"

static control_mesh control;
static uint16_t *valences, *rings;
static int32_t *positions;
static uint32_t *map;
static uint8_t *file;
static char text[GT_MOST_OFF_BYTES + 1], mixed[GT_MOST_OFF_BYTES + 1];
static gt_move moves[GT_MOST_MOVES];
static size_t rows, words, file_length, text_length, levels;

#define TABLES valences, rows, rings, GT_RING_PLACES * rows, positions, 3 * rows

static void need(int condition, const char *what) {
    if (condition) return;
    fprintf(stderr, "bench: %s\n", what);
    exit(2);
}

static void make_mesh(const char *name) {
    uint64_t state = 12345;
    size_t a, b, n;
    if (sscanf(name, "sphere:%zu", &a) == 1) mesh_sphere(&control, &state, a);
    else if (sscanf(name, "torus:%zux%zu", &a, &b) == 2) mesh_torus(&control, a, b);
    else if (sscanf(name, "tubes:%zux%zu:%zu", &a, &b, &n) == 3) mesh_tubes(&control, &state, a, b, n);
    else if (sscanf(name, "cone:%zu", &n) == 1) mesh_double_cone(&control, n);
    else if (sscanf(name, "wild:%zu", &a) == 1) {
        mesh_sphere(&control, &state, a);
        mesh_flip_random(&control, &state, 20 * a, GT_RING_PLACES);
    } else need(0, "no such mesh");
    mesh_random_positions(&control, &state, GT_GREATEST_COORDINATE);
}

static size_t ends(void) {
    size_t sum = 0;
    for (size_t v = 0; v < control.count; v++) sum += control.valences[v];
    return sum;
}

static void prepare(void) {
    uint64_t state = 999;
    rows = gt_stack_rows(control.count, ends() / 2, levels), words = gt_map_words(rows);
    valences = calloc(rows, sizeof *valences), rings = calloc(GT_RING_PLACES * rows, sizeof *rings);
    positions = calloc(3 * rows, sizeof *positions), map = calloc(words, sizeof *map);
    file = calloc(1, 14 + 84 * control.count);
    need(valences && rings && positions && map && file, "no memory");
    for (size_t v = 0; v < control.count; v++) valences[v] = control.valences[v];
    for (size_t i = 0; i < GT_RING_PLACES * control.count; i++) rings[i] = control.rings[i];
    for (size_t i = 0; i < 3 * control.count; i++) positions[i] = control.positions[i];
    need(gt_refine(valences, rows, rings, GT_RING_PLACES * rows, positions, 3 * rows, control.count, levels).number == 0,
         "refinement refused");
    file_length = gt_write(valences, rows, rings, GT_RING_PLACES * rows, positions, 3 * rows, control.count, file,
                           14 + 84 * control.count).value;
    for (size_t i = 0; i < GT_MOST_MOVES; i++) {
        moves[i].vertex = (uint32_t)(i * control.count / GT_MOST_MOVES);
        moves[i].kind = (uint32_t)(i % 3);
        moves[i].x = (double)random_below(&state, 1000) / 1000;
        moves[i].y = moves[i].z = 0.5;
        if (moves[i].kind == GT_SHIFT) moves[i].x = moves[i].y = moves[i].z = 0;
    }
}

/* Writes the control mesh as text, and copies that with the faces in another order, each from another corner on. */
static void prepare_text(void) {
    static size_t corners[GT_RING_PLACES * GT_MOST_VERTICES / 3][3];
    uint64_t state = 77;
    size_t faces = 0, lines = 2 + control.count;
    text_length = gt_write_off(TABLES, control.count, (uint8_t *)text, GT_MOST_OFF_BYTES).value;
    need(text_length > 0, "writing refused");
    char *at = text;
    while (lines > 0) lines -= *at++ == '\n';
    char *out = mixed + (at - text);
    memcpy(mixed, text, (size_t)(at - text));
    for (; *at; faces++, at++) {
        strtoul(at, &at, 10);
        for (size_t i = 0; i < 3; i++) corners[faces][i] = strtoul(at, &at, 10);
    }
    for (; faces > 0; faces--) {
        size_t other = random_below(&state, faces), turn = random_below(&state, 3), *face = corners[other];
        out += sprintf(out, "3 %zu %zu %zu\n", face[turn], face[(turn + 1) % 3], face[(turn + 2) % 3]);
        memcpy(face, corners[faces - 1], sizeof *corners);
    }
}

static int check(void) { return gt_check(TABLES, control.count).number == 0; }
static int refine(void) { return gt_refine(TABLES, control.count, levels).number == 0; }
static int drag(void) { return gt_moves(TABLES, map, words, control.count, levels, moves, 1).number == 0; }
static int drag_list(void) { return gt_moves(TABLES, map, words, control.count, levels, moves, GT_MOST_MOVES).number == 0; }
static int read_file(void) { return gt_read(file, file_length, TABLES).number == 0; }
static int write_file(void) { return gt_write(TABLES, control.count, file, file_length).number == 0; }
static int read_text(void) { return gt_read_off((uint8_t *)text, text_length, TABLES).number == 0; }
static int read_mixed(void) { return gt_read_off((uint8_t *)mixed, text_length, TABLES).number == 0; }
static int write_text(void) { return gt_write_off(TABLES, control.count, (uint8_t *)text, text_length).number == 0; }

/* The edge that is edited, and how many vertices there are. */
static mesh_edge edited;
static size_t count;

static int split_edge(void) {
    int good = gt_split_edge(TABLES, count, edited.p, edited.q).number == 0;
    edited.q = count++;
    return good;
}

static int split_face(void) {
    int good = gt_split_face(TABLES, count, edited.q, edited.p, edited.a).number == 0;
    edited.a = count++;
    return good;
}

/* Every second time it flips back. */
static int flip(void) {
    mesh_edge flipped = {edited.a, edited.b, edited.p, edited.q};
    int good = gt_flip(TABLES, count, edited.p, edited.q).number == 0;
    edited = flipped;
    return good;
}

static void nothing(void) {}
static void prepare_edit(void) { count = control.count, edited = mesh_some_flip(&control, count / 2); }

/* What an operation needs besides the stack, and one repetition of it. */
typedef struct {
    const char *name;
    void (*prepare)(void);
    int (*operate)(void);
} operation;

/* The operation of a name; null for a ring call. It takes as long to find for one as for another. */
static const operation *operation_of(const char *name) {
    static const operation all[] = {
        {"check", nothing, check}, {"refine", nothing, refine}, {"drag", nothing, drag}, {"list", nothing, drag_list},
        {"read", nothing, read_file}, {"write", nothing, write_file}, {"off-read", prepare_text, read_text},
        {"off-mixed", prepare_text, read_mixed}, {"off-write", prepare_text, write_text},
        {"edge", prepare_edit, split_edge}, {"face", prepare_edit, split_face}, {"flip", prepare_edit, flip},
    };
    const operation *found = NULL;
    for (size_t i = 0; i < sizeof all / sizeof *all; i++)
        if (strcmp(name, all[i].name) == 0) found = all + i;
    return found;
}

/* One ring call on v; the neighbour in the middle of the ring is the one that is looked for. */
static int operate_ring(char call, size_t v) {
    size_t ring_places = GT_RING_PLACES * rows, n = control.valences[v];
    const uint16_t *ring = control.rings + GT_RING_PLACES * v;
    switch (call) {
    case 'c': return gt_contains(valences, rows, rings, ring_places, control.count, v, ring[n / 2]).value == 1;
    case 'n': return gt_next(valences, rows, rings, ring_places, control.count, v, ring[n / 2]).value == ring[n / 2 + 1];
    case 'v': return gt_valence(valences, rows, rings, ring_places, control.count, v).value == n;
    case 'm': return gt_make(valences, rows, rings, ring_places, control.count, v, ring, n).number == 0;
    case 'e': return gt_erase(valences, rows, rings, ring_places, control.count, v, ring[n / 2]).number == 0 && valences[v] == n - 1;
    default: return 0;
    }
}

int main(int argc, char **argv) {
    need(argc == 5, "bench MESH LEVELS OPERATION REPETITIONS");
    make_mesh(argv[1]);
    levels = (size_t)atoi(argv[2]);
    prepare();
    const operation *named = operation_of(argv[3]);
    if (named) named->prepare();
    for (int i = atoi(argv[4]); i > 0; i--)
        if (named) need(named->operate(), "an operation was refused");
        else need(operate_ring(argv[3][0], i % 2 ? control.count - 1 : 0), "a ring call was refused");
    printf("%zu %.1f\n", rows, (double)ends() / (double)control.count);
    return 0;
}
