/* Holds every call to what it may read. Closed to reading are the unused places of every ring, the tails of all tables
 * and lists, in a ring call every other row and valence, and all tables where a call only writes them or is refused for
 * its sizes. Calls may write to closed places. A list of a million moves is refused without a look behind the 64th. Only
 * the valence of a vertex that a split has made is open to it, as it counts that valence after it has written it.
 *
 *   qemu-x86_64 -plugin watch.so -d plugin closed
 *
 * The loads are seen by the plug-in bench/watch.c, which reports them and then ends the run with status 1. */
#include <emmintrin.h>
#include "closed.h"

/* The watch itself: a load of any width that reaches into a closed range by one byte is seen, one beside it is not. */
static void try_watch(void) {
    static volatile uint8_t memory[64];
    watch_forget();
    watch_close((const void *)(memory + 16), 16, "trial range", 0);
#define TRY(width, type) do { \
        watch_begin("a load of " #width, "of the program"); \
        (void)*(const volatile type *)(memory + 17 - width); \
        watch_end(), watch_expect(); \
        watch_begin("a load of " #width, "its last byte"); \
        (void)*(const volatile type *)(memory + 31); \
        watch_end(), watch_expect(); \
        watch_begin("a load of " #width, "beside it"); \
        (void)*(const volatile type *)(memory + 16 - width), (void)*(const volatile type *)(memory + 32); \
        watch_end(); \
    } while (0)
    typedef uint16_t two __attribute__((aligned(1)));
    typedef uint32_t four __attribute__((aligned(1)));
    typedef uint64_t eight __attribute__((aligned(1)));
    typedef __m128i sixteen __attribute__((aligned(1)));
    TRY(1, uint8_t);
    TRY(2, two);
    TRY(4, four);
    TRY(8, eight);
    TRY(16, sixteen);
}

/* RING CALLS, on the ring of one vertex among 64. */

enum { COUNT = 64 };
static uint16_t numbers[COUNT];            /* all numbers but v: the first of them are v's ring */

/* Gives v a ring of n, and numbers that are not in it behind. */
static void make_ring(size_t v, size_t n) {
    for (size_t i = 0, k = 0; i < COUNT; i++)
        if (i != v) numbers[k++] = (uint16_t)i;
    for (size_t i = COUNT - 1; i > 1; i--) {
        size_t k = below(i);
        uint16_t other = numbers[i - 1];
        numbers[i - 1] = numbers[k], numbers[k] = other;
    }
    valences[v] = (uint16_t)n;
    for (size_t i = 0; i < GT_RING_PLACES; i++) rings[GT_RING_PLACES * v + i] = numbers[i];
}

/* Every call on v's ring, with the numbers that queries and erasing, replacing, and inserting must answer. */
static void try_calls(size_t count, size_t v, size_t a, size_t x, const char *how, uint32_t query, uint32_t entry,
                      uint32_t insert) {
    keep();
    WATCH(how, query, gt_contains, RING_TABLES, count, v, a);
    WATCH(how, query, gt_next, RING_TABLES, count, v, a);
    WATCH(how, query, gt_prev, RING_TABLES, count, v, a);
    WATCH(how, query, gt_valence, RING_TABLES, count, v);
    WATCH(how, query, gt_erase, RING_TABLES, count, v, a);
    put_back();
    WATCH(how, entry, gt_replace, RING_TABLES, count, v, a, x);
    put_back();
    WATCH(how, insert, gt_insert_after, RING_TABLES, count, v, a, x);
    put_back();
    WATCH(how, insert, gt_insert_before, RING_TABLES, count, v, a, x);
    put_back();
}

static void try_ring(size_t v, size_t n) {
    char how[WATCH_NAME + 1];
    make_ring(v, n);
    close_others(v);
    size_t places[4] = {0, n / 2, n - 2, n - 1}, outside = numbers[GT_RING_PLACES], behind = numbers[n + 1];
    for (size_t k = 0; k < 4; k++) {
        if (places[k] >= n) continue;
        snprintf(how, sizeof how, "place %zu of %zu", places[k], n);
        try_calls(COUNT, v, numbers[places[k]], outside, how, 0, 0, n == GT_RING_PLACES ? GT_RING_FULL : 0);
    }
    snprintf(how, sizeof how, "absent from %zu", n);
    try_calls(COUNT, v, behind, outside, how, 0, 0, 0);
    try_calls(COUNT, v, COUNT, numbers[n], how, 0, 0, 0);
    snprintf(how, sizeof how, "refused at %zu", n);
    try_calls(COUNT, v, behind, COUNT, how, 0, GT_NO_SUCH_VERTEX, GT_NO_SUCH_VERTEX);
    try_calls(COUNT, v, behind, v, how, 0, GT_NEIGHBOUR_TAKEN, GT_NEIGHBOUR_TAKEN);
    if (n == 0) return;
    try_calls(COUNT, v, numbers[0], numbers[n - 1], how, 0, GT_NEIGHBOUR_TAKEN, GT_NEIGHBOUR_TAKEN);
    uint16_t wrong[3] = {(uint16_t)v, COUNT, numbers[0]};
    for (size_t k = 0; k < (n > 1 ? 3 : 2); k++) {
        rings[GT_RING_PLACES * v + n - 1] = wrong[k];
        try_calls(COUNT, v, numbers[0], outside, how, GT_RING_IMPROPER, GT_RING_IMPROPER, GT_RING_IMPROPER);
    }
}

/* A make reads the list and nothing else; behind its length the list is closed. */
static void try_make(size_t v, size_t n) {
    static uint16_t list[COUNT];
    char how[WATCH_NAME + 1];
    snprintf(how, sizeof how, "list of %zu", n);
    make_ring(v, below(GT_RING_PLACES + 1));
    memcpy(list, numbers, sizeof numbers - sizeof *numbers);
    close_all();
    CLOSE(list, n > GT_RING_PLACES ? 0 : n, COUNT, "list from");
    WATCH(how, n > GT_RING_PLACES ? GT_RING_FULL : 0, gt_make, RING_TABLES, COUNT, v, list, n);
    if (n == 0 || n > GT_RING_PLACES) return;
    list[n - 1] = (uint16_t)v;
    WATCH(how, GT_NEIGHBOUR_TAKEN, gt_make, RING_TABLES, COUNT, v, list, n);
    list[n / 2] = COUNT;
    WATCH(how, GT_NO_SUCH_VERTEX, gt_make, RING_TABLES, COUNT, v, list, n);
}

static void try_rings(void) {
    mesh.count = COUNT;
    lay(COUNT + TAIL);
    for (size_t n = 0; n <= GT_RING_PLACES; n++) try_ring(below(COUNT), n);
    for (size_t n = 0; n <= GT_RING_PLACES + 1; n++) try_make(below(COUNT), n);
    valences[5] = GT_RING_PLACES + 1;
    close_others(5);
    try_calls(COUNT, 5, 1, 2, "valence 33", GT_RING_IMPROPER, GT_RING_IMPROPER, GT_RING_IMPROPER);
    close_all();
    try_calls(COUNT, COUNT, 1, 2, "no such vertex", GT_NO_SUCH_VERTEX, GT_NO_SUCH_VERTEX, GT_NO_SUCH_VERTEX);
    try_calls(COUNT + TAIL + 1, 0, 1, 2, "too short", GT_TABLE_TOO_SHORT, GT_TABLE_TOO_SHORT, GT_TABLE_TOO_SHORT);
    try_calls(3, 0, 1, 2, "three vertices", GT_VERTEX_COUNT, GT_VERTEX_COUNT, GT_VERTEX_COUNT);
}

/* MESHES AND STACKS. */

static size_t counts[GT_MOST_LEVELS + 1], total;

static void count_levels(size_t levels) {
    size_t ends = 0;
    for (size_t v = 0; v < mesh.count; v++) ends += mesh.valences[v];
    counts[0] = total = mesh.count;
    for (size_t k = 1, edges = ends / 2; k <= levels; k++, edges *= 4) total += counts[k] = counts[k - 1] + edges;
}

static size_t words(void) { return gt_map_words(total); }

/* The file of the mesh, written and read; cut off and changed. */
static void try_file(void) {
    size_t count = mesh.count, length = 14 + 20 * count;
    for (size_t v = 0; v < count; v++) length += 2 * (size_t)mesh.valences[v];
    lay(count + TAIL);
    close_behind(count);
    watch_close(file, sizeof file, "the file", 0);
    WATCH("no room", GT_NO_ROOM, gt_write, TABLES, count, file, length - 1);
    WATCH("the mesh", 0, gt_write, TABLES, count, file, sizeof file);
    for (size_t k = 0; k < 24; k++) {
        size_t cut = below(k < 8 ? 60 : length);
        close_all();
        CLOSE(file, cut, sizeof file, "file from");
        WATCH("cut off", GT_FILE_LAYOUT, gt_read, file, cut, TABLES);
    }
    close_all();
    CLOSE(file, length, sizeof file, "file from");
    file[length - 2] ^= 1;
    WATCH("changed", GT_FILE_LAYOUT, gt_read, file, length, TABLES);
    file[length - 2] ^= 1;
    WATCH("the mesh", 0, gt_read, file, length, TABLES);
    rows = count - 1;
    WATCH("too short", GT_TABLE_TOO_SHORT, gt_read, file, length, TABLES);
    lay(count + TAIL);
    valences[count - 1] = GT_RING_PLACES + 1;
    close_behind(count);
    watch_close(file, sizeof file, "the file", 0);
    WATCH("valence 33", GT_RING_IMPROPER, gt_write, TABLES, count, file, sizeof file);
}

/* A list of so many moves, of all kinds, that ends where `moves` holds its 64th. */
/* The mesh as text, written and read; cut off, with other bytes in it, and in tables that are too short. */
static void try_text(void) {
    static const char bytes[] = "0123456789- \nOF";
    size_t count = mesh.count, length;
    lay(count + TAIL);
    length = gt_write_off(TABLES, count, file, sizeof file).value;
    close_behind(count);
    watch_close(file, sizeof file, "the text", 0);
    WATCH("no room", GT_NO_ROOM, gt_write_off, TABLES, count, file, length - 1);
    WATCH("the mesh", 0, gt_write_off, TABLES, count, file, sizeof file);
    for (size_t k = 0; k < 24; k++) {
        size_t cut = below(k < 8 ? 60 : length);
        close_all();
        CLOSE(file, cut, sizeof file, "text from");
        WATCH("cut off", GT_BAD_TEXT, gt_read_off, file, cut, TABLES);
    }
    close_all();
    CLOSE(file, length, sizeof file, "text from");
    for (size_t k = 0; k < 40; k++) {
        size_t at = below(length);
        uint8_t was = file[at];
        file[at] = (uint8_t)bytes[below(sizeof bytes - 1)];
        uint32_t wanted = gt_read_off(file, length, TABLES).number;
        WATCH("changed", wanted, gt_read_off, file, length, TABLES);
        file[at] = was;
    }
    WATCH("the mesh", 0, gt_read_off, file, length, TABLES);
    rows = count - 1;
    WATCH("too short", GT_TABLE_TOO_SHORT, gt_read_off, file, length, TABLES);
}

static gt_move *list_of(size_t length) {
    static const gt_move some[3] = {{0, GT_PLACE, 1, 2, 3}, {0, GT_SHIFT, 0, 0.001, 0}, {0, GT_STRETCH, 0.5, -0.5, 1}};
    for (size_t i = 0; i < GT_MOST_MOVES; i++) {
        moves[i] = some[i % 3];
        moves[i].vertex = (uint32_t)below(mesh.count);
    }
    return moves + GT_MOST_MOVES - length;
}

static void close_lists(size_t used_words) {
    CLOSE(map, used_words, sizeof map / sizeof *map, "map from");
    CLOSE(moves, GT_MOST_MOVES, LONG_LIST, "moves from");
}

#define MAP map, sizeof map / sizeof *map

/* Lists of moves on a stack. */
static void try_moves(size_t levels, const char *how) {
    static const struct { gt_move move; uint32_t number; } refused[] = {
        {{0, 3, 0, 0, 0}, GT_UNKNOWN_KIND}, {{65536, 0, 0, 0, 0}, GT_NO_SUCH_VERTEX},
        {{0, 0, 1e308 * 10, 0, 0}, GT_NOT_FINITE}, {{0, 0, 0, 1025, 0}, GT_OUT_OF_REACH}};
    static const size_t lengths[4] = {0, 1, 2, GT_MOST_MOVES};
    for (size_t k = 0; k < 4; k++)
        WATCH(how, 0, gt_moves, TABLES, MAP, mesh.count, levels, list_of(lengths[k]), lengths[k]);
    for (size_t k = 0; k < 4; k++) {
        gt_move *list = list_of(k + 1);
        list[k] = refused[k].move;
        WATCH(how, refused[k].number, gt_moves, TABLES, MAP, mesh.count, levels, list, k + 1);
    }
}

/* Refines and moves. The used places of the upper rows are those of a first run. */
static void try_levels(size_t levels) {
    char how[WATCH_NAME + 1];
    size_t count = mesh.count;
    snprintf(how, sizeof how, "%zu levels of %zu", levels, count);
    count_levels(levels);
    if (total + TAIL > ROWS) fail("count_levels", how, (uint32_t)total, ROWS);
    lay(total + TAIL);
    gt_refine(TABLES, count, levels);
    close_behind(total);
    close_lists(words());
    lay(total + TAIL);
    WATCH(how, 0, gt_check, TABLES, count);
    WATCH(how, 0, gt_refine, TABLES, count, levels);
    scatter(0, total);
    try_moves(levels, how);
    if (levels == 1) return;
    snprintf(how, sizeof how, "%zu of %zu levels", levels - 1, levels);
    count_levels(levels - 1);
    close_behind(total);
    close_lists(words());
    try_moves(levels - 1, how);
}

/* An edit of the mesh. It is called once before it is watched, to learn what it answers: what is closed to it if that is
 * 0 is given. */
#define WATCH_EDIT(how, close, call, ...) do { \
        uint32_t answered = call(__VA_ARGS__).number; \
        put_back(); \
        if (answered == 0) close(mesh.count); \
        else close_behind(mesh.count); \
        WATCH(how, answered, call, __VA_ARGS__); \
        put_back(); \
    } while (0)

/* Edits of the mesh, at random edges and faces, and where there are none. */
static void try_reshaping(void) {
    size_t count = mesh.count, corners[3];
    lay(count + TAIL);
    keep();
    for (size_t k = 0; k < 24; k++) {
        size_t v = below(count);
        mesh_face(&mesh, v, below(mesh.valences[v]), corners);
        if (k % 4 == 3) corners[k % 3] = below(count + 1);
        WATCH_EDIT("a mesh", close_behind_new, gt_split_edge, TABLES, count, corners[0], corners[1]);
        WATCH_EDIT("a mesh", close_behind_new, gt_split_face, TABLES, count, corners[1], corners[0], corners[2]);
        WATCH_EDIT("a mesh", close_behind, gt_flip, TABLES, count, corners[0], corners[1]);
    }
    rows = count;
    mesh_face(&mesh, 0, 0, corners);
    WATCH_EDIT("no row", close_behind_new, gt_split_edge, TABLES, count, corners[0], corners[1]);
    WATCH_EDIT("no row", close_behind_new, gt_split_face, TABLES, count, corners[1], corners[0], corners[2]);
    WATCH_EDIT("no row", close_behind, gt_flip, TABLES, count, corners[0], corners[1]);
}

/* One thing above level 0 is altered, or two: reason 11, by the valences as they then stand. */
static void try_altered(void) {
    static const uint16_t other[8] = {0, 1, 2, 4, 5, 7, 33, 65535};
    count_levels(2);
    lay(total + TAIL);
    gt_refine(TABLES, mesh.count, 2);
    scatter(0, total);
    keep();
    for (size_t k = 0; k < 60; k++) {
        put_back();
        for (size_t times = 1 + k % 2; times > 0; times--) {
            size_t at = mesh.count + below(total - mesh.count);
            size_t valence = valences[at] <= GT_RING_PLACES ? valences[at] : GT_RING_PLACES;
            switch (k % 3) {
            case 0: valences[at] = other[below(8)]; break;
            case 1: rings[GT_RING_PLACES * at + (valence ? below(valence) : 0)] ^= 1 + below(7); break;
            default: positions[3 * at + below(3)] = GT_GREATEST_COORDINATE + 1;
            }
        }
        if (gt_moves(TABLES, MAP, mesh.count, 2, moves, 0).number == 0) continue;
        close_behind(total);
        close_lists(0);
        WATCH("altered", GT_STACK_ALTERED, gt_moves, TABLES, MAP, mesh.count, 2, list_of(1), 1);
    }
}

/* The control mesh is damaged in a few places: what the check refuses, by the valences as they then stand. */
static void try_damaged(void) {
    size_t count = mesh.count;
    lay(count + TAIL);
    keep();
    for (size_t k = 0; k < 80; k++) {
        put_back();
        for (size_t times = 1 + k % 2; times > 0; times--) {
            size_t v = below(count), valence = valences[v] <= GT_RING_PLACES ? valences[v] : GT_RING_PLACES;
            uint16_t *row = rings + GT_RING_PLACES * v, first = row[0];
            switch (k % 5) {
            case 0: valences[v] = (uint16_t)below(40); break;
            case 1: row[valence ? below(valence) : 0] = (uint16_t)below(count + 2); break;
            case 2: row[0] = row[1], row[1] = first; break;
            case 3: memmove(row, row + 1, sizeof *row * (valence ? valence - 1 : 0)); break;
            default: positions[3 * v + below(3)] = -GT_GREATEST_COORDINATE - 1;
            }
        }
        uint32_t wanted = gt_check(TABLES, count).number;
        if (wanted == 0) continue;
        close_behind(count);
        close_lists(0);
        WATCH("damaged", wanted, gt_check, TABLES, count);
        WATCH("damaged", wanted, gt_split_edge, TABLES, count, 0, 1);
        WATCH("damaged", wanted, gt_split_face, TABLES, count, 0, 1, 2);
        WATCH("damaged", wanted, gt_flip, TABLES, count, 0, 1);
        WATCH("damaged", wanted, gt_refine, TABLES, count, 2);
        WATCH("damaged", wanted, gt_moves, TABLES, MAP, count, 2, list_of(1), 1);
        WATCH("damaged", wanted, gt_write_off, TABLES, count, file, sizeof file);
    }
}

/* Refusals for sizes alone look into no table; those for room look at level 0 alone. */
static void try_sizes(void) {
    size_t count = mesh.count;
    count_levels(2);
    lay(total + TAIL);
    close_all();
    watch_close(map, sizeof map, "map from", 0);
    watch_close(moves, sizeof moves, "moves from", 0);
    for (size_t levels = 0; levels <= GT_MOST_LEVELS + 1; levels += GT_MOST_LEVELS + 1) {
        WATCH("levels 0 or 5", GT_LEVEL_COUNT, gt_refine, TABLES, count, levels);
        WATCH("levels 0 or 5", GT_LEVEL_COUNT, gt_moves, TABLES, MAP, count, levels, moves, 1);
    }
    WATCH("three vertices", GT_VERTEX_COUNT, gt_check, TABLES, 3);
    WATCH("three vertices", GT_VERTEX_COUNT, gt_split_edge, TABLES, 3, 0, 1);
    WATCH("three vertices", GT_VERTEX_COUNT, gt_split_face, TABLES, 3, 0, 1, 2);
    WATCH("three vertices", GT_VERTEX_COUNT, gt_flip, TABLES, 3, 0, 1);
    WATCH("three vertices", GT_VERTEX_COUNT, gt_refine, TABLES, 3, 1);
    WATCH("three vertices", GT_VERTEX_COUNT, gt_write, TABLES, 3, file, sizeof file);
    WATCH("three vertices", GT_VERTEX_COUNT, gt_write_off, TABLES, 3, file, sizeof file);
    rows = count - 1;
    WATCH("too short", GT_TABLE_TOO_SHORT, gt_check, TABLES, count);
    WATCH("too short", GT_TABLE_TOO_SHORT, gt_split_edge, TABLES, count, 0, 1);
    WATCH("too short", GT_TABLE_TOO_SHORT, gt_split_face, TABLES, count, 0, 1, 2);
    WATCH("too short", GT_TABLE_TOO_SHORT, gt_flip, TABLES, count, 0, 1);
    WATCH("too short", GT_TABLE_TOO_SHORT, gt_refine, TABLES, count, 1);
    WATCH("too short", GT_TABLE_TOO_SHORT, gt_write, TABLES, count, file, sizeof file);
    WATCH("too short", GT_TABLE_TOO_SHORT, gt_write_off, TABLES, count, file, sizeof file);
    rows = total - 1;
    close_behind(count);
    close_lists(0);
    WATCH("no room", GT_NO_ROOM, gt_refine, TABLES, count, 2);
    WATCH("no room", GT_NO_ROOM, gt_moves, TABLES, MAP, count, 2, list_of(1), 1);
    rows = total;
    WATCH("no room in map", GT_NO_ROOM, gt_moves, TABLES, map, words() - 1, count, 2, list_of(1), 1);
}

/* A LIST OF A MILLION, of which the first 64 may be read. */

static void try_long(const char *how, uint32_t wanted, size_t levels) {
    WATCH(how, wanted, gt_moves, TABLES, MAP, mesh.count, levels, moves, LONG_LIST);
}

/* The same where the first place of vertex `at` is altered. */
static void try_long_altered(uint32_t wanted, size_t at, uint16_t with) {
    keep();
    rings[GT_RING_PLACES * at] = with;
    try_long("long, altered", wanted, 1);
    put_back();
}

static void try_long_lists(void) {
    mesh_sphere(&mesh, &state, 400);
    mesh_random_positions(&mesh, &state, GT_GREATEST_COORDINATE);
    count_levels(1);
    lay(total);
    gt_refine(TABLES, mesh.count, 1);
    close_behind(total);
    close_lists(0);
    list_of(GT_MOST_MOVES);
    try_long("long", GT_TOO_MANY_MOVES, 1);
    moves[0].kind = 7, moves[1].vertex = 65536, moves[2].x = 1e308;
    try_long("long, wrong ones", GT_TOO_MANY_MOVES, 1);
    try_long("long, 4 levels", GT_LEVEL_TOO_LARGE, 4);
    try_long("long, no room", GT_NO_ROOM, 2);
    rows = mesh.count - 1;
    try_long("long, too short", GT_TABLE_TOO_SHORT, 1);
    rows = total;
    size_t v = 300, after = rings[GT_RING_PLACES * v + 1];
    try_long_altered(GT_RING_IMPROPER, v, (uint16_t)after);
    try_long_altered(GT_NOT_MUTUAL, v, 399);
    try_long_altered(GT_STACK_ALTERED, mesh.count + v, 0);
    positions[3 * v] = GT_GREATEST_COORDINATE + 1;
    try_long("long, beyond", GT_CONTROL_COORDINATE, 1);
    close_all();
    watch_close(moves, sizeof moves, "moves from", 0);
    try_long("long, levels 0", GT_LEVEL_COUNT, 0);
    try_long("long, levels 5", GT_LEVEL_COUNT, GT_MOST_LEVELS + 1);
}

static void try_mesh(size_t levels) {
    mesh_random_positions(&mesh, &state, GT_GREATEST_COORDINATE);
    for (size_t k = 1; k <= levels; k++) try_levels(k);
    try_file();
    try_text();
    try_reshaping();
    try_altered();
    try_damaged();
    try_sizes();
}

int main(void) {
    try_watch();
    try_rings();
    try_long_lists();
    mesh_tetrahedron(&mesh);
    try_mesh(GT_MOST_LEVELS);
    mesh_torus(&mesh, 4, 5);
    try_mesh(GT_MOST_LEVELS);
    mesh_sphere(&mesh, &state, 40);
    try_mesh(GT_MOST_LEVELS);
    mesh_double_cone(&mesh, GT_RING_PLACES - 1);
    try_mesh(3);
    mesh_double_cone(&mesh, GT_RING_PLACES);
    try_mesh(3);
    mesh_sphere(&mesh, &state, 150);
    mesh_flip_random(&mesh, &state, 3000, GT_RING_PLACES);
    try_mesh(2);
    puts("closed: all calls tried on rings, meshes, stacks, files, texts and lists");
    return 0;
}
