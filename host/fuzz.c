/* Tries every call on random tables, sizes, arguments and bytes, from a fixed seed.
 *
 *   fuzz [SEED [ROUNDS]]
 *
 * Held in every round: nothing outside a lent table is touched; tables that are only read stay; a refusal changes
 * nothing and answers no counts; ring edits change one row; what is read can be written back; an accepted move list
 * touches exactly the points that the definition says, leaves the others, and its stack equals a fresh refinement; a
 * mesh and its mirror image are answered alike, and mirrored lists leave them mirrored; edits of the mesh keep it sound,
 * change its counts and rows as they should, and a flip can be flipped back; a mesh that is read from OFF text passes the
 * check, and what is written as OFF text lists its faces ascending and can be read back. Beside all that, the plain
 * implementation is asked the same on copies of the tables, and must answer and leave the same. */
#include "hold.h"
#include "mirror.h"
#include "texts.h"

/* A number that is often right: below n, n itself, or anything. */
static size_t around(size_t n) {
    switch (below(12)) {
    case 0: return n;
    case 1: return n + 65536;
    case 2: return (size_t)random_bits(&state);
    case 3: return 65535;
    default: return n ? below(n) : 0;
    }
}

static int is_among(const size_t *rows, size_t length, size_t v) {
    for (size_t i = 0; i < length; i++)
        if (rows[i] == v) return 1;
    return 0;
}

/* Do rings and valences differ from what was lent in no row but these? */
static int other_rows_unchanged(const size_t *rows, size_t length) {
    const uint16_t *now = (const uint16_t *)rings.begin, *was = (const uint16_t *)rings.was;
    for (size_t i = 0; i < rings_length; i++)
        if (now[i] != was[i] && !is_among(rows, length, i / GT_RING_PLACES)) return 0;
    now = (const uint16_t *)valences.begin, was = (const uint16_t *)valences.was;
    for (size_t i = 0; i < valences_length; i++)
        if (now[i] != was[i] && !is_among(rows, length, i)) return 0;
    return 1;
}

/* Is the row of v as an edit leaves it: proper, with 65,535 behind its ring? */
static int row_in_order(size_t count, size_t v) {
    const uint16_t *row = (const uint16_t *)rings.begin + GT_RING_PLACES * v;
    size_t valence = ((const uint16_t *)valences.begin)[v];
    for (size_t i = 0; i < GT_RING_PLACES; i++) {
        if (i >= valence && row[i] != GT_NULL_VERTEX) return 0;
        if (i < valence && (row[i] >= count || row[i] == v)) return 0;
        for (size_t k = 0; i < valence && k < i; k++)
            if (row[i] == row[k]) return 0;
    }
    return valence <= GT_RING_PLACES;
}

static void hold_edit(gt_value answer, size_t count, size_t v) {
    hold_value(answer);
    HOLD(answer.value == 0);
    if (answer.number) return;
    HOLD(other_rows_unchanged(&v, 1));
    HOLD((guard_unchanged(&valences) && guard_unchanged(&rings)) || row_in_order(count, v));
    remember_tables();
}

static void try_queries(size_t count, size_t v, size_t x) {
    gt_value there, valence, next, prev, back;
    ASK(there, contains, VALENCES, RINGS, count, v, x);
    ASK(valence, valence, VALENCES, RINGS, count, v);
    ASK(next, next, VALENCES, RINGS, count, v, x);
    ASK(prev, prev, VALENCES, RINGS, count, v, x);
    hold_value(there), hold_value(valence);
    hold_call(next.number, next.place, next.value != GT_NULL_VERTEX);
    hold_call(prev.number, prev.place, prev.value != GT_NULL_VERTEX);
    HOLD(tables_unchanged());
    HOLD(there.number == valence.number && there.number == next.number && there.number == prev.number);
    HOLD(there.place == valence.place && there.place == next.place && there.place == prev.place);
    if (there.number) return;
    HOLD(there.value <= 1 && (there.value == 1) == (next.value != GT_NULL_VERTEX));
    HOLD((there.value == 1) == (prev.value != GT_NULL_VERTEX));
    if (!there.value) return;
    ASK(back, prev, VALENCES, RINGS, count, v, next.value);
    HOLD(back.value == x);
    ASK(back, next, VALENCES, RINGS, count, v, prev.value);
    HOLD(back.value == x);
    HOLD(valence.value > 1 ? next.value != x : next.value == x);
}

static void try_edits(size_t count) {
    size_t v = around(count), a = around(count), x = around(count), length = below(3) ? below(6) : below(40);
    gt_value answer;
    try_queries(count, v, x);
    lend_noise(&list, 2, length);
    switch (below(5)) {
    case 0: ASK(answer, make, VALENCES, RINGS, count, v, (const uint16_t *)list.table, length); break;
    case 1: ASK(answer, erase, VALENCES, RINGS, count, v, x); break;
    case 2: ASK(answer, replace, VALENCES, RINGS, count, v, a, x); break;
    case 3: ASK(answer, insert_after, VALENCES, RINGS, count, v, a, x); break;
    default: ASK(answer, insert_before, VALENCES, RINGS, count, v, a, x);
    }
    hold_edit(answer, count, v);
    HOLD(guard_unchanged(&list) && guard_intact(&list));
    try_queries(count, v, x);
}

static double edge_number(void) {
    static const double edges[] = {1024.0, 1024.0000000000002, 1023.9999999999999, 0.00048828125, 0.0, 1e308, 5e-324, 1e-14, 2.0};
    double number = edges[below(sizeof edges / sizeof *edges)];
    if (below(12) == 0) number = 1e308 * 10;
    if (below(12) == 0) number -= number;
    return below(2) ? number : -number;
}

/* Fills a list of moves; `wild` ones may hold any numbers at all. */
static void lend_moves(size_t count, size_t length, int wild) {
    gt_move *all = calloc(length + 1, sizeof *all);
    for (size_t i = 0; i < length; i++) {
        double numbers[3];
        int odd = wild && below(12) == 0;
        all[i].vertex = (uint32_t)(odd && below(2) ? around(count) : count ? below(count) : 0);
        all[i].kind = (uint32_t)(odd && below(2) ? around(3) : below(3));
        for (size_t c = 0; c < 3; c++) {
            uint64_t bits = random_bits(&state);
            double part = (double)(int64_t)bits / 9223372036854775808.0;
            numbers[c] = all[i].kind == GT_PLACE ? 1024 * part : all[i].kind == GT_SHIFT ? part / 64 : part;
            if (below(8) == 0) numbers[c] = (double)(int64_t)below(4096) / 2048 - 1;
            if (odd && below(3) == 0) memcpy(&numbers[c], &bits, 8);
            if (odd && below(3) == 0) numbers[c] = edge_number();
        }
        all[i].x = numbers[0], all[i].y = numbers[1], all[i].z = numbers[2];
    }
    lend(&moves, all, length * sizeof *all);
    free(all);
}

static gt_value call_moves(size_t count, size_t levels, size_t length) {
    gt_value answer;
    ASK(answer, moves, VALENCES, RINGS, POSITIONS, MAP, count, levels, (const gt_move *)moves.table, length);
    hold_value(answer);
    HOLD(guard_unchanged(&moves) && guard_intact(&moves) && guard_unchanged(&valences) && guard_unchanged(&rings));
    return answer;
}

static gt_counts call_check(size_t count) {
    gt_counts answer;
    ASK(answer, check, VALENCES, RINGS, POSITIONS, count);
    hold_counts(answer);
    HOLD(tables_unchanged());
    return answer;
}

static gt_counts call_refine(size_t count, size_t levels) {
    gt_counts answer;
    ASK(answer, refine, VALENCES, RINGS, POSITIONS, count, levels);
    hold_counts(answer);
    return answer;
}

static gt_value call_read(size_t length) {
    gt_value answer;
    ASK(answer, read, lent.bytes, length, VALENCES, RINGS, POSITIONS);
    hold_value(answer);
    HOLD(guard_unchanged(&bytes) && guard_intact(&bytes));
    return answer;
}

static gt_value call_write(size_t count, size_t length) {
    gt_value answer;
    ASK(answer, write, VALENCES, RINGS, POSITIONS, count, lent.bytes, length);
    hold_value(answer);
    HOLD(tables_unchanged() && guard_intact(&bytes) && (answer.number == 0 || guard_unchanged(&bytes)));
    return answer;
}

static gt_value call_read_off(size_t length) {
    gt_value answer;
    ASK(answer, read_off, lent.bytes, length, VALENCES, RINGS, POSITIONS);
    hold_value(answer);
    HOLD(guard_unchanged(&bytes) && guard_intact(&bytes) && guard_unchanged(&map));
    return answer;
}

static gt_value call_write_off(size_t count, size_t length) {
    gt_value answer;
    ASK(answer, write_off, VALENCES, RINGS, POSITIONS, count, lent.bytes, length);
    hold_value(answer);
    HOLD(tables_unchanged() && guard_intact(&bytes) && (answer.number == 0 || guard_unchanged(&bytes)));
    return answer;
}

/* The edits of the mesh. */
enum { SPLIT_EDGE, SPLIT_FACE, FLIP, RESHAPINGS };

static gt_counts call_reshape(size_t edit, size_t count, const size_t *named) {
    gt_counts answer;
    switch (edit) {
    case SPLIT_EDGE: ASK(answer, split_edge, VALENCES, RINGS, POSITIONS, count, named[0], named[1]); break;
    case SPLIT_FACE: ASK(answer, split_face, VALENCES, RINGS, POSITIONS, count, named[0], named[1], named[2]); break;
    default: ASK(answer, flip, VALENCES, RINGS, POSITIONS, count, named[0], named[1]);
    }
    hold_counts(answer);
    return answer;
}

/* Every edit of the mesh with any numbers. */
static void try_any_reshaping(size_t count) {
    for (size_t edit = 0; edit < RESHAPINGS; edit++) {
        size_t named[3];
        for (size_t k = 0; k < 3; k++) named[k] = around(count);
        call_reshape(edit, count, named);
        remember_tables();
    }
}

/* Everything on tables of noise. */
static void try_noise(void) {
    lend_noise_tables();
    size_t rows = valences_length, count = below(4) ? rows : below(2) ? around(rows) : 1023 + below(4), levels = below(7), length = below(10);
    for (size_t i = 0; i < 4; i++) try_edits(count);
    try_any_reshaping(count);
    call_check(count);
    lend_moves(count, length, 1);
    call_moves(count, levels, length);
    remember_tables();
    call_refine(count, levels);
    remember_tables();
    length = below(400);
    lend_noise(&bytes, 1, length);
    call_read(length);
    remember_tables();
    call_read_off(length);
    call_write_off(count, length);
    call_write(count, length);
}

static void random_mesh(control_mesh *m) {
    size_t across = 3 + below(4), along = 3 + below(4);
    switch (below(4)) {
    case 0: mesh_double_cone(m, 3 + below(30)); break;
    case 1: mesh_torus(m, across, along); break;
    default: mesh_sphere(m, &state, 4 + below(24));
    }
    mesh_flip_random(m, &state, below(3) ? 4 * m->count : 0, 32);
    mesh_random_positions(m, &state, below(3) ? GT_GREATEST_COORDINATE : 5);
}

/* A double cone whose tips are full or nearly, perhaps with a vertex of valence 3 beside one of them. */
static void full_mesh(control_mesh *m) {
    mesh_double_cone(m, 30 + below(3));
    if (below(2)) mesh_split(m, 0, below(m->valences[0]));
    mesh_random_positions(m, &state, GT_GREATEST_COORDINATE);
}

/* A mesh's file, written, read back, cut and changed. */
static void try_file(const control_mesh *m) {
    size_t length = 14 + 20 * m->count, place;
    for (size_t v = 0; v < m->count; v++) length += 2 * (size_t)m->valences[v];
    size_t room = length + below(5);
    lend_mesh(m, m->count + below(3), 1);
    remember_tables();
    lend_noise(&bytes, 1, room);
    gt_value written = call_write(m->count, room);
    HOLD(written.number == 0 && written.value == length);
    HOLD(memcmp(bytes.begin + length, bytes.was + length, room - length) == 0);
    unsigned char *file = malloc(length + 1);
    memcpy(file, bytes.begin, length);
    lend(&bytes, file, length);
    lend_noise(&valences, 2, valences_length), lend_noise(&rings, 2, rings_length);
    gt_value count = call_read(length);
    HOLD(count.number == 0 && count.value == m->count && memcmp(rings.begin, m->rings, 64 * m->count) == 0);
    HOLD(memcmp(valences.begin, m->valences, 2 * m->count) == 0 && memcmp(positions.begin, m->positions, 12 * m->count) == 0);
    remember_tables();
    place = below(length);
    lend(&bytes, file, place);
    HOLD(call_read(place).number == GT_FILE_LAYOUT);
    for (size_t k = 0; k < 6; k++) {
        unsigned char was = file[place];
        file[place] ^= (unsigned char)(1 + below(255));
        lend(&bytes, file, length);
        call_read(length);
        remember_tables();
        file[place] = was;
        place = below(2) ? below(40) : below(length);
    }
    free(file);
}

/* Which points of a level are touched, from those of the level below, by definition. */
static void touched_above(const uint16_t *valence, const uint16_t *ring, size_t count, const unsigned char *touched,
                          const uint16_t *next_ring, size_t next_count, unsigned char *above) {
    for (size_t v = 0; v < count; v++) {
        above[v] = touched[v];
        for (size_t i = 0; i < valence[v]; i++) above[v] |= touched[ring[GT_RING_PLACES * v + i]];
    }
    for (size_t x = count; x < next_count; x++) {
        size_t p = next_ring[GT_RING_PLACES * x], q = next_ring[GT_RING_PLACES * x + 3], n = valence[p], i = 0;
        const uint16_t *row = ring + GT_RING_PLACES * p;
        while (row[i] != q) i++;
        above[x] = touched[p] | touched[q] | touched[row[(i + 1) % n]] | touched[row[(i + n - 1) % n]];
    }
}

/* Holds the map and the count to the definition, and the untouched points to what they were. */
static void hold_touched(size_t count, const size_t *counts, size_t levels, size_t length, size_t answered) {
    size_t total = 0, ones = 0;
    for (size_t k = 0; k <= levels; k++) total += counts[k];
    unsigned char *touched = calloc(total + 1, 1);
    for (size_t i = 0; i < length; i++) touched[((const gt_move *)moves.begin)[i].vertex] = 1;
    const uint16_t *valence = (const uint16_t *)valences.begin, *ring = (const uint16_t *)rings.begin;
    unsigned char *at = touched;
    for (size_t k = 0; k < levels; k++) {
        touched_above(valence, ring, counts[k], at, ring + GT_RING_PLACES * counts[k], counts[k + 1], at + counts[k]);
        valence += counts[k], ring += GT_RING_PLACES * counts[k], at += counts[k];
    }
    for (size_t i = 0; i < 32 * gt_map_words(total); i++) {
        size_t bit = (size_t)gt_is_touched((const uint32_t *)map.begin, i);
        ones += bit;
        HOLD(bit == (i < total ? touched[i] : 0));
        if (i < total && !touched[i]) HOLD(memcmp(positions.begin + 12 * i, positions.was + 12 * i, 12) == 0);
    }
    size_t from = 4 * gt_map_words(total);
    HOLD(memcmp(map.begin + from, map.was + from, map.bytes - from) == 0);
    HOLD(memcmp(positions.begin + 12 * total, positions.was + 12 * total, positions.bytes - 12 * total) == 0);
    HOLD(ones == answered && count <= total);
    free(touched);
}

/* The number of vertices of each level; answers the total. */
static size_t count_levels(const control_mesh *m, size_t levels, size_t *counts) {
    size_t ends = 0, total = m->count;
    for (size_t v = 0; v < m->count; v++) ends += m->valences[v];
    counts[0] = m->count;
    for (size_t k = 1, edges = ends / 2; k <= levels; k++, edges *= 4) total += counts[k] = counts[k - 1] + edges;
    return total;
}

/* Refines, moves, and compares with a fresh refinement of the moved control mesh. */
static void try_moves(const control_mesh *m) {
    size_t levels = 1 + below(m->count < 12 ? 4 : 2), counts[5];
    size_t total = count_levels(m, levels, counts), rows = total + below(3), words = gt_map_words(total) + below(2);
    lend_mesh(m, rows, words);
    gt_counts refined = call_refine(m->count, levels);
    HOLD(refined.number == 0 && refined.v == counts[levels] && 3 * refined.f == 2 * refined.e);
    for (size_t k = 0; k < 3; k++) {
        size_t length = below(3) ? 1 + below(3) : below(65);
        remember_tables();
        lend_moves(m->count, length, below(3) == 0);
        gt_value answer = call_moves(m->count, levels, length);
        if (answer.number == 0) hold_touched(m->count, counts, levels, length, answer.value);
    }
    guarded first = valences, second = rings, third = positions;
    memset(&valences, 0, sizeof valences), memset(&rings, 0, sizeof rings), memset(&positions, 0, sizeof positions);
    control_mesh moved = *m;
    memcpy(moved.positions, third.begin, 12 * m->count);
    lend_mesh(&moved, total, 0);
    call_refine(m->count, levels);
    HOLD(memcmp(valences.begin, first.begin, 2 * total) == 0 && memcmp(rings.begin, second.begin, 64 * total) == 0);
    HOLD(memcmp(positions.begin, third.begin, 12 * total) == 0);
    guard_close(&first), guard_close(&second), guard_close(&third);
}

/* The mirror image of a control mesh, each ring begun anywhere. */
static void mirror_image(const control_mesh *m, control_mesh *image) {
    image->count = m->count;
    mirror_mesh(m->count, m->valences, m->rings, m->positions, image->valences, image->rings, image->positions);
    for (size_t v = 0; v < m->count; v++) {
        uint16_t *ring = image->rings + GT_RING_PLACES * v, was[GT_RING_PLACES];
        size_t n = image->valences[v], from = n ? below(n) : 0;
        memcpy(was, ring, sizeof was);
        for (size_t i = 0; i < n; i++) ring[i] = was[(from + i) % n];
    }
}

/* Changes an item of a control mesh, so that a call has something to refuse. */
static void damage(control_mesh *m) {
    size_t v = below(m->count), place = below(m->valences[v]);
    switch (below(3)) {
    case 0: m->valences[v] = (uint16_t)below(GT_RING_PLACES + 1); break;
    case 1: m->rings[GT_RING_PLACES * v + place] = (uint16_t)below(m->count + 2); break;
    default: m->positions[3 * v + below(3)] = GT_GREATEST_COORDINATE + 1;
    }
}

enum { LISTS = 3 };

/* What one side of a pair was given, answered and left. */
typedef struct {
    gt_counts checked, refined;
    gt_move moves[LISTS][GT_MOST_MOVES + 1];
    size_t lengths[LISTS];
    gt_value touched[LISTS];
    uint32_t *marks[LISTS];
    tables after;
} pair_side;

/* Lends the list of the other side mirrored, or one of this side's own. */
static void lend_list(pair_side *side, const pair_side *other, size_t k, size_t count) {
    side->lengths[k] = other ? other->lengths[k] : below(GT_MOST_MOVES + 2);
    if (!other) lend_moves(count, side->lengths[k], below(2) == 0);
    for (size_t i = 0; i < side->lengths[k]; i++)
        side->moves[k][i] = other ? mirror_move(other->moves[k][i]) : ((const gt_move *)moves.begin)[i];
    if (other) lend(&moves, side->moves[k], side->lengths[k] * sizeof *side->moves[k]);
}

/* Checks and refines a mesh, and gives it lists where that is accepted. */
static void play(pair_side *side, const pair_side *other, const control_mesh *m, size_t levels, size_t rows, size_t words) {
    lend_mesh(m, rows, words);
    remember_tables();
    side->checked = call_check(m->count);
    side->refined = call_refine(m->count, levels);
    for (size_t k = 0; k < LISTS && side->refined.number == 0; k++) {
        lend_list(side, other, k, m->count);
        remember_tables();
        side->touched[k] = call_moves(m->count, levels, side->lengths[k]);
        side->marks[k] = copy(&map);
    }
    side->after = copies();
}

/* A mesh and its mirror image, sound or not, and mirrored lists: answered alike, and mirrored afterwards. */
static void try_pair(const control_mesh *m) {
    static control_mesh here, there;
    static pair_side left, right;
    size_t levels = 1 + below(m->count < 12 ? 3 : 2), counts[5], total = count_levels(m, levels, counts);
    size_t words = gt_map_words(total);
    here = *m;
    if (below(3) == 0) damage(&here);
    mirror_image(&here, &there);
    play(&left, NULL, &here, levels, total, words);
    play(&right, &left, &there, levels, total, words);
    HOLD(same_answer(&left.checked, &right.checked, sizeof left.checked));
    HOLD(same_answer(&left.refined, &right.refined, sizeof left.refined));
    for (size_t k = 0; k < LISTS && left.refined.number == 0; k++) {
        HOLD(same_answer(&left.touched[k], &right.touched[k], sizeof *left.touched));
        HOLD(left.touched[k].number || memcmp(left.marks[k], right.marks[k], 4 * words) == 0);
        free(left.marks[k]), free(right.marks[k]);
    }
    const tables *one = &left.after, *other = &right.after;
    for (size_t v = 0; v < total && left.refined.number == 0; v++) {
        HOLD(one->valences[v] == other->valences[v]);
        HOLD(mirror_rings(one->rings + GT_RING_PLACES * v, other->rings + GT_RING_PLACES * v, one->valences[v]));
        HOLD(mirror_points(one->positions + 3 * v, other->positions + 3 * v));
    }
    give_back(*one), give_back(*other);
}

/* Gives vertices x and y of a level each other's numbers, everywhere in the level. */
static void exchange(uint16_t *ring, uint16_t *valence, size_t count, size_t x, size_t y) {
    for (size_t i = 0; i < GT_RING_PLACES; i++) {
        uint16_t place = ring[GT_RING_PLACES * x + i];
        ring[GT_RING_PLACES * x + i] = ring[GT_RING_PLACES * y + i], ring[GT_RING_PLACES * y + i] = place;
    }
    uint16_t number = valence[x];
    valence[x] = valence[y], valence[y] = number;
    for (size_t v = 0; v < count; v++)
        for (size_t i = 0; i < valence[v]; i++) {
            uint16_t *place = ring + GT_RING_PLACES * v + i;
            *place = (uint16_t)(*place == x ? y : *place == y ? x : *place);
        }
}

/* Alters something of stack vertex `at`; answers whether that must be refused at this very vertex. */
static int alter(size_t at) {
    uint16_t *valence = (uint16_t *)valences.begin + at, *row = (uint16_t *)rings.begin + GT_RING_PLACES * at;
    int32_t *point = (int32_t *)positions.begin + 3 * at;
    size_t c = below(3), some = below(1000), inside = below(2097153);
    uint16_t change = (uint16_t)(1 + below(below(2) ? 4 : 65535));
    switch (below(5)) {
    case 0: *valence = (uint16_t)(*valence + change); return 1;
    case 1: row[below(*valence)] ^= change; return 1;
    case 2: point[c] = change % 2 ? -1048577 - (int32_t)some : 1048577 + (int32_t)some; return 1;
    case 3: row[GT_RING_PLACES - 1] = *valence < GT_RING_PLACES ? change : row[GT_RING_PLACES - 1]; return 0;
    default: point[c] = (int32_t)inside - 1048576; return 0;
    }
}

/* Something above level 0 is altered: 11 where it matters, otherwise only what is touched changes. */
static void try_altered(const control_mesh *m) {
    size_t levels = 1 + below(2), counts[5], total = count_levels(m, levels, counts), last = total - counts[levels];
    size_t at = m->count + below(total - m->count), old = counts[levels - 1];
    lend_mesh(m, total, gt_map_words(total));
    HOLD(call_refine(m->count, levels).number == 0);
    int wanted = alter(at);
    remember_tables();
    lend_moves(m->count, 1, 0);
    gt_value answer = call_moves(m->count, levels, 1);
    if (wanted) HOLD(answer.number == GT_STACK_ALTERED && answer.place == at);
    else if (answer.number) HOLD(answer.number == GT_OUT_OF_REACH);
    else hold_touched(m->count, counts, levels, 1, answer.value);
    for (size_t k = below(3); k > 0; k--) {
        if (((uint16_t *)valences.begin)[at] == 0 || ((uint16_t *)valences.begin)[at] > GT_RING_PLACES) break;
        alter(at);
        at = at + 1 < total ? at + 1 : at;
    }
    remember_tables();
    call_moves(m->count, levels, 1);
    lend_mesh(m, total, gt_map_words(total));
    call_refine(m->count, levels);
    size_t x = old + below(counts[levels] - old), y = below(4) ? old + below(counts[levels] - old) : below(counts[levels]);
    exchange((uint16_t *)rings.begin + GT_RING_PLACES * last, (uint16_t *)valences.begin + last, counts[levels], x, y);
    remember_tables();
    answer = call_moves(m->count, levels, 1);
    if (x != y) HOLD(answer.number == GT_STACK_ALTERED);
}

/* A table with its last item gone. */
static void shorten(guarded *g, size_t item, size_t *length) {
    void *contents = copy(g);
    lend(g, contents, item * --*length);
    free(contents);
}

/* Tables with exactly the room that is needed, or one item less in one of them. */
static void try_lengths(const control_mesh *m) {
    size_t levels = 1 + below(2), counts[5], total = count_levels(m, levels, counts), room = 14 + 20 * m->count;
    for (size_t v = 0; v < m->count; v++) room += 2 * (size_t)m->valences[v];
    for (size_t control = 0; control < 2; control++) {
        lend_mesh(m, control ? m->count : total, gt_map_words(total));
        if (!control) call_refine(m->count, levels);
        switch (below(5)) {
        case 0: shorten(&valences, 2, &valences_length); break;
        case 1: shorten(&rings, 2, &rings_length); break;
        case 2: shorten(&positions, 4, &positions_length); break;
        case 3: shorten(&map, 4, &map_length); break;
        }
        remember_tables();
        call_check(m->count);
        lend_moves(m->count, 62 + below(5), 0);
        call_moves(m->count, levels, moves.bytes / sizeof(gt_move));
        remember_tables();
        call_refine(m->count, levels);
        remember_tables();
        lend_noise(&bytes, 1, room + 1 - below(3));
        call_write(m->count, bytes.bytes);
        try_edits(m->count);
    }
}

/* A sound mesh in which a few items change at random: every call ends and answers one of its refusals, or none. */
static void try_damaged(const control_mesh *m) {
    lend_mesh(m, m->count + 200, 20);
    for (size_t k = 1 + below(3); k > 0; k--) {
        size_t v = below(m->count), place = below(m->valences[v]);
        uint16_t *row = (uint16_t *)rings.begin + GT_RING_PLACES * v;
        switch (below(4)) {
        case 0: ((uint16_t *)valences.begin)[v] = (uint16_t)around(33); break;
        case 1: row[place] = (uint16_t)around(m->count); break;
        case 2: ((int32_t *)positions.begin)[3 * v] = (int32_t)random_bits(&state); break;
        default: memcpy(row, row + 1, 2);
        }
    }
    remember_tables();
    call_check(m->count);
    try_any_reshaping(m->count);
    for (size_t i = 0; i < 12; i++) try_edits(m->count);
    lend_moves(m->count, 2, 1);
    call_moves(m->count, 1, 2);
    remember_tables();
    gt_counts checked = call_check(m->count), refined = call_refine(m->count, 1);
    if (checked.number) HOLD(refined.number == checked.number && refined.place == checked.place);
}

/* The control mesh that stands in the tables, without what lies behind its rings. */
static void take_mesh(control_mesh *m, size_t count) {
    m->count = count;
    memcpy(m->valences, valences.begin, 2 * count);
    memcpy(m->rings, rings.begin, 2 * GT_RING_PLACES * count);
    memcpy(m->positions, positions.begin, 12 * count);
    for (size_t v = 0; v < count; v++)
        for (size_t i = m->valences[v]; i < GT_RING_PLACES; i++) m->rings[GT_RING_PLACES * v + i] = GT_NULL_VERTEX;
}

/* Names a face of the mesh from any corner, and so an edge from either end; now and then something else. */
static void some_names(const control_mesh *m, size_t *named) {
    size_t v = below(m->count), first = below(3), corners[3];
    mesh_face(m, v, below(m->valences[v]), corners);
    named[first] = corners[1], named[(first + 1) % 3] = corners[0], named[(first + 2) % 3] = corners[2];
    if (below(8) == 0) named[below(3)] = around(m->count);
    if (below(16) == 0) named[below(3)] += 65536;
}

/* The vertices that an accepted edit writes, the new one last; of an edge its ends and those beside it. */
static size_t rows_of(size_t edit, const control_mesh *m, const size_t *named, size_t *written) {
    mesh_edge e = mesh_edge_at(m, named[0], mesh_place(m, named[0], named[1]));
    size_t k = 2;
    written[0] = e.p, written[1] = e.q;
    if (edit == SPLIT_FACE) written[k++] = named[2];
    else written[k++] = e.a, written[k++] = e.b;
    if (edit != FLIP) written[k++] = m->count;
    return k;
}

/* Holds an accepted edit to the counts, rows and points that it may change, and the mesh to the check. */
static void hold_reshaped(size_t edit, const control_mesh *m, const size_t *written, size_t length, gt_counts before,
                          gt_counts answer) {
    size_t more = edit != FLIP, old = 12 * m->count, new = old + 12 * more;
    HOLD(answer.v == before.v + more && answer.e == before.e + 3 * more && answer.f == before.f + 2 * more);
    HOLD(other_rows_unchanged(written, length));
    for (size_t k = 0; k < length; k++) HOLD(row_in_order(answer.v, written[k]));
    HOLD(memcmp(positions.begin, positions.was, old) == 0);
    HOLD(memcmp(positions.begin + new, positions.was + new, positions.bytes - new) == 0);
    remember_tables();
    gt_counts checked = call_check(answer.v);
    HOLD(same_answer(&checked, &answer, sizeof answer));
}

/* Is the ring of v the same in both meshes up to where it begins? */
static int same_round(const control_mesh *one, const control_mesh *other, size_t v) {
    size_t n = one->valences[v], from = mesh_place(other, v, one->rings[GT_RING_PLACES * v]);
    for (size_t i = 0; i < n; i++)
        if (one->rings[GT_RING_PLACES * v + i] != other->rings[GT_RING_PLACES * v + (from + i) % n]) return 0;
    return other->valences[v] == n;
}

/* Reads a text into tables of noise. What is accepted passes the check; its rows are in order and begin with the smallest
 * neighbour, and nothing behind them is written. */
static gt_value read_text(const off_text *text, size_t rows) {
    lend(&bytes, text->bytes, text->length);
    valences_length = rows, rings_length = GT_RING_PLACES * rows, positions_length = 3 * rows;
    lend_noise(&valences, 2, valences_length), lend_noise(&rings, 2, rings_length);
    lend_noise(&positions, 4, positions_length);
    gt_value answer = call_read_off(text->length);
    if (answer.number) return answer;
    size_t count = answer.value;
    HOLD(memcmp(valences.begin + 2 * count, valences.was + 2 * count, valences.bytes - 2 * count) == 0);
    HOLD(memcmp(rings.begin + 64 * count, rings.was + 64 * count, rings.bytes - 64 * count) == 0);
    HOLD(memcmp(positions.begin + 12 * count, positions.was + 12 * count, positions.bytes - 12 * count) == 0);
    for (size_t v = 0; v < count; v++) {
        const uint16_t *row = (const uint16_t *)rings.begin + GT_RING_PLACES * v;
        HOLD(row_in_order(count, v));
        for (size_t i = 1; i < ((const uint16_t *)valences.begin)[v]; i++) HOLD(row[0] < row[i]);
    }
    remember_tables();
    HOLD(call_check(count).number == 0);
    return answer;
}

/* Reads a text of a mesh, which gives back its points, and its rings up to where they begin. */
static void read_mesh(const off_text *text, const control_mesh *m) {
    static control_mesh now;
    gt_value answer = read_text(text, m->count + below(3));
    HOLD(answer.number == 0 && answer.value == m->count);
    take_mesh(&now, m->count);
    for (size_t v = 0; v < m->count; v++) HOLD(same_round(&now, m, v));
    HOLD(memcmp(now.positions, m->positions, 12 * m->count) == 0);
}

/* The faces of a text that was written: each begins with its smallest corner, and they ascend. */
static void hold_ascending(const off_text *text, size_t points, size_t faces) {
    const char *at = text->bytes;
    unsigned long last = 0, pair, a, b, c;
    for (size_t line = 0; line < 2 + points; line++) at = strchr(at, '\n') + 1;
    for (size_t i = 0; i < faces; i++) {
        HOLD(sscanf(at, "3 %lu %lu %lu\n", &a, &b, &c) == 3 && a < b && a < c);
        pair = GT_MOST_VERTICES * a + b;
        HOLD(i == 0 || last < pair);
        last = pair, at = strchr(at, '\n') + 1;
    }
    HOLD(at == text->bytes + text->length);
}

/* A mesh's text, written into all the room that it can need, into just its room, and into a byte less, and read back. */
static void try_written_text(const control_mesh *m) {
    static off_text text;
    lend_mesh(m, m->count + below(3), 1);
    remember_tables();
    gt_counts counts = call_check(m->count);
    size_t room = 21 + 27 * counts.v + 17 * counts.f;
    lend_noise(&bytes, 1, room);
    gt_value written = call_write_off(m->count, room);
    HOLD(written.number == 0 && written.value <= room && written.value <= GT_MOST_OFF_BYTES);
    text.length = written.value;
    HOLD(memcmp(bytes.begin + text.length, bytes.was + text.length, room - text.length) == 0);
    memcpy(text.bytes, bytes.begin, text.length);
    text.bytes[text.length] = 0;
    lend_noise(&bytes, 1, text.length - 1);
    HOLD(call_write_off(m->count, text.length - 1).number == GT_NO_ROOM);
    lend_noise(&bytes, 1, text.length);
    HOLD(call_write_off(m->count, text.length).value == text.length && same(&bytes, text.bytes));
    hold_ascending(&text, counts.v, counts.f);
    read_mesh(&text, m);
}

/* A damaged mesh is not written, with the reason and place of the check. */
static void try_damaged_text(const control_mesh *m) {
    static control_mesh damaged;
    damaged = *m;
    damage(&damaged);
    lend_mesh(&damaged, m->count, 1);
    remember_tables();
    lend_noise(&bytes, 1, below(4000));
    gt_counts checked = call_check(m->count);
    gt_value answer = call_write_off(m->count, bytes.bytes);
    if (checked.number) HOLD(answer.number == checked.number && answer.place == checked.place);
    else HOLD(answer.number == 0 || answer.number == GT_NO_ROOM);
}

/* Listed faces as a text, then with something changed in the list, in the text, or in both. */
static void try_list(const face_list *sound) {
    static face_list list;
    static off_text text;
    for (size_t k = 0; k < 6; k++) {
        list = *sound;
        shuffle_faces(&list);
        for (size_t times = below(3); k % 3 != 1 && times > 0; times--) damage_list(&list);
        put_text(&text, &list);
        for (size_t times = 1 + below(2); k % 3 != 0 && times > 0; times--) damage_text(&text);
        read_text(&text, below(8) ? list.points : below(list.points + 1));
    }
}

/* Writing and reading OFF text of a mesh, as it is and damaged. */
static void try_text(const control_mesh *m) {
    static face_list list;
    static off_text text;
    try_written_text(m);
    try_damaged_text(m);
    list_mesh(&list, m);
    try_list(&list);
    shuffle_faces(&list);
    put_text(&text, &list);
    read_mesh(&text, m);
}

/* A cone whose tips have up to some hundred neighbours: 4 where that is over 32 and the rest as it should be. */
static void try_cone(size_t n) {
    static face_list list;
    static off_text text;
    list_cone(&list, n);
    put_text(&text, &list);
    gt_value answer = read_text(&text, n + 2);
    if (n > GT_RING_PLACES) HOLD(answer.number == GT_RING_IMPROPER && answer.place == 0);
    else HOLD(answer.number == 0);
    try_list(&list);
}

/* Flips the new edge, which gives back the old mesh. */
static void flip_back(const control_mesh *m, const size_t *joined) {
    static control_mesh now;
    HOLD(call_reshape(FLIP, m->count, joined).number == 0);
    take_mesh(&now, m->count);
    for (size_t v = 0; v < m->count; v++) HOLD(same_round(&now, m, v));
    HOLD(guard_unchanged(&positions));
    remember_tables();
}

/* One edit of the sound mesh in the tables; answers how many vertices it has then. */
static size_t try_edit_of_mesh(size_t edit, size_t count) {
    static control_mesh m;
    size_t named[3], written[5];
    take_mesh(&m, count);
    some_names(&m, named);
    gt_counts before = call_check(count), answer = call_reshape(edit, count, named);
    HOLD(before.number == 0);
    if (answer.number == GT_NO_ROOM) HOLD(edit != FLIP && valences_length == count);
    if (answer.number) return count;
    size_t length = rows_of(edit, &m, named, written);
    hold_reshaped(edit, &m, written, length, before, answer);
    if (edit == FLIP && below(2)) flip_back(&m, written + 2);
    return answer.v;
}

/* Edits a mesh again and again, as long as there is room; then it can be refined, moved and written like any other. */
static void try_reshaping(const control_mesh *m) {
    static control_mesh edited;
    size_t count = m->count;
    lend_mesh(m, count + below(8), 1);
    for (size_t v = 0; v < count; v++)
        for (size_t i = m->valences[v]; i < GT_RING_PLACES; i++)
            ((uint16_t *)rings.begin)[GT_RING_PLACES * v + i] = (uint16_t)below(count);
    remember_tables();
    for (size_t k = 0; k < 12; k++) count = try_edit_of_mesh(below(RESHAPINGS), count);
    take_mesh(&edited, count);
    try_moves(&edited);
    try_file(&edited);
}

/* Just the room that a split needs, or one item less in one of the tables. */
static void try_new_row(const control_mesh *m) {
    size_t named[3], corners[3], short_by = below(4);
    lend_mesh(m, m->count + 1, 1);
    if (short_by == 1) shorten(&valences, 2, &valences_length);
    if (short_by == 2) shorten(&rings, 2, &rings_length);
    if (short_by == 3) shorten(&positions, 4, &positions_length);
    remember_tables();
    mesh_face(m, 0, 0, corners);
    named[0] = corners[1], named[1] = corners[0], named[2] = corners[2];
    gt_counts answer = call_reshape(below(2) ? SPLIT_EDGE : SPLIT_FACE, m->count, named);
    if (answer.number != GT_RING_FULL) HOLD(answer.number == (short_by ? (uint32_t)GT_NO_ROOM : (uint32_t)GT_ACCEPTED));
}

/* A mesh of nearly the most vertices is split until it has them; from there on a split is refused, a flip is not. It is
 * written and read as OFF text. */
static void try_most(void) {
    static control_mesh m;
    size_t count = GT_MOST_VERTICES - 2, flips = 0;
    mesh_sphere(&m, &state, count);
    mesh_random_positions(&m, &state, GT_GREATEST_COORDINATE);
    lend_mesh(&m, GT_MOST_VERTICES + 1, 1);
    remember_tables();
    while (count < GT_MOST_VERTICES) count = try_edit_of_mesh(below(2) ? SPLIT_EDGE : SPLIT_FACE, count);
    for (size_t k = 0; k < 12; k++) {
        size_t before = accepted_calls;
        HOLD(try_edit_of_mesh(k % RESHAPINGS, count) == count);
        flips += k % RESHAPINGS == FLIP && accepted_calls > before + 1;
    }
    HOLD(flips > 0);
    take_mesh(&m, count);
    try_text(&m);
}

int main(int argc, char **argv) {
    uint64_t seed = argc > 1 ? strtoull(argv[1], NULL, 10) : 1;
    size_t rounds = argc > 2 ? (size_t)strtoull(argv[2], NULL, 10) : 1000;
    static control_mesh m;
    state = seed * 0x2545f4914f6cdd1du;
    try_most();
    for (rounds_done = 0; rounds_done < rounds; rounds_done++) {
        for (size_t i = 0; i < 8; i++) try_noise();
        random_mesh(&m);
        try_file(&m);
        try_text(&m);
        if (rounds_done % 8 == 0) try_cone(3 + below(rounds_done % 16 ? 60 : 300));
        try_moves(&m);
        try_pair(&m);
        try_altered(&m);
        try_lengths(&m);
        try_damaged(&m);
        try_reshaping(&m);
        try_new_row(&m);
        full_mesh(&m);
        try_reshaping(&m);
    }
    printf("fuzz: seed %llu, %zu rounds, %zu calls, %zu accepted, nothing wrong\n", (unsigned long long)seed, rounds, calls,
           accepted_calls);
    return 0;
}
