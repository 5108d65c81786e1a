/* Moving points and refreshing what depends on them, by hand. */
#include <float.h>
#include "level.h"

/* A level and the one above it, with their rings. */
typedef struct {
    size_t count, edges;
    const uint16_t *valences, *rings, *next_valences, *next_rings;
} pair;

INLINE const uint16_t *row_of(const uint16_t *rings, size_t v) { return rings + PLACES * v; }

/* Does p's row in the level above agree with the rings of the new vertices on its edges? Each of them must lie among
 * the new vertices, name the edge's two ends, and have on p's side the new vertices next to it in p's row. */
INLINE int row_agrees(const pair *l, size_t p, size_t valence) {
    const uint16_t *row = row_of(l->rings, p), *next = row_of(l->next_rings, p);
    size_t before = next[valence - 1];
    for (size_t i = 0; i < valence; i++) {
        size_t q = row[i], x = next[i], after = next[i + 1 == valence ? 0 : i + 1];
        if (x - l->count >= l->edges) return 0;
        const uint16_t *ring = row_of(l->next_rings, x);
        if (q > p) {
            if (ring[0] != p || ring[1] != before || ring[3] != q || ring[5] != after) return 0;
        } else {
            if (ring[0] != q || ring[2] != after || ring[3] != p || ring[4] != before) return 0;
        }
        before = x;
    }
    return 1;
}

/* Have the old vertices of the level above the valences they had, and the new ones 6? Inlined it would take registers
 * from what follows. */
__attribute__((noinline)) static int valences_agree(const pair *l) {
    uint16_t other = 0;
    for (size_t p = 0; p < l->count; p++) other |= l->next_valences[p] ^ l->valences[p];
    for (size_t x = l->count; x < l->count + l->edges; x++) other |= l->next_valences[x] ^ 6;
    return !other;
}

/* Is the level above what refinement gives? If the edges that the new vertices name ascend strictly, and every edge is
 * named by the new vertex that both its ends have for it, then the new vertices are numbered as they should be. */
static int as_refined(const pair *l) {
    if (!valences_agree(l)) return 0;
    uint32_t last = 0;
    for (size_t x = l->count; x < l->count + l->edges; x++) {
        const uint16_t *ring = row_of(l->next_rings, x);
        uint32_t edge = (uint32_t)ring[0] << 16 | ring[3];
        if (edge <= last) return 0;
        last = edge;
    }
    for (size_t p = 0; p < l->count; p++)
        if (!(l->valences[p] == 6 ? row_agrees(l, p, 6) : row_agrees(l, p, l->valences[p]))) return 0;
    return 1;
}

/* How many of p's neighbours lie above it and below q. */
static size_t rank_of(const uint16_t *row, size_t valence, size_t p, size_t q) {
    size_t rank = 0;
    for (size_t i = 0; i < valence; i++) rank += row[i] > p && row[i] < q;
    return rank;
}

/* The lowest old vertex whose valence or place is not as refinement gives; `count` if there is none. */
static size_t first_old_fault(const pair *l) {
    size_t start = l->count;
    for (size_t p = 0; p < l->count; p++) {
        const uint16_t *row = row_of(l->rings, p), *next = row_of(l->next_rings, p);
        size_t valence = l->valences[p], greater = 0;
        if (l->next_valences[p] != valence) return p;
        for (size_t i = 0; i < valence; i++) {
            size_t q = row[i], wanted;
            if (q > p)
                wanted = start + rank_of(row, valence, p, q), greater++;
            else
                wanted = row_of(l->next_rings, q)[place_of(row_of(l->rings, q), l->valences[q], p)];
            if (next[i] != wanted) return p;
        }
        start += greater;
    }
    return l->count;
}

/* Is the new vertex at place i of p as it should be? The rows of old vertices are. */
static int new_agrees(const pair *l, size_t p, size_t i) {
    const uint16_t *next = row_of(l->next_rings, p);
    size_t x = next[i], q = row_of(l->rings, p)[i], valence = l->valences[p], length = l->valences[q];
    const uint16_t *ring = row_of(l->next_rings, x), *far = row_of(l->next_rings, q);
    size_t j = place_of(row_of(l->rings, q), length, p);
    return l->next_valences[x] == 6 && ring[0] == p && ring[1] == next[i == 0 ? valence - 1 : i - 1] &&
           ring[2] == far[j + 1 == length ? 0 : j + 1] && ring[3] == q && ring[4] == far[j == 0 ? length - 1 : j - 1] &&
           ring[5] == next[i + 1 == valence ? 0 : i + 1];
}

/* The lowest vertex of a level that is not as refinement gives; there is one. */
static size_t first_fault(const pair *l) {
    size_t lowest = first_old_fault(l);
    if (lowest < l->count) return lowest;
    lowest = l->count + l->edges;
    for (size_t p = 0; p < l->count && lowest == l->count + l->edges; p++)
        for (size_t i = 0; i < l->valences[p]; i++) {
            size_t x = row_of(l->next_rings, p)[i];
            if (row_of(l->rings, p)[i] > p && x < lowest && !new_agrees(l, p, i)) lowest = x;
        }
    return lowest;
}

INLINE pair pair_at(const plain_stack *s, const uint16_t *valences, const uint16_t *rings, size_t k) {
    pair l = {s->count[k], s->count[k + 1] - s->count[k], valences + s->start[k], rings + PLACES * s->start[k],
              valences + s->start[k + 1], rings + PLACES * s->start[k + 1]};
    return l;
}

/* The lowest stack vertex above level 0 that does not hold what it may; the stack's total if there is none. */
static size_t first_altered(const plain_stack *s, const uint16_t *valences, const uint16_t *rings,
                            const int32_t *positions, size_t levels) {
    size_t above = s->start[1];
    size_t far = above + plain_first_beyond(positions + 3 * above, s->total - above);
    for (size_t k = 0; k < levels; k++) {
        pair l = pair_at(s, valences, rings, k);
        if (as_refined(&l)) continue;
        size_t wrong = s->start[k + 1] + first_fault(&l);
        return wrong < far ? wrong : far;
    }
    return far;
}

/* Where the moves accepted so far lead: for each, its vertex and point. */
typedef struct {
    size_t length, vertices[GT_MOST_MOVES];
    int32_t points[GT_MOST_MOVES][3];
} pending;

static const int32_t *latest(const pending *list, const int32_t *positions, size_t vertex) {
    for (size_t i = list->length; i > 0; i--)
        if (list->vertices[i - 1] == vertex) return list->points[i - 1];
    return positions + 3 * vertex;
}

INLINE int finite(double number) { return number >= -DBL_MAX && number <= DBL_MAX; }

/* Millimetres to the nearest unit, halves to the even one. The product, its whole part and the rest are exact where it
 * matters. */
INLINE int32_t units(double millimetres) {
    double scaled = millimetres * GT_UNITS_A_MILLIMETRE;
    int32_t down = (int32_t)scaled;
    if (down > scaled) down--;
    double rest = scaled - down;
    return down + (rest > 0.5 || (rest == 0.5 && down % 2 != 0));
}

/* Judges one move and adds where it leads; answers the number of the refusal. */
static uint32_t move_one(pending *list, const int32_t *positions, size_t v, const gt_move *move) {
    if (move->kind > GT_STRETCH) return GT_UNKNOWN_KIND;
    if (move->vertex >= v) return GT_NO_SUCH_VERTEX;
    double numbers[3] = {move->x, move->y, move->z};
    if (!finite(numbers[0]) || !finite(numbers[1]) || !finite(numbers[2])) return GT_NOT_FINITE;
    const int32_t *here = latest(list, positions, move->vertex);
    int32_t *there = list->points[list->length];
    for (size_t c = 0; c < 3; c++) {
        double result = numbers[c], now = here[c] / (double)GT_UNITS_A_MILLIMETRE;
        if (move->kind == GT_SHIFT) result = now + numbers[c];
        if (move->kind == GT_STRETCH) result = now * numbers[c];
        if (!(result >= -1024.0 && result <= 1024.0)) return GT_OUT_OF_REACH;
        there[c] = units(result);
    }
    list->vertices[list->length++] = move->vertex;
    return GT_ACCEPTED;
}

INLINE void mark(uint32_t *map, size_t i) { map[i >> 5] |= (uint32_t)1 << (i & 31); }

/* The marked places of word w that lie from `from` to below `to`. */
INLINE uint32_t marked(const uint32_t *map, size_t w, size_t from, size_t to) {
    uint32_t bits = map[w];
    if (w == from >> 5) bits &= ~(uint32_t)0 << (from & 31);
    if (w == to >> 5) bits &= ~(~(uint32_t)0 << (to & 31));
    return bits;
}

/* Marks all that depends on vertex t: itself and its neighbours, the new vertices on its edges and on the edges
 * opposite to it. The latter stand in the rings of the former. */
static void mark_above(const pair *l, uint32_t *map, size_t next_start, size_t t) {
    const uint16_t *row = row_of(l->rings, t), *next = row_of(l->next_rings, t);
    mark(map, next_start + t);
    for (size_t i = 0; i < l->valences[t]; i++) {
        mark(map, next_start + row[i]);
        mark(map, next_start + next[i]);
        mark(map, next_start + row_of(l->next_rings, next[i])[row[i] > t ? 4 : 1]);
    }
}

/* Sets the point of vertex x of the level above. The ends of an edge stand in places 0 and 3 of its new vertex, so that
 * the neighbours beside it are found without a search. */
static void set_point(const pair *l, const int32_t *points, int32_t *next_points, size_t x) {
    if (x < l->count) {
        const uint16_t *row = row_of(l->rings, x);
        point sum = {0, 0, 0, 0};
        for (size_t i = 0; i < l->valences[x]; i++) sum += point_at(points, row[i]);
        put_point(next_points, x, vertex_point(point_at(points, x), sum, l->valences[x]));
        return;
    }
    const uint16_t *ring = row_of(l->next_rings, x);
    const uint16_t *after = row_of(l->next_rings, ring[5]), *before = row_of(l->next_rings, ring[1]);
    size_t p = ring[0], q = ring[3];
    size_t a = (size_t)after[0] + after[3] - p, b = (size_t)before[0] + before[3] - p;
    put_point(next_points, x, edge_point(point_at(points, p), point_at(points, q), point_at(points, a), point_at(points, b)));
}

/* Marks and sets the touched points of the level above level k; answers how many they are. */
static size_t refresh(const plain_stack *s, const pair *l, int32_t *positions, uint32_t *map, size_t k) {
    size_t from = s->start[k], middle = s->start[k + 1], to = middle + s->count[k + 1], touched = 0;
    for (size_t w = from >> 5; w <= (middle - 1) >> 5; w++)
        for (uint32_t bits = marked(map, w, from, middle); bits; bits &= bits - 1)
            mark_above(l, map, middle, 32 * w + (size_t)__builtin_ctz(bits) - from);
    for (size_t w = middle >> 5; w <= (to - 1) >> 5; w++)
        for (uint32_t bits = marked(map, w, middle, to); bits; bits &= bits - 1, touched++)
            set_point(l, positions + 3 * from, positions + 3 * middle, 32 * w + (size_t)__builtin_ctz(bits) - middle);
    return touched;
}

/* Writes the pending points and marks them; answers how many vertices they name. */
static size_t write_moved(const pending *list, int32_t *positions, uint32_t *map) {
    size_t named = 0;
    for (size_t i = 0; i < list->length; i++) {
        size_t vertex = list->vertices[i];
        named += !(map[vertex >> 5] >> (vertex & 31) & 1);
        mark(map, vertex);
        memcpy(positions + 3 * vertex, list->points[i], sizeof list->points[i]);
    }
    return named;
}

gt_value gt_moves(const uint16_t *valences, size_t valences_length, const uint16_t *rings, size_t rings_length,
                  int32_t *positions, size_t positions_length, uint32_t *map, size_t map_length,
                  size_t v, size_t levels, const gt_move *moves, size_t moves_length) {
    if (levels < 1 || levels > GT_MOST_LEVELS) return refused(GT_LEVEL_COUNT, 0);
    gt_counts control = gt_check(valences, valences_length, rings, rings_length, positions, positions_length, v);
    if (control.number) return refused(control.number, control.place);
    plain_stack stack;
    size_t large = plain_layout(&stack, control, levels);
    if (large) return refused(GT_LEVEL_TOO_LARGE, large);
    size_t total = stack.total, words = (total + 31) / 32;
    if (valences_length < total || rings_length < PLACES * total || positions_length < 3 * total || map_length < words)
        return refused(GT_NO_ROOM, 0);
    size_t altered = first_altered(&stack, valences, rings, positions, levels);
    if (altered < total) return refused(GT_STACK_ALTERED, altered);
    if (moves_length > GT_MOST_MOVES) return refused(GT_TOO_MANY_MOVES, 0);
    pending list;
    list.length = 0;
    for (size_t i = 0; i < moves_length; i++) {
        uint32_t number = move_one(&list, positions, v, moves + i);
        if (number) return refused(number, i);
    }
    memset(map, 0, words * sizeof *map);
    size_t touched = write_moved(&list, positions, map);
    for (size_t k = 0; k < levels; k++) {
        pair l = pair_at(&stack, valences, rings, k);
        touched += refresh(&stack, &l, positions, map, k);
    }
    return accepted(touched);
}
