/* Refinement, by hand: one sweep over the old vertices of each level writes the next. */
#include "level.h"

size_t plain_layout(plain_stack *stack, gt_counts control, size_t levels) {
    stack->count[0] = control.v, stack->start[0] = 0;
    stack->edges = control.e, stack->faces = control.f, stack->total = control.v;
    for (size_t k = 1; k <= levels; k++) {
        stack->start[k] = stack->total;
        stack->count[k] = stack->count[k - 1] + stack->edges;
        if (stack->count[k] > GT_MOST_LEVEL_VERTICES) return k;
        stack->total += stack->count[k];
        stack->edges *= 4, stack->faces *= 4;
    }
    return 0;
}

/* The level below, as it is, and the level to be written. */
typedef struct {
    const uint16_t *restrict valences, *restrict rings;
    const int32_t *restrict positions;
    uint16_t *restrict next_valences, *restrict next_rings;
    int32_t *restrict next_positions;
} step;

/* What is known of a vertex and its neighbours while its part of the next level is written. */
typedef struct {
    uint32_t above[GT_RING_PLACES];       /* how far each neighbour lies above the vertex; very far if it lies below */
    uint32_t numbers[GT_RING_PLACES];     /* the new vertex on the edge to each */
    point near[GT_RING_PLACES];           /* the neighbours' points */
} surroundings;

/* Looks at p's neighbours and writes p's own new point. */
INLINE void write_old_point(const step *s, surroundings *near, size_t p, size_t valence) {
    const uint16_t *row = s->rings + PLACES * p;
    point sum = {0, 0, 0, 0};
    for (size_t i = 0; i < valence; i++) {
        near->above[i] = (uint32_t)row[i] - (uint32_t)(p + 1);
        near->near[i] = point_at(s->positions, row[i]);
        sum += near->near[i];
    }
    put_point(s->next_positions, p, vertex_point(point_at(s->positions, p), sum, valence));
}

/* Opens the row of the new vertex on p's edge at place i to a greater neighbour, and writes its point. Its number is
 * counted from `start` in the order of the neighbours. */
INLINE uint32_t open_edge(const step *s, const surroundings *near, size_t p, size_t valence, size_t i, size_t start) {
    uint32_t x = (uint32_t)start;
    for (size_t k = 0; k < valence; k++) x += near->above[k] < near->above[i];
    put_point(s->next_positions, x, edge_point(point_at(s->positions, p), near->near[i], near->near[i + 1 == valence ? 0 : i + 1],
                                               near->near[i == 0 ? valence - 1 : i - 1]));
    memset(s->next_rings + PLACES * x, 0xff, 2 * PLACES);
    s->next_valences[x] = 6;
    return x;
}

/* The number of the new vertex on p's edge to a lesser neighbour q stands in q's row already. */
INLINE uint32_t edge_below(const step *s, size_t p, size_t q) {
    const uint16_t *back = s->rings + PLACES * q;
    size_t j = 0;
    while (back[j] != p) j++;
    return s->next_rings[PLACES * q + j];
}

/* Writes p's row, and for each of its edges the half of the new vertex's ring that lies on p's side. */
INLINE void write_rings(const step *s, const surroundings *near, size_t p, size_t valence) {
    uint16_t *out = s->next_rings + PLACES * p;
    uint32_t before = near->numbers[valence - 1];
    s->next_valences[p] = (uint16_t)valence;
    memset(out, 0xff, 2 * PLACES);
    for (size_t i = 0; i < valence; i++) {
        uint32_t x = near->numbers[i], after = near->numbers[i + 1 == valence ? 0 : i + 1];
        uint16_t *ring = s->next_rings + PLACES * x;
        out[i] = (uint16_t)x;
        if (near->above[i] <= GT_NULL_VERTEX)
            ring[0] = (uint16_t)p, ring[1] = (uint16_t)before, ring[5] = (uint16_t)after;
        else
            ring[3] = (uint16_t)p, ring[4] = (uint16_t)before, ring[2] = (uint16_t)after;
        before = x;
    }
}

/* Writes all that p's place in the sweep decides; answers the number of the next new vertex. */
INLINE size_t write_vertex(const step *s, size_t p, size_t valence, size_t start) {
    const uint16_t *row = s->rings + PLACES * p;
    surroundings near;
    size_t next = start;
    write_old_point(s, &near, p, valence);
    for (size_t i = 0; i < valence; i++) {
        if (near.above[i] <= GT_NULL_VERTEX) {
            near.numbers[i] = open_edge(s, &near, p, valence, i, start);
            next++;
        } else
            near.numbers[i] = edge_below(s, p, row[i]);
    }
    write_rings(s, &near, p, valence);
    return next;
}

static void write_level(const step *s, size_t count) {
    size_t start = count;
    for (size_t p = 0; p < count; p++)
        start = s->valences[p] == 6 ? write_vertex(s, p, 6, start) : write_vertex(s, p, s->valences[p], start);
}

gt_counts gt_refine(uint16_t *valences, size_t valences_length, uint16_t *rings, size_t rings_length,
                    int32_t *positions, size_t positions_length, size_t v, size_t levels) {
    if (levels < 1 || levels > GT_MOST_LEVELS) return counts_refused(GT_LEVEL_COUNT, 0);
    gt_counts control = gt_check(valences, valences_length, rings, rings_length, positions, positions_length, v);
    if (control.number) return control;
    plain_stack stack;
    size_t large = plain_layout(&stack, control, levels);
    if (large) return counts_refused(GT_LEVEL_TOO_LARGE, large);
    if (valences_length < stack.total || rings_length < PLACES * stack.total || positions_length < 3 * stack.total)
        return counts_refused(GT_NO_ROOM, 0);
    for (size_t k = 0; k < levels; k++) {
        size_t below = stack.start[k], above = stack.start[k + 1];
        step s = {valences + below, rings + PLACES * below, positions + 3 * below,
                  valences + above, rings + PLACES * above, positions + 3 * above};
        write_level(&s, stack.count[k]);
    }
    gt_counts answer = {GT_ACCEPTED, 0, stack.count[levels], stack.edges, stack.faces};
    return answer;
}
