/* Edits of the mesh as a whole, by hand: an edge or a face is split, an edge is flipped. */
#include "level.h"

/* Puts x after the neighbour that is there into the ring of v. */
INLINE void put_after(uint16_t *valences, uint16_t *rings, size_t v, size_t there, size_t x) {
    uint16_t *row = rings + PLACES * v;
    size_t valence = valences[v], at = place_of(row, valence, there) + 1;
    for (size_t i = valence; i > at; i--) row[i] = row[i - 1];
    row[at] = (uint16_t)x;
    clear_places(row, valence + 1);
    valences[v] = (uint16_t)(valence + 1);
}

/* Puts x in the place of the neighbour that is there. */
INLINE void exchange(const uint16_t *valences, uint16_t *rings, size_t v, size_t there, size_t x) {
    uint16_t *row = rings + PLACES * v;
    row[place_of(row, valences[v], there)] = (uint16_t)x;
    clear_places(row, valences[v]);
}

/* Takes the neighbour that is there out of the ring of v. */
INLINE void take_out(uint16_t *valences, uint16_t *rings, size_t v, size_t there) {
    uint16_t *row = rings + PLACES * v;
    size_t last = valences[v] - (size_t)1;
    for (size_t i = place_of(row, last, there); i < last; i++) row[i] = row[i + 1];
    clear_places(row, last);
    valences[v] = (uint16_t)last;
}

/* Writes the row of a new vertex. */
INLINE void open_row(uint16_t *valences, uint16_t *rings, size_t v, const size_t *ring, size_t valence) {
    uint16_t *row = rings + PLACES * v;
    for (size_t i = 0; i < valence; i++) row[i] = (uint16_t)ring[i];
    clear_places(row, valence);
    valences[v] = (uint16_t)valence;
}

/* The point of vertex v, where nothing need follow it in the table. */
INLINE point lone_point(const int32_t *positions, size_t v) {
    point p = {0, 0, 0, 0};
    memcpy(&p, positions + 3 * v, 3 * sizeof *positions);
    return p;
}

/* A third of a sum of three points, rounded to the nearest; there are no halves. */
INLINE point third(point sum) {
    point third = {0, 0, 0, 0};
    for (size_t c = 0; c < 3; c++) third[c] = (sum[c] + 3 * FAR + 1) / 3 - FAR;
    return third;
}

/* An edge p < q, with a after and b before q in the ring of p. */
typedef struct {
    size_t p, q, a, b;
} edge;

/* Finds the edge between two vertices of a checked mesh; answers the number of the refusal. */
INLINE uint32_t find_edge(const uint16_t *valences, const uint16_t *rings, size_t count, size_t one, size_t other, edge *e) {
    if (one >= count || other >= count) return GT_NO_SUCH_VERTEX;
    e->p = one < other ? one : other, e->q = one < other ? other : one;
    const uint16_t *row = rings + PLACES * e->p;
    size_t valence = valences[e->p], i = place_of(row, valence, e->q);
    if (i == valence) return GT_NO_EDGE_OR_FACE;
    e->a = row[i + 1 == valence ? 0 : i + 1], e->b = row[i == 0 ? valence - 1 : i - 1];
    return valences[e->a] == PLACES || valences[e->b] == PLACES ? GT_RING_FULL : GT_ACCEPTED;
}

/* Finds the face of three corners of a checked mesh, and names it from the smallest on; answers likewise. */
INLINE uint32_t find_face(const uint16_t *valences, const uint16_t *rings, size_t count, size_t *corners) {
    size_t a = corners[0], b = corners[1], c = corners[2];
    if (a >= count || b >= count || c >= count) return GT_NO_SUCH_VERTEX;
    const uint16_t *row = rings + PLACES * b;
    size_t valence = valences[b], i = place_of(row, valence, a);
    if (i == valence || row[i + 1 == valence ? 0 : i + 1] != c) return GT_NO_EDGE_OR_FACE;
    if (b < a && b < c) corners[0] = b, corners[1] = c, corners[2] = a;
    if (c < a && c < b) corners[0] = c, corners[1] = a, corners[2] = b;
    return valences[a] == PLACES || valences[b] == PLACES || valences[c] == PLACES ? GT_RING_FULL : GT_ACCEPTED;
}

/* Is there room for a vertex more? Answers likewise. */
INLINE uint32_t judge_room(size_t valences_length, size_t rings_length, size_t positions_length, size_t count) {
    if (count == GT_MOST_VERTICES) return GT_RING_FULL;
    if (valences_length < count + 1 || rings_length < PLACES * (count + 1) || positions_length < 3 * (count + 1))
        return GT_NO_ROOM;
    return GT_ACCEPTED;
}

/* The counts with one vertex more, by a split. */
INLINE gt_counts grown(gt_counts control) {
    gt_counts answer = {GT_ACCEPTED, 0, control.v + 1, control.e + 3, control.f + 2};
    return answer;
}

gt_counts gt_split_edge(uint16_t *valences, size_t valences_length, uint16_t *rings, size_t rings_length,
                        int32_t *positions, size_t positions_length, size_t v, size_t p, size_t q) {
    gt_counts control = gt_check(valences, valences_length, rings, rings_length, positions, positions_length, v);
    if (control.number) return control;
    edge e;
    uint32_t number = find_edge(valences, rings, v, p, q, &e);
    if (!number) number = judge_room(valences_length, rings_length, positions_length, v);
    if (number) return counts_refused(number, 0);
    const size_t ring[4] = {e.p, e.b, e.q, e.a};
    exchange(valences, rings, e.p, e.q, v);
    exchange(valences, rings, e.q, e.p, v);
    put_after(valences, rings, e.a, e.p, v);
    put_after(valences, rings, e.b, e.q, v);
    open_row(valences, rings, v, ring, 4);
    put_point(positions, v, nearest(lone_point(positions, p) + lone_point(positions, q), 1));
    return grown(control);
}

gt_counts gt_split_face(uint16_t *valences, size_t valences_length, uint16_t *rings, size_t rings_length,
                        int32_t *positions, size_t positions_length, size_t v, size_t a, size_t b, size_t c) {
    gt_counts control = gt_check(valences, valences_length, rings, rings_length, positions, positions_length, v);
    if (control.number) return control;
    size_t corners[3] = {a, b, c};
    uint32_t number = find_face(valences, rings, v, corners);
    if (!number) number = judge_room(valences_length, rings_length, positions_length, v);
    if (number) return counts_refused(number, 0);
    const size_t ring[3] = {corners[0], corners[2], corners[1]};
    put_after(valences, rings, a, c, v);
    put_after(valences, rings, b, a, v);
    put_after(valences, rings, c, b, v);
    open_row(valences, rings, v, ring, 3);
    put_point(positions, v, third(lone_point(positions, a) + lone_point(positions, b) + lone_point(positions, c)));
    return grown(control);
}

gt_counts gt_flip(uint16_t *valences, size_t valences_length, uint16_t *rings, size_t rings_length,
                  const int32_t *positions, size_t positions_length, size_t v, size_t p, size_t q) {
    gt_counts control = gt_check(valences, valences_length, rings, rings_length, positions, positions_length, v);
    if (control.number) return control;
    edge e;
    uint32_t number = find_edge(valences, rings, v, p, q, &e);
    if (number) return counts_refused(number, 0);
    size_t length = valences[e.a];
    if (valences[p] == 3 || valences[q] == 3 || place_of(rings + PLACES * e.a, length, e.b) < length)
        return counts_refused(GT_CANNOT_FLIP, 0);
    put_after(valences, rings, e.a, e.p, e.b);
    put_after(valences, rings, e.b, e.q, e.a);
    take_out(valences, rings, e.p, e.q);
    take_out(valences, rings, e.q, e.p);
    return control;
}
