/* Sound control meshes for programs that try or measure the library: spheres, tori, double cones, tori with tubes, with
 * random edges turned round. Numbers depend on a seed alone. */
#ifndef MESHES_H
#define MESHES_H

#include <string.h>
#include "gypsumtrot.h"

static inline uint64_t random_bits(uint64_t *state) {
    uint64_t z = *state += 0x9e3779b97f4a7c15u;
    z = (z ^ (z >> 30)) * 0xbf58476d1ce4e5b9u;
    z = (z ^ (z >> 27)) * 0x94d049bb133111ebu;
    return z ^ (z >> 31);
}

static inline size_t random_below(uint64_t *state, size_t n) { return (size_t)(random_bits(state) % n); }

/* A control mesh with rows for the largest. */
typedef struct {
    size_t count;
    uint16_t valences[GT_MOST_VERTICES], rings[GT_RING_PLACES * GT_MOST_VERTICES];
    int32_t positions[3 * GT_MOST_VERTICES];
} control_mesh;

static inline void mesh_row(control_mesh *m, size_t v, size_t valence, const size_t *ring) {
    uint16_t *row = m->rings + GT_RING_PLACES * v;
    m->valences[v] = (uint16_t)valence;
    for (size_t i = 0; i < GT_RING_PLACES; i++) row[i] = (uint16_t)(i < valence ? ring[i] : (size_t)GT_NULL_VERTEX);
}

static inline size_t mesh_place(const control_mesh *m, size_t v, size_t x) {
    size_t i = 0;
    while (i < m->valences[v] && m->rings[GT_RING_PLACES * v + i] != x) i++;
    return i;
}

static inline void mesh_insert_after(control_mesh *m, size_t v, size_t a, size_t x) {
    uint16_t *row = m->rings + GT_RING_PLACES * v;
    size_t at = mesh_place(m, v, a) + 1;
    memmove(row + at + 1, row + at, 2 * (m->valences[v] - at));
    row[at] = (uint16_t)x;
    m->valences[v]++;
}

static inline void mesh_erase(control_mesh *m, size_t v, size_t x) {
    uint16_t *row = m->rings + GT_RING_PLACES * v;
    size_t at = mesh_place(m, v, x);
    memmove(row + at, row + at + 1, 2 * (m->valences[v] - at - 1));
    row[--m->valences[v]] = GT_NULL_VERTEX;
}

/* Puts a new vertex into the face at place i of v. */
static inline void mesh_split(control_mesh *m, size_t v, size_t i) {
    const uint16_t *row = m->rings + GT_RING_PLACES * v;
    size_t u = row[i], w = row[(i + 1) % m->valences[v]], x = m->count++, ring[3] = {v, u, w};
    if (m->valences[v] > 31 || m->valences[u] > 31 || m->valences[w] > 31) {
        m->count--;
        return;
    }
    mesh_row(m, x, 3, ring);
    mesh_insert_after(m, v, u, x);
    mesh_insert_after(m, u, w, x);
    mesh_insert_after(m, w, v, x);
}

/* An edge: its ends p and q, and the neighbours a and b of p after and before q. */
typedef struct {
    size_t p, q, a, b;
} mesh_edge;

/* The edge at place i of p. */
static inline mesh_edge mesh_edge_at(const control_mesh *m, size_t p, size_t i) {
    const uint16_t *row = m->rings + GT_RING_PLACES * p;
    size_t n = m->valences[p];
    mesh_edge e = {p, row[i], row[(i + 1) % n], row[(i + n - 1) % n]};
    return e;
}

/* Can a and b be joined instead of p and q, with valences of at most the greatest? */
static inline int mesh_can_flip(const control_mesh *m, mesh_edge e, size_t greatest) {
    return m->valences[e.p] > 3 && m->valences[e.q] > 3 && m->valences[e.a] < greatest && m->valences[e.b] < greatest &&
           mesh_place(m, e.a, e.b) == m->valences[e.a];
}

/* The first edge from a vertex on that can be flipped, of those of a vertex the last; there is one. */
static inline mesh_edge mesh_some_flip(const control_mesh *m, size_t from) {
    for (size_t i = m->valences[from]; i > 0; i--)
        if (mesh_can_flip(m, mesh_edge_at(m, from, i - 1), GT_RING_PLACES)) return mesh_edge_at(m, from, i - 1);
    return mesh_some_flip(m, (from + 1) % m->count);
}

/* Turns the edge at place i of p round in its two triangles, unless valences or an edge that is there forbid it. */
static inline void mesh_flip(control_mesh *m, size_t p, size_t i, size_t greatest) {
    mesh_edge e = mesh_edge_at(m, p, i);
    if (!mesh_can_flip(m, e, greatest)) return;
    mesh_insert_after(m, e.a, e.p, e.b);
    mesh_insert_after(m, e.b, e.q, e.a);
    mesh_erase(m, e.p, e.q);
    mesh_erase(m, e.q, e.p);
}

static inline void mesh_flip_random(control_mesh *m, uint64_t *state, size_t times, size_t greatest) {
    for (size_t k = 0; k < times; k++) {
        size_t p = random_below(state, m->count);
        mesh_flip(m, p, random_below(state, m->valences[p]), greatest);
    }
}

static inline void mesh_tetrahedron(control_mesh *m) {
    static const size_t rings[4][3] = {{1, 2, 3}, {0, 3, 2}, {0, 1, 3}, {0, 2, 1}};
    m->count = 4;
    for (size_t v = 0; v < 4; v++) mesh_row(m, v, 3, rings[v]);
}

/* Two tips over a circle of n vertices. */
static inline void mesh_double_cone(control_mesh *m, size_t n) {
    size_t upper[GT_RING_PLACES], lower[GT_RING_PLACES];
    m->count = n + 2;
    for (size_t i = 0; i < n; i++) {
        size_t ring[4] = {0, 1 + (i + n - 1) % n, n + 1, 1 + (i + 1) % n};
        mesh_row(m, 1 + i, 4, ring);
        upper[i] = 1 + i;
        lower[i] = n - i;
    }
    mesh_row(m, 0, n, upper);
    mesh_row(m, n + 1, n, lower);
}

/* A random sphere: vertices are put into random faces, then edges are turned until valences are even. */
static inline void mesh_sphere(control_mesh *m, uint64_t *state, size_t count) {
    mesh_tetrahedron(m);
    while (m->count < count) {
        size_t v = random_below(state, m->count);
        mesh_split(m, v, random_below(state, m->valences[v]));
        mesh_flip_random(m, state, 4, 9);
    }
    mesh_flip_random(m, state, 20 * count, 8);
}

/* A torus of a times b vertices, all of valence 6; a and b at least 3. */
static inline void mesh_torus(control_mesh *m, size_t a, size_t b) {
    m->count = a * b;
    for (size_t i = 0; i < a; i++)
        for (size_t j = 0; j < b; j++) {
            size_t up = (i + 1) % a, down = (i + a - 1) % a, right = (j + 1) % b, left = (j + b - 1) % b;
            size_t ring[6] = {up * b + j, up * b + right, i * b + right, down * b + j, down * b + left, i * b + left};
            mesh_row(m, i * b + j, 6, ring);
        }
}

/* The corners of the face at place i of v: v, that neighbour, and the one after it. */
static inline void mesh_face(const control_mesh *m, size_t v, size_t i, size_t *corners) {
    const uint16_t *row = m->rings + GT_RING_PLACES * v;
    corners[0] = v, corners[1] = row[i], corners[2] = row[(i + 1) % m->valences[v]];
}

/* Takes two faces out and puts a tube of six triangles in between them, unless valences or shared or neighbouring corners
 * forbid it. Each of the six corners gets two neighbours. */
static inline void mesh_tube(control_mesh *m, const size_t *p, const size_t *q, size_t greatest) {
    for (size_t i = 0; i < 3; i++) {
        if (m->valences[p[i]] + 2 > (int)greatest || m->valences[q[i]] + 2 > (int)greatest) return;
        for (size_t j = 0; j < 3; j++)
            if (p[i] == q[j] || mesh_place(m, p[i], q[j]) < m->valences[p[i]]) return;
    }
    for (size_t i = 0; i < 3; i++) {
        mesh_insert_after(m, p[i], p[(i + 1) % 3], q[(4 - i) % 3]);
        mesh_insert_after(m, p[i], p[(i + 1) % 3], q[(3 - i) % 3]);
        mesh_insert_after(m, q[i], q[(i + 1) % 3], p[(4 - i) % 3]);
        mesh_insert_after(m, q[i], q[(i + 1) % 3], p[(3 - i) % 3]);
    }
}

/* A torus with random tubes between its faces, until nearly every valence is the greatest; it is even and at least 6. */
static inline void mesh_tubes(control_mesh *m, uint64_t *state, size_t a, size_t b, size_t greatest) {
    mesh_torus(m, a, b);
    for (size_t k = 0; k < 4000 * m->count; k++) {
        size_t v = random_below(state, m->count), u = random_below(state, m->count), p[3], q[3];
        mesh_face(m, v, random_below(state, m->valences[v]), p);
        mesh_face(m, u, random_below(state, m->valences[u]), q);
        mesh_tube(m, p, q, greatest);
    }
}

static inline void mesh_random_positions(control_mesh *m, uint64_t *state, size_t reach) {
    for (size_t i = 0; i < 3 * m->count; i++)
        m->positions[i] = (int32_t)random_below(state, 2 * reach + 1) - (int32_t)reach;
}

#endif
