/* One level of a stack as triangles, for programs that show it: each face once, its corners counter-clockwise as seen
 * from outside.
 *
 * The rings of a sound mesh all turn the same way, and refinement keeps it; which way that is, its maker chooses. Seen
 * from outside, those of icosahedron.mesh and octahedron.mesh turn counter-clockwise, those of tetrahedron.mesh (and of
 * document 01) clockwise. If w follows u in the ring of v, the corners v, u, w turn as the rings do, and u, v, w the
 * other way: so v, u, w has its normal outward for the icosahedron, u, v, w for the tetrahedron. */
#ifndef FACES_H
#define FACES_H

#include "drag.h"

typedef struct {
    const int32_t *points;       /* of the level, three coordinates each */
    size_t count;
    uint16_t (*corners)[3];      /* numbers of the level's own vertices */
    int clockwise;               /* do the rings turn clockwise, seen from outside? */
} level_faces;

/* Six times the volume between a face and the origin: above 0 if its corners are counter-clockwise seen from beyond. */
static inline double face_volume(const level_faces *f, const uint16_t *corners) {
    const int32_t *a = f->points + 3 * corners[0], *b = f->points + 3 * corners[1], *c = f->points + 3 * corners[2];
    return (double)a[0] * ((double)b[1] * c[2] - (double)b[2] * c[1]) +
           (double)a[1] * ((double)b[2] * c[0] - (double)b[0] * c[2]) +
           (double)a[2] * ((double)b[0] * c[1] - (double)b[1] * c[0]);
}

/* The faces of a level. Each is met at its three corners and taken at the lowest; all are turned round if the volume
 * that they enclose is negative, for then the rings turn clockwise. */
static inline level_faces faces_of(const drag_stack *s, size_t level) {
    const uint16_t *valences = s->valences + s->start[level], *ring = s->rings + GT_RING_PLACES * s->start[level];
    level_faces f = {s->positions + 3 * s->start[level], 0, NULL, 0};
    size_t ends = 0;
    double volume = 0;
    for (size_t v = 0; v < s->count[level]; v++) ends += valences[v];
    f.corners = drag_room(ends / 3, sizeof *f.corners);
    for (size_t v = 0; v < s->count[level]; v++, ring += GT_RING_PLACES)
        for (size_t i = 0; i < valences[v]; i++) {
            uint16_t u = ring[i], w = ring[(i + 1) % valences[v]], *corners = f.corners[f.count];
            if (u < v || w < v) continue;
            corners[0] = (uint16_t)v, corners[1] = u, corners[2] = w;
            volume += face_volume(&f, corners);
            f.count++;
        }
    f.clockwise = volume < 0;
    for (size_t i = 0; i < f.count && f.clockwise; i++) {
        uint16_t u = f.corners[i][1];
        f.corners[i][1] = f.corners[i][2], f.corners[i][2] = u;
    }
    return f;
}

#endif
