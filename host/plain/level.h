/* Points, and one level above another: the rules that refining, moving and reshaping share. */
#ifndef LEVEL_H
#define LEVEL_H

#include "plain.h"

/* Three coordinates and a fourth number that nobody looks at, worked on at once. The fourth may be anything, so that sums
 * are taken as numbers that wrap. */
typedef uint32_t point __attribute__((vector_size(16)));
typedef int32_t signed_point __attribute__((vector_size(16)));

/* Divides by a power of two, rounding to the nearest, halves to the even number. */
INLINE point nearest(point p, int power) {
    point odd = p >> power & 1;
    return (point)((signed_point)(p + ((1u << (power - 1)) - 1) + odd) >> power);
}

/* The point of vertex v of a level that has another above it, so that a number follows it in the table. */
INLINE point point_at(const int32_t *positions, size_t v) {
    point p;
    memcpy(&p, positions + 3 * v, sizeof p);
    return p;
}

INLINE void put_point(int32_t *positions, size_t v, point p) { memcpy(positions + 3 * v, &p, 3 * sizeof *positions); }

/* The point of a new vertex on the edge p, q with a and b beside it, rounded to the nearest. */
INLINE point edge_point(point p, point q, point a, point b) {
    point ends = p + q;
    return nearest(ends + ends + ends + a + b, 3);
}

/* The new point of an old vertex with the given sum of its neighbours, rounded to the nearest. */
INLINE point vertex_point(point here, point sum, size_t valence) {
    if (valence == 6) return nearest((here << 3) + here + here + sum, 4);
    if (valence == 3) return nearest((here << 3) - here + sum + sum + sum, 4);
    uint32_t n = (uint32_t)valence;
    for (size_t c = 0; c < 3; c++) {
        uint32_t lifted = 5 * n * (here[c] + FAR) + 3 * (sum[c] + n * FAR);
        uint32_t up = (lifted + 4 * n) / (8 * n);
        here[c] = up - ((lifted + 4 * n) % (8 * n) == 0 ? up % 2 : 0) - FAR;
    }
    return here;
}

#endif
