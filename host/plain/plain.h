/* What the files of the plain implementation share: the mesh of one level, answers, small tests. */
#ifndef PLAIN_H
#define PLAIN_H

#include <string.h>
#include "gypsumtrot.h"

#if !defined(__BYTE_ORDER__) || __BYTE_ORDER__ != __ORDER_LITTLE_ENDIAN__
#error "mesh files are little-endian and copied as they stand"
#endif

#define INLINE static inline __attribute__((always_inline))
#define PLACES ((size_t)GT_RING_PLACES)
#define FAR ((uint32_t)GT_GREATEST_COORDINATE)

INLINE gt_counts counts_refused(uint32_t number, size_t place) {
    gt_counts answer = {number, place, 0, 0, 0};
    return answer;
}

INLINE gt_value refused(uint32_t number, size_t place) {
    gt_value answer = {number, place, 0};
    return answer;
}

INLINE gt_value accepted(size_t value) {
    gt_value answer = {GT_ACCEPTED, 0, value};
    return answer;
}

/* How many of `length` places come before the first that holds x; `length` if none does. */
INLINE size_t place_of(const uint16_t *row, size_t length, size_t x) {
    size_t i = 0;
    while (i < length && row[i] != x) i++;
    return i;
}

/* Puts the null vertex into the places of a row behind its ring. */
INLINE void clear_places(uint16_t *row, size_t valence) {
    for (size_t i = valence; i < PLACES; i++) row[i] = GT_NULL_VERTEX;
}

/* The top bit of the answer is set exactly if a coordinate is beyond the range. */
INLINE uint32_t beyond(int32_t coordinate) {
    return ((uint32_t)coordinate + FAR) | (FAR - (uint32_t)coordinate);
}

/* The first vertex of `count` with a coordinate beyond the range; `count` if there is none. */
size_t plain_first_beyond(const int32_t *positions, size_t count);

/* Where the levels of a stack lie, and how many vertices it has in all. */
typedef struct {
    size_t count[GT_MOST_LEVELS + 1], start[GT_MOST_LEVELS + 1], total;
    size_t edges, faces;
} plain_stack;

/* Lays out the levels above a checked control mesh; answers the first level that has too many vertices, or 0. */
size_t plain_layout(plain_stack *stack, gt_counts control, size_t levels);

#endif
