/* The mirror image in x = 0: of a control mesh, of a move, and whether two vertices are each other's. */
#ifndef MIRROR_H
#define MIRROR_H

#include "gypsumtrot.h"

/* Each ring reversed, as it stands in its row, and each x negated. */
static inline void mirror_mesh(size_t count, const uint16_t *valences, const uint16_t *rings, const int32_t *positions,
                               uint16_t *image_valences, uint16_t *image_rings, int32_t *image_positions) {
    for (size_t v = 0; v < count; v++) {
        const uint16_t *ring = rings + GT_RING_PLACES * v;
        size_t valence = image_valences[v] = valences[v];
        for (size_t i = 0; i < GT_RING_PLACES; i++)
            image_rings[GT_RING_PLACES * v + i] = ring[i < valence ? valence - 1 - i : i];
        for (size_t c = 0; c < 3; c++) image_positions[3 * v + c] = (c ? 1 : -1) * positions[3 * v + c];
    }
}

/* A placing or a shift with its x negated, a stretch as it is. */
static inline gt_move mirror_move(gt_move move) {
    if (move.kind != GT_STRETCH) move.x = -move.x;
    return move;
}

/* Is the second ring the first reversed, wherever it begins? No number stands twice in them. */
static inline int mirror_rings(const uint16_t *ring, const uint16_t *image, size_t valence) {
    size_t begin = 0;
    while (begin < valence && image[begin] != ring[0]) begin++;
    for (size_t i = 0; i < valence; i++)
        if (begin == valence || image[(begin + valence - i) % valence] != ring[i]) return 0;
    return 1;
}

static inline int mirror_points(const int32_t *point, const int32_t *image) {
    return image[0] == -point[0] && image[1] == point[1] && image[2] == point[2];
}

#endif
