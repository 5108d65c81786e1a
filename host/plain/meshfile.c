/* Reading and writing mesh files, by hand. */
#include "plain.h"

enum { HEADER = 6, KIND_COUNT = 1, KIND_VERTEX = 2, KIND_END = 3 };

/* The 2 or 4 bytes at a place, little-endian. */
INLINE size_t two(const uint8_t *bytes) {
    uint16_t number;
    memcpy(&number, bytes, sizeof number);
    return number;
}

INLINE size_t four(const uint8_t *bytes) {
    uint32_t number;
    memcpy(&number, bytes, sizeof number);
    return number;
}

/* Does a whole record of this kind begin at this place? Its payload's length is answered through `payload`. */
INLINE int record(const uint8_t *bytes, size_t length, size_t at, size_t kind, size_t *payload) {
    if (length - at < HEADER || two(bytes + at + 4) != kind) return 0;
    *payload = four(bytes + at);
    return *payload <= length - at - HEADER;
}

/* Walks the whole file. Answers whether its layout is good, with V in `count`; otherwise the place of the fault. */
static int layout(const uint8_t *bytes, size_t length, size_t *count, size_t *place) {
    size_t payload;
    *place = 0;
    if (!record(bytes, length, 0, KIND_COUNT, &payload) || payload != 2) return 0;
    *count = two(bytes + HEADER);
    size_t at = HEADER + 2;
    for (size_t v = 0; v < *count; v++) {
        *place = at;
        if (!record(bytes, length, at, KIND_VERTEX, &payload) || payload < 14) return 0;
        size_t valence = two(bytes + at + HEADER + 12);
        if (valence > PLACES || payload != 14 + 2 * valence) return 0;
        at += HEADER + payload;
    }
    *place = at;
    if (!record(bytes, length, at, KIND_END, &payload) || payload != 0) return 0;
    *place = at + HEADER;
    return *place == length;
}

gt_value gt_read(const uint8_t *bytes, size_t bytes_length, uint16_t *valences, size_t valences_length,
                 uint16_t *rings, size_t rings_length, int32_t *positions, size_t positions_length) {
    size_t count, place;
    if (!layout(bytes, bytes_length, &count, &place)) return refused(GT_FILE_LAYOUT, place);
    if (count < GT_FEWEST_VERTICES || count > GT_MOST_VERTICES) return refused(GT_VERTEX_COUNT, 0);
    if (valences_length < count || rings_length < PLACES * count || positions_length < 3 * count)
        return refused(GT_TABLE_TOO_SHORT, 0);
    const uint8_t *at = bytes + HEADER + 2;
    for (size_t v = 0; v < count; v++) {
        size_t valence = two(at + HEADER + 12);
        valences[v] = (uint16_t)valence;
        memcpy(positions + 3 * v, at + HEADER, 12);
        memset(rings + PLACES * v, 0xff, 2 * PLACES);
        memcpy(rings + PLACES * v, at + HEADER + 14, 2 * valence);
        at += HEADER + 14 + 2 * valence;
    }
    return accepted(count);
}

/* Writes a record's first six bytes. */
INLINE void header(uint8_t *at, uint32_t payload, uint16_t kind) {
    memcpy(at, &payload, 4);
    memcpy(at + 4, &kind, 2);
}

gt_value gt_write(const uint16_t *valences, size_t valences_length, const uint16_t *rings, size_t rings_length,
                  const int32_t *positions, size_t positions_length, size_t v, uint8_t *file, size_t file_length) {
    if (v < GT_FEWEST_VERTICES || v > GT_MOST_VERTICES) return refused(GT_VERTEX_COUNT, 0);
    if (valences_length < v || rings_length < PLACES * v || positions_length < 3 * v)
        return refused(GT_TABLE_TOO_SHORT, 0);
    size_t length = HEADER + 2 + HEADER;
    for (size_t i = 0; i < v; i++) {
        if (valences[i] > PLACES) return refused(GT_RING_IMPROPER, i);
        length += HEADER + 14 + 2 * (size_t)valences[i];
    }
    if (file_length < length) return refused(GT_NO_ROOM, 0);
    uint16_t count = (uint16_t)v;
    uint8_t *at = file;
    header(at, 2, KIND_COUNT);
    memcpy(at + HEADER, &count, 2);
    at += HEADER + 2;
    for (size_t i = 0; i < v; i++) {
        size_t valence = valences[i];
        header(at, (uint32_t)(14 + 2 * valence), KIND_VERTEX);
        memcpy(at + HEADER, positions + 3 * i, 12);
        memcpy(at + HEADER + 12, valences + i, 2);
        memcpy(at + HEADER + 14, rings + PLACES * i, 2 * valence);
        at += HEADER + 14 + 2 * valence;
    }
    header(at, 0, KIND_END);
    return accepted(length);
}
