/* Turns a mesh file into OFF text.
 *
 *   mesh2off MESH TEXT
 *
 * Coordinates are in units of 1/1,024 millimetre; a face a, b, c turns against the rings: next(a in b) = c. */
#include "drag.h"

static uint16_t valences[GT_MOST_VERTICES], rings[GT_RING_PLACES * GT_MOST_VERTICES];
static int32_t positions[3 * GT_MOST_VERTICES];
static uint8_t text[GT_MOST_OFF_BYTES];

#define TABLES valences, GT_MOST_VERTICES, rings, GT_RING_PLACES * GT_MOST_VERTICES, positions, 3 * GT_MOST_VERTICES

int main(int argc, char **argv) {
    size_t length;
    if (argc != 3) {
        fprintf(stderr, "mesh2off MESH TEXT\n");
        return 2;
    }
    uint8_t *file = drag_bytes(argv[1], &length);
    gt_value read = gt_read(file, length, TABLES);
    if (read.number) drag_stop(argv[1], read.number, read.place);
    drag_save(argv[2], text, gt_write_off(TABLES, read.value, text, sizeof text));
    free(file);
    return 0;
}
