/* Turns OFF text into a mesh file.
 *
 *   off2mesh TEXT MESH
 *
 * The text has whole numbers: coordinates in units of 1/1,024 millimetre (include/gypsumtrot.h has the subset that is taken).
 * Where a line or a vertex is at fault it is named. */
#include "drag.h"

static uint16_t valences[GT_MOST_VERTICES], rings[GT_RING_PLACES * GT_MOST_VERTICES];
static int32_t positions[3 * GT_MOST_VERTICES];
static uint8_t file[14 + 84 * GT_MOST_VERTICES];

#define TABLES valences, GT_MOST_VERTICES, rings, GT_RING_PLACES * GT_MOST_VERTICES, positions, 3 * GT_MOST_VERTICES

int main(int argc, char **argv) {
    size_t length;
    if (argc != 3) {
        fprintf(stderr, "off2mesh TEXT MESH\n");
        return 2;
    }
    uint8_t *text = drag_bytes(argv[1], &length);
    gt_value read = gt_read_off(text, length, TABLES);
    if (read.number) drag_stop(argv[1], read.number, read.place);
    drag_save(argv[2], file, gt_write(TABLES, read.value, file, sizeof file));
    free(text);
    return 0;
}
