/* The floating-point environment. A C program begins in the default one, with rounding to nearest and exceptions
 * masked, and the library's calls leave it so: a shift from 1,025 units by 2^-11 - 2^-60 mm leads to 1,026 units before
 * and after them, as the sum is rounded up to a half and that to the even unit. Beside that it prints what the shift
 * leads to under rounding downward, which is why the header asks for the default environment. */
#include <fenv.h>
#include <stdio.h>
#include <stdlib.h>
#include <xmmintrin.h>
#include "meshes.h"

enum { ROWS = 64, START = GT_UNITS_A_MILLIMETRE + 1, NEAREST = START + 1 };

/* The bits of the control register that say how numbers are rounded and which exceptions are masked. */
enum { ROUNDING = 0x6000, MASKS = 0x1f80, FLAGS = 0x3f };

static control_mesh control;
static uint16_t valences[ROWS], rings[GT_RING_PLACES * ROWS];
static int32_t positions[3 * ROWS];
static uint32_t map[ROWS / 32];
static uint8_t file[1000];

#define RING_TABLES valences, ROWS, rings, GT_RING_PLACES * ROWS
#define TABLES RING_TABLES, positions, 3 * ROWS

static void need(int condition, const char *what) {
    if (condition) return;
    printf("environment: %s\n", what);
    exit(1);
}

static unsigned register_now(void) { return _mm_getcsr() & ~(unsigned)FLAGS; }

static int is_default(void) {
    return fegetround() == FE_TONEAREST && (_mm_getcsr() & (ROUNDING | MASKS)) == MASKS;
}

/* Where the shift leads vertex 0, which stands at 1,025 units. */
static int32_t shifted(void) {
    const gt_move shift = {0, GT_SHIFT, 0x1p-11 - 0x1p-60, 0, 0};
    positions[0] = START;
    need(gt_moves(TABLES, map, ROWS / 32, control.count, 1, &shift, 1).number == 0, "the shift is refused");
    return positions[0];
}

/* Every other call; the tables end as they began. */
static void call_all(void) {
    const uint16_t ring[3] = {1, 2, 3};
    size_t v = control.count, refusals = gt_check(TABLES, v).number;
    gt_value written = gt_write(TABLES, v, file, sizeof file);
    refusals += gt_split_face(TABLES, v, 0, 1, 3).number;
    refusals += gt_flip(TABLES, v + 1, 0, 1).number;
    refusals += gt_split_edge(TABLES, v + 1, 2, v).number;
    refusals += written.number + gt_read(file, written.value, TABLES).number;
    refusals += gt_erase(RING_TABLES, v, 0, 2).number + gt_insert_after(RING_TABLES, v, 0, 1, 2).number;
    refusals += gt_erase(RING_TABLES, v, 0, 3).number + gt_insert_before(RING_TABLES, v, 0, 1, 3).number;
    refusals += gt_erase(RING_TABLES, v, 0, 2).number + gt_replace(RING_TABLES, v, 0, 1, 2).number;
    refusals += gt_make(RING_TABLES, v, 0, ring, 3).number + gt_valence(RING_TABLES, v, 0).number;
    refusals += gt_contains(RING_TABLES, v, 0, 1).number + gt_next(RING_TABLES, v, 0, 1).number;
    refusals += gt_prev(RING_TABLES, v, 0, 1).number + gt_refine(TABLES, v, 1).number;
    need(refusals == 0, "a call is refused");
}

int main(void) {
    need(is_default(), "the program does not begin with rounding to nearest and exceptions masked");
    unsigned begun = register_now();
    mesh_tetrahedron(&control);
    memcpy(valences, control.valences, sizeof *valences * control.count);
    memcpy(rings, control.rings, sizeof *rings * GT_RING_PLACES * control.count);
    need(gt_refine(TABLES, control.count, 1).number == 0, "refinement is refused");
    need(shifted() == NEAREST, "the shift does not lead to 1026 in the environment that the program begins with");
    call_all();
    need(is_default() && register_now() == begun, "a call changes the rounding or the masks");
    need(shifted() == NEAREST, "the shift does not lead to 1026 after other calls");
    puts("environment: rounding to nearest, exceptions masked, before and after all calls; the shift gives 1026");
    need(fesetround(FE_DOWNWARD) == 0, "no rounding downward to be had");
    unsigned downward = register_now();
    int32_t other = shifted();
    call_all();
    need(fegetround() == FE_DOWNWARD && register_now() == downward, "a call changes the rounding or the masks");
    printf("environment: under rounding downward it gives %d: the header %s\n", (int)other,
           other == NEAREST ? "need not ask for the default environment" : "has to ask for the default environment");
    return 0;
}
