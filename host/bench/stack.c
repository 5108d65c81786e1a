/* How many bytes of stack each call uses: it runs on a painted stack of its own, and the paint that is left is looked at.
 * It is called on a sound mesh, and again with each of some faults in the tables or the bytes. A line has the call's name
 * and the most that was seen: below the call itself, its return address counted; and with what its caller puts there for
 * it, the answer and the arguments that find no register. host/stack_check holds both to their limits. */
#define _GNU_SOURCE
#include <stdio.h>
#include <stdlib.h>
#include <ucontext.h>
#include "../meshes.h"

enum { BYTES = 1 << 20, PAINT = 0x5c, ROWS = 3000, LEVELS = 2 };

static unsigned char *stack, *here;
static ucontext_t outside, inside;
static size_t below, whole;
static void (*subject)(void);

static control_mesh control;
static uint16_t valences[ROWS], rings[GT_RING_PLACES * ROWS];
static int32_t positions[3 * ROWS];
static uint32_t map[ROWS / 32 + 1];
static uint8_t file[20000], text[20000];
static size_t file_length, text_length;
static gt_move moves[GT_MOST_MOVES];
static mesh_edge edge;
static size_t neighbour, next_neighbour, stranger = 1;
static const uint16_t list[3] = {1, 2, 3};
static volatile size_t answered;

#define RING_TABLES valences, ROWS, rings, GT_RING_PLACES * ROWS
#define TABLES RING_TABLES, positions, 3 * ROWS
#define V control.count

/* A function that makes a call and notes where the stack pointer stands at it: what the call is given lies above. */
#define SUBJECT(name, call)                                      \
    static void name(void) {                                     \
        __asm__ volatile("mov %%rsp, %0" : "=r"(here));          \
        answered = (call).number;                                \
    }

SUBJECT(check, gt_check(TABLES, V))
SUBJECT(refine, gt_refine(TABLES, V, LEVELS))
SUBJECT(move, gt_moves(TABLES, map, ROWS / 32 + 1, V, LEVELS, moves, GT_MOST_MOVES))
SUBJECT(write_file, gt_write(TABLES, V, file, sizeof file))
SUBJECT(read_file, gt_read(file, file_length, TABLES))
SUBJECT(write_text, gt_write_off(TABLES, V, text, sizeof text))
SUBJECT(read_text, gt_read_off(text, text_length, TABLES))
SUBJECT(flip, gt_flip(TABLES, V, edge.p, edge.q))
SUBJECT(split_edge, gt_split_edge(TABLES, V, 0, neighbour))
SUBJECT(split_face, gt_split_face(TABLES, V, neighbour, 0, next_neighbour))
SUBJECT(make, gt_make(RING_TABLES, V, 0, list, 3))
SUBJECT(erase, gt_erase(RING_TABLES, V, 0, neighbour))
SUBJECT(replace, gt_replace(RING_TABLES, V, 0, neighbour, stranger))
SUBJECT(insert_after, gt_insert_after(RING_TABLES, V, 0, neighbour, stranger))
SUBJECT(insert_before, gt_insert_before(RING_TABLES, V, 0, neighbour, stranger))
SUBJECT(contains, gt_contains(RING_TABLES, V, 0, neighbour))
SUBJECT(next, gt_next(RING_TABLES, V, 0, neighbour))
SUBJECT(prev, gt_prev(RING_TABLES, V, 0, neighbour))
SUBJECT(valence, gt_valence(RING_TABLES, V, 0))

static void nothing(void) { answered = 0; }

/* The faults, each with what the check answers to it. */
static void repeat(void) { rings[1] = rings[0]; }
static void one_sided(void) { rings[0] = (uint16_t)stranger; }
static void crossed(void) { rings[0] = (uint16_t)next_neighbour, rings[1] = (uint16_t)neighbour; }
static void far_off(void) { positions[0] = INT32_MAX; }
static void torn(void) { file[file_length - 1] ^= 255, text[text_length - 2] = 'x'; }
static const struct { void (*fault)(void); size_t number; } faults[] = {
    {nothing, GT_ACCEPTED}, {repeat, GT_RING_IMPROPER}, {one_sided, GT_NOT_MUTUAL}, {crossed, GT_NOT_TRIANGLE},
    {far_off, GT_CONTROL_COORDINATE}, {torn, GT_ACCEPTED},
};

/* Lends the sound mesh anew, refined, with its file and its text. */
static void lend(void) {
    memcpy(valences, control.valences, sizeof *valences * V);
    memcpy(rings, control.rings, sizeof *rings * GT_RING_PLACES * V);
    memcpy(positions, control.positions, sizeof *positions * 3 * V);
    gt_refine(TABLES, V, LEVELS);
    file_length = gt_write(TABLES, V, file, sizeof file).value;
    text_length = gt_write_off(TABLES, V, text, sizeof text).value;
}

/* Runs the subject on the painted stack and looks at once how deep the paint is gone. */
static void run(void) {
    subject();
    size_t left = 0;
    while (stack[left] == PAINT) left++;
    below = (size_t)(here - (stack + left));
    whole = (size_t)((unsigned char *)__builtin_frame_address(0) - (stack + left));
}

static void measure(void (*call)(void)) {
    memset(stack, PAINT, BYTES);
    subject = call;
    getcontext(&inside);
    inside.uc_stack.ss_sp = stack;
    inside.uc_stack.ss_size = BYTES;
    inside.uc_link = &outside;
    makecontext(&inside, run, 0);
    swapcontext(&outside, &inside);
}

static void stop(const char *name, size_t wanted) {
    printf("stack: %s answers %zu, expected %zu\n", name, answered, wanted);
    exit(1);
}

/* Torn bytes are refused. */
static void hold_torn(void) {
    read_file();
    if (answered != GT_FILE_LAYOUT) stop("gt_read", GT_FILE_LAYOUT);
    read_text();
    if (answered != GT_BAD_TEXT) stop("gt_read_off", GT_BAD_TEXT);
}

int main(void) {
    static const struct { const char *name; void (*call)(void); } all[] = {
        {"gt_check", check}, {"gt_contains", contains}, {"gt_next", next}, {"gt_prev", prev}, {"gt_valence", valence},
        {"gt_make", make}, {"gt_erase", erase}, {"gt_replace", replace}, {"gt_insert_after", insert_after},
        {"gt_insert_before", insert_before}, {"gt_flip", flip}, {"gt_split_edge", split_edge}, {"gt_split_face", split_face},
        {"gt_refine", refine}, {"gt_moves", move}, {"gt_write", write_file}, {"gt_read", read_file},
        {"gt_write_off", write_text}, {"gt_read_off", read_text},
    };
    uint64_t state = 7;
    stack = malloc(BYTES);
    mesh_sphere(&control, &state, 100);
    neighbour = control.rings[0], next_neighbour = control.rings[1];
    while (mesh_place(&control, 0, stranger) < control.valences[0]) stranger++;
    for (size_t i = 0; i < GT_MOST_MOVES; i++) moves[i].vertex = (uint32_t)i;
    edge = mesh_some_flip(&control, V / 2);
    measure(nothing);
    size_t alone = whole;
    for (size_t i = 0; i < sizeof all / sizeof *all; i++) {
        size_t deepest = 0, with_caller = 0;
        for (size_t k = 0; k < sizeof faults / sizeof *faults; k++) {
            lend();
            faults[k].fault();
            check();
            if (answered != faults[k].number) stop("gt_check", faults[k].number);
            if (faults[k].fault == torn) hold_torn();
            measure(all[i].call);
            if (k == 0 && answered != GT_ACCEPTED) stop(all[i].name, GT_ACCEPTED);
            if (below > deepest) deepest = below;
            if (whole - alone > with_caller) with_caller = whole - alone;
        }
        printf("%s %zu %zu\n", all[i].name, deepest, with_caller);
    }
    return 0;
}
