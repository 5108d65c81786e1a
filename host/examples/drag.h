/* What the examples share: a mesh file and a list of moves, read; a stack, refined as deep as it goes. */
#ifndef DRAG_H
#define DRAG_H

#include <stdio.h>
#include <stdlib.h>
#include <string.h>
#include "gypsumtrot.h"

/* A stack in tables of just the right size, and where its levels lie. */
typedef struct {
    size_t levels, rows, words;
    size_t start[GT_MOST_LEVELS + 1], count[GT_MOST_LEVELS + 1];
    uint16_t *valences, *rings;
    int32_t *positions;
    uint32_t *map;
} drag_stack;

static inline void drag_stop(const char *what, uint32_t number, size_t place) {
    fprintf(stderr, "%s: refused %u %zu: %s\n", what, number, place, gt_reason(number));
    exit(1);
}

static inline void *drag_room(size_t items, size_t size) {
    void *room = calloc(items ? items : 1, size);
    if (!room) {
        perror("memory");
        exit(1);
    }
    return room;
}

/* Reads a whole file. */
static inline uint8_t *drag_bytes(const char *path, size_t *length) {
    FILE *file = fopen(path, "rb");
    uint8_t *bytes = NULL;
    size_t room = *length = 0;
    do {
        room = 2 * room + 65536;
        if (!file || !(bytes = realloc(bytes, room))) {
            perror(path);
            exit(1);
        }
        *length += fread(bytes + *length, 1, room - *length, file);
    } while (*length == room);
    fclose(file);
    return bytes;
}

/* Writes a file: the bytes that gt_write or gt_write_off has put into `file`. */
static inline void drag_save(const char *path, const uint8_t *file, gt_value bytes) {
    if (bytes.number) drag_stop("writing", bytes.number, bytes.place);
    FILE *out = fopen(path, "wb");
    if (!out || fwrite(file, 1, bytes.value, out) != bytes.value || fclose(out) != 0) {
        perror(path);
        exit(1);
    }
    printf("%zu bytes written\n", bytes.value);
}

/* Lays out as many levels as fit, at most `wanted`, above a checked control mesh. */
static inline void drag_layout(drag_stack *s, gt_counts control, size_t wanted) {
    s->levels = s->start[0] = 0;
    s->rows = s->count[0] = control.v;
    for (size_t k = 1; k <= wanted && k <= GT_MOST_LEVELS; k++) {
        size_t rows = gt_stack_rows(control.v, control.e, k);
        if (rows - s->rows > GT_MOST_LEVEL_VERTICES) break;
        s->levels = k;
        s->start[k] = s->rows;
        s->count[k] = rows - s->rows;
        s->rows = rows;
    }
    s->words = gt_map_words(s->rows);
}

/* Reads a mesh file, checks it, and refines it at most `wanted` times. */
static inline void drag_open(drag_stack *s, const char *path, size_t wanted) {
    static uint16_t valences[GT_MOST_VERTICES], rings[GT_RING_PLACES * GT_MOST_VERTICES];
    static int32_t positions[3 * GT_MOST_VERTICES];
    size_t length, most = GT_MOST_VERTICES;
    uint8_t *bytes = drag_bytes(path, &length);
    gt_value read = gt_read(bytes, length, valences, most, rings, GT_RING_PLACES * most, positions, 3 * most);
    if (read.number) drag_stop(path, read.number, read.place);
    gt_counts control = gt_check(valences, most, rings, GT_RING_PLACES * most, positions, 3 * most, read.value);
    if (control.number) drag_stop(path, control.number, control.place);
    drag_layout(s, control, wanted);
    s->valences = drag_room(s->rows, sizeof *s->valences);
    s->rings = drag_room(GT_RING_PLACES * s->rows, sizeof *s->rings);
    s->positions = drag_room(3 * s->rows, sizeof *s->positions);
    s->map = drag_room(s->words, sizeof *s->map);
    memcpy(s->valences, valences, control.v * sizeof *valences);
    memcpy(s->rings, rings, GT_RING_PLACES * control.v * sizeof *rings);
    memcpy(s->positions, positions, 3 * control.v * sizeof *positions);
    gt_counts last = gt_refine(s->valences, s->rows, s->rings, GT_RING_PLACES * s->rows, s->positions, 3 * s->rows,
                               control.v, s->levels);
    if (last.number) drag_stop("refining", last.number, last.place);
    free(bytes);
}

/* Reads a mesh file for one of its levels, refined that far and at least once; answers the level's number. */
static inline size_t drag_open_level(drag_stack *s, const char *path, const char *digit) {
    size_t level = digit[0] >= '0' && digit[0] <= '9' && !digit[1] ? (size_t)(digit[0] - '0') : GT_MOST_LEVELS + 1;
    drag_open(s, path, level > 1 ? level : 1);
    if (level > s->levels) {
        fprintf(stderr, "%s: no level %s\n", path, digit);
        exit(1);
    }
    return level;
}

/* Reads moves, one a line: place, shift or stretch, then the vertex and three numbers. Without a file, vertex 0 is
 * shifted by a millimetre. */
static inline size_t drag_moves(gt_move *moves, const char *path) {
    static const char *const kinds[3] = {"place", "shift", "stretch"};
    char word[8];
    size_t length = 0;
    gt_move move = {0, GT_SHIFT, 1.0, 0.0, 0.0};
    if (!path) {
        moves[0] = move;
        return 1;
    }
    FILE *file = fopen(path, "r");
    if (!file) {
        perror(path);
        exit(1);
    }
    while (length < GT_MOST_MOVES &&
           fscanf(file, "%7s %u %lf %lf %lf", word, &move.vertex, &move.x, &move.y, &move.z) == 5) {
        for (move.kind = 0; move.kind < 3 && strcmp(word, kinds[move.kind]) != 0; move.kind++) continue;
        moves[length++] = move;
    }
    fclose(file);
    return length;
}

/* Moves the points; answers how many are touched. */
static inline size_t drag_apply(drag_stack *s, const gt_move *moves, size_t length) {
    gt_value touched = gt_moves(s->valences, s->rows, s->rings, GT_RING_PLACES * s->rows, s->positions, 3 * s->rows,
                                s->map, s->words, s->count[0], s->levels, moves, length);
    if (touched.number) drag_stop("moving", touched.number, touched.place);
    return touched.value;
}

#endif
