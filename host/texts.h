/* For the fuzzer: OFF texts of meshes, with faces in any order and from any corner on, and texts in which something is
 * changed. */
#ifndef TEXTS_H
#define TEXTS_H

#include "hold.h"

/* As many faces as 1,024 full rings have, and some more; as many bytes as their text has, and some more. */
enum { MOST_FACES = GT_RING_PLACES * GT_MOST_VERTICES / 3 + 8, TEXT_BYTES = GT_MOST_OFF_BYTES + 4096 };

/* Points and faces as a text lists them; the corners a, b, c mean next(a in b) = c. */
typedef struct {
    size_t points, faces;
    uint16_t corners[MOST_FACES][3];
    int32_t positions[3 * GT_MOST_VERTICES];
} face_list;

typedef struct {
    size_t length;
    char bytes[TEXT_BYTES];
} off_text;

static void add_face(face_list *l, size_t a, size_t b, size_t c) {
    uint16_t *corners = l->corners[l->faces++];
    corners[0] = (uint16_t)a, corners[1] = (uint16_t)b, corners[2] = (uint16_t)c;
}

/* Every face of a mesh, found at its smallest corner. */
static void list_mesh(face_list *l, const control_mesh *m) {
    size_t corners[3];
    l->points = m->count, l->faces = 0;
    memcpy(l->positions, m->positions, 12 * m->count);
    for (size_t v = 0; v < m->count; v++)
        for (size_t i = 0; i < m->valences[v]; i++) {
            mesh_face(m, v, i, corners);
            if (v < corners[1] && v < corners[2]) add_face(l, corners[1], v, corners[2]);
        }
}

/* Two tips over a circle of n vertices, of any number of vertices up to the most. */
static void list_cone(face_list *l, size_t n) {
    l->points = n + 2, l->faces = 0;
    memset(l->positions, 0, 12 * l->points);
    for (size_t i = 0; i < n; i++) {
        size_t here = 1 + i, next = 1 + (i + 1) % n;
        add_face(l, here, 0, next);
        add_face(l, next, n + 1, here);
    }
}

/* Puts the faces in any order, each from any corner on. */
static void shuffle_faces(face_list *l) {
    for (size_t i = 0; i < l->faces; i++) {
        size_t j = below(i + 1), turn = below(3);
        uint16_t was[3];
        memcpy(was, l->corners[i], sizeof was);
        memcpy(l->corners[i], l->corners[j], sizeof was);
        for (size_t k = 0; k < 3; k++) l->corners[j][k] = was[(k + turn) % 3];
    }
}

/* Changes something about faces or points; the number of faces stays even. */
static void damage_list(face_list *l) {
    uint16_t *face = l->corners[below(l->faces)], *other = l->corners[below(l->faces)];
    size_t u = below(l->points), v = below(l->points);
    switch (below(7)) {
    case 0: u = face[0], face[0] = face[1], face[1] = (uint16_t)u; break;
    case 1: face[below(3)] = (uint16_t)u; break;
    case 2: memcpy(face, other, sizeof *l->corners); break;
    case 3: l->faces -= l->faces > 2 ? 2 : 0; break;
    case 4: add_face(l, face[0], face[1], face[2]), add_face(l, other[1], other[0], other[2]); break;
    case 5:
        for (size_t k = 0; k < 3 * l->faces; k++)
            if (l->corners[k / 3][k % 3] == u) l->corners[k / 3][k % 3] = (uint16_t)v;
        break;
    default: l->positions[3 * u + below(3)] = below(2) ? GT_GREATEST_COORDINATE + 1 : (int32_t)random_bits(&state);
    }
}

/* Writes the list as a text. */
static void put_text(off_text *t, const face_list *l) {
    int length = sprintf(t->bytes, "OFF\n%zu %zu %zu\n", l->points, l->faces, 3 * l->faces / 2);
    for (size_t v = 0; v < l->points; v++) {
        const int32_t *point = l->positions + 3 * v;
        length += sprintf(t->bytes + length, "%ld %ld %ld\n", (long)point[0], (long)point[1], (long)point[2]);
    }
    for (size_t i = 0; i < l->faces; i++)
        length += sprintf(t->bytes + length, "3 %d %d %d\n", l->corners[i][0], l->corners[i][1], l->corners[i][2]);
    t->length = (size_t)length;
}

/* A run of a text. */
typedef struct {
    size_t from, to;
} span;

/* The line around a place, with its newline; the item around it. */
static span line_around(const off_text *t, size_t at) {
    span s = {at, at};
    while (s.from > 0 && t->bytes[s.from - 1] != '\n') s.from--;
    while (s.to < t->length && t->bytes[s.to] != '\n') s.to++;
    s.to += s.to < t->length;
    return s;
}

static span item_around(const off_text *t, size_t at) {
    span s = {at, at};
    while (s.from > 0 && t->bytes[s.from - 1] > ' ') s.from--;
    while (s.to < t->length && t->bytes[s.to] > ' ') s.to++;
    return s;
}

/* Puts other bytes in the place of a run, if there is room for them. */
static void put_bytes(off_text *t, span s, const char *with, size_t length) {
    size_t rest = t->length - s.to;
    if (s.from + length + rest > TEXT_BYTES) return;
    memmove(t->bytes + s.from + length, t->bytes + s.to, rest);
    memcpy(t->bytes + s.from, with, length);
    t->length = s.from + length + rest;
}

/* Drops a line, doubles it before another, or exchanges the two. */
static void change_lines(off_text *t, span line, span other) {
    static char was[TEXT_BYTES];
    span before = {other.from, other.from}, first = line.from < other.from ? line : other;
    span last = line.from < other.from ? other : line;
    memcpy(was, t->bytes, t->length);
    switch (below(3)) {
    case 0: put_bytes(t, line, "", 0); break;
    case 1: put_bytes(t, before, was + line.from, line.to - line.from); break;
    default:
        put_bytes(t, last, was + first.from, first.to - first.from);
        if (first.from < last.from) put_bytes(t, first, was + last.from, last.to - last.from);
    }
}

/* Changes a byte, an item or lines of a text, or cuts it. */
static void damage_text(off_text *t) {
    static const char some[] = "\n\r\t 0123456789-+#";
    static const char *const words[] = {"0", "3", "-1", "-0", "00", "01", "+1", "", "-", "65535", "1048577", "-2147483648",
        "2147483647", "2147483648", "-2147483649", "4294967295", "4294967296", "18446744073709551616"};
    if (t->length == 0) return;
    size_t at = below(t->length), other = below(t->length);
    const char *word = words[below(sizeof words / sizeof *words)];
    char byte = below(2) ? some[below(sizeof some - 1)] : (char)random_bits(&state), digit = (char)('0' + below(10));
    switch (below(10)) {
    case 0: t->bytes[at] = byte; break;
    case 1: put_bytes(t, (span){at, at}, &byte, 1); break;
    case 2: put_bytes(t, (span){at, at + 1}, "", 0); break;
    case 3: t->length = at; break;
    case 4: put_bytes(t, item_around(t, at), word, strlen(word)); break;
    case 5: case 6: put_bytes(t, item_around(t, at), &digit, 1); break;
    default: change_lines(t, line_around(t, at), line_around(t, other));
    }
}

#endif
