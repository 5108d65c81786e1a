/* Reading and writing OFF text, by hand. */
#include "plain.h"

enum { MOST_DIGITS = 10 };                             /* of a number in 32 bits */
#define WHOLE ((uint64_t)1 << 32)                      /* so many numbers 32 bits hold */
#define HALF ((uint64_t)1 << 31)

/* A text that was judged: V, F, where the lines of the points and of the faces begin, and the first vertex with a
 * coordinate beyond the range, V if there is none. */
typedef struct {
    size_t count, faces, far;
    const uint8_t *points, *corners;
} off_text;

/* Takes a number below the bound and the byte behind it, which has to be `last`. Answers where the text goes on, or null.
 * A newline lies ahead, so that no digit need be looked for behind the end of the text. */
INLINE const uint8_t *take_number(const uint8_t *at, uint64_t bound, uint8_t last, uint64_t *value) {
    const uint8_t *from = at;
    uint64_t sum = 0;
    for (uint32_t digit; (digit = *at - (uint32_t)'0') <= 9; at++) sum = 10 * sum + digit;
    size_t digits = (size_t)(at - from);
    if (digits - 1 >= MOST_DIGITS || sum >= bound || *at != last || (digits > 1 && *from == '0')) return NULL;
    *value = sum;
    return at + 1;
}

/* The same for units; the top bit of `wide` is set if they are beyond the range. */
INLINE const uint8_t *take_units(const uint8_t *at, uint8_t last, uint32_t *wide) {
    uint64_t size;
    int below = *at == '-';
    at = take_number(at + below, HALF + (uint64_t)below, last, &size);
    if (below && at && size == 0) return NULL;
    if (at) *wide |= FAR - (uint32_t)size;
    return at;
}

INLINE const uint8_t *take_point(const uint8_t *at, uint32_t *wide) {
    if ((at = take_units(at, ' ', wide)) && (at = take_units(at, ' ', wide))) at = take_units(at, '\n', wide);
    return at;
}

INLINE const uint8_t *take_face(const uint8_t *at, size_t count) {
    uint64_t a, b, c;
    if (at[0] != '3' || at[1] != ' ') return NULL;
    if (!(at = take_number(at + 2, count, ' ', &a)) || !(at = take_number(at, count, ' ', &b))) return NULL;
    at = take_number(at, count, '\n', &c);
    return at && a != b && b != c && c != a ? at : NULL;
}

/* Walks the whole text; answers the first line that is not as it should be, or 0. A line begins only where a newline lies
 * ahead: behind the last newline a line is missing or has none. */
static size_t bad_line(const uint8_t *text, size_t length, off_text *t) {
    const uint8_t *end = text + length, *at;
    uint64_t count, faces, edges;
    if (length < 4 || memcmp(text, "OFF\n", 4) != 0) return 1;
    while (end[-1] != '\n') end--;
    if ((at = text + 4) == end || !(at = take_number(at, WHOLE, ' ', &count)) || !(at = take_number(at, WHOLE, ' ', &faces))
        || !(at = take_number(at, WHOLE, '\n', &edges)) || 2 * edges != 3 * faces)
        return 2;
    t->count = t->far = count, t->faces = faces, t->points = at;
    for (size_t v = 0; v < count; v++) {
        uint32_t wide = 0;
        if (at == end || !(at = take_point(at, &wide))) return 3 + v;
        if (wide >> 31 && t->far == count) t->far = v;
    }
    t->corners = at;
    for (size_t i = 0; i < faces; i++)
        if (at == end || !(at = take_face(at, count))) return 3 + count + i;
    return at == text + length ? 0 : 3 + count + faces;
}

enum { LEAST_SHIFT = 3, MOST_SHIFT = 10, ENTRIES = 1 << MOST_SHIFT };

/* The faces of some vertices: for each vertex from `first` on that has a row, how many there are, and what comes before it
 * and behind it in them. A row is 2^shift wide. */
typedef struct {
    size_t first, shift;
    uint32_t counts[ENTRIES >> LEAST_SHIFT];
    uint16_t before[ENTRIES], behind[ENTRIES];
} fans;

/* Takes a number that is known to stand there, and the byte behind it; most have one to three digits. */
INLINE size_t known_number(const uint8_t **from) {
    const uint8_t *at = *from;
    size_t number = at[0] - (size_t)'0';
    if (at[1] < '0') return *from = at + 2, number;
    number = 10 * number + at[1] - '0';
    if (at[2] < '0') return *from = at + 3, number;
    number = 10 * number + at[2] - '0';
    for (at += 3; *at >= '0'; at++) number = 10 * number + *at - '0';
    *from = at + 1;
    return number;
}

/* Notes a face at v, between x and w, if v has a row; counts it even where the row is full. */
INLINE void note(fans *f, size_t first, size_t rows, size_t shift, size_t x, size_t v, size_t w) {
    size_t j = v - first;
    if (j >= rows) return;
    size_t k = f->counts[j]++;
    if (k >> shift) return;
    f->before[(j << shift) + k] = (uint16_t)x;
    f->behind[(j << shift) + k] = (uint16_t)w;
}

/* Passes over all faces for the vertices that have rows; answers how many of them come before the first whose row is too
 * narrow, and sets the width of the next rows. */
static size_t gather(fans *f, const off_text *t) {
    size_t first = f->first, shift = f->shift, rows = (size_t)ENTRIES >> shift, left = t->count - first, known = 0;
    if (left < rows) rows = left;
    memset(f->counts, 0, rows * sizeof *f->counts);
    const uint8_t *at = t->corners;
    for (size_t i = t->faces; i > 0; i--) {
        at += 2;
        size_t a = known_number(&at), b = known_number(&at), c = known_number(&at);
        note(f, first, rows, shift, a, b, c);
        note(f, first, rows, shift, b, c, a);
        note(f, first, rows, shift, c, a, b);
    }
    while (known < rows && f->counts[known] <= (size_t)1 << shift) known++;
    if (known < rows) f->shift++;
    else if (shift > LEAST_SHIFT) f->shift--;
    return known;
}

/* The smallest of some numbers. */
INLINE size_t smallest(const uint16_t *numbers, size_t length) {
    size_t best = numbers[0];
    for (size_t i = 1; i < length; i++) best = numbers[i] < best ? numbers[i] : best;
    return best;
}

/* Is one back at the smallest neighbour for the first time after as many steps as there are faces? */
INLINE int closes(const uint16_t *before, const uint16_t *behind, size_t valence) {
    if (valence == 0) return 1;
    size_t start = smallest(before, valence), x = start, steps = 0;
    do {
        size_t i = place_of(before, valence, x);
        if (i == valence || steps == valence) return 0;
        x = behind[i];
        steps++;
    } while (x != start);
    return steps == valence;
}

/* Judges the faces at all vertices: 21, then 4. */
static gt_value judge(fans *f, const off_text *t) {
    size_t unfit = t->count;
    for (f->first = 0, f->shift = LEAST_SHIFT; f->first < t->count;) {
        size_t shift = f->shift, known = gather(f, t);
        for (size_t j = 0; j < known; j++) {
            size_t valence = f->counts[j];
            if (!closes(f->before + (j << shift), f->behind + (j << shift), valence))
                return refused(GT_OPEN_RING, f->first + j);
            if ((valence < 3 || valence > PLACES) && unfit == t->count) unfit = f->first + j;
        }
        f->first += known;
        if (f->shift > MOST_SHIFT) return refused(GT_OPEN_RING, f->first);    /* it has more faces than there are vertices */
    }
    return unfit < t->count ? refused(GT_RING_IMPROPER, unfit) : accepted(t->count);
}

/* Writes the rings of a text that was judged, by the same passes. */
static void fill_rings(fans *f, const off_text *t, uint16_t *valences, uint16_t *rings) {
    for (f->first = 0, f->shift = LEAST_SHIFT; f->first < t->count;) {
        size_t shift = f->shift, known = gather(f, t);
        for (size_t j = 0; j < known; j++) {
            const uint16_t *before = f->before + (j << shift), *behind = f->behind + (j << shift);
            uint16_t *row = rings + PLACES * (f->first + j);
            size_t valence = f->counts[j], x = smallest(before, valence);
            valences[f->first + j] = (uint16_t)valence;
            memset(row, 0xff, 2 * PLACES);
            for (size_t k = 0; k < valence; k++) {
                row[k] = (uint16_t)x;
                x = behind[place_of(before, valence, x)];
            }
        }
        f->first += known;
    }
}

/* Writes the points likewise. */
static void fill_points(const off_text *t, int32_t *positions) {
    const uint8_t *at = t->points;
    for (size_t i = 0; i < 3 * t->count; i++) {
        int below = *at == '-';
        at += below;
        int32_t size = (int32_t)known_number(&at);
        positions[i] = below ? -size : size;
    }
}

gt_value gt_read_off(const uint8_t *text, size_t text_length, uint16_t *valences, size_t valences_length,
                     uint16_t *rings, size_t rings_length, int32_t *positions, size_t positions_length) {
    off_text t;
    fans f;
    size_t line = bad_line(text, text_length, &t);
    if (line) return refused(GT_BAD_TEXT, line);
    if (t.count < GT_FEWEST_VERTICES || t.count > GT_MOST_VERTICES) return refused(GT_VERTEX_COUNT, 0);
    if (valences_length < t.count || rings_length < PLACES * t.count || positions_length < 3 * t.count)
        return refused(GT_TABLE_TOO_SHORT, 0);
    gt_value answer = judge(&f, &t);
    if (answer.number) return answer;
    if (t.far < t.count) return refused(GT_CONTROL_COORDINATE, t.far);
    fill_rings(&f, &t, valences, rings);
    fill_points(&t, positions);
    return answer;
}

/* How many digits a number below 10,000,000 has. */
INLINE size_t digits_of(uint32_t n) {
    return (size_t)1 + (n > 9) + (n > 99) + (n > 999) + (n > 9999) + (n > 99999) + (n > 999999);
}

/* Writes such a number and the byte behind it. */
INLINE uint8_t *put_number(uint8_t *at, uint32_t n, uint8_t last) {
    uint8_t *end = at + digits_of(n);
    *end = last;
    for (at = end; n > 9; n /= 10) *--at = (uint8_t)('0' + n % 10);
    *--at = (uint8_t)('0' + n);
    return end + 1;
}

/* The size of a coordinate, without its sign. */
INLINE uint32_t size_of(int32_t coordinate) { return (uint32_t)(coordinate < 0 ? -coordinate : coordinate); }

/* The bytes of the text of a mesh that passed the check: a vertex is named in as many faces as it has neighbours. */
static size_t text_length_of(const uint16_t *valences, const int32_t *positions, gt_counts mesh) {
    size_t length = 7 + digits_of((uint32_t)mesh.v) + digits_of((uint32_t)mesh.f) + digits_of((uint32_t)mesh.e)
                  + 3 * mesh.v + 5 * mesh.f;
    for (size_t v = 0; v < mesh.v; v++) length += valences[v] * digits_of((uint32_t)v);
    for (size_t i = 0; i < 3 * mesh.v; i++) length += digits_of(size_of(positions[i])) + (positions[i] < 0);
    return length;
}

INLINE uint8_t *put_points(uint8_t *at, const int32_t *positions, size_t count) {
    for (size_t i = 0; i < 3 * count; i++) {
        int32_t coordinate = positions[i];
        *at = '-';
        at = put_number(at + (coordinate < 0), size_of(coordinate), i % 3 == 2 ? '\n' : ' ');
    }
    return at;
}

/* Writes the faces of which a is the smallest corner: its greater neighbours b with their predecessors c, sorted by b. */
INLINE uint8_t *put_faces(uint8_t *at, const uint16_t *row, size_t valence, uint32_t a) {
    uint32_t sorted[GT_RING_PLACES], many = 0, c = row[valence - 1];
    for (size_t i = 0; i < valence; i++) {
        uint32_t b = row[i], face = b << 16 | c, k = many;
        if (b > a && c > a) {
            for (; k > 0 && sorted[k - 1] > face; k--) sorted[k] = sorted[k - 1];
            sorted[k] = face;
            many++;
        }
        c = b;
    }
    for (size_t k = 0; k < many; k++) {
        *at++ = '3', *at++ = ' ';
        at = put_number(at, a, ' ');
        at = put_number(at, sorted[k] >> 16, ' ');
        at = put_number(at, sorted[k] & 0xffff, '\n');
    }
    return at;
}

gt_value gt_write_off(const uint16_t *valences, size_t valences_length, const uint16_t *rings, size_t rings_length,
                      const int32_t *positions, size_t positions_length, size_t v, uint8_t *text, size_t text_length) {
    gt_counts mesh = gt_check(valences, valences_length, rings, rings_length, positions, positions_length, v);
    if (mesh.number) return refused(mesh.number, mesh.place);
    size_t length = text_length_of(valences, positions, mesh);
    if (text_length < length) return refused(GT_NO_ROOM, 0);
    uint8_t *at = text;
    memcpy(at, "OFF\n", 4);
    at = put_number(at + 4, (uint32_t)v, ' ');
    at = put_number(at, (uint32_t)mesh.f, ' ');
    at = put_number(at, (uint32_t)mesh.e, '\n');
    at = put_points(at, positions, v);
    for (size_t a = 0; a < v; a++) at = put_faces(at, rings + PLACES * a, valences[a], (uint32_t)a);
    return accepted(length);
}
