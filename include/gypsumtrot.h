/* Gypsumtrot: ring tables of closed triangle meshes, their edits, Loop refinement, dragging of points, mesh files and OFF
 * text.
 *
 * The library keeps nothing between calls and allocates nothing: every call works in tables that you lend it.
 * It has no global state, so calls on different tables may run at the same time. Of the machine's stack gt_check and the
 * calls on one ring take 256 bytes at most, with their answer and arguments; every other call takes 6,144 at most.
 *
 * TABLES. A mesh of V vertices, numbered from 0, lies in three tables:
 *   valences   one 16-bit number a vertex: how many neighbours it has;
 *   rings      32 16-bit places a vertex: vertex v's neighbours, in circular order, stand in places
 *              32 v, 32 v + 1, .., 32 v + valence - 1; the places behind them are unused and never read;
 *   positions  three 32-bit numbers a vertex: x, y, z in units of 1/1,024 millimetre,
 *              each from -1,048,576 to 1,048,576.
 * The control mesh has 4 to 1,024 vertices, each of valence 3 to 32 once the mesh is sound.
 *
 * STACK. Refinement puts levels 1 to L (at most 4) behind the control mesh, level 0, in the same tables, each level
 * right after the one before. Stack vertex i is the i-th vertex counted over all levels. Ring places hold numbers of
 * their own level. If level k has V, E, F vertices, edges and faces, level k + 1 has V + E, 4 E and 4 F.
 *
 * LENGTHS are in items, not bytes. A table may be longer than needed: its tail is neither read nor written. A pointer
 * may be null if its length is 0. Tables lent to one call must not overlap.
 *
 * FLOATING POINT. The caller's floating-point environment is the default one: rounding to nearest, exceptions masked.
 * Only gt_moves uses floats; it may raise exception flags, and changes nothing else of the environment.
 *
 * ANSWERS. `number` is 0 if the call was accepted, otherwise the reason of the refusal (below); `place` says where,
 * and is 0 if accepted or if the reason names no place. A REFUSED CALL WRITES NOTHING. The reasons are judged in the
 * order given at each call, and the first that holds is answered.
 */
#ifndef GYPSUMTROT_H
#define GYPSUMTROT_H

#include <stddef.h>
#include <stdint.h>

/* The version of this header and of the archive that goes with it. */
#define GT_VERSION_MAJOR 2       /* grows if a program written for the version before may have to be changed */
#define GT_VERSION_MINOR 1       /* grows if something is added, and nothing that was there changes */
#define GT_VERSION_PATCH 1       /* grows if only costs or comments change, or a fault is mended */
/* All three as one number that grows with each version: 10203 is 1.2.3. It serves in #if. */
#define GT_VERSION (10000 * GT_VERSION_MAJOR + 100 * GT_VERSION_MINOR + GT_VERSION_PATCH)

#ifdef __cplusplus
extern "C" {
#endif

/* Limits. */
enum {
    GT_FEWEST_VERTICES = 4,      /* of a control mesh */
    GT_MOST_VERTICES = 1024,     /* of a control mesh */
    GT_RING_PLACES = 32,         /* places of a row, and the greatest valence */
    GT_MOST_LEVELS = 4,
    GT_MOST_LEVEL_VERTICES = 65535,
    GT_NULL_VERTEX = 65535,      /* stands in unused places; answered for an absent neighbour */
    GT_MOST_MOVES = 64,
    GT_MOST_OFF_BYTES = 177821,  /* no text that gt_write_off writes or gt_read_off accepts is longer */
    GT_UNITS_A_MILLIMETRE = 1024,
    GT_GREATEST_COORDINATE = 1048576
};

/* Reasons of a refusal, and the place that goes with each. */
enum {
    GT_ACCEPTED = 0,
    GT_TABLE_TOO_SHORT = 1,      /* a control table has too few items for V (V, 32 V, 3 V); place 0 */
    GT_VERTEX_COUNT = 2,         /* V is not 4 to 1,024; place 0 */
    GT_NO_SUCH_VERTEX = 3,       /* a vertex number is not below V; its place in the list, otherwise 0 */
    GT_RING_IMPROPER = 4,        /* a ring's valence is out of range, or it names v, a vertex twice, or one not below V;
                                    the lowest such vertex */
    GT_NOT_MUTUAL = 5,           /* a neighbour does not have the vertex in its own ring; the lowest such vertex */
    GT_NOT_TRIANGLE = 6,         /* a face at the vertex is not a triangle; the lowest such vertex */
    GT_CONTROL_COORDINATE = 7,   /* a control coordinate is out of range; the lowest such vertex */
    GT_LEVEL_COUNT = 8,          /* L is not 1 to 4; place 0 */
    GT_LEVEL_TOO_LARGE = 9,      /* a level would have over 65,535 vertices; the first such level, the control mesh
                                    being level 0 */
    GT_NO_ROOM = 10,             /* the tables are too short for the stack or for a new vertex, or the map or the room
                                    for a file or a text is; place 0 */
    GT_STACK_ALTERED = 11,       /* above level 0 a valence or ring place is not what refinement gives, or a coordinate
                                    is out of range; the lowest such stack vertex */
    GT_TOO_MANY_MOVES = 12,      /* over 64; place 0 */
    GT_NOT_FINITE = 13,          /* one of a move's three numbers is infinite or no number; its place in the list */
    GT_OUT_OF_REACH = 14,        /* a move would lead out of -1024.0 to 1024.0 millimetres; its place in the list */
    GT_NEIGHBOUR_TAKEN = 15,     /* x is v itself or already in its ring, or a list has v or a repeat in it; place 0 */
    GT_RING_FULL = 16,           /* the ring has 32 neighbours already, or a list is longer than 32; in an edit of the
                                    mesh, a ring would pass 32 or V would pass 1,024; place 0 */
    GT_FILE_LAYOUT = 17,         /* the bytes are not a mesh file; the first byte of the record where it shows */
    GT_NO_EDGE_OR_FACE = 18,     /* the vertices named are no edge, or no face that turns as they are named; place 0 */
    GT_CANNOT_FLIP = 19,         /* an end of the edge has valence 3, or the vertices that a flip would join are
                                    neighbours already; place 0 */
    GT_BAD_TEXT = 20,            /* a line of an OFF text is not as it should be, or missing, or there is one too many; the
                                    first such line, counted from 1 */
    GT_OPEN_RING = 21,           /* the faces at a vertex do not close into one ring; the lowest such vertex */
    GT_UNKNOWN_KIND = 99         /* a move's kind is not 0, 1 or 2; its place in the list */
};

/* What gt_check, gt_refine and the edits of the mesh answer. */
typedef struct {
    uint32_t number;             /* 0, or the reason of the refusal */
    size_t place;
    size_t v, e, f;              /* vertices, edges, faces; 0 if refused */
} gt_counts;

/* What every other call answers. */
typedef struct {
    uint32_t number;             /* 0, or the reason of the refusal */
    size_t place;
    size_t value;                /* as each call says; 0 for a ring edit and if refused (gt_next, gt_prev: 65,535) */
} gt_value;

/* A move's kinds. */
enum {
    GT_PLACE = 0,                /* the point goes to x, y, z */
    GT_SHIFT = 1,                /* x, y, z are added to where it is */
    GT_STRETCH = 2               /* its coordinates are multiplied by x, y, z (about the origin) */
};

/* One move of one control vertex; the numbers are millimetres (for a stretch, factors). */
typedef struct {
    uint32_t vertex, kind;
    double x, y, z;
} gt_move;

/* Is this a sound closed mesh? Every ring is proper (valence 3 to 32, all its numbers below V, none v itself, none
 * twice), u is in v's ring exactly if v is in u's, and any two successive neighbours of a vertex make a triangle with
 * it, wound the same way seen from all three. Several components are allowed. Seen from outside, the rings may turn
 * either way; refinement keeps it.
 * Reads:    the first V rows of the three tables. Writes: nothing.
 * Answers:  V, E, F.
 * Refuses:  2, 1, 4, 5, 6, 7, each over all vertices before the next.
 * Cost:     grows with the sum of the squares of the valences; for ordinary meshes linear in V. */
gt_counts gt_check(const uint16_t *valences, size_t valences_length, const uint16_t *rings, size_t rings_length,
                   const int32_t *positions, size_t positions_length, size_t v);

/* Refines the control mesh `levels` times by Loop's rules with Warren's vertex weights. Old vertices keep their
 * numbers; the edge p < q gets a new vertex, numbered from V on in the order of p, then of q. With a and b the
 * neighbours of p after and before q, and m(s, t) the new vertex of edge s, t:
 *   old v      its place i holds m(v, old place i); it goes to (7 v + 3 s) / 16 if its valence n is 3, otherwise to
 *              (5 n v + 3 s) / 8 n, where s is the sum of its neighbours;
 *   new vertex its ring is p, m(p,b), m(q,b), q, m(q,a), m(p,a); it stands at (3 (p + q) + a + b) / 8.
 * Each coordinate is rounded once to the nearest unit, halves to the even one, alike on both sides of 0: 1/2 and -1/2
 * give 0, 3/2 gives 2, -3/2 gives -2.
 * Reads:    level 0. Writes: the rows of levels 1 to `levels`, unused ring places with 65,535; level 0 and the tail stay.
 * Answers:  V, E, F of the last level.
 * Refuses:  8, then what gt_check refuses, 9, 10.
 * Cost:     linear in the vertices of the stack, and at each level in the squares of the control valences: 120 to 165
 *           instructions a stack vertex at valence 6; at valences near 32 up to 540 with one level, 140 with four. */
gt_counts gt_refine(uint16_t *valences, size_t valences_length, uint16_t *rings, size_t rings_length,
                    int32_t *positions, size_t positions_length, size_t v, size_t levels);

/* Moves control points and refreshes what depends on them, and only that. The moves work in order, each from where the
 * moves before it left the point, rounded to units. A sum or product is rounded once, as a 64-bit float; the result,
 * times 1,024, is rounded to a unit as gt_refine does. Touched are at level 0 the vertices named, changed or not; at
 * each next level the old vertices that are touched or have a touched neighbour below, and the new ones with p, q, a or
 * b touched below. Touched points above level 0 are set from the level below by gt_refine's rules; all others stay.
 * After gt_refine, this leaves exactly what refining the moved control mesh anew would give.
 * Reads:    the stack to level `levels`, `moves`. Deeper levels count as tail.
 * Writes:   positions of touched points; the map: bit i mod 32 of word i / 32 is 1 if stack vertex i is touched, spare
 *           bits of the last word are 0, later words stay. Valences and rings stay.
 * Answers:  value, the number of touched points, level 0 included (the number of ones in the map).
 * Refuses:  8, then what gt_check refuses, 9, 10 (tables and map), 11, 12; then move by move 99, 3, 13 (any of its
 *           three numbers), 14 (any of its three results).
 * Cost:     linear in the ring places of the stack (it is held against what refinement gives) and in the moves; of a
 *           longer list no more than the first 64 are looked at, and none where 8 refuses. */
gt_value gt_moves(const uint16_t *valences, size_t valences_length, const uint16_t *rings, size_t rings_length,
                  int32_t *positions, size_t positions_length, uint32_t *map, size_t map_length,
                  size_t v, size_t levels, const gt_move *moves, size_t moves_length);

/* Reads a mesh file into the tables. A file is a run of records: payload length (4 bytes), kind (2 bytes), payload,
 * little-endian. Kind 1, first: V (2 bytes). Kind 2, V of them in vertex order: x, y, z (4 bytes each), valence n, at
 * most 32 (2), n neighbours (2 each). Kind 3, last: empty. Rings and coordinates are taken as they stand: call gt_check.
 * Reads:    `bytes`. Writes: the first V rows of the three tables, unused ring places with 65,535.
 * Answers:  value, V.
 * Refuses:  17 (the whole file is judged before anything is written), 2, 1.
 * Cost:     linear in the file's bytes. */
gt_value gt_read(const uint8_t *bytes, size_t bytes_length, uint16_t *valences, size_t valences_length,
                 uint16_t *rings, size_t rings_length, int32_t *positions, size_t positions_length);

/* Writes the mesh as a mesh file of 14 + 20 V + 2 S bytes, where S is the sum of the valences.
 * Reads:    the first V rows of the three tables. Writes: the file's bytes at the front of `file`; the rest stays.
 * Answers:  value, the number of bytes.
 * Refuses:  2, 1, 4 (a valence over 32, nothing else), 10.
 * Cost:     linear in the file's bytes. */
gt_value gt_write(const uint16_t *valences, size_t valences_length, const uint16_t *rings, size_t rings_length,
                  const int32_t *positions, size_t positions_length, size_t v, uint8_t *file, size_t file_length);

/* Reads OFF text, a list of points and faces, into the tables. Taken is this subset: a line `OFF`; a line `V F E` with
 * 2 E = 3 F; V lines `x y z` in units; F lines `3 a b c` with three different corners below V. Each line ends with a
 * newline, and single blanks stand between its items; nothing else is there, and nothing behind the last line. Numbers are
 * whole, without plus signs or leading zeros, V, F, E and corners up to 4,294,967,295, units from -2,147,483,648 to
 * 2,147,483,647 and never -0. The face a, b, c means next(a in b) = c, next(b in c) = a and next(c in a) = b. Each ring
 * begins with its smallest neighbour. What is accepted passes gt_check.
 * Reads:    `text`. Writes: the first V rows of the three tables, unused ring places with 65,535.
 * Answers:  value, V.
 * Refuses:  20 (the whole text is judged before anything else; a line that is missing has its own number), 2, 1; 21 (a
 *           vertex without faces is closed), 4 (under 3 or over 32 faces), 7, each over all vertices before the next.
 * Cost:     a pass over the text and, over its faces, two for every 128 vertices where none has more than 8 faces, at most
 *           six for every 32 vertices of a text that is accepted, two a vertex of one that is refused. A sphere of 257
 *           vertices takes under 1 million instructions, one of 1,024 under 8 million. */
gt_value gt_read_off(const uint8_t *text, size_t text_length, uint16_t *valences, size_t valences_length,
                     uint16_t *rings, size_t rings_length, int32_t *positions, size_t positions_length);

/* Writes the mesh as OFF text that gt_read_off takes: each face once, from its smallest corner on, in ascending order.
 * Reading it back gives the same points and rings, up to where each ring begins.
 * Reads:    the first V rows of the three tables. Writes: the text's bytes at the front of `text`; the rest stays.
 * Answers:  value, the number of bytes: at most 21 + 27 V + 17 F, and at most GT_MOST_OFF_BYTES.
 * Refuses:  what gt_check refuses, 10.
 * Cost:     that of gt_check, and linear in the text's bytes. */
gt_value gt_write_off(const uint16_t *valences, size_t valences_length, const uint16_t *rings, size_t rings_length,
                      const int32_t *positions, size_t positions_length, size_t v, uint8_t *text, size_t text_length);

/* EDITS OF THE MESH work on a sound control mesh of `v` vertices; it stays sound, and V - E + F stays what it is. An edge
 * is named by its two ends, in either order: p is the smaller, q the greater, a and b are the neighbours of p after and
 * before q, as in gt_refine. A face is named by its three corners: a, b, c is the face with next(a in b) = c, and so are
 * b, c, a and c, a, b; a, c, b is none. Rows that are altered are written whole, unused places with 65,535; nothing else
 * is. Levels behind the control mesh are not kept up, and a split writes over the first row of level 1: refine anew.
 * Reads:    the first V rows of the three tables.
 * Answers:  V, E, F of the mesh after the edit.
 * Refuses:  what gt_check refuses, 3, 18, 16; then gt_flip 19, the splits 10 (V + 1, 32 (V + 1), 3 (V + 1) items).
 * Cost:     that of gt_check, and little more. */

/* Splits an edge by a new vertex, number V, with the ring p, b, q, a. It comes in q's place at p and in p's place at q,
 * after p in a, after q in b, and stands at (p + q) / 2, rounded as gt_refine does. Counts grow by 1, 3 and 2.
 * Writes:   rows and valences p, q, a, b, V; the new point.
 * Refuses:  16 if a or b has 32 neighbours or V is 1,024. */
gt_counts gt_split_edge(uint16_t *valences, size_t valences_length, uint16_t *rings, size_t rings_length,
                        int32_t *positions, size_t positions_length, size_t v, size_t p, size_t q);

/* Splits a face by a new vertex, number V. Named so that a is its smallest corner, the new ring is a, c, b; it comes
 * after a in b, after b in c, after c in a, and stands at (a + b + c) / 3, rounded likewise. Counts grow by 1, 3 and 2.
 * Writes:   rows and valences a, b, c, V; the new point.
 * Refuses:  16 if a, b or c has 32 neighbours or V is 1,024. */
gt_counts gt_split_face(uint16_t *valences, size_t valences_length, uint16_t *rings, size_t rings_length,
                        int32_t *positions, size_t positions_length, size_t v, size_t a, size_t b, size_t c);

/* Flips an edge, so that a and b are joined instead of p and q: b comes after p in a, a after q in b; q goes out of p's
 * ring, p out of q's. Counts stay. Flipping the edge a, b then gives back the old rings, up to where each begins.
 * Writes:   rows and valences p, q, a, b; no point.
 * Refuses:  16 if a or b has 32 neighbours; 19 if p or q has 3, or a and b are neighbours. */
gt_counts gt_flip(uint16_t *valences, size_t valences_length, uint16_t *rings, size_t rings_length,
                  const int32_t *positions, size_t positions_length, size_t v, size_t p, size_t q);

/* RING CALLS work on the ring of one vertex v of a control table of `count` vertices; the mesh need not be sound. All
 * refuse first: 2, 1 (valences and rings), 3 for v, and, but for gt_make, 4 with place v where v's ring is improper
 * (a valence of 0, 1 or 2 is allowed here). An edit that changes the ring writes row v and valence v and nothing else;
 * unused places of the row become 65,535. An edit without effect is accepted and writes nothing.
 * Cost: 230 to 400 instructions at valence 6, 3,000 to 3,400 at valence 32: nearly all of them go into the test that
 * the ring (for gt_make, the list) is proper, which compares its places pair by pair. */

/* Sets the ring of v to `list`. Refuses: 2, 1, 3; 16 (over 32); 3 at the first list place not below `count`; 15. */
gt_value gt_make(uint16_t *valences, size_t valences_length, uint16_t *rings, size_t rings_length,
                 size_t count, size_t v, const uint16_t *list, size_t list_length);

/* Takes x out of the ring of v; later places close up. No effect if x is absent. Refuses: 2, 1, 3, 4. */
gt_value gt_erase(uint16_t *valences, size_t valences_length, uint16_t *rings, size_t rings_length,
                  size_t count, size_t v, size_t x);

/* Puts x in the place of a. No effect if a is absent. Refuses: 2, 1, 3, 4; 3 for x; 15. */
gt_value gt_replace(uint16_t *valences, size_t valences_length, uint16_t *rings, size_t rings_length,
                    size_t count, size_t v, size_t a, size_t x);

/* Puts x right after a, or right before it; later places shift by one. After the last place it goes to the end, before
 * the first to the front. No effect if a is absent. Refuses: 2, 1, 3, 4; 3 for x; 15; where a is present, 16. */
gt_value gt_insert_after(uint16_t *valences, size_t valences_length, uint16_t *rings, size_t rings_length,
                         size_t count, size_t v, size_t a, size_t x);
gt_value gt_insert_before(uint16_t *valences, size_t valences_length, uint16_t *rings, size_t rings_length,
                          size_t count, size_t v, size_t a, size_t x);

/* Queries; they write nothing. Value: is x in the ring of v (1 or 0); which neighbour follows x there, which precedes
 * it (65,535 if x is absent; a ring of one has itself as both); how many neighbours v has. Refuse: 2, 1, 3, 4. */
gt_value gt_contains(const uint16_t *valences, size_t valences_length, const uint16_t *rings, size_t rings_length,
                     size_t count, size_t v, size_t x);
gt_value gt_next(const uint16_t *valences, size_t valences_length, const uint16_t *rings, size_t rings_length,
                 size_t count, size_t v, size_t x);
gt_value gt_prev(const uint16_t *valences, size_t valences_length, const uint16_t *rings, size_t rings_length,
                 size_t count, size_t v, size_t x);
gt_value gt_valence(const uint16_t *valences, size_t valences_length, const uint16_t *rings, size_t rings_length,
                    size_t count, size_t v);

/* HELPERS are defined here and not in the archive; they are tested, not proved. */

/* A reason of a refusal as a short English text, "accepted" for 0, "unknown reason" for a number that is none. */
static inline const char *gt_reason(uint32_t number) {
    switch (number) {
    case GT_ACCEPTED: return "accepted";
    case GT_TABLE_TOO_SHORT: return "a table is too short for the control mesh";
    case GT_VERTEX_COUNT: return "the number of vertices is not 4 to 1,024";
    case GT_NO_SUCH_VERTEX: return "there is no vertex of this number";
    case GT_RING_IMPROPER: return "the ring of a vertex is improper";
    case GT_NOT_MUTUAL: return "a neighbour of a vertex does not have it as a neighbour";
    case GT_NOT_TRIANGLE: return "a face at a vertex is not a triangle";
    case GT_CONTROL_COORDINATE: return "a control coordinate is out of range";
    case GT_LEVEL_COUNT: return "the number of levels is not 1 to 4";
    case GT_LEVEL_TOO_LARGE: return "a level would have over 65,535 vertices";
    case GT_NO_ROOM: return "the room for the stack, a new vertex, the map, the file or the text is too short";
    case GT_STACK_ALTERED: return "a level above the control mesh is not as refinement gives it";
    case GT_TOO_MANY_MOVES: return "there are over 64 moves";
    case GT_NOT_FINITE: return "a number of a move is not finite";
    case GT_OUT_OF_REACH: return "a move leads out of -1024 to 1024 millimetres";
    case GT_NEIGHBOUR_TAKEN: return "a neighbour is the vertex itself or is there already";
    case GT_RING_FULL: return "a ring has at most 32 neighbours, a control mesh 1,024 vertices";
    case GT_FILE_LAYOUT: return "the bytes are not a mesh file";
    case GT_NO_EDGE_OR_FACE: return "the vertices named are no edge or no face";
    case GT_CANNOT_FLIP: return "the edge cannot be flipped";
    case GT_BAD_TEXT: return "a line of the text is not as OFF text should be";
    case GT_OPEN_RING: return "the faces at a vertex do not close into one ring";
    case GT_UNKNOWN_KIND: return "the kind of a move is not 0, 1 or 2";
    default: return "unknown reason";
    }
}

/* The rows that the tables need for a control mesh of v vertices and e edges, as gt_check answers them, and the levels
 * above it: so many valences, 32 times as many ring places, 3 times as many coordinates. For 0 levels it is v. */
static inline size_t gt_stack_rows(size_t v, size_t e, size_t levels) {
    size_t rows = v;
    for (; levels > 0; levels--) {
        v += e;
        e *= 4;
        rows += v;
    }
    return rows;
}

/* The words that the map of gt_moves needs for a stack of so many rows. */
static inline size_t gt_map_words(size_t rows) { return rows / 32 + (rows % 32 != 0); }

/* Is stack vertex i touched, by a map that gt_moves has written? 1 or 0. */
static inline int gt_is_touched(const uint32_t *map, size_t i) { return (map[i / 32] >> (i % 32) & 1u) != 0; }

#ifdef __cplusplus
}
#endif

#endif
