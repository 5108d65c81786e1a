/* Tables in guarded memory: a write or a read outside a lent table shows.
 * A table lies against the end or the beginning of its memory, where a page that must not be touched follows; on the
 * other side stands a known pattern. */
#ifndef GUARD_H
#define GUARD_H

#define _DEFAULT_SOURCE
#include <stddef.h>
#include <stdint.h>
#include <stdio.h>
#include <stdlib.h>
#include <string.h>
#include <sys/mman.h>
#include <unistd.h>

enum { GUARD_ZONE = 512, GUARD_BYTE = 0xa7 };

typedef struct {
    unsigned char *memory;     /* between the two forbidden pages */
    size_t room;
    unsigned char *table;      /* what is lent; null for an empty table if `null_if_empty` was asked for */
    unsigned char *begin;      /* where the table lies */
    size_t bytes;
    unsigned char *was;        /* the table's contents when it was lent */
} guarded;

static inline void guard_grow(guarded *g, size_t bytes) {
    size_t page = (size_t)sysconf(_SC_PAGESIZE), room = (bytes + GUARD_ZONE + page - 1) / page * page;
    if (g->memory) munmap(g->memory - page, g->room + 2 * page);
    unsigned char *all = mmap(NULL, room + 2 * page, PROT_NONE, MAP_PRIVATE | MAP_ANONYMOUS, -1, 0);
    if (all == MAP_FAILED || mprotect(all + page, room, PROT_READ | PROT_WRITE) != 0) {
        perror("mmap");
        exit(2);
    }
    g->memory = all + page;
    g->room = room;
    g->was = realloc(g->was, room);
    if (!g->was) {
        perror("realloc");
        exit(2);
    }
}

static inline void guard_close(guarded *g) {
    size_t page = (size_t)sysconf(_SC_PAGESIZE);
    if (g->memory) munmap(g->memory - page, g->room + 2 * page);
    free(g->was);
    memset(g, 0, sizeof *g);
}

/* The pattern's zone, on the side away from the forbidden page. */
static inline unsigned char *guard_zone(const guarded *g) {
    return g->begin == g->memory ? g->begin + g->bytes : g->begin - GUARD_ZONE;
}

/* Lends a table of so many bytes with the given contents (or none). */
static inline void *guard_lend(guarded *g, const void *contents, size_t bytes, int at_end, int null_if_empty) {
    if (!g->memory || g->room < bytes + GUARD_ZONE) guard_grow(g, 2 * bytes);
    g->bytes = bytes;
    g->begin = at_end ? g->memory + g->room - bytes : g->memory;
    memset(guard_zone(g), GUARD_BYTE, GUARD_ZONE);
    if (bytes && contents) memcpy(g->begin, contents, bytes);
    memcpy(g->was, g->begin, bytes);
    g->table = bytes == 0 && null_if_empty ? NULL : g->begin;
    return g->table;
}

/* Is the pattern beside the table still there? */
static inline int guard_intact(const guarded *g) {
    const unsigned char *zone = guard_zone(g);
    return zone[0] == GUARD_BYTE && memcmp(zone, zone + 1, GUARD_ZONE - 1) == 0;
}

/* Does the table hold what it held when it was lent? */
static inline int guard_unchanged(const guarded *g) { return memcmp(g->begin, g->was, g->bytes) == 0; }

#endif
