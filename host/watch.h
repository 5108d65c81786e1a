/* What a watched program says to the plug-in bench/watch.c: calls of the system that no system has. Without the plug-in
 * they have no effect. */
#ifndef WATCH_H
#define WATCH_H

#include <stddef.h>
#include <stdint.h>
#include <string.h>

enum {
    WATCH_FORGET = 0x67740000,   /* no range is closed any more */
    WATCH_CLOSE,                 /* a range is closed to loads: where, bytes, its name, a number */
    WATCH_BEGIN,                 /* loads are looked at from here on: the name of a call, its case */
    WATCH_END,                   /* they are no longer looked at */
    WATCH_EXPECT                 /* the program has itself loaded from a closed range: forgiven if seen, wrong if not */
};

/* A name crosses as two numbers, its characters. */
enum { WATCH_NAME = 16 };
typedef union {
    uint64_t half[2];
    char text[WATCH_NAME];
} watch_name;

#ifndef WATCH_PLUGIN
#include <unistd.h>

static inline watch_name watch_pack(const char *text) {
    watch_name name = {{0, 0}};
    size_t length = strlen(text);
    memcpy(name.text, text, length < WATCH_NAME ? length : WATCH_NAME);
    return name;
}

static inline void watch_forget(void) { syscall(WATCH_FORGET); }

/* Closes a range; ranges that are closed at the same time must not overlap. */
static inline void watch_close(const void *from, size_t bytes, const char *what, size_t number) {
    watch_name name = watch_pack(what);
    if (bytes) syscall(WATCH_CLOSE, from, bytes, name.half[0], name.half[1], number);
}

static inline void watch_begin(const char *call, const char *how) {
    watch_name name = watch_pack(call), kind = watch_pack(how);
    syscall(WATCH_BEGIN, name.half[0], name.half[1], kind.half[0], kind.half[1]);
}

static inline void watch_end(void) { syscall(WATCH_END); }
static inline void watch_expect(void) { syscall(WATCH_EXPECT); }
#endif

#endif
