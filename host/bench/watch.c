/* A plug-in for qemu-user: reports every load of the guest from a range that the guest has closed, with the address of
 * the instruction, and ends the run with status 1 if there was one. What the guest says to it stands in watch.h.
 *
 *   gcc -shared -fPIC -O2 -I.. -DINTERFACE=1 -o watch.so watch.c
 *   qemu-x86_64 -plugin ./watch.so -d plugin PROGRAM
 *
 * The few declarations that it needs of qemu's plug-in interface stand here, so that no header has to be installed.
 * INTERFACE is the interface's version: 1 before qemu 9, 2 from there on. */
#include <inttypes.h>
#include <stdio.h>
#include <stdlib.h>
#include <unistd.h>
#define WATCH_PLUGIN
#include "watch.h"

typedef uint64_t qemu_plugin_id_t;
struct qemu_plugin_tb;
struct qemu_plugin_insn;
typedef struct qemu_info_t qemu_info_t;
enum qemu_plugin_cb_flags { QEMU_PLUGIN_CB_NO_REGS };
enum qemu_plugin_mem_rw { QEMU_PLUGIN_MEM_RW = 3 };
typedef uint32_t qemu_plugin_meminfo_t;
typedef void (*tb_trans_cb)(qemu_plugin_id_t, struct qemu_plugin_tb *);
typedef void (*mem_cb)(unsigned int, qemu_plugin_meminfo_t, uint64_t, void *);
typedef void (*syscall_cb)(qemu_plugin_id_t, unsigned int, int64_t, uint64_t, uint64_t, uint64_t, uint64_t, uint64_t,
                           uint64_t, uint64_t, uint64_t);
typedef void (*udata_cb)(qemu_plugin_id_t, void *);
extern void qemu_plugin_register_vcpu_tb_trans_cb(qemu_plugin_id_t, tb_trans_cb);
extern size_t qemu_plugin_tb_n_insns(const struct qemu_plugin_tb *);
extern struct qemu_plugin_insn *qemu_plugin_tb_get_insn(const struct qemu_plugin_tb *, size_t);
extern uint64_t qemu_plugin_insn_vaddr(const struct qemu_plugin_insn *);
extern const char *qemu_plugin_insn_symbol(const struct qemu_plugin_insn *);
extern void qemu_plugin_register_vcpu_mem_cb(struct qemu_plugin_insn *, mem_cb, enum qemu_plugin_cb_flags,
                                             enum qemu_plugin_mem_rw, void *);
extern unsigned int qemu_plugin_mem_size_shift(qemu_plugin_meminfo_t);
extern _Bool qemu_plugin_mem_is_store(qemu_plugin_meminfo_t);
extern void qemu_plugin_register_vcpu_syscall_cb(qemu_plugin_id_t, syscall_cb);
extern void qemu_plugin_register_atexit_cb(qemu_plugin_id_t, udata_cb, void *);
extern void qemu_plugin_outs(const char *);

__attribute__((visibility("default"))) int qemu_plugin_version = INTERFACE;

typedef struct {
    uint64_t begin, end, number;
    watch_name what;
} range;

typedef struct {
    uint64_t address;
    const char *symbol;
} instruction;

/* The first load of one call by one instruction from ranges of one name, and how many there were. */
typedef struct {
    watch_name call, how, what;
    const instruction *by;
    uint64_t number, at, bytes, times;
} find;

enum { FINDS = 256 };
static range *ranges;
static size_t ranges_length, ranges_room, finds_length, finds_before;
static int watching, unseen;
static watch_name call, how;
static find finds[FINDS];
static uint64_t loads, calls;

static int by_begin(const void *one, const void *other) {
    const range *a = one, *b = other;
    return (a->begin > b->begin) - (a->begin < b->begin);
}

static void close_range(range r) {
    if (ranges_length == ranges_room) {
        ranges_room = 2 * ranges_room + 1024;
        ranges = realloc(ranges, ranges_room * sizeof *ranges);
        if (!ranges) abort();
    }
    ranges[ranges_length++] = r;
}

/* The closed range that the bytes from `begin` to `end` reach into; null if there is none. */
static const range *range_of(uint64_t begin, uint64_t end) {
    size_t low = 0, high = ranges_length;
    while (low < high) {
        size_t middle = (low + high) / 2;
        if (ranges[middle].begin < end) low = middle + 1;
        else high = middle;
    }
    return low > 0 && ranges[low - 1].end > begin ? &ranges[low - 1] : NULL;
}

static int same(watch_name one, watch_name other) { return memcmp(&one, &other, sizeof one) == 0; }

static void found(const range *r, const instruction *by, uint64_t address, uint64_t bytes) {
    for (size_t i = 0; i < finds_length; i++)
        if (finds[i].by->address == by->address && same(finds[i].call, call) && same(finds[i].what, r->what)) {
            finds[i].times++;
            return;
        }
    if (finds_length == FINDS) return;
    find f = {call, how, r->what, by, r->number, address - r->begin, bytes, 1};
    finds[finds_length++] = f;
}

/* Loads and stores both come here: qemu 7.2 takes one for the other if it is asked for loads alone. */
static void touched(unsigned int vcpu, qemu_plugin_meminfo_t info, uint64_t address, void *by) {
    (void)vcpu;
    if (!watching || qemu_plugin_mem_is_store(info)) return;
    uint64_t bytes = (uint64_t)1 << qemu_plugin_mem_size_shift(info);
    const range *r = range_of(address, address + bytes);
    loads++;
    if (r) found(r, by, address, bytes);
}

static void translated(qemu_plugin_id_t id, struct qemu_plugin_tb *tb) {
    (void)id;
    for (size_t i = 0; i < qemu_plugin_tb_n_insns(tb); i++) {
        struct qemu_plugin_insn *insn = qemu_plugin_tb_get_insn(tb, i);
        instruction *by = malloc(sizeof *by);
        if (!by) abort();
        by->address = qemu_plugin_insn_vaddr(insn), by->symbol = qemu_plugin_insn_symbol(insn);
        qemu_plugin_register_vcpu_mem_cb(insn, touched, QEMU_PLUGIN_CB_NO_REGS, QEMU_PLUGIN_MEM_RW, by);
    }
}

static void begin(watch_name name, watch_name kind) {
    qsort(ranges, ranges_length, sizeof *ranges, by_begin);
    call = name, how = kind;
    finds_before = finds_length;
    calls++;
    watching = 1;
}

/* Forgives the loads of the program itself since the watch began. */
static void expect(void) {
    unseen |= finds_length == finds_before;
    finds_length = finds_before;
    calls--;
}

static void told(qemu_plugin_id_t id, unsigned int vcpu, int64_t number, uint64_t a, uint64_t b, uint64_t c, uint64_t d,
                 uint64_t e, uint64_t f, uint64_t g, uint64_t h) {
    (void)id, (void)vcpu, (void)f, (void)g, (void)h;
    watch_name first = {{a, b}}, second = {{c, d}};
    range r = {a, a + b, e, second};
    switch (number) {
    case WATCH_FORGET: ranges_length = 0; break;
    case WATCH_CLOSE: close_range(r); break;
    case WATCH_BEGIN: begin(first, second); break;
    case WATCH_END: watching = 0; break;
    case WATCH_EXPECT: expect(); break;
    }
}

static void ended(qemu_plugin_id_t id, void *data) {
    char line[512];
    (void)id, (void)data;
    for (size_t i = 0; i < finds_length; i++) {
        const find *f = &finds[i];
        const char *in = f->by->symbol ? f->by->symbol : "no function";
        snprintf(line, sizeof line,
                 "watch: %.16s (%.16s) loads %" PRIu64 " bytes at byte %" PRId64 " of \"%.16s %" PRIu64
                 "\" by the instruction at %#" PRIx64 " in %s; %" PRIu64 " times in all\n",
                 f->call.text, f->how.text, f->bytes, (int64_t)f->at, f->what.text, f->number, f->by->address, in,
                 f->times);
        qemu_plugin_outs(line);
    }
    if (unseen) qemu_plugin_outs("watch: a load of the program itself from a closed range was not seen\n");
    snprintf(line, sizeof line, "watch: %" PRIu64 " loads of %" PRIu64 " calls, %s from a closed range\n", loads, calls,
             finds_length ? "some" : "none");
    qemu_plugin_outs(line);
    if (unseen || finds_length) _exit(1);
}

__attribute__((visibility("default")))
int qemu_plugin_install(qemu_plugin_id_t id, const qemu_info_t *info, int argc, char **argv) {
    (void)info, (void)argc, (void)argv;
    qemu_plugin_register_vcpu_tb_trans_cb(id, translated);
    qemu_plugin_register_vcpu_syscall_cb(id, told);
    qemu_plugin_register_atexit_cb(id, ended, NULL);
    return 0;
}
