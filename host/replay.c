/* Replays cases with known answers against the library.
 *
 *   replay [--listing COMMAND] FILE..
 *
 * A file begins with RNGCASE1 and holds cases for every call: its inputs, the answer, and for each lent table the runs
 * in which it differs afterwards. Every table is lent in guarded memory. Cases of the listing program are skipped unless
 * a command that runs it is given, and those of a rounding that the library does not have. Ends with 1 if a case differs,
 * after printing the first differences. */
#include "guard.h"
#include "gypsumtrot.h"

enum { MAKE = 1, ERASE, REPLACE, INSERT_AFTER, INSERT_BEFORE, CONTAINS, VALENCE, NEXT, PREV, CHECK, REFINE, MOVE, READ,
       WRITE, LISTING, SPLIT_EDGE, SPLIT_FACE, FLIP, READ_OFF, WRITE_OFF, CALLS };
static const char *const names[CALLS] = {"", "make", "erase", "replace", "insert_after", "insert_before", "contains",
    "valence", "next", "prev", "check", "refine", "moves", "read", "write", "listing", "split_edge", "split_face", "flip",
    "read_off", "write_off"};

/* Skipped are cases with this flag, which hold only where halves go upward. */
enum { UP = 8 };

enum { MOST_DIFFERENCES = 10, PATH_BYTES = 1024, ANSWERS = 100 };
static size_t compared[CALLS], answers[CALLS][ANSWERS], skipped[CALLS], foreign, differences;
static const char *file_name;
static size_t case_number;
static int call;

static void differs(const char *what, unsigned long long got, unsigned long long wanted) {
    if (differences++ < MOST_DIFFERENCES)
        printf("%s, case %zu (%s): %s is %llu, expected %llu\n", file_name, case_number, names[call], what, got, wanted);
}

/* The body of a case, read from front to back. */
typedef struct {
    const unsigned char *at, *end;
} reader;

static const unsigned char *take(reader *r, size_t bytes) {
    if ((size_t)(r->end - r->at) < bytes) {
        fprintf(stderr, "%s, case %zu: cut short\n", file_name, case_number);
        exit(2);
    }
    r->at += bytes;
    return r->at - bytes;
}

static uint32_t scalar(reader *r) {
    uint32_t number;
    memcpy(&number, take(r, 4), 4);
    return number;
}

/* A lent table: its guarded memory, the size of its items, how many it has. */
typedef struct {
    guarded guard;
    size_t item, length;
    const char *name;
} table;

static table valences = {{0}, 2, 0, "valences"}, rings = {{0}, 2, 0, "rings"}, positions = {{0}, 4, 0, "positions"},
             map = {{0}, 4, 0, "map"}, room = {{0}, 1, 0, "file"}, data = {{0}, 1, 0, "bytes"}, items = {{0}, 2, 0, "list"},
             moves = {{0}, sizeof(gt_move), 0, "moves"};

static void *lend(table *t, const void *contents, size_t length) {
    t->length = length;
    return guard_lend(&t->guard, contents, length * t->item, case_number % 2 == 0, case_number % 3 == 0);
}

static void lend_from(reader *r, table *t) {
    size_t length = scalar(r);
    lend(t, take(r, length * t->item), length);
}

/* Puts the expected runs into the contents as lent and holds the table to that. */
static void expect_table(reader *r, table *t) {
    uint32_t runs = scalar(r);
    for (uint32_t i = 0; i < runs; i++) {
        size_t start = scalar(r), length = scalar(r);
        const unsigned char *contents = take(r, length * t->item);
        if (start + length > t->length) {
            fprintf(stderr, "%s, case %zu: a run outside its table\n", file_name, case_number);
            exit(2);
        }
        memcpy(t->guard.was + start * t->item, contents, length * t->item);
    }
    if (!guard_unchanged(&t->guard)) {
        size_t i = 0;
        while (t->guard.begin[i] == t->guard.was[i]) i++;
        differs(t->name, t->guard.begin[i], t->guard.was[i]);
        if (differences <= MOST_DIFFERENCES) printf("    at item %zu, byte %zu of it\n", i / t->item, i % t->item);
    }
    if (!guard_intact(&t->guard)) differs("memory beside a table: items", 0, t->length);
}

static void expect_same(table *t) {
    if (!guard_unchanged(&t->guard)) differs("a table that is only read: items changed of", 0, t->length);
    if (!guard_intact(&t->guard)) differs("memory beside a table: items", 0, t->length);
}

static void expect(reader *r, const char *what, unsigned long long got) {
    uint32_t wanted = scalar(r);
    if (got != wanted) differs(what, got, wanted);
}

static void count_answer(uint32_t number) { answers[call][number < ANSWERS ? number : ANSWERS - 1]++; }

/* Number and place, and then the value where the call answers one. */
static void expect_value(reader *r, gt_value answer, const char *value) {
    count_answer(answer.number);
    expect(r, "number", answer.number);
    expect(r, "place", answer.place);
    if (value) expect(r, value, answer.value);
    else if (answer.value != 0) differs("value", answer.value, 0);
}

static void expect_counts(reader *r, gt_counts answer) {
    count_answer(answer.number);
    expect(r, "number", answer.number);
    expect(r, "place", answer.place);
    expect(r, "v", answer.v);
    expect(r, "e", answer.e);
    expect(r, "f", answer.f);
}

#define VALENCES (uint16_t *)valences.guard.table, valences.length
#define RINGS (uint16_t *)rings.guard.table, rings.length
#define POSITIONS (int32_t *)positions.guard.table, positions.length

static void replay_make(reader *r) {
    size_t count = scalar(r), v = scalar(r);
    lend_from(r, &valences);
    lend_from(r, &rings);
    size_t length = scalar(r);
    const unsigned char *wide = take(r, 4 * length);
    uint16_t *list = malloc(2 * length + 1);
    for (size_t i = 0; i < length; i++) {
        uint32_t item;
        memcpy(&item, wide + 4 * i, 4);
        if (item > 65535) {
            skipped[call]++, compared[call]--;
            free(list);
            return;
        }
        list[i] = (uint16_t)item;
    }
    lend(&items, list, length);
    free(list);
    expect_value(r, gt_make(VALENCES, RINGS, count, v, (const uint16_t *)items.guard.table, length), NULL);
    expect_same(&items);
    expect_table(r, &valences);
    expect_table(r, &rings);
}

static void replay_ring_call(reader *r) {
    size_t count = scalar(r), v = scalar(r), x = call == VALENCE ? 0 : scalar(r);
    size_t a = x;
    if (call == REPLACE || call == INSERT_AFTER || call == INSERT_BEFORE) x = scalar(r);
    lend_from(r, &valences);
    lend_from(r, &rings);
    switch (call) {
    case ERASE: expect_value(r, gt_erase(VALENCES, RINGS, count, v, x), NULL); break;
    case REPLACE: expect_value(r, gt_replace(VALENCES, RINGS, count, v, a, x), NULL); break;
    case INSERT_AFTER: expect_value(r, gt_insert_after(VALENCES, RINGS, count, v, a, x), NULL); break;
    case INSERT_BEFORE: expect_value(r, gt_insert_before(VALENCES, RINGS, count, v, a, x), NULL); break;
    case CONTAINS: expect_value(r, gt_contains(VALENCES, RINGS, count, v, x), "answer"); break;
    case VALENCE: expect_value(r, gt_valence(VALENCES, RINGS, count, v), "valence"); break;
    case NEXT: expect_value(r, gt_next(VALENCES, RINGS, count, v, x), "next"); break;
    case PREV: expect_value(r, gt_prev(VALENCES, RINGS, count, v, x), "prev"); break;
    }
    expect_table(r, &valences);
    expect_table(r, &rings);
}

static void replay_mesh_call(reader *r) {
    size_t v = scalar(r), levels = call == CHECK ? 0 : scalar(r);
    lend_from(r, &valences);
    lend_from(r, &rings);
    lend_from(r, &positions);
    if (call == CHECK) expect_counts(r, gt_check(VALENCES, RINGS, POSITIONS, v));
    else expect_counts(r, gt_refine(VALENCES, RINGS, POSITIONS, v, levels));
    expect_table(r, &valences);
    expect_table(r, &rings);
    expect_table(r, &positions);
}

/* The counts of the mesh in the tables as they are expected afterwards. */
static void expect_mesh(gt_counts answer, size_t v) {
    uint16_t valence;
    size_t ends = 0;
    for (size_t i = 0; i < v; i++) {
        memcpy(&valence, valences.guard.was + sizeof valence * i, sizeof valence);
        ends += valence;
    }
    if (answer.v != v) differs("v", answer.v, v);
    if (answer.e != ends / 2) differs("e", answer.e, ends / 2);
    if (answer.f != ends / 3) differs("f", answer.f, ends / 3);
}

/* An edit of the mesh: cases have its number and place, the counts are those of the tables. */
static void replay_reshaping(reader *r) {
    size_t v = scalar(r), first = scalar(r), second = scalar(r), third = call == SPLIT_FACE ? scalar(r) : 0;
    gt_counts answer;
    lend_from(r, &valences);
    lend_from(r, &rings);
    lend_from(r, &positions);
    switch (call) {
    case SPLIT_EDGE: answer = gt_split_edge(VALENCES, RINGS, POSITIONS, v, first, second); break;
    case SPLIT_FACE: answer = gt_split_face(VALENCES, RINGS, POSITIONS, v, first, second, third); break;
    default: answer = gt_flip(VALENCES, RINGS, POSITIONS, v, first, second);
    }
    count_answer(answer.number);
    expect(r, "number", answer.number);
    expect(r, "place", answer.place);
    expect_table(r, &valences);
    expect_table(r, &rings);
    expect_table(r, &positions);
    expect_mesh(answer, answer.number ? 0 : call == FLIP ? v : v + 1);
}

static void replay_moves(reader *r) {
    size_t v = scalar(r), levels = scalar(r);
    lend_from(r, &valences);
    lend_from(r, &rings);
    lend_from(r, &positions);
    lend_from(r, &map);
    lend_from(r, &moves);
    expect_value(r, gt_moves(VALENCES, RINGS, POSITIONS, (uint32_t *)map.guard.table, map.length, v, levels,
                             (const gt_move *)moves.guard.table, moves.length), "count");
    expect_same(&moves);
    expect_table(r, &valences);
    expect_table(r, &rings);
    expect_table(r, &positions);
    expect_table(r, &map);
}

static void replay_read(reader *r) {
    lend_from(r, &data);
    lend_from(r, &valences);
    lend_from(r, &rings);
    lend_from(r, &positions);
    if (call == READ) expect_value(r, gt_read(data.guard.table, data.length, VALENCES, RINGS, POSITIONS), "V");
    else expect_value(r, gt_read_off(data.guard.table, data.length, VALENCES, RINGS, POSITIONS), "V");
    expect_same(&data);
    expect_table(r, &valences);
    expect_table(r, &rings);
    expect_table(r, &positions);
}

static void replay_write(reader *r) {
    size_t v = scalar(r);
    lend_from(r, &valences);
    lend_from(r, &rings);
    lend_from(r, &positions);
    lend_from(r, &room);
    if (call == WRITE) expect_value(r, gt_write(VALENCES, RINGS, POSITIONS, v, room.guard.table, room.length), "bytes");
    else expect_value(r, gt_write_off(VALENCES, RINGS, POSITIONS, v, room.guard.table, room.length), "bytes");
    expect_table(r, &valences);
    expect_table(r, &rings);
    expect_table(r, &positions);
    expect_table(r, &room);
}

/* Makes an empty file for the listing program's input or output. */
static void make_file(char *path) {
    const char *folder = getenv("TMPDIR");
    snprintf(path, PATH_BYTES, "%s/replay-XXXXXX", folder ? folder : P_tmpdir);
    int descriptor = mkstemp(path);
    if (descriptor < 0 || close(descriptor) != 0) {
        perror(path);
        exit(2);
    }
}

static unsigned char *read_file(const char *path, size_t *length) {
    FILE *file = fopen(path, "rb");
    if (!file || fseek(file, 0, SEEK_END) != 0) {
        perror(path);
        exit(2);
    }
    *length = (size_t)ftell(file);
    rewind(file);
    unsigned char *bytes = malloc(*length + 1);
    if (!bytes || fread(bytes, 1, *length, file) != *length) {
        perror(path);
        exit(2);
    }
    fclose(file);
    return bytes;
}

static void replay_listing(reader *r, const char *command) {
    char input[PATH_BYTES], output[PATH_BYTES], line[4 * PATH_BYTES];
    make_file(input);
    make_file(output);
    size_t length = scalar(r), printed_length;
    const unsigned char *bytes = take(r, length);
    FILE *file = fopen(input, "wb");
    if (!file || fwrite(bytes, 1, length, file) != length || fclose(file) != 0) {
        perror(input);
        exit(2);
    }
    snprintf(line, sizeof line, "%s <%s >%s", command, input, output);
    if (system(line) < 0) {
        perror(line);
        exit(2);
    }
    unsigned char *printed = read_file(output, &printed_length);
    size_t wanted_length = scalar(r), i = 0;
    const unsigned char *wanted = take(r, wanted_length);
    while (i < printed_length && i < wanted_length && printed[i] == wanted[i]) i++;
    if (i < printed_length || i < wanted_length)
        differs("the first different byte of the listing", i < printed_length ? printed[i] : 256,
                i < wanted_length ? wanted[i] : 256);
    free(printed);
    remove(input);
    remove(output);
}

static void replay_case(reader *r, const char *listing) {
    call = *take(r, 1);
    int flags = *take(r, 1);
    take(r, 2);
    if (call < MAKE || call >= CALLS) {
        fprintf(stderr, "%s, case %zu: no such call\n", file_name, case_number);
        exit(2);
    }
    if (flags & UP) {
        foreign++;
        return;
    }
    if (call == LISTING && !listing) {
        skipped[call]++;
        return;
    }
    compared[call]++;
    switch (call) {
    case MAKE: replay_make(r); break;
    case CHECK: case REFINE: replay_mesh_call(r); break;
    case MOVE: replay_moves(r); break;
    case READ: case READ_OFF: replay_read(r); break;
    case WRITE: case WRITE_OFF: replay_write(r); break;
    case LISTING: replay_listing(r, listing); break;
    case SPLIT_EDGE: case SPLIT_FACE: case FLIP: replay_reshaping(r); break;
    default: replay_ring_call(r);
    }
}

static void replay_file(const char *listing) {
    size_t length;
    unsigned char *bytes = read_file(file_name, &length);
    reader r = {bytes, bytes + length};
    case_number = 0;
    if (memcmp(take(&r, 8), "RNGCASE1", 8) != 0) {
        fprintf(stderr, "%s: not a file of cases\n", file_name);
        exit(2);
    }
    uint32_t cases = scalar(&r);
    for (case_number = 0; case_number < cases && differences < MOST_DIFFERENCES; case_number++) {
        size_t body = scalar(&r);
        const unsigned char *from = take(&r, body);
        reader inside = {from, from + body};
        replay_case(&inside, listing);
    }
    free(bytes);
}

/* How many cases of a call were compared, and which numbers they answered how often. */
static void print_counts(void) {
    printf("%-13s %6zu compared, %zu skipped; answers", names[call], compared[call], skipped[call]);
    for (int number = 0; number < ANSWERS; number++)
        if (answers[call][number]) printf(" %d:%zu", number, answers[call][number]);
    printf("\n");
}

int main(int argc, char **argv) {
    const char *listing = NULL;
    size_t all = 0;
    for (int i = 1; i < argc; i++) {
        if (strcmp(argv[i], "--listing") == 0 && i + 1 < argc) {
            listing = argv[++i];
            continue;
        }
        file_name = argv[i];
        replay_file(listing);
    }
    for (call = MAKE; call < CALLS; call++) {
        all += compared[call];
        print_counts();
    }
    if (foreign) printf("%zu cases of another rounding skipped\n", foreign);
    printf("%zu cases compared, %zu differences\n", all, differences);
    return differences > 0 || all == 0;
}
