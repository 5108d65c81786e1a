/* The check and the ring calls, by hand. */
#include "plain.h"

size_t plain_first_beyond(const int32_t *positions, size_t count) {
    uint32_t any = 0;
    for (size_t i = 0; i < 3 * count; i++) any |= beyond(positions[i]);
    if (!(any >> 31)) return count;
    size_t i = 0;
    while (!(beyond(positions[i]) >> 31)) i++;
    return i / 3;
}

/* Are the ring's numbers below `count`, other than v, and all different? */
static int proper(const uint16_t *row, size_t valence, size_t count, size_t v) {
    if (valence > PLACES) return 0;
    for (size_t i = 0; i < valence; i++) {
        if (row[i] >= count || row[i] == v) return 0;
        for (size_t k = 0; k < i; k++)
            if (row[k] == row[i]) return 0;
    }
    return 1;
}

/* Every neighbour u of v must have v (5); and around v in u's ring must stand v's neighbours next to u, the other way
 * round (6). A fault of the first kind anywhere goes before all of the second. */
static gt_counts faces_fault(const uint16_t *valences, const uint16_t *rings, size_t count) {
    size_t open = count;
    for (size_t v = 0; v < count; v++) {
        const uint16_t *row = rings + PLACES * v;
        size_t valence = valences[v];
        size_t before = row[valence - 1];
        for (size_t i = 0; i < valence; i++) {
            size_t u = row[i], after = row[i + 1 == valence ? 0 : i + 1];
            const uint16_t *back = rings + PLACES * u;
            size_t length = valences[u], j = place_of(back, length, v);
            if (j == length) return counts_refused(GT_NOT_MUTUAL, v);
            if (open == count && (back[j == 0 ? length - 1 : j - 1] != after || back[j + 1 == length ? 0 : j + 1] != before))
                open = v;
            before = u;
        }
    }
    return open < count ? counts_refused(GT_NOT_TRIANGLE, open) : counts_refused(GT_ACCEPTED, 0);
}

gt_counts gt_check(const uint16_t *valences, size_t valences_length, const uint16_t *rings, size_t rings_length,
                   const int32_t *positions, size_t positions_length, size_t v) {
    if (v < GT_FEWEST_VERTICES || v > GT_MOST_VERTICES) return counts_refused(GT_VERTEX_COUNT, 0);
    if (valences_length < v || rings_length < PLACES * v || positions_length < 3 * v)
        return counts_refused(GT_TABLE_TOO_SHORT, 0);
    size_t ends = 0;
    for (size_t i = 0; i < v; i++) {
        if (valences[i] < 3 || !proper(rings + PLACES * i, valences[i], v, i))
            return counts_refused(GT_RING_IMPROPER, i);
        ends += valences[i];
    }
    gt_counts fault = faces_fault(valences, rings, v);
    if (fault.number) return fault;
    size_t far = plain_first_beyond(positions, v);
    if (far < v) return counts_refused(GT_CONTROL_COORDINATE, far);
    gt_counts answer = {GT_ACCEPTED, 0, v, ends / 2, ends / 3};
    return answer;
}

/* The refusals that all ring calls begin with; gt_make alone does not look at the ring. */
INLINE uint32_t unfit(const uint16_t *valences, size_t valences_length, const uint16_t *rings, size_t rings_length,
                      size_t count, size_t v, int look) {
    if (count < GT_FEWEST_VERTICES || count > GT_MOST_VERTICES) return GT_VERTEX_COUNT;
    if (valences_length < count || rings_length < PLACES * count) return GT_TABLE_TOO_SHORT;
    if (v >= count) return GT_NO_SUCH_VERTEX;
    if (look && !proper(rings + PLACES * v, valences[v], count, v)) return GT_RING_IMPROPER;
    return GT_ACCEPTED;
}

INLINE gt_value unfit_answer(uint32_t number, size_t v) {
    return refused(number, number == GT_RING_IMPROPER ? v : 0);
}

gt_value gt_make(uint16_t *valences, size_t valences_length, uint16_t *rings, size_t rings_length,
                 size_t count, size_t v, const uint16_t *list, size_t list_length) {
    uint32_t number = unfit(valences, valences_length, rings, rings_length, count, v, 0);
    if (number) return refused(number, 0);
    if (list_length > PLACES) return refused(GT_RING_FULL, 0);
    for (size_t i = 0; i < list_length; i++)
        if (list[i] >= count) return refused(GT_NO_SUCH_VERTEX, i);
    if (!proper(list, list_length, count, v)) return refused(GT_NEIGHBOUR_TAKEN, 0);
    uint16_t *row = rings + PLACES * v;
    for (size_t i = 0; i < list_length; i++) row[i] = list[i];
    clear_places(row, list_length);
    valences[v] = (uint16_t)list_length;
    return accepted(0);
}

gt_value gt_erase(uint16_t *valences, size_t valences_length, uint16_t *rings, size_t rings_length,
                  size_t count, size_t v, size_t x) {
    uint32_t number = unfit(valences, valences_length, rings, rings_length, count, v, 1);
    if (number) return unfit_answer(number, v);
    uint16_t *row = rings + PLACES * v;
    size_t valence = valences[v], i = place_of(row, valence, x);
    if (i == valence) return accepted(0);
    for (; i + 1 < valence; i++) row[i] = row[i + 1];
    clear_places(row, valence - 1);
    valences[v] = (uint16_t)(valence - 1);
    return accepted(0);
}

/* The refusals of x in an edit that brings it into the ring of v. */
INLINE uint32_t unfit_newcomer(const uint16_t *row, size_t valence, size_t count, size_t v, size_t x) {
    if (x >= count) return GT_NO_SUCH_VERTEX;
    if (x == v || place_of(row, valence, x) < valence) return GT_NEIGHBOUR_TAKEN;
    return GT_ACCEPTED;
}

gt_value gt_replace(uint16_t *valences, size_t valences_length, uint16_t *rings, size_t rings_length,
                    size_t count, size_t v, size_t a, size_t x) {
    uint32_t number = unfit(valences, valences_length, rings, rings_length, count, v, 1);
    if (number) return unfit_answer(number, v);
    uint16_t *row = rings + PLACES * v;
    size_t valence = valences[v];
    number = unfit_newcomer(row, valence, count, v, x);
    if (number) return refused(number, 0);
    size_t i = place_of(row, valence, a);
    if (i == valence) return accepted(0);
    row[i] = (uint16_t)x;
    clear_places(row, valence);
    return accepted(0);
}

/* Inserts x `behind` places after a's own. */
static gt_value insert(uint16_t *valences, size_t valences_length, uint16_t *rings, size_t rings_length,
                       size_t count, size_t v, size_t a, size_t x, size_t behind) {
    uint32_t number = unfit(valences, valences_length, rings, rings_length, count, v, 1);
    if (number) return unfit_answer(number, v);
    uint16_t *row = rings + PLACES * v;
    size_t valence = valences[v];
    number = unfit_newcomer(row, valence, count, v, x);
    if (number) return refused(number, 0);
    size_t at = place_of(row, valence, a);
    if (at == valence) return accepted(0);
    if (valence == PLACES) return refused(GT_RING_FULL, 0);
    at += behind;
    for (size_t i = valence; i > at; i--) row[i] = row[i - 1];
    row[at] = (uint16_t)x;
    clear_places(row, valence + 1);
    valences[v] = (uint16_t)(valence + 1);
    return accepted(0);
}

gt_value gt_insert_after(uint16_t *valences, size_t valences_length, uint16_t *rings, size_t rings_length,
                         size_t count, size_t v, size_t a, size_t x) {
    return insert(valences, valences_length, rings, rings_length, count, v, a, x, 1);
}

gt_value gt_insert_before(uint16_t *valences, size_t valences_length, uint16_t *rings, size_t rings_length,
                          size_t count, size_t v, size_t a, size_t x) {
    return insert(valences, valences_length, rings, rings_length, count, v, a, x, 0);
}

gt_value gt_contains(const uint16_t *valences, size_t valences_length, const uint16_t *rings, size_t rings_length,
                     size_t count, size_t v, size_t x) {
    uint32_t number = unfit(valences, valences_length, rings, rings_length, count, v, 1);
    if (number) return unfit_answer(number, v);
    return accepted(place_of(rings + PLACES * v, valences[v], x) < valences[v]);
}

/* The neighbour that is `steps` places on from x, counted round the ring. */
static gt_value around(const uint16_t *valences, size_t valences_length, const uint16_t *rings, size_t rings_length,
                       size_t count, size_t v, size_t x, int forward) {
    uint32_t number = unfit(valences, valences_length, rings, rings_length, count, v, 1);
    gt_value answer = unfit_answer(number, v);
    answer.value = GT_NULL_VERTEX;
    if (number) return answer;
    const uint16_t *row = rings + PLACES * v;
    size_t valence = valences[v], i = place_of(row, valence, x);
    if (i == valence) return answer;
    answer.value = forward ? row[i + 1 == valence ? 0 : i + 1] : row[i == 0 ? valence - 1 : i - 1];
    return answer;
}

gt_value gt_next(const uint16_t *valences, size_t valences_length, const uint16_t *rings, size_t rings_length,
                 size_t count, size_t v, size_t x) {
    return around(valences, valences_length, rings, rings_length, count, v, x, 1);
}

gt_value gt_prev(const uint16_t *valences, size_t valences_length, const uint16_t *rings, size_t rings_length,
                 size_t count, size_t v, size_t x) {
    return around(valences, valences_length, rings, rings_length, count, v, x, 0);
}

gt_value gt_valence(const uint16_t *valences, size_t valences_length, const uint16_t *rings, size_t rings_length,
                    size_t count, size_t v) {
    uint32_t number = unfit(valences, valences_length, rings, rings_length, count, v, 1);
    if (number) return unfit_answer(number, v);
    return accepted(valences[v]);
}
