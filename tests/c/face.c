/* Calls every function of include/pedal.h on small graphs and holds the answers against the worked
 * cases. It compiles as C and as C++. */
#include "pedal.h"

#include <stdio.h>
#include <string.h>

/* How many answers were wrong. */
static int wrong = 0;
/* How many answers were looked at. */
static int looked = 0;

/* Looks at an answer. */
static void expect(int holds, const char *what) {
    looked += 1;
    if (!holds) {
        wrong += 1;
        fprintf(stderr, "face: wrong: %s\n", what);
    }
}

/* Whether two rows have the same first entries. */
static int same(const uint16_t *one, const uint16_t *other, size_t count) {
    return memcmp(one, other, count * sizeof *one) == 0;
}

/* The five parts of a graph, as every function but pedal_view takes them. */
#define GRAPH(name) \
    name##_delays, sizeof name##_delays, name##_types, sizeof name##_types, name##_kinds, name##_from, \
        sizeof name##_from / sizeof *name##_from, name##_to, sizeof name##_to / sizeof *name##_to

/* The eleven-operation graph. */
static const uint8_t eleven_delays[11] = {1, 1, 1, 1, 1, 1, 1, 1, 1, 1, 1};
static const uint8_t eleven_types[11] = {0, 0, 0, 1, 1, 0, 0, 0, 1, 1, 1};
static const size_t eleven_kinds = 2;
static const uint16_t eleven_from[8] = {0, 1, 2, 3, 5, 6, 7, 9};
static const uint16_t eleven_to[8] = {2, 2, 3, 4, 6, 4, 8, 10};
static const uint8_t eleven_units[2] = {2, 2};

/* A ring of three operations. */
static const uint8_t ring_delays[3] = {1, 1, 1};
static const uint8_t ring_types[3] = {0, 0, 0};
static const size_t ring_kinds = 1;
static const uint16_t ring_from[3] = {0, 1, 2};
static const uint16_t ring_to[3] = {1, 2, 0};

/* Two operations of one type on one unit. */
static const uint8_t pair_types[2] = {0, 0};
static const uint8_t one_unit[1] = {1};

/* Case 1: earliest starts. The entries behind the answer stay. */
static void try_asap(void) {
    const uint16_t starts[12] = {1, 1, 2, 3, 4, 1, 2, 1, 2, 1, 2, 77};
    uint16_t out[12] = {0, 0, 0, 0, 0, 0, 0, 0, 0, 0, 0, 77};
    struct pedal_filled answer = pedal_asap(GRAPH(eleven), out, 12);
    expect(answer.refusal == 0 && answer.place == 0, "case 1 is answered");
    expect(same(out, starts, 12), "case 1: the earliest starts");
    answer = pedal_asap(GRAPH(eleven), out, 10);
    expect(answer.refusal == 5 && same(out, starts, 12), "a short row is refused and stays");
}

/* Case 2: latest starts and mobility. */
static void try_bounded(void) {
    const uint16_t starts[11] = {1, 1, 2, 3, 4, 2, 3, 3, 4, 3, 4};
    const uint16_t spare[11] = {0, 0, 0, 0, 0, 1, 1, 2, 2, 2, 2};
    uint16_t out[11];
    struct pedal_filled answer = pedal_alap(GRAPH(eleven), 4, out, 11);
    expect(answer.refusal == 0 && same(out, starts, 11), "case 2: the latest starts");
    answer = pedal_mobility(GRAPH(eleven), 4, out, 11);
    expect(answer.refusal == 0 && same(out, spare, 11), "case 2: mobility");
    expect(pedal_alap(GRAPH(eleven), 3, out, 11).refusal == 9, "case 2: bound 3");
}

/* Case 3: the list schedule, at once and watched. */
static void try_list(void) {
    const uint16_t starts[11] = {1, 1, 2, 3, 4, 2, 3, 3, 4, 1, 2};
    const uint16_t begun[11] = {1, 1, 0, 0, 0, 0, 0, 0, 0, 1, 0};
    uint16_t state[PEDAL_OPERATIONS] = {0};
    uint16_t out[11];
    size_t step = 1;
    struct pedal_scheduled answer = pedal_list(GRAPH(eleven), eleven_units, 2, out, 11);
    expect(answer.refusal == 0 && answer.latency == 4, "case 3: the latency");
    expect(same(out, starts, 11), "case 3: the list schedule");
    step = pedal_advance(GRAPH(eleven), eleven_units, 2, step, state, PEDAL_OPERATIONS).step;
    expect(step == 2 && same(state, begun, 11), "case 3: after one advance");
    while (step < 5) {
        step = pedal_advance(GRAPH(eleven), eleven_units, 2, step, state, PEDAL_OPERATIONS).step;
    }
    expect(same(state, starts, 11), "case 3: after four advances");
    expect(pedal_advance(GRAPH(eleven), eleven_units, 2, step, state, 11).refusal == 2, "a short state");
}

/* Case 6: a cycle, written where there is a row for it. */
static void try_cycle(void) {
    const uint16_t cycle[4] = {0, 1, 2, 77};
    uint16_t out[4] = {77, 77, 77, 77};
    struct pedal_filled answer = pedal_asap(GRAPH(ring), out, 4);
    expect(answer.refusal == 7 && answer.place == 3, "case 6 is refused");
    expect(same(out, cycle, 4), "case 6: the cycle");
}

/* Case 9: all schedules of two operations. */
static void try_all(void) {
    const uint8_t delays[2] = {1, 1};
    const uint16_t listed[2][2] = {{1, 2}, {2, 1}};
    uint16_t out[2] = {0, 0};
    uint16_t after[2];
    struct pedal_listed answer = pedal_first(delays, 2, pair_types, 2, 1, NULL, 0, NULL, 0, one_unit, 1, 2, out, 2);
    expect(answer.refusal == 0 && answer.found == 1 && same(out, listed[0], 2), "case 9: the first");
    memcpy(after, out, sizeof after);
    answer = pedal_next(delays, 2, pair_types, 2, 1, NULL, 0, NULL, 0, one_unit, 1, 2, after, 2, out, 2);
    expect(answer.refusal == 0 && answer.found == 1 && same(out, listed[1], 2), "case 9: the second");
    memcpy(after, out, sizeof after);
    answer = pedal_next(delays, 2, pair_types, 2, 1, NULL, 0, NULL, 0, one_unit, 1, 2, after, 2, out, 2);
    expect(answer.refusal == 0 && answer.found == 0 && same(out, listed[1], 2), "case 9: none left");
}

/* Case 13: over-use and peak use. */
static void try_check(void) {
    const uint8_t delays[2] = {2, 2};
    const uint16_t close[2] = {1, 2};
    const uint16_t apart[2] = {1, 3};
    struct pedal_verdict verdict =
        pedal_check(delays, 2, pair_types, 2, 1, NULL, 0, NULL, 0, one_unit, 1, 4, close, 2);
    struct pedal_peaks peaks = pedal_peak(delays, 2, pair_types, 2, 1, NULL, 0, NULL, 0, close, 2);
    expect(verdict.refusal == 0 && verdict.finding == PEDAL_OVER_USE, "case 13: over-use");
    expect(verdict.first == 2 && verdict.second == 0, "case 13: at step 2, type 0");
    expect(peaks.refusal == 0 && peaks.peak[0] == 2 && peaks.peak[1] == 0, "case 13: peak use");
    verdict = pedal_check(delays, 2, pair_types, 2, 1, NULL, 0, NULL, 0, one_unit, 1, 4, apart, 2);
    expect(verdict.refusal == 0 && verdict.finding == PEDAL_LAWFUL, "case 13: lawful");
}

/* Views of two tables. */
static void try_view(void) {
    const uint16_t a[3] = {1, 2, 3};
    const uint16_t b[4] = {1, 2, 3, 4};
    struct pedal_part part = pedal_view(a, 3, b, 4, 1, 1, 3);
    expect(part.refusal == 0 && part.start == 1 && part.length == 3, "a part of channel B");
    part = pedal_view(a, 3, b, 4, 0, 1, 3);
    expect(part.refusal == 13 && part.start == 0 && part.length == 0, "a part past the end of channel A");
    expect(pedal_view(a, 3, b, 4, 2, 0, 0).refusal == 12, "a third channel");
}

/* Tries everything; fails if an answer is wrong. */
int main(void) {
    try_asap();
    try_bounded();
    try_list();
    try_cycle();
    try_all();
    try_check();
    try_view();
    printf("%d answers, %d wrong\n", looked, wrong);
    return wrong == 0 ? 0 : 1;
}
