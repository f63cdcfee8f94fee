/* The scheduler's face for C and C++. Every function answers and ends whatever is lent to it, relies on no caller, and
 * refuses bad input by the number and place of the table below, the first that applies in its order.
 *
 * A row is a pointer and a length; a row of length 0 may have any pointer. Rows that are only read may overlap each
 * other; an output row overlaps nothing. A graph is five things:
 *
 *   delays, types   one byte for each operation; the number of operations n is delays_len
 *   kinds           K, the number of types
 *   from, to        one 16-bit number for each edge: where it leaves, where it leads
 *
 * refusal  given exactly when                                             place
 *   0      answered                                                       0
 *   1      more than 64 operations, 256 edges or 4 types                  0
 *   2      rows that must match differ in length                          0
 *   3      a delay outside 1 to 16, or a type not below K                 lowest such operation
 *   4      an edge end not below n                                        lowest such edge
 *   5      output row shorter than n                                      0
 *   6      a type in use has no unit                                      lowest such type
 *   7      the graph has a cycle                                          the cycle's length
 *   8      bound above 1,024                                              0
 *   9      bound below the ASAP latency                                   0
 *  10      the product of (mobility + 1) exceeds 1,000,000                0
 *  11      a state to advance has an operation unplaced
 *          and its step outside 1 to 1,024                                0
 *  12      channel neither 0 nor 1                                        0
 *  13      first + count past the end of the chosen table                 0
 *
 * Where an output row is lent, an answer fills its first n entries and the rest stays; refusal 7 writes the cycle, in edge
 * direction from its lowest number, over its first entries; any other refusal writes nothing.
 */
#ifndef PEDAL_H
#define PEDAL_H

#include <stddef.h>
#include <stdint.h>

#ifdef __cplusplus
extern "C" {
#endif

/* The starts of a state, and the most operations of a graph. */
#define PEDAL_OPERATIONS 64
/* The most types of a graph, and the peaks that pedal_peak gives. */
#define PEDAL_KINDS 4

/* A question that fills a row. */
struct pedal_filled {
    size_t refusal;
    size_t place;
};

/* The list schedule; the latency is 0 when refused. */
struct pedal_scheduled {
    size_t refusal;
    size_t place;
    size_t latency;
};

/* The advance: the step that the state now has. */
struct pedal_advanced {
    size_t refusal;
    size_t place;
    size_t step;
};

/* What pedal_check finds. */
enum pedal_finding {
    PEDAL_LAWFUL = 0,
    /* a start of 0 or a finish past the bound: `first` is the operation */
    PEDAL_UNTIMELY = 1,
    /* an edge whose end starts too early: `first` is the edge */
    PEDAL_BROKEN = 2,
    /* more running than there are units: `first` is the step, `second` the type */
    PEDAL_OVER_USE = 3
};

/* The checker's verdict; finding, first and second are 0 when refused. */
struct pedal_verdict {
    size_t refusal;
    size_t place;
    size_t finding;
    size_t first;
    size_t second;
};

/* Peak use: for each type the most operations running at any one step, zeros when refused. */
struct pedal_peaks {
    size_t refusal;
    size_t place;
    size_t peak[PEDAL_KINDS];
};

/* The lister: found is 1 where a schedule was written, 0 where none is left (the row then stays) or refused. */
struct pedal_listed {
    size_t refusal;
    size_t place;
    size_t found;
};

/* A view: where it starts in the chosen table and how many entries it has; both 0 when refused. */
struct pedal_part {
    size_t refusal;
    size_t start;
    size_t length;
};

/* Earliest starts under precedence alone. Refusals 1 to 5 and 7. */
struct pedal_filled pedal_asap(const uint8_t *delays, size_t delays_len, const uint8_t *types, size_t types_len,
                               size_t kinds, const uint16_t *from, size_t from_len, const uint16_t *to, size_t to_len,
                               uint16_t *out, size_t out_len);

/* Latest starts under precedence and the bound. Refusals 1 to 5 and 7 to 9. */
struct pedal_filled pedal_alap(const uint8_t *delays, size_t delays_len, const uint8_t *types, size_t types_len,
                               size_t kinds, const uint16_t *from, size_t from_len, const uint16_t *to, size_t to_len,
                               size_t bound, uint16_t *out, size_t out_len);

/* Latest less earliest starts. Refusals 1 to 5 and 7 to 9. */
struct pedal_filled pedal_mobility(const uint8_t *delays, size_t delays_len, const uint8_t *types, size_t types_len,
                                   size_t kinds, const uint16_t *from, size_t from_len, const uint16_t *to,
                                   size_t to_len, size_t bound, uint16_t *out, size_t out_len);

/* The list schedule under unit counts, one byte for each type. Refusals 1 to 7. */
struct pedal_scheduled pedal_list(const uint8_t *delays, size_t delays_len, const uint8_t *types, size_t types_len,
                                  size_t kinds, const uint16_t *from, size_t from_len, const uint16_t *to,
                                  size_t to_len, const uint8_t *units, size_t units_len, uint16_t *out,
                                  size_t out_len);

/* One step of the list schedule. The state is a step and PEDAL_OPERATIONS starts, 0 for unplaced; the fresh state is step 1
 * and all 0. The starts are changed in place. Refusals 1 to 4, 6, 7 and 11; 2 also where the state has another number of
 * starts. A refused advance leaves the state as it was. */
struct pedal_advanced pedal_advance(const uint8_t *delays, size_t delays_len, const uint8_t *types, size_t types_len,
                                    size_t kinds, const uint16_t *from, size_t from_len, const uint16_t *to,
                                    size_t to_len, const uint8_t *units, size_t units_len, size_t step,
                                    uint16_t *starts, size_t starts_len);

/* Whether a schedule is lawful for the units and the bound, or its first fault. Refusals 1 to 4 and 6 to 8. */
struct pedal_verdict pedal_check(const uint8_t *delays, size_t delays_len, const uint8_t *types, size_t types_len,
                                 size_t kinds, const uint16_t *from, size_t from_len, const uint16_t *to,
                                 size_t to_len, const uint8_t *units, size_t units_len, size_t bound,
                                 const uint16_t *starts, size_t starts_len);

/* Peak use of any row of n starts. Refusals 1 to 4 and 7. */
struct pedal_peaks pedal_peak(const uint8_t *delays, size_t delays_len, const uint8_t *types, size_t types_len,
                              size_t kinds, const uint16_t *from, size_t from_len, const uint16_t *to, size_t to_len,
                              const uint16_t *starts, size_t starts_len);

/* The least lawful schedule, rows compared as words. Refusals 1 to 10. */
struct pedal_listed pedal_first(const uint8_t *delays, size_t delays_len, const uint8_t *types, size_t types_len,
                                size_t kinds, const uint16_t *from, size_t from_len, const uint16_t *to,
                                size_t to_len, const uint8_t *units, size_t units_len, size_t bound, uint16_t *out,
                                size_t out_len);

/* The least lawful schedule after any row of n numbers. Refusals 1 to 10. */
struct pedal_listed pedal_next(const uint8_t *delays, size_t delays_len, const uint8_t *types, size_t types_len,
                               size_t kinds, const uint16_t *from, size_t from_len, const uint16_t *to, size_t to_len,
                               const uint8_t *units, size_t units_len, size_t bound, const uint16_t *after,
                               size_t after_len, uint16_t *out, size_t out_len);

/* A part of channel A's (0) or B's (1) table: its start and length there. Refusals 12 and 13. */
struct pedal_part pedal_view(const uint16_t *a, size_t a_len, const uint16_t *b, size_t b_len, size_t channel,
                             size_t first, size_t count);

#ifdef __cplusplus
}
#endif

#endif
