/* Runs of the library for the tests and measurements in C, as the static library libprobe.a exports
 * them. */
#ifndef PROBE_H
#define PROBE_H

#include <stddef.h>
#include <stdint.h>

enum { PROBE_FIXED_PRIORITY = 1, PROBE_EARLIEST_DEADLINE = 2 };

/* What a call asks; the argument is a row, an offer, the room of a list or a number of ticks. */
enum {
    PROBE_RELEASE = 1,
    PROBE_END = 2,
    PROBE_TICK = 3,
    PROBE_LOOK = 4,
    PROBE_PENDING = 5,
    PROBE_TICKS_UNOFFERED = 6, /* so many ticks, at least one; only the last one's answer is told */
    PROBE_TICKS_OFFERED = 7
};

enum {
    PROBE_HEAD = 6,   /* numbers before the offers of a script */
    PROBE_ANSWER = 6, /* numbers of an answer */
    PROBE_PLACES = 20 /* places of the list that a call for the pending jobs is handed */
};

/* What every number of a place in such a list holds before the call. */
#define PROBE_UNTOUCHED UINT32_C(0xA5A5A5A5)

/* Makes a run and carries out calls.
 *
 * A script is: the order, Q, P, the number of offers, of rows and of calls; then each offer, with
 * which the server is ticked before the run is made; then C, T, D of each row; then each call, as
 * what it asks and its argument.
 *
 * An answer is six numbers: the fault's number and layer and the two of its place, or 0 and what the
 * call tells (the age; kind, row, age, missed and lowest; clock, granted, ran and idle; how many are
 * pending), filled up with 0. After the answer on pending jobs stand the three numbers of each of
 * the 20 places of its list, of which the call was handed as many as its room is. Where the server
 * or a row is refused, that is the only answer.
 *
 * Tells how many numbers all answers take; those that out has no room for are not written. */
size_t timerdaisy_probe(const uint32_t *script, size_t script_len, uint32_t *out, size_t out_len);

/* Passes so many ticks, rounded down to stretches of 6,250, with up to 16 rows pending from the time
 * that all have been released, and tells the sum of what the ticks told: kind, 5 * row, 7 * age,
 * 11 * missed and 13 * lowest of each.
 *
 * The server is (7, 10), and C = T = D = 100,000 in each row. Before stretch i, from 0, row
 * i % 16 + 1 is released; the offer is yes at the ticks i, from 0, of a stretch with i & 4. */
uint64_t timerdaisy_ticks(uint32_t order, uint32_t rows, uint32_t ticks);

#endif
