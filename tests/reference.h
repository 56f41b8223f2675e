/* A plain decision program to compare the library with: it walks tick by tick, beside a server that
 * it steps tick by tick. It shares no code with the library. */
#ifndef REFERENCE_H
#define REFERENCE_H

#include <stddef.h>
#include <stdint.h>

enum { REFERENCE_LINE = 25, REFERENCE_LONGEST = 425 };

/* Writes one line of three numbers, each at most 99,999,999. */
void reference_line(uint8_t line[REFERENCE_LINE], uint32_t first, uint32_t second, uint32_t third);

/* Writes the report on a text to out, and answers its length. */
size_t reference_report(const uint8_t *text, size_t text_len, uint8_t out[REFERENCE_LONGEST]);

/* B(ticks) of the periodic server: the grants that the reference counts. */
uint32_t reference_bound(uint32_t budget, uint32_t period, uint32_t ticks);

/* The same by the published formula. */
uint32_t reference_formula(uint32_t budget, uint32_t period, uint32_t ticks);

/* Whether for every t up to ticks no reachable state and no offers give fewer grants in t ticks than
 * B(t), and some give as many. By trying all of them: for periods up to 32. */
int reference_bound_is_least(uint32_t budget, uint32_t period, uint32_t ticks);

/* What a walk far beyond the busy window says about an earliest deadline text's report. */
enum reference_far {
    REFERENCE_FAR_SKIPPED, /* the report is of another kind, or the walk would be too long */
    REFERENCE_FAR_AGREES,  /* accepted and demand never exceeds the bound, or 42 with the least t */
    REFERENCE_FAR_DIFFERS
};

/* Walks three hyperperiods of the rows and the server, where that is at most most_ticks. */
enum reference_far reference_far(const uint8_t *text, size_t text_len, uint32_t most_ticks);

#endif
