/* Times the library beside the reference, which walks tick by tick, on the same texts in one run.
 *
 *     gcc -std=c11 -O2 -Iloader -o timing tests/timing.c tests/reference.c \
 *         target/staticlib/libreport.a && ./timing
 *
 * Both write into a list that was cleared before the first call. Each figure is the mean of as many
 * calls as fill a quarter of a second. No check depends on it. */
#define _POSIX_C_SOURCE 200809L
#include <stdio.h>
#include <string.h>
#include <time.h>

#include "reference.h"
#include "timerdaisy.h"

typedef struct {
    uint8_t bytes[REFERENCE_LONGEST];
    size_t len;
} text;

static text begin(uint32_t order, uint32_t budget, uint32_t period)
{
    text t;
    reference_line(t.bytes, order, budget, period);
    t.len = REFERENCE_LINE;
    return t;
}

static void add_row(text *t, uint32_t cost, uint32_t period, uint32_t deadline)
{
    reference_line(t->bytes + t->len, cost, period, deadline);
    t->len += REFERENCE_LINE;
}

static size_t by_library(const text *t, uint8_t *out)
{
    return timerdaisy_report(t->bytes, t->len, out, REFERENCE_LONGEST);
}

static size_t by_walking(const text *t, uint8_t *out)
{
    return reference_report(t->bytes, t->len, out);
}

static double seconds(void)
{
    struct timespec now;
    clock_gettime(CLOCK_MONOTONIC, &now);
    return (double)now.tv_sec + (double)now.tv_nsec * 1e-9;
}

/* Microseconds of one call. */
static double time_of(size_t (*report)(const text *, uint8_t *), const text *t, uint8_t *out)
{
    long calls = 0;
    double start = seconds(), passed;
    do {
        report(t, out);
        calls++;
        passed = seconds() - start;
    } while (passed < 0.25);
    return passed * 1e6 / (double)calls;
}

static int differ;

static void row_of_figures(const char *name, const text *t)
{
    uint8_t ours[REFERENCE_LONGEST] = {0}, theirs[REFERENCE_LONGEST] = {0};
    double library = time_of(by_library, t, ours);
    double walking = time_of(by_walking, t, theirs);
    size_t len = by_library(t, ours);
    int same = len == by_walking(t, theirs) && memcmp(ours, theirs, len) == 0;
    printf("%-44s %12.1f %12.1f %10.1f  %.24s%s\n", name, library, walking, walking / library,
           (const char *)theirs, same ? "" : "  DIFFERENT");
    differ = differ || !same;
}

/* 16 rows, each of the same cost and period but the last. */
static text equal_rows(uint32_t order, uint32_t cost, uint32_t last_cost, uint32_t deadline)
{
    text t = begin(order, 1, 1);
    for (int i = 0; i < 15; i++) {
        add_row(&t, cost, 100000, deadline);
    }
    add_row(&t, last_cost, 100000, deadline);
    return t;
}

/* 16 rows over the reservation (7, 10), whose costs are this many thousandths of what fills it. */
static text uneven_rows(uint32_t order, uint32_t thousandths)
{
    static const uint32_t periods[] = {84000, 62233, 66186, 90152, 82795, 65702, 93256, 67590,
                                       73518, 72602, 63647, 78021, 83053, 87307, 99679, 90316};
    text t = begin(order, 7, 10);
    for (int i = 0; i < 16; i++) {
        uint32_t cost = (uint32_t)((uint64_t)periods[i] * 7 * thousandths / (10 * 16 * 1000));
        add_row(&t, cost, periods[i], periods[i]);
    }
    return t;
}

int main(void)
{
    printf("%-44s %12s %12s %10s  %s\n", "text", "library us", "walking us", "ratio", "report");
    text t = begin(1, 4, 10);
    add_row(&t, 4, 40, 30);
    add_row(&t, 6, 80, 60);
    add_row(&t, 20, 250, 150);
    add_row(&t, 30, 500, 350);
    add_row(&t, 8, 500, 500);
    row_of_figures("fixing, fixed priority", &t);
    t.bytes[7] = '2';
    row_of_figures("fixing, earliest deadline", &t);
    t = equal_rows(1, 6250, 6250, 100000);
    row_of_figures("fixed priority, D = T = 100,000", &t);
    t = equal_rows(1, 6250, 6251, 100000);
    row_of_figures("fixed priority, last row refused", &t);
    t = uneven_rows(1, 600);
    row_of_figures("fixed priority, uneven periods", &t);
    t = uneven_rows(2, 971);
    row_of_figures("earliest deadline, window near 1,000,000", &t);
    t = uneven_rows(2, 1001);
    row_of_figures("earliest deadline, open window", &t);
    t = equal_rows(2, 5938, 5938, 95000);
    row_of_figures("earliest deadline, demand above the bound", &t);
    t = begin(2, 1, 1);
    add_row(&t, 1, 2, 2);
    add_row(&t, 16, 64, 64);
    add_row(&t, 15625, 62500, 62500);
    row_of_figures("short periods, window of 1,000,000", &t);
    t = begin(2, 99999, 100000);
    for (int i = 0; i < 16; i++) {
        add_row(&t, 1, 16, 16);
    }
    row_of_figures("short periods, open window", &t);
    t = begin(2, 1, 100000);
    add_row(&t, 1, 100000, 100000);
    row_of_figures("least reservation, one row", &t);
    t = equal_rows(1, 1, 1, 100000);
    t.bytes[t.len - 2] = 'x';
    row_of_figures("last field malformed", &t);
    return differ;
}
