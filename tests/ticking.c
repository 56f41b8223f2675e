/* Times a tick of the library beside a tick in plain C that does the same, in one run.
 *
 *     gcc -std=c11 -O2 -o ticking tests/ticking.c target/staticlib/libprobe.a && ./ticking
 *
 * Both pass the same ticks over the same rows, which are pending nearly all the time (probe.h says
 * which), and add up what the ticks told; status 1 where the sums differ. Each figure is the best of
 * three. No check depends on the figures. */
#define _POSIX_C_SOURCE 200809L
#include <inttypes.h>
#include <stdio.h>
#include <string.h>
#include <time.h>

#include "probe.h"

enum { ROWS = 16, STRETCH = 6250, LONGEST = 100000, TIMES = 3 };

/* ---- A dispatcher in plain C: rows in place, a loop to pick and a loop to strike */

typedef struct {
    int pending;
    uint32_t cost, period, relative, release, deadline, ran, next;
} plain_row;

typedef struct {
    uint32_t order, rows, clock, granted, ran, idle;
    uint32_t budget, period, remaining, owed;
    plain_row row[ROWS];
} plain_run;

typedef struct {
    uint32_t kind, row, age, missed, lowest;
} plain_ticked;

static int server_tick(plain_run *run, int offer)
{
    int grants = run->owed >= 1 && (offer || run->owed == run->remaining);
    run->owed -= (uint32_t)grants;
    if (--run->remaining == 0) {
        run->remaining = run->period;
        run->owed = run->budget;
    }
    return grants;
}

/* The row whose job goes first, or -1. */
static int pick(const plain_run *run)
{
    int best = -1;
    for (uint32_t i = 0; i < run->rows; i++) {
        if (!run->row[i].pending) {
            continue;
        }
        if (run->order == PROBE_FIXED_PRIORITY) {
            return (int)i;
        }
        if (best < 0 || run->row[i].deadline < run->row[best].deadline) {
            best = (int)i;
        }
    }
    return best;
}

static int tick(plain_run *run, int offer, plain_ticked *told)
{
    if (run->clock == UINT32_C(4000000000)) {
        return 0;
    }
    memset(told, 0, sizeof *told);
    told->kind = 1;
    run->clock++;
    if (server_tick(run, offer)) {
        int first = pick(run);
        run->granted++;
        if (first < 0) {
            told->kind = 2;
            run->idle++;
        } else {
            plain_row *r = &run->row[first];
            told->kind = 3;
            told->row = (uint32_t)first + 1;
            run->ran++;
            if (++r->ran == r->cost) {
                told->kind = 4;
                told->age = run->clock - r->release;
                r->pending = 0;
            }
        }
    }
    for (uint32_t i = run->rows; i-- > 0;) {
        if (run->row[i].pending && run->row[i].deadline == run->clock) {
            run->row[i].pending = 0;
            told->missed++;
            told->lowest = i + 1;
        }
    }
    return 1;
}

static void release(plain_run *run, uint32_t number)
{
    if (number < 1 || number > run->rows || run->clock < run->row[number - 1].next) {
        return;
    }
    plain_row *r = &run->row[number - 1];
    r->pending = 1;
    r->release = run->clock;
    r->deadline = run->clock + r->relative;
    r->next = run->clock + r->period;
    r->ran = 0;
}

/* What timerdaisy_ticks does. */
static uint64_t plain_ticks(uint32_t order, uint32_t rows, uint32_t ticks)
{
    plain_run run = {.order = order, .rows = rows, .budget = 7, .period = 10};
    uint64_t sum = 0;
    run.remaining = run.period;
    run.owed = run.budget;
    for (uint32_t i = 0; i < rows; i++) {
        run.row[i].cost = run.row[i].period = run.row[i].relative = LONGEST;
    }
    for (uint32_t i = 0; i < ticks / STRETCH; i++) {
        release(&run, i % 16 + 1);
        for (uint32_t k = 0; k < STRETCH; k++) {
            plain_ticked told;
            if (tick(&run, (k & 4) != 0, &told)) {
                sum += told.kind + 5 * (uint64_t)told.row + 7 * (uint64_t)told.age +
                       11 * (uint64_t)told.missed + 13 * (uint64_t)told.lowest;
            }
        }
    }
    return sum;
}

/* ---- The times */

static double seconds(void)
{
    struct timespec now;
    clock_gettime(CLOCK_MONOTONIC, &now);
    return (double)now.tv_sec + (double)now.tv_nsec * 1e-9;
}

/* Nanoseconds of one tick. */
static double time_of(uint64_t (*ticks_of)(uint32_t, uint32_t, uint32_t), uint32_t order,
                      uint32_t rows, uint32_t ticks, uint64_t *sum)
{
    double best = 0;
    for (int i = 0; i < TIMES; i++) {
        double start = seconds();
        *sum = ticks_of(order, rows, ticks);
        double passed = seconds() - start;
        best = i == 0 || passed < best ? passed : best;
    }
    return best * 1e9 / ticks;
}

int main(void)
{
    static const uint32_t rows[] = {1, 5, 16};
    static const char *names[] = {"", "fixed priority", "earliest deadline"};
    const uint32_t ticks = 20000000;
    int differ = 0;
    printf("%-18s %5s %11s %11s %7s\n", "order", "rows", "library ns", "plain C ns", "ratio");
    for (uint32_t order = PROBE_FIXED_PRIORITY; order <= PROBE_EARLIEST_DEADLINE; order++) {
        for (size_t i = 0; i < sizeof rows / sizeof rows[0]; i++) {
            uint64_t ours, theirs;
            double library = time_of(timerdaisy_ticks, order, rows[i], ticks, &ours);
            double plain = time_of(plain_ticks, order, rows[i], ticks, &theirs);
            printf("%-18s %5u %11.1f %11.1f %7.2f", names[order], (unsigned)rows[i], library, plain,
                   library / plain);
            printf("  %" PRIu64 "%s\n", ours, ours == theirs ? "" : "  DIFFERENT");
            differ = differ || ours != theirs;
        }
    }
    return differ;
}
