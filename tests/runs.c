/* Compares runs of the library with a plain simulator, answer by answer, on many lists of calls.
 *
 *     gcc -std=c11 -O2 -o runs tests/runs.c tests/run_reference.c tests/reference.c \
 *         target/staticlib/libprobe.a && ./runs
 *
 * Every run makes the same lists. It prints how often each kind of answer was seen, and fails where
 * one never was. The last line is `runs: N lists agree`, with status 0, or the number of mismatches,
 * with status 1. With --short it makes fewer lists, and leaves out the clock's limit, which takes
 * 4,000,000,000 ticks. */
#include <stdio.h>
#include <stdlib.h>
#include <string.h>

#include "probe.h"
#include "random.h"
#include "reference.h"
#include "run_reference.h"

enum {
    MOST_OFFERS = 512,
    MOST_CALLS = 2048,
    MOST_SCRIPT = PROBE_HEAD + MOST_OFFERS + 3 * SIM_MOST_ROWS + 2 * MOST_CALLS,
    LISTED = 3 * PROBE_PLACES,
    MOST_OUT = MOST_CALLS * (PROBE_ANSWER + LISTED),
    BEYOND = 64,
    MOST_TIMES = SIM_MOST_TICKS - 300000 /* no list is ticked further than this */
};

/* ---- What was seen in answers on which library and simulator agree */

static struct {
    long lists, calls, mismatches, faults[60], kinds[5], misses, many_missed, other_missed;
    long ends, ended_when_due, period_apart, one_tick_early, looks, listed, listed_full, tight;
    uint32_t oldest;
} seen;

/* ---- A list of calls with the answers of the simulator */

typedef struct {
    uint32_t asked, argument, answer[SIM_ANSWER];
    uint32_t waiting; /* for a call for the pending jobs: those of the simulator */
    sim_job jobs[SIM_MOST_ROWS];
} call;

static const char *list_name;
static sim_run sim;
static uint32_t offers[MOST_OFFERS], offer_count;
static call calls[MOST_CALLS];
static uint32_t call_count;

static void begin(const char *name, uint32_t order, uint32_t budget, uint32_t period)
{
    list_name = name;
    sim_begin(&sim, (enum sim_order)order, budget, period);
    offer_count = 0;
    call_count = 0;
}

static void before(uint32_t offer)
{
    offers[offer_count++] = offer;
    sim_offer_before(&sim, offer != 0);
}

static void row(uint32_t cost, uint32_t period, uint32_t deadline)
{
    sim_add_row(&sim, cost, period, deadline);
}

static void ask_sim(call *c)
{
    switch (c->asked) {
    case PROBE_RELEASE:
        sim_release(&sim, c->argument, c->answer);
        break;
    case PROBE_END:
        sim_end(&sim, c->argument, c->answer);
        break;
    case PROBE_TICK:
        sim_tick(&sim, c->argument != 0, c->answer);
        break;
    case PROBE_LOOK:
        sim_look(&sim, c->answer);
        break;
    case PROBE_PENDING:
        sim_pending(&sim, c->argument, c->answer);
        c->waiting = sim.waiting;
        memcpy(c->jobs, sim.line, sizeof c->jobs);
        break;
    default:
        for (uint32_t i = 0; i < c->argument; i++) {
            sim_tick(&sim, c->asked == PROBE_TICKS_OFFERED, c->answer);
        }
    }
}

static const call *ask(uint32_t asked, uint32_t argument)
{
    call *c = &calls[call_count++];
    uint32_t last;
    int again = asked == PROBE_RELEASE && sim_last_release(&sim, argument, &last);
    c->asked = asked;
    c->argument = argument;
    ask_sim(c);
    if (again && c->answer[0] == 0 && sim.clock - last == sim.rows[argument - 1].period) {
        seen.period_apart++;
    }
    return c;
}

static int full(void)
{
    return call_count == MOST_CALLS;
}

/* ---- One comparison */

static void print_numbers(const char *name, const uint32_t *numbers, size_t count)
{
    printf("    %s:", name);
    for (size_t i = 0; i < count; i++) {
        printf(" %u", (unsigned)numbers[i]);
    }
    printf("\n");
}

static void mismatch(const char *what, uint32_t at, const uint32_t *expected, const uint32_t *found)
{
    seen.mismatches++;
    if (seen.mismatches > 10) {
        return;
    }
    printf("MISMATCH: %s: %s, call %u of %u\n", list_name, what, (unsigned)at, (unsigned)call_count);
    printf("    order %d, server (%u, %u) after %u offers\n", (int)sim.order, (unsigned)sim.budget,
           (unsigned)sim.server_period, (unsigned)offer_count);
    for (uint32_t i = 0; i < sim.count; i++) {
        printf("    row %u: %u %u %u\n", (unsigned)(i + 1), (unsigned)sim.rows[i].cost,
               (unsigned)sim.rows[i].period, (unsigned)sim.rows[i].deadline);
    }
    for (uint32_t i = at < 40 ? 0 : at - 40; i <= at && i < call_count; i++) {
        printf("    call %u: %u of %u\n", (unsigned)i, (unsigned)calls[i].asked,
               (unsigned)calls[i].argument);
    }
    print_numbers("expected", expected, PROBE_ANSWER);
    print_numbers("found", found, PROBE_ANSWER);
}

static size_t write_script(uint32_t *script)
{
    uint32_t head[PROBE_HEAD] = {(uint32_t)sim.order, sim.budget, sim.server_period,
                                 offer_count,         sim.count,  call_count};
    size_t len = PROBE_HEAD;
    memcpy(script, head, sizeof head);
    memcpy(script + len, offers, offer_count * sizeof *offers);
    len += offer_count;
    for (uint32_t i = 0; i < sim.count; i++) {
        script[len++] = sim.rows[i].cost;
        script[len++] = sim.rows[i].period;
        script[len++] = sim.rows[i].deadline;
    }
    for (uint32_t i = 0; i < call_count; i++) {
        script[len++] = calls[i].asked;
        script[len++] = calls[i].argument;
    }
    return len;
}

/* Whether the list holds one record for each waiting job and no other, in any order, and every place
 * after them is as it was; where the call was refused, every place. */
static int lists_jobs(const call *c, const uint32_t *places)
{
    uint32_t told = c->answer[0] == 0 ? c->waiting : 0, found = 0;
    for (uint32_t i = 0; i < told; i++) {
        for (uint32_t k = 0; k < told; k++) {
            found += places[3 * k] == c->jobs[i].row && places[3 * k + 1] == c->jobs[i].release &&
                     places[3 * k + 2] == c->jobs[i].deadline;
        }
    }
    for (uint32_t i = 3 * told; i < LISTED; i++) {
        if (places[i] != PROBE_UNTOUCHED) {
            return 0;
        }
    }
    return found == told;
}

static void note_age(uint32_t age)
{
    seen.oldest = age > seen.oldest ? age : seen.oldest;
}

static void note_tick(const call *c)
{
    seen.kinds[c->answer[1]]++;
    seen.misses += c->answer[4] > 0;
    seen.many_missed += c->answer[4] > 1;
    seen.other_missed += c->answer[4] > 0 && c->answer[2] != 0 && c->answer[5] != c->answer[2];
    if (c->answer[1] == 4) {
        note_age(c->answer[3]);
        seen.ended_when_due += c->answer[3] == sim.rows[c->answer[2] - 1].deadline;
    }
}

static void note(const call *c)
{
    seen.calls++;
    if (c->answer[0] != 0) {
        seen.faults[c->answer[0]]++;
        seen.one_tick_early += c->answer[0] == 52 && c->answer[3] == 1;
    } else if (c->asked == PROBE_LOOK) {
        seen.looks++;
    } else if (c->asked == PROBE_PENDING) {
        seen.listed += c->waiting > 0;
        seen.listed_full += c->waiting == SIM_MOST_ROWS;
    } else if (c->asked == PROBE_END) {
        seen.ends++;
        note_age(c->answer[1]);
    } else if (c->asked != PROBE_RELEASE) {
        note_tick(c);
    }
}

/* Hands the list to the library and compares its answers with those of the simulator. */
static void compare(void)
{
    static uint32_t script[MOST_SCRIPT], out[MOST_OUT + BEYOND];
    size_t len = write_script(script), at = 0, wanted = 0;
    for (uint32_t i = 0; i < call_count; i++) {
        wanted += PROBE_ANSWER + (calls[i].asked == PROBE_PENDING ? LISTED : 0);
    }
    memset(out, 0x5A, (wanted + BEYOND) * sizeof *out);
    size_t written = timerdaisy_probe(script, len, out, MOST_OUT);

    seen.lists++;
    for (uint32_t i = 0; i < call_count; i++) {
        const call *c = &calls[i];
        if (memcmp(out + at, c->answer, sizeof c->answer) != 0) {
            mismatch("the answer differs", i, c->answer, out + at);
            return;
        }
        at += PROBE_ANSWER;
        if (c->asked == PROBE_PENDING) {
            if (!lists_jobs(c, out + at)) {
                mismatch("the pending jobs differ", i, c->answer, out + at);
                return;
            }
            at += LISTED;
        }
        note(c);
    }
    for (size_t i = wanted; i < wanted + BEYOND; i++) {
        if (out[i] != UINT32_C(0x5A5A5A5A) || written != wanted) {
            mismatch("the length differs", call_count, out, out + i);
            return;
        }
    }
}

/* ---- The stated cases, with the answers that the rules give written down here */

/* What the call before must have been answered. */
static void told(uint32_t a, uint32_t b, uint32_t c, uint32_t d, uint32_t e, uint32_t f)
{
    uint32_t stated[SIM_ANSWER] = {a, b, c, d, e, f};
    const call *last = &calls[call_count - 1];
    if (memcmp(last->answer, stated, sizeof stated) != 0) {
        mismatch("the simulator differs from the stated answer", call_count - 1, stated,
                 last->answer);
    }
}

static void accepted(uint32_t asked, uint32_t row)
{
    ask(asked, row);
    told(0, 0, 0, 0, 0, 0);
}

static void refused(uint32_t asked, uint32_t argument, uint32_t number, uint32_t first,
                    uint32_t second)
{
    ask(asked, argument);
    told(number, 5, first, second, 0, 0);
}

static void ticked(uint32_t offer, uint32_t kind, uint32_t row, uint32_t age, uint32_t missed,
                   uint32_t lowest)
{
    ask(PROBE_TICK, offer);
    told(0, kind, row, age, missed, lowest);
}

static void looked(uint32_t clock, uint32_t granted, uint32_t ran, uint32_t idle)
{
    ask(PROBE_LOOK, 0);
    told(0, clock, granted, ran, idle, 0);
}

static void pending(uint32_t count)
{
    ask(PROBE_PENDING, PROBE_PLACES);
    told(0, count, 0, 0, 0, 0);
}

static void stated(uint32_t order)
{
    begin("the same row released twice at one clock", order, 1, 1);
    row(2, 7, 7);
    accepted(PROBE_RELEASE, 1);
    refused(PROBE_RELEASE, 1, 52, 1, 7);
    pending(1);
    ticked(0, 3, 1, 0, 0, 0);
    ticked(0, 4, 1, 2, 0, 0);
    refused(PROBE_RELEASE, 1, 52, 1, 5);
    compare();

    begin("a job that ends on its deadline is no miss", order, 1, 1);
    row(2, 5, 2);
    accepted(PROBE_RELEASE, 1);
    ticked(0, 3, 1, 0, 0, 0);
    ticked(0, 4, 1, 2, 0, 0);
    pending(0);
    compare();

    begin("a job that wants a tick more on its deadline is missed", order, 1, 2);
    row(2, 5, 2);
    accepted(PROBE_RELEASE, 1);
    ticked(0, 1, 0, 0, 0, 0);
    ticked(0, 3, 1, 0, 1, 1);
    pending(0);
    refused(PROBE_END, 1, 53, 1, 0);
    looked(2, 1, 1, 0);
    compare();

    begin("releases exactly a period apart", order, 1, 1);
    row(1, 3, 3);
    accepted(PROBE_RELEASE, 1);
    ticked(1, 4, 1, 1, 0, 0);
    ticked(1, 2, 0, 0, 0, 0);
    refused(PROBE_RELEASE, 1, 52, 1, 1);
    ticked(1, 2, 0, 0, 0, 0);
    accepted(PROBE_RELEASE, 1);
    ticked(1, 4, 1, 1, 0, 0);
    looked(4, 4, 2, 2);
    compare();

    begin("an end between release and first tick", order, 1, 1);
    row(1, 3, 3);
    accepted(PROBE_RELEASE, 1);
    ask(PROBE_END, 1);
    told(0, 0, 0, 0, 0, 0);
    refused(PROBE_END, 1, 53, 1, 0);
    pending(0);
    ticked(1, 2, 0, 0, 0, 0);
    refused(PROBE_RELEASE, 1, 52, 1, 2);
    compare();

    begin("an end in the middle of the work", order, 1, 1);
    row(9, 9, 9);
    accepted(PROBE_RELEASE, 1);
    ticked(0, 3, 1, 0, 0, 0);
    ticked(0, 3, 1, 0, 0, 0);
    ask(PROBE_END, 1);
    told(0, 2, 0, 0, 0, 0);
    looked(2, 2, 2, 0);
    compare();

    begin("two jobs missed in one tick, and the lowest row told", order, 1, 100);
    row(1, 9, 9);
    row(1, 9, 2);
    row(1, 9, 2);
    accepted(PROBE_RELEASE, 3);
    accepted(PROBE_RELEASE, 2);
    accepted(PROBE_RELEASE, 1);
    ticked(0, 1, 0, 0, 0, 0);
    refused(PROBE_PENDING, 2, 55, 3, 2);
    ticked(0, 1, 0, 0, 2, 2);
    pending(1);
    compare();

    begin("no row at all", order, 1, 1);
    refused(PROBE_RELEASE, 1, 51, 1, 0);
    refused(PROBE_END, 0, 51, 0, 0);
    ticked(0, 2, 0, 0, 0, 0);
    pending(0);
    looked(1, 1, 0, 1);
    compare();

    begin("rows that are not in the table", order, 1, 1);
    row(1, 5, 5);
    row(1, 5, 5);
    refused(PROBE_RELEASE, 0, 51, 0, 2);
    refused(PROBE_RELEASE, 3, 51, 3, 2);
    refused(PROBE_RELEASE, UINT32_MAX, 51, UINT32_MAX, 2);
    refused(PROBE_END, UINT32_MAX, 51, UINT32_MAX, 2);
    accepted(PROBE_RELEASE, 2);
    ticked(0, 4, 2, 1, 0, 0);
    compare();
}

/* Where the two orders part. */
static void stated_orders(void)
{
    for (uint32_t order = PROBE_FIXED_PRIORITY; order <= PROBE_EARLIEST_DEADLINE; order++) {
        uint32_t first = order == PROBE_FIXED_PRIORITY ? 1 : 2;
        begin("the higher row is due earlier", order, 1, 1);
        row(2, 20, 10);
        row(2, 20, 9);
        accepted(PROBE_RELEASE, 1);
        accepted(PROBE_RELEASE, 2);
        ticked(0, 3, first, 0, 0, 0);
        ticked(0, 4, first, 2, 0, 0);
        ticked(0, 3, 3 - first, 0, 0, 0);
        compare();

        begin("two jobs due together", order, 1, 1);
        row(2, 20, 9);
        row(2, 20, 10);
        accepted(PROBE_RELEASE, 2);
        ticked(0, 3, 2, 0, 0, 0);
        accepted(PROBE_RELEASE, 1);
        ticked(0, 3, 1, 0, 0, 0);
        ticked(0, 4, 1, 2, 0, 0);
        ticked(0, 4, 2, 4, 0, 0);
        compare();
    }
}

/* ---- The clock's limit, which the simulator's history does not reach */

static void limit(void)
{
    enum { COUNT = 15 };
    static const uint32_t script[] = {
        PROBE_EARLIEST_DEADLINE, 1, 2, 0, 1, COUNT, /* a server (1, 2), one row */
        1, 1, 1,
        PROBE_TICKS_UNOFFERED, 3999999999,
        PROBE_RELEASE, 1,
        PROBE_TICK, 0,
        PROBE_TICK, 0,
        PROBE_TICK, 1,
        PROBE_LOOK, 0,
        PROBE_PENDING, 3,
        PROBE_RELEASE, 1,
        PROBE_PENDING, 3,
        PROBE_TICK, 1,
        PROBE_TICKS_OFFERED, 3,
        PROBE_LOOK, 0,
        PROBE_PENDING, 3,
        PROBE_RELEASE, 1,
        PROBE_END, 1,
    };
    static const uint32_t stated[COUNT][PROBE_ANSWER] = {
        {0, 1, 0, 0, 0, 0},
        {0, 0, 0, 0, 0, 0},
        {0, 4, 1, 1, 0, 0},
        {54, 5, 0, 0, 0, 0},
        {54, 5, 0, 0, 0, 0},
        {0, 4000000000, 2000000000, 1, 1999999999, 0},
        {0, 0, 0, 0, 0, 0},
        {0, 0, 0, 0, 0, 0},
        {0, 1, 0, 0, 0, 0}, /* with the job below */
        {54, 5, 0, 0, 0, 0},
        {54, 5, 0, 0, 0, 0},
        {0, 4000000000, 2000000000, 1, 1999999999, 0},
        {0, 1, 0, 0, 0, 0}, /* with the same */
        {52, 5, 1, 1, 0, 0},
        {0, 0, 0, 0, 0, 0},
    };
    static const uint32_t job[] = {1, 4000000000, 4000000001};
    static uint32_t out[COUNT * (PROBE_ANSWER + LISTED)];
    size_t at = 0;
    begin("the clock at its limit", PROBE_EARLIEST_DEADLINE, 1, 2);
    timerdaisy_probe(script, sizeof script / sizeof *script, out, sizeof out / sizeof *out);
    seen.lists++;
    for (uint32_t i = 0; i < COUNT; i++) {
        uint32_t asked = script[PROBE_HEAD + 3 + 2 * i];
        if (memcmp(out + at, stated[i], sizeof stated[i]) != 0) {
            mismatch("the answer differs from the stated one", i, stated[i], out + at);
        }
        seen.faults[out[at] % 60]++;
        at += PROBE_ANSWER;
        if (asked == PROBE_PENDING) {
            uint32_t places[LISTED];
            memset(places, 0xA5, sizeof places);
            memcpy(places, job, stated[i][1] == 1 ? sizeof job : 0);
            if (memcmp(out + at, places, sizeof places) != 0) {
                mismatch("the pending jobs differ from those stated", i, places, out + at);
            }
            at += LISTED;
        }
    }
}

/* ---- Random lists */

/* Offers come with so many chances in four. */
static uint32_t offer_with(uint32_t chances)
{
    return random_below(4) < chances;
}

static void random_row(uint32_t longest, uint32_t share)
{
    uint32_t period = random_between(1, longest);
    uint32_t deadline = random_below(2) ? period : random_between(1, period);
    uint32_t most = random_below(2) ? deadline : 1 + (deadline - 1) / share;
    row(random_between(1, most), period, deadline);
}

/* A server of any kind, in a state that it comes to with random offers. */
static void random_server(const char *name, uint32_t order, uint32_t longest)
{
    uint32_t period = random_below(3) == 0 ? 1 : random_between(1, longest);
    uint32_t budget = random_below(3) == 0 ? period : random_between(1, period);
    begin(name, order, budget, period);
    uint32_t most = period < MOST_OFFERS / 3 ? 3 * period : MOST_OFFERS;
    uint32_t count = random_below(3) == 0 ? 0 : random_below(most), chances = random_below(5);
    for (uint32_t i = 0; i < count; i++) {
        before(offer_with(chances));
    }
}

static uint32_t wrong_row(void)
{
    switch (random_below(3)) {
    case 0:
        return 0;
    case 1:
        return sim.count + 1;
    default:
        return (sim.count + 1) | random_below(UINT32_MAX);
    }
}

static uint32_t any_row(void)
{
    return sim.count == 0 || random_below(20) == 0 ? wrong_row() : random_between(1, sim.count);
}

static uint32_t random_room(void)
{
    switch (random_below(4)) {
    case 0:
        return sim.waiting;
    case 1:
        return sim.waiting > 0 ? sim.waiting - 1 : 0;
    case 2:
        return PROBE_PLACES;
    default:
        return random_below(PROBE_PLACES + 1);
    }
}

static void tick_to(uint32_t clock, uint32_t chances)
{
    if (clock > sim.clock && clock < MOST_TIMES && !full()) {
        ask(offer_with(chances) ? PROBE_TICKS_OFFERED : PROBE_TICKS_UNOFFERED, clock - sim.clock);
    }
}

/* Ticks to where a row may be released again, or to one tick before, and releases it. */
static void to_next_release(uint32_t chances)
{
    uint32_t number = any_row(), last;
    if (number >= 1 && number <= sim.count && sim_last_release(&sim, number, &last)) {
        tick_to(last + sim.rows[number - 1].period - random_below(2), chances);
        if (!full()) {
            ask(PROBE_RELEASE, number);
        }
    }
}

/* Ticks to one tick before a waiting job is due, and then one tick more. */
static void to_a_deadline(uint32_t chances)
{
    if (sim.waiting > 0) {
        tick_to(sim.line[random_below(sim.waiting)].deadline - 1, chances);
        if (!full()) {
            ask(PROBE_TICK, offer_with(chances));
        }
    }
}

static void random_call(uint32_t chances)
{
    uint32_t roll = random_below(100);
    if (roll < 30) {
        ask(PROBE_RELEASE, any_row());
    } else if (roll < 37) {
        ask(PROBE_END, any_row());
    } else if (roll < 42) {
        ask(PROBE_LOOK, 0);
    } else if (roll < 48) {
        ask(PROBE_PENDING, random_room());
    } else if (roll < 84) {
        ask(PROBE_TICK, offer_with(chances));
    } else if (roll < 88) {
        tick_to(sim.clock + random_between(1, 20), chances);
    } else if (roll < 94) {
        to_next_release(chances);
    } else {
        to_a_deadline(chances);
    }
}

static void random_list(uint32_t order, uint32_t longest)
{
    random_server("a random list", order, random_below(2) ? longest : 6);
    uint32_t rows = random_below(4) == 0 ? random_below(17) : random_below(6);
    uint32_t chances = random_below(5), count = random_between(5, 150);
    if (random_below(50) == 0) {
        rows = SIM_MOST_ROWS;
    }
    for (uint32_t i = 0; i < rows; i++) {
        random_row(longest, rows);
    }
    if (random_below(4) == 0) {
        for (uint32_t i = rows; i > 0; i--) {
            ask(PROBE_RELEASE, i);
        }
    }
    while (call_count < count) {
        random_call(chances);
    }
    ask(PROBE_LOOK, 0);
    ask(PROBE_PENDING, PROBE_PLACES);
    compare();
}

static void random_lists(uint32_t order, long count)
{
    static const uint32_t longest[] = {4, 8, 30, 200};
    for (long i = 0; i < count; i++) {
        random_list(order, i % 200 == 0 ? 100000 : longest[i % 4]);
    }
}

/* ---- Tables that the order's own test accepts: no tick misses a job */

/* The report on the table by the plain decision program; whether it accepts. */
static int reported(uint8_t report[REFERENCE_LONGEST])
{
    uint8_t text[REFERENCE_LONGEST];
    size_t len = REFERENCE_LINE;
    double used = 0;
    reference_line(text, (uint32_t)sim.order, sim.budget, sim.server_period);
    for (uint32_t i = 0; i < sim.count; i++) {
        const sim_row *r = &sim.rows[i];
        used += (double)r->cost / r->period;
        reference_line(text + len, r->cost, r->period, r->deadline);
        len += REFERENCE_LINE;
    }
    if (used * sim.server_period > sim.budget) {
        return 0; /* it would look for a window for a million ticks */
    }
    reference_report(text, len, report);
    return memcmp(report, "       0", 8) == 0;
}

/* How old a job of the row may be as it ends: the response that was reported, or the deadline. */
static uint32_t oldest_allowed(const uint8_t *report, uint32_t number)
{
    char field[9] = {0};
    if (sim.order == SIM_EARLIEST_DEADLINE) {
        return sim.rows[number - 1].deadline;
    }
    memcpy(field, report + number * REFERENCE_LINE + 8, 8);
    return (uint32_t)strtoul(field, NULL, 10);
}

static void in_time(const call *c, const uint8_t *report)
{
    if (c->answer[4] != 0) {
        mismatch("an accepted table missed a job", call_count - 1, c->answer, c->answer);
    } else if (c->answer[1] == 4) {
        uint32_t allowed = oldest_allowed(report, c->answer[2]);
        seen.tight += c->answer[3] == allowed;
        if (c->answer[3] > allowed) {
            mismatch("a job ended too old", call_count - 1, c->answer, c->answer);
        }
    }
}

/* Releases whatever may be released, with so many chances in four; sometimes ends a job. */
static void release_some(uint32_t chances)
{
    for (uint32_t i = 1; i <= sim.count; i++) {
        uint32_t last;
        int may = !sim_last_release(&sim, i, &last) || sim.clock - last >= sim.rows[i - 1].period;
        if (may && (chances >= 4 || random_below(4 * 4) < chances) && !full()) {
            ask(PROBE_RELEASE, i);
        }
    }
    if (random_below(40) == 0 && sim.count > 0 && !full()) {
        ask(PROBE_END, random_between(1, sim.count));
    }
}

/* A server that gave its budget as early as it could, and from then on has only unwilling offers. */
static void poorest_server(uint32_t order, uint32_t longest)
{
    uint32_t period = random_between(1, longest), budget = random_between(1, period);
    begin("a table that is accepted", order, budget, period);
    for (uint32_t i = 0; i < budget; i++) {
        before(1);
    }
}

/* Whether there was such a table. */
static int accepted_list(uint32_t order)
{
    uint8_t report[REFERENCE_LONGEST];
    uint32_t rows = random_between(1, 6), offered = random_below(5), releasing = random_between(1, 4);
    uint32_t poorest = random_below(2);
    if (poorest) {
        offered = 0;
        poorest_server(order, 8);
    } else {
        random_server("a table that is accepted", order, 8);
    }
    for (uint32_t i = 0; i < rows; i++) {
        uint32_t period = random_between(4, 60);
        uint32_t deadline = random_below(2) ? period : random_between((period + 1) / 2, period);
        row(random_between(1, 1 + deadline / (2 * rows)), period, deadline);
    }
    if (!reported(report)) {
        return 0;
    }
    while (sim.clock < 300 && call_count < MOST_CALLS) {
        release_some(releasing);
        if (!full()) {
            in_time(ask(PROBE_TICK, offer_with(offered)), report);
        }
    }
    compare();
    return 1;
}

static void accepted_lists(uint32_t order, long count)
{
    for (long i = 0; i < count;) {
        i += accepted_list(order);
    }
}

/* ---- The counts */

static void count_of(const char *what, long count, int needed)
{
    printf("runs: %-52s %10ld\n", what, count);
    if (count == 0 && needed) {
        printf("MISMATCH: that was never seen\n");
        seen.mismatches++;
    }
}

static void print_counts(int all)
{
    count_of("calls", seen.calls, 1);
    count_of("refused with 51, no such row", seen.faults[51], 1);
    count_of("refused with 52, released too soon", seen.faults[52], 1);
    count_of("  by one tick", seen.one_tick_early, 1);
    count_of("refused with 53, nothing to end", seen.faults[53], 1);
    count_of("refused with 54, the last clock", seen.faults[54], all);
    count_of("refused with 55, the list too short", seen.faults[55], 1);
    count_of("released again exactly a period later", seen.period_apart, 1);
    count_of("ticks withheld", seen.kinds[1], 1);
    count_of("ticks idle", seen.kinds[2], 1);
    count_of("ticks that ran a job", seen.kinds[3], 1);
    count_of("ticks that ran a job to its end", seen.kinds[4], 1);
    count_of("  at its deadline", seen.ended_when_due, 1);
    count_of("  accepted table, as old as the bound allows", seen.tight, 1);
    count_of("ticks that missed a job", seen.misses, 1);
    count_of("  more than one", seen.many_missed, 1);
    count_of("  of another row than ran", seen.other_missed, 1);
    count_of("jobs ended by a call", seen.ends, 1);
    count_of("greatest age", (long)seen.oldest, 1);
    count_of("looks", seen.looks, 1);
    count_of("lists of pending jobs, not empty", seen.listed, 1);
    count_of("  of 16 jobs", seen.listed_full, 1);
}

int main(int count, char **words)
{
    int all = !(count == 2 && strcmp(words[1], "--short") == 0);
    for (uint32_t order = PROBE_FIXED_PRIORITY; order <= PROBE_EARLIEST_DEADLINE; order++) {
        stated(order);
        random_lists(order, all ? 30000 : 1000);
        accepted_lists(order, all ? 5000 : 200);
    }
    stated_orders();
    if (all) {
        limit();
    }
    print_counts(all);
    if (seen.mismatches != 0) {
        printf("runs: %ld mismatches\n", seen.mismatches);
        return 1;
    }
    printf("runs: %ld lists agree\n", seen.lists);
    return 0;
}
