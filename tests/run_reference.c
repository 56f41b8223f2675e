#include "run_reference.h"

#include <string.h>

#define LAST_CLOCK UINT32_C(4000000000)

enum { WITHHELD = 1, IDLE = 2, RAN = 3, ENDED = 4 };

void sim_begin(sim_run *run, enum sim_order order, uint32_t budget, uint32_t period)
{
    run->order = order;
    run->budget = budget;
    run->server_period = period;
    run->server_ticks = 0;
    run->given = 0;
    run->count = 0;
    run->waiting = 0;
    run->released = 0;
    run->clock = 0;
}

void sim_add_row(sim_run *run, uint32_t cost, uint32_t period, uint32_t deadline)
{
    sim_row row = {cost, period, deadline};
    run->rows[run->count++] = row;
}

static void answer_of(uint32_t answer[SIM_ANSWER], uint32_t a, uint32_t b, uint32_t c, uint32_t d,
                      uint32_t e, uint32_t f)
{
    uint32_t all[SIM_ANSWER] = {a, b, c, d, e, f};
    memcpy(answer, all, sizeof all);
}

static void refuse(uint32_t answer[SIM_ANSWER], uint32_t number, uint32_t first, uint32_t second)
{
    answer_of(answer, number, 5, first, second, 0, 0);
}

/* ---- The server, by its place in the period and what it gave in it */

static int granted(sim_run *run, int offer)
{
    uint32_t place = (uint32_t)(run->server_ticks % run->server_period);
    if (place == 0) {
        run->given = 0;
    }
    uint32_t left_after = run->server_period - place - 1;
    int owes = run->given < run->budget;
    int must = run->given + left_after < run->budget; /* the ticks after this one are too few */
    int grants = owes && (offer || must);
    run->given += (uint32_t)grants;
    run->server_ticks++;
    return grants;
}

void sim_offer_before(sim_run *run, int offer)
{
    granted(run, offer);
}

/* ---- The line of waiting jobs */

static int goes_before(enum sim_order order, const sim_job *a, const sim_job *b)
{
    if (order == SIM_EARLIEST_DEADLINE && a->deadline != b->deadline) {
        return a->deadline < b->deadline;
    }
    return a->row < b->row;
}

static void join_line(sim_run *run, sim_job job)
{
    uint32_t place = run->waiting++;
    while (place > 0 && goes_before(run->order, &job, &run->line[place - 1])) {
        run->line[place] = run->line[place - 1];
        place--;
    }
    run->line[place] = job;
}

static sim_job leave_line(sim_run *run, uint32_t place)
{
    sim_job job = run->line[place];
    run->waiting--;
    memmove(&run->line[place], &run->line[place + 1], (run->waiting - place) * sizeof job);
    return job;
}

/* ---- The calls */

int sim_last_release(const sim_run *run, uint32_t row, uint32_t *clock)
{
    for (uint32_t i = run->released; i > 0; i--) {
        if (run->releases[i - 1].row == row) {
            *clock = run->releases[i - 1].clock;
            return 1;
        }
    }
    return 0;
}

void sim_release(sim_run *run, uint32_t row, uint32_t answer[SIM_ANSWER])
{
    if (row == 0 || row > run->count) {
        refuse(answer, 51, row, run->count);
        return;
    }
    const sim_row *r = &run->rows[row - 1];
    uint32_t last;
    if (sim_last_release(run, row, &last) && run->clock - last < r->period) {
        refuse(answer, 52, row, r->period - (run->clock - last));
        return;
    }
    sim_job job = {row, run->clock, run->clock + r->deadline, r->cost};
    join_line(run, job);
    run->releases[run->released].row = row;
    run->releases[run->released].clock = run->clock;
    run->released++;
    answer_of(answer, 0, 0, 0, 0, 0, 0);
}

void sim_end(sim_run *run, uint32_t row, uint32_t answer[SIM_ANSWER])
{
    if (row == 0 || row > run->count) {
        refuse(answer, 51, row, run->count);
        return;
    }
    for (uint32_t i = 0; i < run->waiting; i++) {
        if (run->line[i].row == row) {
            answer_of(answer, 0, run->clock - leave_line(run, i).release, 0, 0, 0, 0);
            return;
        }
    }
    refuse(answer, 53, row, 0);
}

void sim_tick(sim_run *run, int offer, uint32_t answer[SIM_ANSWER])
{
    uint32_t kind = WITHHELD, row = 0, age = 0, missed = 0, lowest = 0;
    if (run->clock == LAST_CLOCK) {
        refuse(answer, 54, 0, 0);
        return;
    }
    if (granted(run, offer)) {
        kind = IDLE;
        if (run->waiting > 0) {
            kind = RAN;
            row = run->line[0].row;
            if (--run->line[0].left == 0) {
                kind = ENDED;
                age = run->clock + 1 - leave_line(run, 0).release;
            }
        }
    }
    run->history[run->clock++] = (uint8_t)kind;
    for (uint32_t i = run->waiting; i > 0; i--) {
        if (run->line[i - 1].deadline == run->clock) {
            uint32_t late = leave_line(run, i - 1).row;
            missed++;
            lowest = lowest == 0 || late < lowest ? late : lowest;
        }
    }
    answer_of(answer, 0, kind, row, age, missed, lowest);
}

void sim_look(const sim_run *run, uint32_t answer[SIM_ANSWER])
{
    uint32_t of_kind[5] = {0};
    for (uint32_t i = 0; i < run->clock; i++) {
        of_kind[run->history[i]]++;
    }
    uint32_t ran = of_kind[RAN] + of_kind[ENDED];
    answer_of(answer, 0, run->clock, ran + of_kind[IDLE], ran, of_kind[IDLE], 0);
}

void sim_pending(const sim_run *run, uint32_t room, uint32_t answer[SIM_ANSWER])
{
    if (room < run->waiting) {
        refuse(answer, 55, run->waiting, room);
    } else {
        answer_of(answer, 0, run->waiting, 0, 0, 0, 0);
    }
}
