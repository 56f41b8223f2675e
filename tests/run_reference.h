/* A plain simulator of runs to compare the library with, written from the rules alone. It keeps a
 * history: a line of the jobs waiting, in the order in which they would go; every accepted release;
 * and what every tick was, from which the counters are counted anew. It shares no code with the
 * library. */
#ifndef RUN_REFERENCE_H
#define RUN_REFERENCE_H

#include <stddef.h>
#include <stdint.h>

enum {
    SIM_MOST_ROWS = 16,
    SIM_MOST_RELEASES = 1 << 13,
    SIM_MOST_TICKS = 1 << 21, /* longer runs cannot be simulated */
    SIM_ANSWER = 6
};

enum sim_order { SIM_FIXED_PRIORITY = 1, SIM_EARLIEST_DEADLINE = 2 };

typedef struct {
    uint32_t cost, period, deadline;
} sim_row;

typedef struct {
    uint32_t row, release, deadline, left;
} sim_job;

typedef struct {
    enum sim_order order;
    uint32_t budget, server_period;
    uint64_t server_ticks; /* since the server was made */
    uint32_t given;        /* grants in its present period */
    sim_row rows[SIM_MOST_ROWS];
    uint32_t count;
    sim_job line[SIM_MOST_ROWS]; /* the waiting jobs, the first to go in front */
    uint32_t waiting;
    struct {
        uint32_t row, clock;
    } releases[SIM_MOST_RELEASES];
    uint32_t released;
    uint32_t clock;
    uint8_t history[SIM_MOST_TICKS]; /* the kind of each tick */
} sim_run;

/* A run that has not begun; the server may be ticked before. */
void sim_begin(sim_run *run, enum sim_order order, uint32_t budget, uint32_t period);
void sim_offer_before(sim_run *run, int offer);
void sim_add_row(sim_run *run, uint32_t cost, uint32_t period, uint32_t deadline);

/* The calls. An answer is a fault (number, layer, place) or 0 and what the call tells. */
void sim_release(sim_run *run, uint32_t row, uint32_t answer[SIM_ANSWER]);
void sim_end(sim_run *run, uint32_t row, uint32_t answer[SIM_ANSWER]);
void sim_tick(sim_run *run, int offer, uint32_t answer[SIM_ANSWER]);
void sim_look(const sim_run *run, uint32_t answer[SIM_ANSWER]);
void sim_pending(const sim_run *run, uint32_t room, uint32_t answer[SIM_ANSWER]);

/* The clock of a row's last accepted release; whether there is one. */
int sim_last_release(const sim_run *run, uint32_t row, uint32_t *clock);

#endif
