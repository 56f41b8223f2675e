#include "reference.h"

#include <stdio.h>
#include <string.h>

/* ---- Lines */

enum { FIELD = 8, FIELDS = 3, MOST_ROWS = 16, MOST_TICKS = 100000, WINDOW_LIMIT = 1000000 };

void reference_line(uint8_t line[REFERENCE_LINE], uint32_t first, uint32_t second, uint32_t third)
{
    char printed[64];
    snprintf(printed, sizeof printed, "%8lu%8lu%8lu\n", (unsigned long)first,
             (unsigned long)second, (unsigned long)third);
    memcpy(line, printed, REFERENCE_LINE);
}

/* The number that prints as this field, or -1. The only candidate is the number of the digits in the
 * field, wherever they stand: print it and look whether the field comes out. */
static long field_value(const uint8_t *field)
{
    char printed[32];
    unsigned long candidate = 0;
    for (int i = 0; i < FIELD; i++) {
        const char *digit = memchr("0123456789", field[i], 10);
        if (digit != NULL) {
            candidate = candidate * 10 + (unsigned long)(*digit - '0');
        }
    }
    snprintf(printed, sizeof printed, "%8lu", candidate);
    return memcmp(printed, field, FIELD) == 0 ? (long)candidate : -1;
}

/* ---- What a text says, or the fault that it has */

typedef struct {
    uint32_t cost, period, deadline;
} task;

typedef struct {
    uint32_t order, budget, period;
    uint32_t count;
    task rows[MOST_ROWS];
} problem;

typedef struct {
    uint32_t number, first, second; /* number 0: no fault */
} outcome;

static outcome fault(uint32_t number, uint32_t first, uint32_t second)
{
    outcome o = {number, first, second};
    return o;
}

static outcome read_text(const uint8_t *text, size_t text_len, problem *p)
{
    uint32_t numbers[MOST_ROWS + 1][FIELDS];
    if (text_len == 0 || text_len > REFERENCE_LONGEST || text_len % REFERENCE_LINE != 0) {
        return fault(11, 0, 0);
    }
    uint32_t lines = (uint32_t)(text_len / REFERENCE_LINE);
    for (uint32_t l = 0; l < lines; l++) {
        const uint8_t *line = text + l * REFERENCE_LINE;
        if (line[REFERENCE_LINE - 1] != 10) {
            return fault(12, l + 1, 0);
        }
        for (uint32_t f = 0; f < FIELDS; f++) {
            long value = field_value(line + f * FIELD);
            if (value < 0) {
                return fault(13, l + 1, f + 1);
            }
            numbers[l][f] = (uint32_t)value;
        }
    }
    p->order = numbers[0][0];
    p->budget = numbers[0][1];
    p->period = numbers[0][2];
    p->count = lines - 1;
    if (p->order != 1 && p->order != 2) {
        return fault(14, 1, 1);
    }
    if (p->budget < 1 || p->budget > p->period || p->period > MOST_TICKS) {
        return fault(21, p->budget, p->period);
    }
    for (uint32_t i = 0; i < p->count; i++) {
        task *row = &p->rows[i];
        row->cost = numbers[i + 1][0];
        row->period = numbers[i + 1][1];
        row->deadline = numbers[i + 1][2];
        if (row->cost < 1 || row->deadline < row->cost || row->period < row->deadline ||
            row->period > MOST_TICKS) {
            return fault(32, i + 1, 0);
        }
    }
    return fault(0, 0, 0);
}

/* ---- The periodic server, one tick at a time */

typedef struct {
    uint32_t budget, period, left, owed;
} server;

static server fresh(uint32_t budget, uint32_t period)
{
    server s = {budget, period, period, budget};
    return s;
}

static uint32_t step(server *s, int offer)
{
    uint32_t granted = s->owed >= 1 && (offer || s->owed == s->left);
    s->owed -= granted;
    s->left -= 1;
    if (s->left == 0) {
        s->left = s->period;
        s->owed = s->budget;
    }
    return granted;
}

/* The server just after it has given its whole budget at once, as early as it can. From here on, with
 * every offer no, the next grants come as late as they can. */
static server emptied(uint32_t budget, uint32_t period)
{
    server s = fresh(budget, period);
    for (uint32_t i = 0; i < budget; i++) {
        step(&s, 1);
    }
    return s;
}

uint32_t reference_bound(uint32_t budget, uint32_t period, uint32_t ticks)
{
    server s = emptied(budget, period);
    uint32_t granted = 0;
    for (uint32_t i = 0; i < ticks; i++) {
        granted += step(&s, 0);
    }
    return granted;
}

uint32_t reference_formula(uint32_t budget, uint32_t period, uint32_t ticks)
{
    uint32_t gap = period - budget;
    if (ticks <= gap) {
        return 0;
    }
    uint32_t k = (ticks - gap + period - 1) / period;
    if (k * period - budget < ticks && ticks + 2 * budget <= (k + 1) * period) {
        return (k - 1) * budget;
    }
    return ticks - (k + 1) * gap;
}

int reference_bound_is_least(uint32_t budget, uint32_t period, uint32_t ticks)
{
    enum { SIDE = 33 };
    if (period >= SIDE) {
        return 0;
    }
    /* Every state that some offers lead to. */
    static uint8_t reached[SIDE][SIDE];
    memset(reached, 0, sizeof reached);
    reached[period][budget] = 1;
    for (int grew = 1; grew;) {
        grew = 0;
        for (uint32_t left = 1; left <= period; left++) {
            for (uint32_t owed = 0; owed <= budget; owed++) {
                for (int offer = 0; reached[left][owed] && offer < 2; offer++) {
                    server s = {budget, period, left, owed};
                    step(&s, offer);
                    if (!reached[s.left][s.owed]) {
                        reached[s.left][s.owed] = 1;
                        grew = 1;
                    }
                }
            }
        }
    }
    /* The fewest grants in t ticks from each state, over all offers: one more tick at a time. */
    static uint32_t fewest[SIDE][SIDE], before[SIDE][SIDE];
    memset(fewest, 0, sizeof fewest);
    for (uint32_t t = 0; t <= ticks; t++) {
        uint32_t least = UINT32_MAX;
        for (uint32_t left = 1; left <= period; left++) {
            for (uint32_t owed = 0; owed <= budget; owed++) {
                if (reached[left][owed] && fewest[left][owed] < least) {
                    least = fewest[left][owed];
                }
            }
        }
        if (least != reference_bound(budget, period, t)) {
            return 0;
        }
        memcpy(before, fewest, sizeof before);
        for (uint32_t left = 1; left <= period; left++) {
            for (uint32_t owed = 0; owed <= budget; owed++) {
                if (reached[left][owed]) {
                    server no = {budget, period, left, owed}, yes = no;
                    uint32_t without = step(&no, 0);
                    uint32_t with = step(&yes, 1);
                    without += before[no.left][no.owed];
                    with += before[yes.left][yes.owed];
                    fewest[left][owed] = without < with ? without : with;
                }
            }
        }
    }
    return 1;
}

/* ---- The three sums, as they are defined */

static uint32_t ceiling(uint32_t number, uint32_t by)
{
    return (number + by - 1) / by;
}

/* S(t): the work that all rows can release in t ticks. */
static uint32_t released(const problem *p, uint32_t t)
{
    uint32_t sum = 0;
    for (uint32_t i = 0; i < p->count; i++) {
        sum += ceiling(t, p->rows[i].period) * p->rows[i].cost;
    }
    return sum;
}

/* W(i, t): one job of row i, and what the rows before it can release in t ticks. */
static uint32_t workload(const problem *p, uint32_t i, uint32_t t)
{
    uint32_t sum = p->rows[i].cost;
    for (uint32_t j = 0; j < i; j++) {
        sum += ceiling(t, p->rows[j].period) * p->rows[j].cost;
    }
    return sum;
}

/* H(t): the work of the jobs that can be both released and due within t ticks. */
static uint32_t demand(const problem *p, uint32_t t)
{
    uint32_t sum = 0;
    for (uint32_t i = 0; i < p->count; i++) {
        const task *row = &p->rows[i];
        sum += (t + row->period - row->deadline) / row->period * row->cost;
    }
    return sum;
}

/* ---- The walks */

/* The least t from 1 to the limit with S(t) <= B(t), or 0. */
static uint32_t busy_window(const problem *p)
{
    server s = emptied(p->budget, p->period);
    uint32_t granted = 0;
    for (uint32_t t = 1; t <= WINDOW_LIMIT; t++) {
        granted += step(&s, 0);
        if (released(p, t) <= granted) {
            return t;
        }
    }
    return 0;
}

/* The least t from 1 to row i's deadline with W(i, t) <= B(t), or 0. */
static uint32_t response(const problem *p, uint32_t i)
{
    server s = emptied(p->budget, p->period);
    uint32_t granted = 0;
    for (uint32_t t = 1; t <= p->rows[i].deadline; t++) {
        granted += step(&s, 0);
        if (workload(p, i, t) <= granted) {
            return t;
        }
    }
    return 0;
}

/* The least t below the end with H(t) > B(t), or the end. */
static uint32_t first_excess(const problem *p, uint32_t end)
{
    server s = emptied(p->budget, p->period);
    uint32_t granted = 0;
    for (uint32_t t = 0; t < end; t++) {
        if (demand(p, t) > granted) {
            return t;
        }
        granted += step(&s, 0);
    }
    return end;
}

/* ---- The report */

static size_t one_line(uint8_t *out, outcome o)
{
    reference_line(out, o.number, o.first, o.second);
    return REFERENCE_LINE;
}

size_t reference_report(const uint8_t *text, size_t text_len, uint8_t out[REFERENCE_LONGEST])
{
    problem p;
    outcome o = read_text(text, text_len, &p);
    if (o.number != 0) {
        return one_line(out, o);
    }
    if (p.order == 2) {
        uint32_t window = busy_window(&p);
        if (window == 0) {
            return one_line(out, fault(43, 0, WINDOW_LIMIT));
        }
        uint32_t excess = first_excess(&p, window);
        if (excess < window) {
            return one_line(out, fault(42, 0, excess));
        }
        return one_line(out, fault(0, p.count, window));
    }
    uint8_t *line = out;
    reference_line(line, 0, p.count, 0);
    for (uint32_t i = 0; i < p.count; i++) {
        uint32_t least = response(&p, i);
        if (least == 0) {
            return one_line(out, fault(41, i + 1, p.rows[i].deadline));
        }
        line += REFERENCE_LINE;
        reference_line(line, i + 1, least, p.rows[i].deadline);
    }
    return (size_t)(line - out) + REFERENCE_LINE;
}

/* ---- Far beyond the busy window */

static uint64_t common_multiple(uint64_t a, uint64_t b)
{
    uint64_t x = a, y = b;
    while (y != 0) {
        uint64_t rest = x % y;
        x = y;
        y = rest;
    }
    return a / x * b;
}

enum reference_far reference_far(const uint8_t *text, size_t text_len, uint32_t most_ticks)
{
    problem p;
    if (read_text(text, text_len, &p).number != 0 || p.order != 2) {
        return REFERENCE_FAR_SKIPPED;
    }
    uint64_t span = p.period;
    for (uint32_t i = 0; i < p.count && span <= most_ticks; i++) {
        span = common_multiple(span, p.rows[i].period);
    }
    if (3 * span > most_ticks) {
        return REFERENCE_FAR_SKIPPED;
    }
    uint32_t window = busy_window(&p);
    if (window == 0) {
        return REFERENCE_FAR_SKIPPED;
    }
    uint32_t end = (uint32_t)(3 * span) + window;
    uint32_t near = first_excess(&p, window);
    uint32_t far = first_excess(&p, end);
    return (near < window ? far == near : far == end) ? REFERENCE_FAR_AGREES : REFERENCE_FAR_DIFFERS;
}
