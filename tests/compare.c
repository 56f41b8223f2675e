/* Compares the library's report with the reference's, byte for byte, on some hundred thousand texts.
 *
 *     gcc -std=c11 -O2 -Iloader -o compare tests/compare.c tests/reference.c \
 *         target/staticlib/libreport.a && ./compare
 *
 * Every run makes the same texts. The last line is `compare: N texts agree`, with status 0, or the
 * number of mismatches, with status 1. */
#define _DEFAULT_SOURCE
#include <stdio.h>
#include <stdlib.h>
#include <string.h>
#include <sys/mman.h>
#include <unistd.h>

#include "random.h"
#include "reference.h"
#include "timerdaisy.h"

enum { LINE = REFERENCE_LINE, LONGEST = REFERENCE_LONGEST, MOST_ROWS = 16, ROOM = 1000 };

/* ---- Texts under construction */

typedef struct {
    uint8_t bytes[ROOM];
    size_t len;
} text;

static void add_line(text *t, uint32_t first, uint32_t second, uint32_t third)
{
    reference_line(t->bytes + t->len, first, second, third);
    t->len += LINE;
}

static text begin(uint32_t order, uint32_t budget, uint32_t period)
{
    text t;
    t.len = 0;
    add_line(&t, order, budget, period);
    return t;
}

static text from_string(const char *bytes)
{
    text t;
    t.len = strlen(bytes);
    memcpy(t.bytes, bytes, t.len);
    return t;
}

/* ---- One comparison */

static long texts, mismatches, faults_seen[100], accepted_by_priority, accepted_by_deadline, far_walks;

/* The last bytes of a page that has an unreadable one behind it: a read past the text's end is fatal. */
static uint8_t *page_end;

static void make_page(void)
{
    size_t page = (size_t)sysconf(_SC_PAGESIZE);
    uint8_t *both = mmap(NULL, 2 * page, PROT_READ | PROT_WRITE, MAP_PRIVATE | MAP_ANONYMOUS, -1, 0);
    if (both == MAP_FAILED || mprotect(both + page, page, PROT_NONE) != 0) {
        perror("compare");
        exit(1);
    }
    page_end = both + page;
}

static void print_bytes(const char *name, const uint8_t *bytes, size_t len)
{
    printf("%s, %zu bytes:\n", name, len);
    for (size_t i = 0; i < len; i++) {
        if (bytes[i] == '\n') {
            printf("\\n\n");
        } else if (bytes[i] < 32 || bytes[i] > 126) {
            printf("\\x%02x", (unsigned)bytes[i]);
        } else {
            putchar(bytes[i]);
        }
    }
    printf("\n");
}

static void mismatch(const char *what, const text *t, const uint8_t *expected, size_t expected_len,
                     const uint8_t *found, size_t found_len)
{
    mismatches++;
    if (mismatches <= 10) {
        printf("MISMATCH: %s\n", what);
        print_bytes("text", t->bytes, t->len);
        print_bytes("expected", expected, expected_len);
        print_bytes("found", found, found_len <= ROOM ? found_len : 0);
    }
}

/* Calls the library with a list of out_len bytes, all of a value that no report contains, followed
 * by more of them; answers whether it wrote the expected bytes and no other. */
static int call_agrees(const text *t, size_t out_len, const uint8_t *expected, size_t expected_len)
{
    enum { UNTOUCHED = 0xA5, BEYOND = 64 };
    static uint8_t out[ROOM + BEYOND];
    uint8_t *given = page_end - t->len;
    memcpy(given, t->bytes, t->len);
    memset(out, UNTOUCHED, sizeof out);
    size_t wanted = out_len < LONGEST ? 0 : expected_len;

    size_t written = timerdaisy_report(given, t->len, out, out_len);

    if (written != wanted || memcmp(out, expected, wanted) != 0) {
        char what[64];
        snprintf(what, sizeof what, "report into %zu bytes, answered %zu", out_len, written);
        mismatch(what, t, expected, wanted, out, written);
        return 0;
    }
    for (size_t i = written; i < sizeof out; i++) {
        if (out[i] != UNTOUCHED) {
            char what[64];
            snprintf(what, sizeof what, "byte %zu of a list of %zu was written", i, out_len);
            mismatch(what, t, expected, wanted, out, written);
            return 0;
        }
    }
    if (memcmp(given, t->bytes, t->len) != 0) {
        mismatch("the text was written", t, expected, wanted, out, written);
        return 0;
    }
    return 1;
}

static void note_kind(const uint8_t *report, size_t len)
{
    char number[9] = {0};
    memcpy(number, report, 8);
    long n = strtol(number, NULL, 10);
    if (n != 0) {
        faults_seen[n]++;
    } else if (len > LINE || memcmp(report + 16, "       0", 8) == 0) {
        accepted_by_priority++;
    } else {
        accepted_by_deadline++;
    }
}

/* The library is asked with the shortest list that will do, and with another length by turns. */
static void compare(const text *t)
{
    static const size_t lengths[] = {0, 424, 426, ROOM, 1};
    static size_t turn;
    uint8_t expected[LONGEST];
    size_t expected_len = reference_report(t->bytes, t->len, expected);
    note_kind(expected, expected_len);
    texts++;
    if (call_agrees(t, LONGEST, expected, expected_len)) {
        call_agrees(t, lengths[turn], expected, expected_len);
    }
    turn = (turn + 1) % (sizeof lengths / sizeof lengths[0]);
}

/* A text whose report is written down here: the reference must say the same. */
static void compare_known(const char *bytes, const char *report)
{
    text t = from_string(bytes);
    uint8_t expected[LONGEST];
    size_t expected_len = reference_report(t.bytes, t.len, expected);
    if (expected_len != strlen(report) || memcmp(expected, report, expected_len) != 0) {
        mismatch("the reference differs from the known report", &t, (const uint8_t *)report,
                 strlen(report), expected, expected_len);
    }
    compare(&t);
}

/* Also walks the demand far beyond the busy window, where that is short enough. */
static void compare_far(const text *t)
{
    compare(t);
    switch (reference_far(t->bytes, t->len, 20000)) {
    case REFERENCE_FAR_SKIPPED:
        break;
    case REFERENCE_FAR_AGREES:
        far_walks++;
        break;
    case REFERENCE_FAR_DIFFERS:
        mismatch("the demand fails elsewhere", t, t->bytes, 0, t->bytes, 0);
        break;
    }
}

/* ---- Known cases */

static void known(void)
{
    /* The published pair of rows. */
    compare_known("       1       2       4\n       2       7       7\n       2      15      15\n",
                  "       0       2       0\n       1       6       7\n       2      14      15\n");
    compare_known("       2       2       4\n       2       7       7\n       2      15      15\n",
                  "       0       2      14\n");
    /* The published three rows on a processor of their own; then with a deadline too short by one. */
    compare_known("       1       1       1\n      10      30      30\n      10      40      40\n"
                  "      12      52      52\n",
                  "       0       3       0\n       1      10      30\n       2      20      40\n"
                  "       3      52      52\n");
    compare_known("       1       1       1\n      10      30      30\n      10      40      40\n"
                  "      12      52      51\n",
                  "      41       3      51\n");
    /* A budget too small. */
    compare_known("       1       1       4\n       2       7       7\n", "      41       1       7\n");
    /* Utilisation of exactly 1, and of more than the reservation. */
    compare_known("       2       1       1\n       1       2       2\n       1       2       2\n",
                  "       0       2       2\n");
    compare_known("       2       3       4\n       1       2       2\n       1       2       2\n",
                  "      43       0 1000000\n");
    /* No row at all. */
    compare_known("       1       1       1\n", "       0       0       0\n");
    compare_known("       2       1       1\n", "       0       0       1\n");
    compare_known("       2       3  100000\n", "       0       0       1\n");
    /* Demand above the bound: two jobs due within three ticks cannot share two. */
    compare_known("       2       1       1\n       2       5       2\n       2       5       3\n",
                  "      42       0       3\n");
    /* Busy windows that end one tick before the last tick looked at, at it, and one after. */
    compare_known("       2       1       1\n   35906   72305   72305\n   38255   77075   77075\n",
                  "       0       2  999999\n");
    compare_known("       2       1       1\n   16641   50285   50285\n   30113   91001   91001\n"
                  "    2823    8407    8407\n",
                  "       0       3 1000000\n");
    compare_known("       2       1       1\n   25828   78561   78561\n   27909   84934   84934\n"
                  "   29939   90985   90985\n",
                  "      43       0 1000000\n");
    /* Utilisation of exactly 1 again: the window is the least common multiple of the periods. */
    compare_known("       2       1       1\n   10000   50000   50000\n   25000   62500   62500\n"
                  "   16000   40000   40000\n",
                  "       0       3 1000000\n");
    /* Faults, and which of two is told. */
    compare_known("", "      11       0       0\n");
    compare_known("       1       1       1", "      11       0       0\n");
    compare_known("       3       0       1 ", "      12       1       0\n");
    compare_known("       3       0       1\n       x       0       1 ", "      12       2       0\n");
    compare_known("       3      x0       1\n       x       0       1 ", "      13       1       2\n");
    compare_known("       3       0       1\n       0       0       0\n", "      14       1       1\n");
    compare_known("       1       0       1\n       0       0       0\n", "      21       0       1\n");
    compare_known("       199999999       1\n", "      2199999999       1\n");
    compare_known("       1       1       1\n       1       1       1\n       0       1       1\n",
                  "      32       2       0\n");
}

/* ---- The bound that the reference counts */

static void bounds(void)
{
    static const uint32_t ticks[] = {4, 5, 6, 8, 10, 14}, granted[] = {0, 1, 2, 2, 4, 6};
    long checked = 0;
    for (size_t i = 0; i < sizeof ticks / sizeof ticks[0]; i++) {
        if (reference_bound(2, 4, ticks[i]) != granted[i]) {
            printf("MISMATCH: B(%u) of the server (2, 4)\n", (unsigned)ticks[i]);
            mismatches++;
        }
    }
    for (uint32_t period = 1; period <= 16; period++) {
        for (uint32_t budget = 1; budget <= period; budget++) {
            checked++;
            if (!reference_bound_is_least(budget, period, 5 * period)) {
                printf("MISMATCH: server (%u, %u), not the least number of grants\n",
                       (unsigned)budget, (unsigned)period);
                mismatches++;
            }
            for (uint32_t t = 0; t <= 5 * period; t++) {
                if (reference_bound(budget, period, t) != reference_formula(budget, period, t)) {
                    printf("MISMATCH: server (%u, %u), t = %u, not the formula\n",
                           (unsigned)budget, (unsigned)period, (unsigned)t);
                    mismatches++;
                }
            }
        }
    }
    printf("compare: the bound is the least number of grants, and the formula, for %ld servers\n",
           checked);
}

/* ---- Every small table */

/* An open window costs the reference a walk of 1,000,000 ticks, so only some of those are kept. */
static int worth_its_time(double utilisation, uint32_t order, uint32_t budget, uint32_t period,
                          uint32_t one_in)
{
    return order == 1 || utilisation * period <= budget + 1e-9 || random_below(one_in) == 0;
}

static void every_small_table(void)
{
    enum { MOST_PERIOD = 4 };
    struct {
        uint32_t cost, period, deadline;
    } rows[64];
    size_t count = 0;
    for (uint32_t period = 1; period <= MOST_PERIOD; period++) {
        for (uint32_t deadline = 1; deadline <= period; deadline++) {
            for (uint32_t cost = 1; cost <= deadline; cost++) {
                rows[count].cost = cost;
                rows[count].period = period;
                rows[count].deadline = deadline;
                count++;
            }
        }
    }
    seed = 0x51A11;
    for (uint32_t order = 1; order <= 2; order++) {
        for (uint32_t period = 1; period <= 4; period++) {
            for (uint32_t budget = 1; budget <= period; budget++) {
                for (size_t i = 0; i < count; i++) {
                    for (size_t j = 0; j <= count; j++) {
                        text t = begin(order, budget, period);
                        double used = (double)rows[i].cost / rows[i].period;
                        add_line(&t, rows[i].cost, rows[i].period, rows[i].deadline);
                        if (j < count) {
                            used += (double)rows[j].cost / rows[j].period;
                            add_line(&t, rows[j].cost, rows[j].period, rows[j].deadline);
                        }
                        if (worth_its_time(used, order, budget, period, 40)) {
                            compare_far(&t);
                        }
                    }
                }
            }
        }
    }
}

/* ---- Random tables */

typedef struct {
    uint32_t most_rows, least_period, most_period, most_reservation;
    uint32_t one_in; /* of those by earliest deadline whose window stays open, how many are kept */
} range;

static const range small = {6, 1, 24, 12, 40};
static const range typical = {MOST_ROWS, 10, 2000, 200, 40};
static const range large = {MOST_ROWS, 2000, 100000, 100000, 2};
static const range wide = {MOST_ROWS, 1, 100000, 1000, 4};

/* Rows that together ask for between a half and somewhat more than all of what is reserved. */
static text random_table(const range *r)
{
    for (;;) {
        uint32_t order = random_between(1, 2);
        uint32_t period = random_below(4) == 0 ? random_between(1, 4)
                                               : random_between(1, r->most_reservation);
        uint32_t budget = random_below(4) == 0 ? period : random_between(1, period);
        uint32_t rows = random_between(1, r->most_rows);
        double target = random_between(40, 104) / 100.0 * budget / period;
        double used = 0;
        int tight = random_below(3) == 0;
        text t = begin(order, budget, period);
        for (uint32_t i = 0; i < rows; i++) {
            uint32_t every = random_between(r->least_period, r->most_period);
            double share = target / rows * random_between(50, 150) / 100.0;
            uint32_t cost = (uint32_t)(share * every);
            cost = cost < 1 ? 1 : cost > every ? every : cost;
            uint32_t deadline = every;
            if (tight) {
                deadline = random_between(cost, every);
            } else if (random_below(4) == 0) {
                deadline = random_between((cost + every) / 2, every);
            }
            used += (double)cost / every;
            add_line(&t, cost, every, deadline);
        }
        if (worth_its_time(used, order, budget, period, r->one_in)) {
            return t;
        }
    }
}

static void random_tables(const range *r, uint64_t start, long count)
{
    seed = start;
    for (long i = 0; i < count; i++) {
        text t = random_table(r);
        if (r == &small) {
            compare_far(&t);
        } else {
            compare(&t);
        }
    }
}

/* ---- Edges: the longest tables, and each limit met and passed by one */

static void edges(void)
{
    static const uint32_t numbers[] = {0, 1, 2, 3, 7, 99999, 100000, 100001, 99999999};
    enum { NUMBERS = sizeof numbers / sizeof numbers[0] };
    for (uint32_t order = 0; order <= 3; order++) {
        for (size_t a = 0; a < NUMBERS; a++) {
            for (size_t b = 0; b < NUMBERS; b++) {
                text empty = begin(order, numbers[a], numbers[b]);
                compare(&empty);
                for (size_t c = 0; c < NUMBERS; c++) {
                    text t = begin(order, 2, 3);
                    add_line(&t, 1, 100000, 100000);
                    add_line(&t, numbers[a], numbers[b], numbers[c]);
                    /* Without those that leave an open window, which take the reference long. */
                    if (order != 2 || numbers[a] < 3 || numbers[a] * 2 < numbers[b] ||
                        numbers[b] > 100000 || numbers[a] > numbers[c]) {
                        compare(&t);
                    }
                }
            }
        }
    }
    /* 0 to 17 equal rows, with D = C, D between and D = T; cost and period equal. */
    for (uint32_t order = 1; order <= 2; order++) {
        for (uint32_t rows = 0; rows <= MOST_ROWS + 1; rows++) {
            for (uint32_t kind = 0; kind < 6; kind++) {
                text t = begin(order, kind == 4 ? 100000 : 1, kind >= 4 ? 100000 : 1);
                for (uint32_t i = 0; i < rows; i++) {
                    switch (kind) {
                    case 0: add_line(&t, 1, 20, 1); break;
                    case 1: add_line(&t, 1, 20, 10); break;
                    case 2: add_line(&t, 1, 16, 16); break;
                    case 3: add_line(&t, i == 0 ? 3 : 1, i == 0 ? 3 : 1, i == 0 ? 3 : 1); break;
                    case 4: add_line(&t, 6250, 100000, 100000); break;
                    default: add_line(&t, 1, 100000, 100000); break;
                    }
                }
                if (order == 1 || kind != 3 || rows < 3) {
                    compare(&t);
                }
            }
        }
    }
    /* Every length around the limits, of a text that is otherwise sound. */
    text t = begin(1, 1, 1);
    while (t.len < 500) {
        add_line(&t, 1, 100, 100);
    }
    for (size_t len = 0; len <= 500; len++) {
        text cut = t;
        cut.len = len;
        compare(&cut);
    }
    for (int fill = 0; fill < 256; fill += 5) {
        for (size_t len = 0; len <= 500; len += 25) {
            memset(t.bytes, fill, sizeof t.bytes);
            t.len = len;
            compare(&t);
        }
    }
}

/* ---- Damaged texts */

/* Each byte of a small text in turn takes each value. */
static void every_changed_byte(void)
{
    text t = begin(1, 2, 4);
    add_line(&t, 2, 17, 10);
    add_line(&t, 2, 100, 95);
    for (size_t i = 0; i < t.len; i++) {
        for (int value = 0; value < 256; value++) {
            text changed = t;
            changed.bytes[i] = (uint8_t)value;
            compare(&changed);
        }
    }
}

static void insert(text *t, size_t at, uint8_t byte)
{
    memmove(t->bytes + at + 1, t->bytes + at, t->len - at);
    t->bytes[at] = byte;
    t->len++;
}

static void drop(text *t, size_t at, size_t bytes)
{
    bytes = bytes > t->len - at ? t->len - at : bytes;
    memmove(t->bytes + at, t->bytes + at + bytes, t->len - at - bytes);
    t->len -= bytes;
}

static void damage(text *t)
{
    static const char odd[] = "0123456789  \t\n\r-+.,xX/:;\v\0\x7f\x80\xb0\xff";
    if (t->len == 0) {
        insert(t, 0, '\n');
        return;
    }
    size_t at = random_below((uint32_t)t->len);
    size_t lines = t->len / LINE == 0 ? 1 : t->len / LINE;
    size_t field = random_below((uint32_t)lines) * LINE + random_below(3) * 8;
    field = field + 8 > t->len ? 0 : field;
    uint8_t byte = (uint8_t)odd[random_below(sizeof odd - 1)];
    switch (random_below(14)) {
    case 0: t->bytes[at] = byte; break;
    case 1: t->bytes[at] = (uint8_t)random_below(256); break;
    case 2: drop(t, at, 1); break;
    case 3: drop(t, at, random_between(1, 60)); break;
    case 4: insert(t, at, byte); break;
    case 5: insert(t, at, byte), drop(t, random_below((uint32_t)t->len), 1); break;
    case 6: t->len -= random_below(2) + (t->bytes[t->len - 1] == '\n'); break;
    case 7: /* leading zeros */
        for (size_t i = field + random_below(8); i < field + 8 && t->bytes[i] == ' '; i++) {
            t->bytes[i] = '0';
        }
        break;
    case 8: /* left-justified: the blanks behind the number */
        for (int i = 0; i < 8 && t->bytes[field] == ' '; i++) {
            memmove(t->bytes + field, t->bytes + field + 1, 7);
            t->bytes[field + 7] = ' ';
        }
        break;
    case 9: memset(t->bytes + field, ' ', 8); break;
    case 10: /* a sign before the number */
        for (size_t i = field + 1; i < field + 8; i++) {
            if (t->bytes[i] != ' ' && t->bytes[i - 1] == ' ') {
                t->bytes[i - 1] = byte;
                break;
            }
        }
        break;
    case 11: /* eight digits */
        for (int i = 0; i < 8; i++) {
            t->bytes[field + (size_t)i] = (uint8_t)('0' + random_below(10));
        }
        break;
    case 12: /* two bytes change places */
    {
        size_t other = random_below((uint32_t)t->len);
        uint8_t kept = t->bytes[at];
        t->bytes[at] = t->bytes[other];
        t->bytes[other] = kept;
        break;
    }
    default: /* a blank or a line feed within */
        t->bytes[at] = random_below(2) ? ' ' : '\n';
        break;
    }
}

/* Mostly under fixed priority, where the reference never walks far. */
static void damaged(uint64_t start, long count)
{
    seed = start;
    for (long i = 0; i < count; i++) {
        text t = random_table(&small);
        if (random_below(50) != 0) {
            t.bytes[7] = '1';
        }
        for (uint32_t times = random_between(1, 3); times > 0; times--) {
            damage(&t);
        }
        compare(&t);
    }
}

/* ---- */

static void each_kind_was_met(void)
{
    static const int faults[] = {11, 12, 13, 14, 21, 32, 41, 42, 43};
    printf("compare: accepted by fixed priority %ld, by earliest deadline %ld (%ld walked far)",
           accepted_by_priority, accepted_by_deadline, far_walks);
    int lacking = accepted_by_priority == 0 || accepted_by_deadline == 0 || far_walks == 0;
    for (size_t i = 0; i < sizeof faults / sizeof faults[0]; i++) {
        printf(", %d: %ld", faults[i], faults_seen[faults[i]]);
        lacking = lacking || faults_seen[faults[i]] == 0;
    }
    printf("\n");
    if (lacking) {
        printf("MISMATCH: some kind of report was never met\n");
        mismatches++;
    }
}

int main(void)
{
    make_page();
    bounds();
    known();
    edges();
    every_small_table();
    every_changed_byte();
    random_tables(&small, 0x5EED1, 40000);
    random_tables(&typical, 0x5EED2, 10000);
    random_tables(&large, 0x5EED3, 600);
    random_tables(&wide, 0x5EED4, 600);
    damaged(0x5EED5, 60000);
    each_kind_was_met();
    if (mismatches != 0) {
        printf("compare: %ld mismatches in %ld texts\n", mismatches, texts);
        return 1;
    }
    printf("compare: %ld texts agree\n", texts);
    return 0;
}
