/* Times the calls that a host makes rarely beside the plain C version: fresh,
 * aging, the levelled sum and a look at an untracked key, from a full table of
 * K records with K / 4 lines, one call after another on the same memory. And
 * cot.h's cot_is_off_lines, of an untracked key, beside a loop of 64-bit loads.
 * Prints a Markdown table of nanoseconds a call; exit 1 where the two differ. */

#include "clock.h"
#include "cot.h"
#include "plain.h"

#include <math.h>
#include <stdbool.h>
#include <stdio.h>
#include <string.h>

enum { CALLS = 200, ROUNDS = 200 };

struct memory {
    size_t table_len, lines_len;
    uint8_t table[COT_MOST_RECORDS * COT_RECORD_BYTES];
    uint8_t gauge[COT_GAUGE_BYTES];
    uint8_t lines[COT_MOST_RECORDS * COT_LINE_BYTES];
    uint8_t sum[COT_SUM_BYTES];
    uint8_t ticket[COT_TICKET_BYTES];
};

typedef uint64_t call(struct memory *m);

#define WHOLE(m) (m)->table, (m)->table_len, (m)->gauge, COT_GAUGE_BYTES, (m)->lines, (m)->lines_len
#define TICKET(m) (m)->ticket, COT_TICKET_BYTES
static uint64_t library_fresh(struct memory *m) { return cot_fresh(WHOLE(m)); }
static uint64_t plain_fresh_of(struct memory *m) { return plain_fresh(WHOLE(m)); }
static uint64_t library_age(struct memory *m) { return cot_age(WHOLE(m)); }
static uint64_t plain_age_of(struct memory *m) { return plain_age(WHOLE(m)); }
static uint64_t library_sum(struct memory *m) { return cot_levelled_sum(WHOLE(m), m->sum, COT_SUM_BYTES); }
static uint64_t plain_sum_of(struct memory *m) { return plain_levelled_sum(WHOLE(m), m->sum, COT_SUM_BYTES); }
static uint64_t library_look(struct memory *m) { return cot_read(WHOLE(m), UINT64_MAX, 0, TICKET(m)); }
static uint64_t plain_look_of(struct memory *m) { return plain_read(WHOLE(m), UINT64_MAX, 0, TICKET(m)); }

static uint64_t header_off_lines(struct memory *m)
{
    return (uint64_t)cot_is_off_lines(m->table, m->table_len, UINT64_MAX);
}

static uint64_t plain_off_lines(struct memory *m)
{
    for (size_t at = 0; at < m->table_len; at += COT_RECORD_BYTES) {
        uint64_t key, state;
        memcpy(&key, m->table + at, sizeof key);
        memcpy(&state, m->table + at + 24, sizeof state);
        if (key == UINT64_MAX && state != 0)
            return state == 1;
    }
    return 0;
}

static void fill(struct memory *m, size_t k)
{
    memset(m, 0, sizeof *m);
    m->table_len = k * COT_RECORD_BYTES;
    m->lines_len = k / 4 * COT_LINE_BYTES;
    for (uint64_t key = 0; key < 2 * k; key++)
        cot_read(WHOLE(m), key, 1 + key % 999, TICKET(m));
}

/* The best time of CALLS calls, for each. False where a byte or an answer differs. */
static bool compare(const char *name, call *library, call *plain, size_t k)
{
    static struct memory start, a, b;
    double x = INFINITY, y = INFINITY;

    fill(&start, k);
    a = b = start;
    if (library(&a) != plain(&b) || memcmp(&a, &b, sizeof a) != 0) {
        fprintf(stderr, "the two differ: %s at K = %zu\n", name, k);
        return false;
    }
    for (int round = 0; round < ROUNDS; round++) {
        double began = now();
        for (int i = 0; i < CALLS; i++)
            library(&a);
        x = fmin(x, now() - began);
        began = now();
        for (int i = 0; i < CALLS; i++)
            plain(&b);
        y = fmin(y, now() - began);
    }
    printf("| %-12s | %4zu | %10.1f | %8.1f | %5.2f |\n", name, k, x / CALLS, y / CALLS, x / y);
    return true;
}

int main(void)
{
    static const size_t sizes[] = { 16, 128, 1024 };

    puts("| Call         |    K | library ns | plain ns | ratio |\n"
         "|--------------|-----:|-----------:|---------:|------:|");
    for (size_t i = 0; i < sizeof sizes / sizeof *sizes; i++)
        if (!compare("fresh", library_fresh, plain_fresh_of, sizes[i]) ||
            !compare("age", library_age, plain_age_of, sizes[i]) ||
            !compare("levelled sum", library_sum, plain_sum_of, sizes[i]) ||
            !compare("look", library_look, plain_look_of, sizes[i]) ||
            !compare("off lines", header_off_lines, plain_off_lines, sizes[i]))
            return 1;
    return 0;
}
