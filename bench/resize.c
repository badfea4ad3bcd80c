/* Times cot_resize beside the plain C version, from a full table of K records
 * and C lines to another one. A resize reads its source and writes its target,
 * so that all calls of a kind do the same. Prints a Markdown table of
 * microseconds a call; exit 1 where the two differ. */

#include "clock.h"
#include "cot.h"
#include "plain.h"

#include <math.h>
#include <stdbool.h>
#include <stdio.h>
#include <string.h>

enum { CALLS = 4, ROUNDS = 100, COMPARED = 4000 };

struct memory {
    size_t k, c;
    uint8_t table[COT_MOST_RECORDS * COT_RECORD_BYTES];
    uint8_t gauge[COT_GAUGE_BYTES];
    uint8_t lines[COT_MOST_RECORDS * COT_LINE_BYTES];
};

#define WHOLE(m)                                                                                   \
    (m)->table, (m)->k * COT_RECORD_BYTES, (m)->gauge, COT_GAUGE_BYTES, (m)->lines,                \
        (m)->c * COT_LINE_BYTES

static uint64_t seed = UINT64_C(20210323);

static uint64_t below(uint64_t most)
{
    seed ^= seed << 13;
    seed ^= seed >> 7;
    seed ^= seed << 17;
    return seed % most;
}

/* A cache of so many records and lines after so many reads, of so many keys and
 * by weights up to a limit, with every second wanted filled, and with some
 * updates and withdrawals once all keys have been read. */
static void fill(struct memory *m, size_t k, size_t c, size_t reads, uint64_t keys,
                 uint64_t weights)
{
    uint8_t ticket[COT_TICKET_BYTES], picture[COT_LINE_BYTES];

    memset(m, 0, sizeof *m);
    m->k = k;
    m->c = c;
    for (size_t i = 0; i < reads; i++) {
        uint64_t key = i < keys ? i : below(keys);
        if (cot_is_wanted(cot_read(WHOLE(m), key, 1 + below(weights), ticket, sizeof ticket)) &&
            below(2)) {
            memset(picture, (int)below(256), sizeof picture);
            cot_fill(WHOLE(m), key, picture, sizeof picture, cot_ticket(ticket));
        }
        if (i >= keys && below(8) == 0)
            cot_update(WHOLE(m), below(keys), 1 + below(weights));
        if (i >= keys && below(16) == 0)
            cot_withdraw(WHOLE(m), below(keys));
    }
}

/* One call of each. False where an answer or a byte differs. */
static bool same(const struct memory *from, size_t k, size_t c)
{
    static struct memory source, a, b;

    source = *from;
    memset(&a, 0xa5, sizeof a);
    a.k = k;
    a.c = c;
    b = a;
    uint64_t one = cot_resize(WHOLE(&source), WHOLE(&a));
    uint64_t other = plain_resize(WHOLE(&source), WHOLE(&b));
    if (one == other && memcmp(&a, &b, sizeof a) == 0 && memcmp(&source, from, sizeof source) == 0)
        return true;
    fprintf(stderr, "the two differ: K %zu, C %zu to K %zu, C %zu\n", from->k, from->c, k, c);
    return false;
}

/* Small caches of random sizes, few of the resizes refused. */
static bool compare(void)
{
    static struct memory m;

    for (int i = 0; i < COMPARED; i++) {
        size_t k = 1 + below(24), to_k = 1 + below(24);
        fill(&m, k, below(k), below(80), 1 + below(40), 1 + below(9));
        if (below(16) == 0)
            cot_put_number(m.gauge + 16, COT_MOST_SERIAL - below(4));
        if (below(16) == 0)
            m.table[below(m.k * COT_RECORD_BYTES)] ^= 1;
        if (!same(&m, to_k, below(to_k + 1)))
            return false;
    }
    return true;
}

/* The best time of CALLS calls, for each. */
static bool time_one(const char *name, size_t k, size_t c, size_t to_k, size_t to_c)
{
    static struct memory from, to;
    double x = INFINITY, y = INFINITY;

    fill(&from, k, c, k, k, 999);
    if (!same(&from, to_k, to_c))
        return false;
    to.k = to_k;
    to.c = to_c;
    if (cot_resize(WHOLE(&from), WHOLE(&to)) != COT_DONE)
        return false;
    for (int round = 0; round < ROUNDS; round++) {
        double began = now();
        for (int i = 0; i < CALLS; i++)
            cot_resize(WHOLE(&from), WHOLE(&to));
        x = fmin(x, now() - began);
        began = now();
        for (int i = 0; i < CALLS; i++)
            plain_resize(WHOLE(&from), WHOLE(&to));
        y = fmin(y, now() - began);
    }
    printf("| %-7s | %4zu, %4zu | %4zu, %3zu | %10.2f | %8.2f | %5.2f |\n", name, k, c, to_k, to_c,
           x / CALLS / 1000, y / CALLS / 1000, x / y);
    return true;
}

int main(void)
{
    if (!compare())
        return 1;
    puts("| Resize  | from K, C  | to K, C   | library µs | plain µs | ratio |\n"
         "|---------|-----------:|----------:|-----------:|---------:|------:|");
    return time_one("grow", 2, 1, 4, 2) && time_one("grow", 512, 256, 1024, 512) &&
                   time_one("shrink", 1024, 512, 512, 256) &&
                   time_one("longest", 1024, 1023, 1, 0)
               ? 0
               : 1;
}
