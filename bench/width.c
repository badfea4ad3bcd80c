/* Times plain C's order test on records of 32 bytes, as they were before
 * tickets, beside records of 40: without a test of the tickets, and with it as
 * plain.c has it. All from the same full table of K records with K / 4 lines.
 * Prints a Markdown table of nanoseconds a test; exit 1 where one fails. The
 * clock now and then counts too little on a busy machine, so the time that a
 * tenth of the rounds beat is taken in place of the best. */
#include "clock.h"
#include "plain.c"

#include <stdio.h>
#include <stdlib.h>

enum { NARROW_BYTES = 32, TESTS = 200, ROUNDS = 1000 };

/* in_order of plain.c without tickets, for records of any width. */
static inline bool in_order_but_tickets(const uint8_t *table, size_t table_len,
                                        const uint8_t *gauge, size_t lines_len,
                                        size_t record_bytes)
{
    const uint8_t *end = table + table_len;
    uint64_t lines = lines_len / LINE_BYTES;
    uint64_t total = get(gauge + TOTAL);
    uint64_t used = 0;

    if (total > MAX_TOTAL || get(gauge + CEILING) > total)
        return false;
    for (const uint8_t *r = table; r < end; r += record_bytes) {
        uint64_t heat = get(r + HEAT);
        uint64_t state = get(r + STATE);
        if (heat > total)
            return false;
        if (state == TRACKED)
            continue;
        if (state - 2 < 2 * lines)
            used++;
        else if ((get(r + KEY) | heat | get(r + SLACK) | state) != 0)
            return false;
    }
    return used <= lines;
}

static bool narrow_in_order(const uint8_t *table, size_t table_len,
                            const uint8_t *gauge, size_t lines_len)
{
    return in_order_but_tickets(table, table_len, gauge, lines_len, NARROW_BYTES);
}

static bool wide_in_order(const uint8_t *table, size_t table_len,
                          const uint8_t *gauge, size_t lines_len)
{
    return in_order_but_tickets(table, table_len, gauge, lines_len, RECORD_BYTES);
}

static _Alignas(64) uint8_t narrow[MAX_RECORDS * NARROW_BYTES];
static _Alignas(64) uint8_t wide[MAX_RECORDS * RECORD_BYTES];
static uint8_t gauge[GAUGE_BYTES];

static const struct {
    bool (*volatile test)(const uint8_t *, size_t, const uint8_t *, size_t);
    const uint8_t *table;
    size_t record_bytes;
} TIMED[] = {
    { narrow_in_order, narrow, NARROW_BYTES },
    { wide_in_order, wide, RECORD_BYTES },
    { in_order, wide, RECORD_BYTES },
};
enum { KINDS = sizeof TIMED / sizeof *TIMED };

static void fill(size_t k, size_t lines_len)
{
    uint8_t ticket[TICKET_BYTES];

    plain_fresh(wide, k * RECORD_BYTES, gauge, GAUGE_BYTES, NULL, lines_len);
    for (uint64_t key = 0; key < 2 * k; key++)
        plain_read(wide, k * RECORD_BYTES, gauge, GAUGE_BYTES, NULL, lines_len,
                   key, 1 + key % 999, ticket, TICKET_BYTES);
    for (size_t i = 0; i < k; i++)
        memcpy(narrow + i * NARROW_BYTES, wide + i * RECORD_BYTES, NARROW_BYTES);
}

static int ascending(const void *a, const void *b)
{
    double x = *(const double *)a, y = *(const double *)b;

    return (x > y) - (x < y);
}

/* Prints one row of the table. False where a test fails. */
static bool compare(size_t k)
{
    static double took[KINDS][ROUNDS];
    size_t lines_len = k / 4 * LINE_BYTES;
    double ns[KINDS];
    bool good = true;

    fill(k, lines_len);
    for (int round = 0; round < ROUNDS; round++)
        for (size_t n = 0; n < KINDS; n++) {
            double began = now();
            for (int i = 0; i < TESTS; i++)
                good &= TIMED[n].test(TIMED[n].table, k * TIMED[n].record_bytes, gauge, lines_len);
            took[n][round] = now() - began;
        }
    for (size_t n = 0; n < KINDS; n++) {
        qsort(took[n], ROUNDS, sizeof took[n][0], ascending);
        ns[n] = took[n][ROUNDS / 10] / TESTS;
    }
    printf("| %4zu | %11.1f | %11.1f | %15.1f | %5.2f |\n", k, ns[0], ns[1], ns[2], ns[2] / ns[0]);
    return good;
}

int main(void)
{
    puts("|    K | 32 bytes ns | 40 bytes ns | with tickets ns | ratio |\n"
         "|-----:|------------:|------------:|----------------:|------:|");
    return compare(64) && compare(256) && compare(1024) ? 0 : 1;
}
