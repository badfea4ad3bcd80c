/* Times cot_scale beside plain C, at the ends of epochs with 1, 8 and 64 stores.
 * Prints a Markdown table of nanoseconds a call; exit 1 where the two differ. */

#include "clock.h"
#include "cot.h"

#include <math.h>
#include <stdbool.h>
#include <stdio.h>
#include <string.h>

#if !defined __BYTE_ORDER__ || __BYTE_ORDER__ != __ORDER_LITTLE_ENDIAN__
#error "get and put load and store the lent numbers as they are"
#endif

enum { EPOCHS = 64, ROUNDS = 500, COMPARED = 100000 };

static inline uint64_t get(const uint8_t *p)
{
    uint64_t n;
    memcpy(&n, p, sizeof n);
    return n;
}

static inline void put(uint8_t *p, uint64_t n)
{
    memcpy(p, &n, sizeof n);
}

/* ---- plain C */

static uint64_t plain_scale(const uint8_t *lookups, size_t lookups_len, uint64_t on, uint64_t off,
                            uint64_t lines, uint64_t records, uint64_t imbalance_over,
                            uint64_t imbalance_under, uint64_t target_over, uint64_t target_under,
                            uint64_t tolerance, uint8_t *out, size_t out_len)
{
    uint64_t most = 0, least = UINT64_MAX;

    if (out_len != COT_SCALE_BYTES || lines == 0 || records <= lines || records > COT_MOST_RECORDS)
        return COT_REFUSED_SIZES;
    if (lookups_len == 0 || lookups_len % 8 != 0 || lookups_len > 8 * COT_MOST_STORES)
        return COT_REFUSED_EPOCH;
    for (const uint8_t *p = lookups; p < lookups + lookups_len; p += 8) {
        uint64_t count = get(p);
        most = count > most ? count : most;
        least = count < least ? count : least;
    }
    if (most > COT_MOST_COUNT || on > COT_MOST_COUNT || off > COT_MOST_COUNT ||
        imbalance_over > COT_MOST_COUNT || imbalance_under > imbalance_over ||
        imbalance_under == 0 || target_over > COT_MOST_COUNT || target_under > COT_MOST_COUNT ||
        target_under == 0 || tolerance > 999)
        return COT_REFUSED_EPOCH;

    uint64_t unlined = records - lines;
    if (most * imbalance_under > imbalance_over * least && on * unlined >= off * lines) {
        if (2 * records > COT_MOST_RECORDS)
            return COT_STAY;
        put(out, 2 * lines);
        put(out + 8, 2 * records);
        put(out + 16, on);
        put(out + 24, lines);
        return COT_GROW;
    }
    uint64_t over = (1000 - tolerance) * target_over, under = 1000 * target_under;
    if (on * under >= over * lines || off * under == over * unlined)
        return COT_STAY;
    if (off * under > over * unlined)
        return COT_AGE;
    if (lines == 1)
        return COT_STAY;
    put(out, lines / 2);
    put(out + 8, (records + 1) / 2);
    return COT_SHRINK;
}

typedef uint64_t call(const uint8_t *lookups, size_t lookups_len, uint64_t on, uint64_t off,
                      uint64_t lines, uint64_t records, uint64_t imbalance_over,
                      uint64_t imbalance_under, uint64_t target_over, uint64_t target_under,
                      uint64_t tolerance, uint8_t *out, size_t out_len);

/* ---- epochs */

static uint64_t seed = UINT64_C(20210323);

static uint64_t below(uint64_t most)
{
    seed ^= seed << 13;
    seed ^= seed >> 7;
    seed ^= seed << 17;
    return seed % most;
}

struct epoch {
    uint8_t lookups[8 * COT_MOST_STORES];
    uint64_t on, off, lines, records, over;
};

static struct epoch epochs[EPOCHS];

/* Averages near 50, imbalances near 1.1. */
static void draw(struct epoch *e, size_t stores)
{
    for (size_t i = 0; i < stores; i++)
        put(e->lookups + 8 * i, 1000 + below(200));
    e->lines = 1 + below(400);
    e->records = 2 * e->lines + below(225);
    e->on = e->lines * (40 + below(20));
    e->off = (e->records - e->lines) * (35 + below(20));
    e->over = 100 + below(20);
}

static uint64_t end(call *c, const struct epoch *e, size_t stores, uint8_t out[COT_SCALE_BYTES])
{
    return c(e->lookups, 8 * stores, e->on, e->off, e->lines, e->records, e->over, 100, 50, 1, 100,
             out, COT_SCALE_BYTES);
}

/* ---- times */

/* The best time of a call, for each, over epochs that take turns. */
static bool compare(size_t stores)
{
    static call *const calls[] = { cot_scale, plain_scale };
    double best[] = { INFINITY, INFINITY };

    for (int i = 0; i < COMPARED; i++) {
        uint8_t a[COT_SCALE_BYTES] = { 0 }, b[COT_SCALE_BYTES] = { 0 };
        draw(&epochs[0], stores);
        if (end(cot_scale, &epochs[0], stores, a) != end(plain_scale, &epochs[0], stores, b) ||
            memcmp(a, b, sizeof a) != 0) {
            fprintf(stderr, "the two differ: %zu stores\n", stores);
            return false;
        }
    }
    for (int i = 0; i < EPOCHS; i++)
        draw(&epochs[i], stores);
    for (int round = 0; round < ROUNDS; round++)
        for (int c = 0; c < 2; c++) {
            uint8_t out[COT_SCALE_BYTES];
            double began = now();
            for (int i = 0; i < EPOCHS; i++)
                end(calls[c], &epochs[i], stores, out);
            best[c] = fmin(best[c], (now() - began) / EPOCHS);
        }
    printf("| %6zu | %10.1f | %8.1f | %5.2f |\n", stores, best[0], best[1], best[0] / best[1]);
    return true;
}

int main(void)
{
    puts("| Stores | library ns | plain ns | ratio |\n"
         "|-------:|-----------:|---------:|------:|");
    return compare(1) && compare(8) && compare(64) ? 0 : 1;
}
