/* Times cot_store beside plain C, on rings of 1, 8, 64 and 1,024 points whose
 * lists are in order of position or shuffled. Plain C tests each point against
 * all before it; or it sorts a copy of the positions by qsort and compares
 * neighbours. Prints a Markdown table of nanoseconds a call; exit 1 where two
 * differ. */

#include "clock.h"
#include "cot.h"

#include <math.h>
#include <stdbool.h>
#include <stdio.h>
#include <stdlib.h>
#include <string.h>

#if !defined __BYTE_ORDER__ || __BYTE_ORDER__ != __ORDER_LITTLE_ENDIAN__
#error "get loads the lent numbers as they are"
#endif

enum { RINGS = 16, CALLS = 64, ROUNDS = 100 };

static inline uint64_t get(const uint8_t *p)
{
    uint64_t n;
    memcpy(&n, p, sizeof n);
    return n;
}

/* ---- plain C */

typedef bool test(const uint8_t *ring, size_t points);

static bool doubled_by_pairs(const uint8_t *ring, size_t points)
{
    for (size_t i = 1; i < points; i++)
        for (size_t j = 0; j < i; j++)
            if (get(ring + COT_POINT_BYTES * i) == get(ring + COT_POINT_BYTES * j))
                return true;
    return false;
}

static int by_size(const void *a, const void *b)
{
    uint64_t x = get(a), y = get(b);
    return (x > y) - (x < y);
}

static bool doubled_by_sort(const uint8_t *ring, size_t points)
{
    uint64_t positions[COT_MOST_POINTS];

    for (size_t i = 0; i < points; i++)
        positions[i] = get(ring + COT_POINT_BYTES * i);
    qsort(positions, points, sizeof *positions, by_size);
    for (size_t i = 1; i < points; i++)
        if (positions[i - 1] == positions[i])
            return true;
    return false;
}

static inline uint64_t plain_store(const uint8_t *ring, size_t ring_len, uint64_t position,
                                   uint8_t *store, size_t store_len, test *doubled)
{
    const uint8_t *nearest = ring;

    if (store_len != COT_STORE_BYTES)
        return COT_REFUSED_SIZES;
    if (ring_len == 0 || ring_len % COT_POINT_BYTES != 0 ||
        ring_len > COT_POINT_BYTES * COT_MOST_POINTS)
        return COT_REFUSED_RING;
    if (doubled(ring, ring_len / COT_POINT_BYTES))
        return COT_REFUSED_DOUBLED;
    for (const uint8_t *p = ring; p < ring + ring_len; p += COT_POINT_BYTES)
        if (get(p) - position < get(nearest) - position)
            nearest = p;
    memcpy(store, nearest + 8, COT_STORE_BYTES);
    return COT_DONE;
}

typedef uint64_t call(const uint8_t *ring, size_t ring_len, uint64_t position, uint8_t *store,
                      size_t store_len);

static uint64_t store_by_pairs(const uint8_t *ring, size_t ring_len, uint64_t position,
                               uint8_t *store, size_t store_len)
{
    return plain_store(ring, ring_len, position, store, store_len, doubled_by_pairs);
}

static uint64_t store_by_sort(const uint8_t *ring, size_t ring_len, uint64_t position,
                              uint8_t *store, size_t store_len)
{
    return plain_store(ring, ring_len, position, store, store_len, doubled_by_sort);
}

/* ---- rings */

static uint64_t seed = UINT64_C(20210323);

static uint64_t any(void)
{
    seed ^= seed << 13;
    seed ^= seed >> 7;
    seed ^= seed << 17;
    return seed;
}

static uint8_t rings[RINGS][COT_POINT_BYTES * COT_MOST_POINTS];

/* Point i has the position of this rank of so many points. */
static void put_rank(uint8_t *ring, size_t i, size_t rank, size_t points)
{
    cot_put_point(ring, i, UINT64_MAX / points * rank + any() % 1000, any());
}

static void in_order(uint8_t *ring, size_t points)
{
    for (size_t i = 0; i < points; i++)
        put_rank(ring, i, i, points);
}

static void shuffled(uint8_t *ring, size_t points)
{
    size_t ranks[COT_MOST_POINTS];

    for (size_t i = 0; i < points; i++)
        ranks[i] = i;
    for (size_t i = points - 1; i > 0; i--) {
        size_t j = any() % (i + 1), held = ranks[i];
        ranks[i] = ranks[j];
        ranks[j] = held;
    }
    for (size_t i = 0; i < points; i++)
        put_rank(ring, i, ranks[i], points);
}

/* ---- times */

/* The best time of a call, for each of the three, over rings that take turns. */
static bool compare(const char *list, size_t points)
{
    static call *const calls[] = { cot_store, store_by_pairs, store_by_sort };
    double best[] = { INFINITY, INFINITY, INFINITY };

    for (int round = 0; round < ROUNDS; round++)
        for (int c = 0; c < 3; c++) {
            uint8_t store[COT_STORE_BYTES];
            double began = now();
            for (int i = 0; i < CALLS; i++)
                calls[c](rings[i % RINGS], COT_POINT_BYTES * points, any(), store, sizeof store);
            best[c] = fmin(best[c], (now() - began) / CALLS);
        }
    for (int i = 0; i < 1000; i++) {
        uint8_t stores[3][COT_STORE_BYTES];
        uint64_t told[3], position = any();
        if (i % 2 == 0) /* a key on a point */
            position = get(rings[i % RINGS] + COT_POINT_BYTES * (position % points));
        for (int c = 0; c < 3; c++)
            told[c] = calls[c](rings[i % RINGS], COT_POINT_BYTES * points, position, stores[c],
                               sizeof stores[c]);
        for (int c = 1; c < 3; c++)
            if (told[0] != COT_DONE || told[c] != COT_DONE ||
                memcmp(stores[0], stores[c], COT_STORE_BYTES) != 0) {
                fprintf(stderr, "the calls differ: %zu points, %s\n", points, list);
                return false;
            }
    }
    printf("| %4zu | %-8s | %10.1f | %8.1f | %5.2f | %8.1f | %5.2f |\n", points, list, best[0],
           best[1], best[0] / best[1], best[2], best[0] / best[2]);
    return true;
}

int main(void)
{
    static const size_t sizes[] = { 1, 8, 64, 1024 };

    puts("| Points | List | library ns | pairs ns | ratio | qsort ns | ratio |\n"
         "|-----:|----------|-----------:|---------:|------:|---------:|------:|");
    for (size_t i = 0; i < sizeof sizes / sizeof *sizes; i++) {
        for (size_t ring = 0; ring < RINGS; ring++)
            in_order(rings[ring], sizes[i]);
        if (!compare("in order", sizes[i]))
            return 1;
        if (sizes[i] == 1)
            continue;
        for (size_t ring = 0; ring < RINGS; ring++)
            shuffled(rings[ring], sizes[i]);
        if (!compare("shuffled", sizes[i]))
            return 1;
    }
    return 0;
}
