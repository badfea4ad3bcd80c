/* epochs.c: how a C host lets its cache grow and shrink with the trade.
 *
 *     gcc -std=c11 -O2 -Iinclude examples/epochs.c crates/cot/out/libcot.a -o epochs && ./epochs
 */
#include "cot.h"

#include <inttypes.h>
#include <stdio.h>
#include <stdlib.h>
#include <string.h>

/* An epoch is long for so small a cache, so none is left out after a resize. */
enum { CLASSES = 400, HOT = 8, STORES = 4, READS = 1000 /* in an epoch */ };
enum { MOST_K = 64 /* this host has room for no more records */ };

/* The cache as it is now: k records and c lines. */
struct cache {
    size_t k, c;
    uint8_t *table, *gauge, *lines;
};

static struct cache cache;

/* The three buffers, as each call is lent them. */
#define TABLE(cache) (cache).table, (cache).k * COT_RECORD_BYTES
#define GAUGE(cache) (cache).gauge, COT_GAUGE_BYTES
#define LINES(cache) (cache).lines, (cache).c * COT_LINE_BYTES

/* The hits per line that are aimed at: none yet. The most loaded store may have twice the
 * lookups of the least, and three tenths of the target may be missed. */
static uint64_t target_over = 0, target_under = 1;
enum { IMBALANCE_OVER = 2, IMBALANCE_UNDER = 1, TOLERANCE = 300 };

/* What is counted in an epoch. */
static uint64_t lookups[STORES], on, off;

/* Buffers for k records and c lines, with any bytes. */
static int get_buffers(struct cache *of, size_t k, size_t c)
{
    of->k = k;
    of->c = c;
    of->table = malloc(k * COT_RECORD_BYTES);
    of->gauge = malloc(COT_GAUGE_BYTES);
    of->lines = malloc(c ? c * COT_LINE_BYTES : 1);
    return of->table && of->gauge && of->lines;
}

static void free_buffers(struct cache *of)
{
    free(of->table);
    free(of->gauge);
    free(of->lines);
}

/* The next class to come: three of four pieces are of the HOT classes hot, hot + STORES, .., which
 * all have one store. Without hot classes all come alike. */
static uint64_t next_class(int any_hot, uint64_t hot)
{
    static uint64_t seed = 1;
    seed = seed * UINT64_C(6364136223846793005) + UINT64_C(1442695040888963407);
    uint64_t drawn = seed >> 33;
    return any_hot && drawn % 4 ? hot + STORES * (drawn / 4 % HOT) : drawn / 4 % CLASSES;
}

/* A piece of a class. A picture that is not in a line is fetched from the store of the class. */
static int sort(uint64_t key)
{
    uint8_t picture[COT_LINE_BYTES] = {0}, ticket[COT_TICKET_BYTES];

    snprintf((char *)picture, sizeof picture, "picture of class %" PRIu64, key);
    off += cot_is_off_lines(TABLE(cache), key);
    uint64_t number = cot_read(TABLE(cache), GAUGE(cache), LINES(cache), key, 1, ticket,
                               sizeof ticket);
    if (cot_is_refused(number))
        return 0;
    if (cot_is_hit(number)) {
        on++;
        return memcmp(cache.lines + cot_line(number) * COT_LINE_BYTES, picture,
                      sizeof picture) == 0;
    }
    lookups[key % STORES]++;
    return !cot_is_wanted(number) ||
           cot_fill(TABLE(cache), GAUGE(cache), LINES(cache), key, picture, sizeof picture,
                    cot_ticket(ticket)) == COT_STORED;
}

/* Prints the classes whose picture is in a line, by looks, which count for nothing. */
static void show_pictures(const char *when)
{
    uint8_t ticket[COT_TICKET_BYTES];

    printf("%s", when);
    for (uint64_t key = 0; key < CLASSES; key++)
        if (cot_is_hit(cot_read(TABLE(cache), GAUGE(cache), LINES(cache), key, 0, ticket,
                                sizeof ticket)))
            printf(" %" PRIu64, key);
}

/* The cache moves to buffers of the sizes that cot_scale told, and the old ones are freed. */
static int resize(const uint8_t out[COT_SCALE_BYTES])
{
    struct cache next;

    show_pictures("    pictures in lines:");
    if (!get_buffers(&next, cot_number(out + 8), cot_number(out)) ||
        cot_resize(TABLE(cache), GAUGE(cache), LINES(cache), TABLE(next), GAUGE(next),
                   LINES(next)) != COT_DONE) {
        free_buffers(&next);
        return 0;
    }
    free_buffers(&cache);
    cache = next;
    show_pictures("; after it:");
    printf("\n");
    return 1;
}

/* The end of an epoch: what has been counted, and what comes of it. */
static int end_epoch(int epoch)
{
    uint8_t counts[8 * STORES], out[COT_SCALE_BYTES];
    int good = 1;

    printf("%2d: C %zu, K %zu; lookups", epoch, cache.c, cache.k);
    for (int i = 0; i < STORES; i++) {
        cot_put_number(counts + 8 * i, lookups[i]);
        printf(" %" PRIu64, lookups[i]);
    }
    printf("; hits %" PRIu64 " on lines, %" PRIu64 " off", on, off);
    uint64_t number = cot_scale(counts, sizeof counts, on, off, cache.c, cache.k, IMBALANCE_OVER,
                                IMBALANCE_UNDER, target_over, target_under, TOLERANCE, out,
                                sizeof out);
    if (number == COT_GROW && cot_number(out + 8) > MOST_K)
        number = COT_STAY;
    if (number == COT_GROW) {
        target_over = cot_number(out + 16);
        target_under = cot_number(out + 24);
        printf(": grows; target %" PRIu64 " / %" PRIu64 "\n", target_over, target_under);
        good = resize(out);
    } else if (number == COT_SHRINK) {
        printf(": shrinks\n");
        good = resize(out);
    } else if (number == COT_AGE) {
        printf(": ages\n");
        good = cot_age(TABLE(cache), GAUGE(cache), LINES(cache)) == COT_AGED;
    } else {
        good = number == COT_STAY;
        printf(good ? ": stays\n" : ": refused, %" PRIu64 "\n", number);
    }
    memset(lookups, 0, sizeof lookups);
    on = off = 0;
    return good;
}

int main(void)
{
    if (!get_buffers(&cache, 4, 2) ||
        cot_fresh(TABLE(cache), GAUGE(cache), LINES(cache)) != COT_DONE)
        return 1;
    for (int epoch = 1; epoch <= 16; epoch++) {
        if (epoch == 1)
            printf("eight classes of store 1 are most of the trade\n");
        if (epoch == 7)
            printf("eight others, of store 2, are\n");
        if (epoch == 13)
            printf("all classes come alike\n");
        for (int i = 0; i < READS; i++)
            if (!sort(next_class(epoch < 13, epoch < 7 ? 1 : 2)))
                return 1;
        if (!end_epoch(epoch))
            return 1;
    }
    free_buffers(&cache);
    return 0;
}
