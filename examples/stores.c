/* stores.c: how a C host fetches pictures from several stores.
 *
 *     gcc -std=c11 -O2 -Iinclude examples/stores.c crates/cot/out/libcot.a -o stores && ./stores
 */
#include "cot.h"

#include <inttypes.h>
#include <stdio.h>
#include <string.h>

enum { K = 8, C = 2, CLASSES = 12, POINTS = 8 /* of each store */, MOST = 5 * POINTS };

static uint8_t table[K * COT_RECORD_BYTES];
static uint8_t gauge[COT_GAUGE_BYTES];
static uint8_t lines[C * COT_LINE_BYTES];

/* The ring, with room for five stores; ring_len is the length of the points in it. */
static uint8_t ring[MOST * COT_POINT_BYTES];
static size_t ring_len;

/* A position on the ring: any spread will do that all hosts have in common. */
static uint64_t spread(uint64_t number)
{
    for (int i = 0; i < 3; i++)
        number = (number ^ number >> 32) * UINT64_C(0xa5d3c96b17e84f2d);
    return number;
}

/* Several points for each store spread the classes more evenly. */
static void add_store(uint64_t store)
{
    for (uint64_t i = 0; i < POINTS; i++) {
        cot_put_point(ring, ring_len / COT_POINT_BYTES, spread(1000 * store + i), store);
        ring_len += COT_POINT_BYTES;
    }
}

/* Takes a store's points out. The others move up: their order does not matter. */
static void remove_store(uint64_t store)
{
    size_t kept = 0;
    for (size_t at = 0; at < ring_len; at += COT_POINT_BYTES)
        if (cot_number(ring + at + 8) != store) {
            memmove(ring + kept, ring + at, COT_POINT_BYTES);
            kept += COT_POINT_BYTES;
        }
    ring_len = kept;
}

/* The store of a class. A refusal would be a fault of the host: 0 then, which no store here is. */
static uint64_t store_of(uint64_t key)
{
    uint8_t store[COT_STORE_BYTES];
    uint64_t number = cot_store(ring, ring_len, spread(key), store, sizeof store);
    if (cot_is_refused(number)) {
        printf("  the ring is refused: %" PRIu64 "\n", number);
        return 0;
    }
    return cot_number(store);
}

/* Prints which classes have another store now, and keeps it in had. 0 if the ring is refused. */
static int moved(uint64_t had[CLASSES])
{
    for (uint64_t key = 1; key <= CLASSES; key++) {
        uint64_t store = store_of(key);
        if (store == 0)
            return 0;
        if (store != had[key - 1])
            printf("  class %" PRIu64 " has store %" PRIu64 ", had %" PRIu64 "\n", key, store,
                   had[key - 1]);
        had[key - 1] = store;
    }
    return 1;
}

/* Some pieces of a class are waiting. Its picture is fetched from its own store. */
static int sort(uint64_t key, uint64_t pieces)
{
    uint8_t picture[COT_LINE_BYTES], ticket[COT_TICKET_BYTES];

    printf("class %" PRIu64 ", pieces waiting: %" PRIu64 "\n", key, pieces);
    uint64_t number = cot_read(table, sizeof table, gauge, sizeof gauge, lines, sizeof lines, key,
                               pieces, ticket, sizeof ticket);
    if (cot_is_refused(number))
        return 0;
    if (cot_is_hit(number)) {
        printf("  used: %s\n", (const char *)lines + COT_LINE_BYTES * cot_line(number));
        return 1;
    }
    uint64_t store = store_of(key);
    if (store == 0)
        return 0;
    memset(picture, 0, sizeof picture);
    snprintf((char *)picture, sizeof picture, "picture of class %" PRIu64 " from store %" PRIu64,
             key, store);
    printf("  fetched and used: %s\n", (const char *)picture);
    return !cot_is_wanted(number) ||
           cot_fill(table, sizeof table, gauge, sizeof gauge, lines, sizeof lines, key, picture,
                    sizeof picture, cot_ticket(ticket)) == COT_STORED;
}

int main(void)
{
    uint64_t had[CLASSES];

    cot_fresh(table, sizeof table, gauge, sizeof gauge, lines, sizeof lines);
    for (uint64_t store = 1; store <= 3; store++)
        add_store(store);
    printf("three stores\n");
    for (uint64_t key = 1; key <= CLASSES; key++) {
        had[key - 1] = store_of(key);
        printf("  class %" PRIu64 " has store %" PRIu64 "\n", key, had[key - 1]);
        if (had[key - 1] == 0)
            return 1;
    }
    if (!sort(5, 2) || !sort(8, 1) || !sort(5, 1))
        return 1;

    printf("store 4 is added: a class keeps its store or has store 4\n");
    add_store(4);
    if (!moved(had) || !sort(7, 1))
        return 1;

    printf("store 2 is taken out: the classes that had it have others\n");
    remove_store(2);
    if (!moved(had) || !sort(10, 1))
        return 1;

    printf("a store that is added twice has two points at each of its positions\n");
    add_store(4);
    return store_of(1) == 0 ? 0 : 1;
}
