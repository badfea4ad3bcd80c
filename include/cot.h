/* cot.h: the hot pattern cache for a C or C++ host.
 *
 * The host owns all memory and lends it to each call:
 *   table    K records of COT_RECORD_BYTES, K from 1 to COT_MOST_RECORDS
 *   gauge    COT_GAUGE_BYTES: total, ceiling and serial, each a 64-bit number, least significant
 *            byte first
 *   lines    C lines of COT_LINE_BYTES, numbered from 0, C from 0 to K - 1
 *   picture  COT_LINE_BYTES, copied by cot_fill
 *   ticket   COT_TICKET_BYTES, a 64-bit number as in the gauge, written by a cot_read that answers
 *            wanted
 *   sum      COT_SUM_BYTES, a 64-bit number as in the gauge, written by cot_levelled_sum
 *   ring     1 to COT_MOST_POINTS points of COT_POINT_BYTES, see cot_store
 *   store    COT_STORE_BYTES, a 64-bit number as in the gauge, written by cot_store
 *   lookups  1 to COT_MOST_STORES 64-bit numbers as in the gauge, see cot_scale
 *   out      COT_SCALE_BYTES, four 64-bit numbers as in the gauge, written by cot_scale
 *   to_table, to_gauge, to_lines   a table, a gauge and lines of other sizes, written by cot_resize
 * All that the cache knows is in the first three. The ring and the lookups are the host's own:
 * cot_store reads the one and cot_scale the other, no other call does, and nothing of them is kept.
 *
 * A length is in bytes. Each pointer must be good for its length. A length of 0 may come with any
 * pointer, NULL too. The buffers of one call must not overlap. Any alignment will do.
 *
 * To start with a fresh cache, call cot_fresh, or set every byte of the table and of the gauge to
 * zero, which is the same. The lines may hold any bytes. From then on lend the same three buffers,
 * whole, to each call but cot_store and cot_scale, which take none of them, and let only the
 * library write to them. Another K or C is for cot_resize, which copies the cache into three other
 * buffers: from then on lend those. The host may read the three at any time between calls.
 *
 * Use the line of a hit before the next call: any later read of a weight over 0, update, withdrawal
 * or fill may give the line to another key or put another picture into it, and a resize may give
 * the key another line.
 *
 * A wanted tells a ticket. Begin the fetch after it, keep the ticket with the fetch, and bring it
 * back to cot_fill with the picture. An update or a withdrawal of the key, or the loss of its line,
 * makes the ticket void. So a picture whose fetch was overtaken is refused, with COT_REFUSED_TICKET
 * where the line is still empty: drop it. After an update it may be the old one: read again, which
 * gives another ticket if the picture is still wanted. A key that was withdrawn need not be read
 * again: a read would track it anew. A ticket outlives a resize if the key keeps a line.
 * Several fetches of a class may be under way; the first good fill is stored. A fill that is
 * refused with COT_REFUSED_NO_LINE, COT_REFUSED_FILLED or COT_REFUSED_TICKET after a late fetch is
 * no fault of the host: drop the picture.
 *
 * A fresh start begins the serials, and so the tickets, again: finish or drop the fetches that are
 * under way before it.
 *
 * Calls on the same buffers must not run at the same time, looks (see cot_read) included: the
 * library takes no lock. Calls on different buffers may, and so may calls of cot_store on one ring,
 * each with store bytes of its own, while nobody writes to the ring, and calls of cot_scale on the
 * same lookups, each with out bytes of its own. A call takes less than 2 KiB of stack, cot_store
 * less than 12 KiB, cot_resize less than 45 KiB, and returns.
 *
 * docs/FORMATS.md has the fields of a record and when a table is in order; a host needs neither.
 *
 * A refused call leaves all lent memory as it was.
 */
#ifndef COT_H
#define COT_H

#include <stddef.h>
#include <stdint.h>
#include <string.h>

#ifdef __cplusplus
extern "C" {
#endif

/* Sizes in bytes. */
#define COT_RECORD_BYTES 40
#define COT_LINE_BYTES 64
#define COT_GAUGE_BYTES 24
#define COT_TICKET_BYTES 8
#define COT_SUM_BYTES 8
#define COT_POINT_BYTES 16
#define COT_STORE_BYTES 8
#define COT_SCALE_BYTES 32

/* Limits. */
#define COT_MOST_RECORDS 1024
#define COT_MOST_WEIGHT 65535
#define COT_MOST_TOTAL 4294967295 /* L: a read that would pass it ages first */
#define COT_MOST_POINTS 1024
#define COT_MOST_STORES 64    /* of cot_scale; a ring may have more */
#define COT_MOST_COUNT 1048576 /* of lookups, of hits, and in each part of a fraction */

/* With a serial of this or more, reads of a weight over 0, updates, fills, withdrawals and resizes
 * are refused, and a fresh start is what is left. No host comes to it: with a line taken a billion
 * times a second it would take 292 years. */
#define COT_MOST_SERIAL UINT64_C(9223372036854775808)

/* Returned by a refused call: 1 to 99, see cot_is_refused. The tests come in this order: sizes;
 * weight or picture; order; serial; no line; filled; ticket. Of cot_store: sizes; ring; doubled. Of
 * cot_scale: sizes; epoch. Of cot_resize: sizes, of the source or the target; the source's order;
 * its serial.
 * Form and short are the replay program's: no call here returns them. */
#define COT_REFUSED_SIZES 1   /* table not whole records, K outside 1 to 1,024, lines not whole,
                                 C not under K, gauge bytes not 24, or ticket, sum or store bytes
                                 not 8; resize: any of these, of source or target; scale: its out
                                 bytes not 32, C 0, K not over C, or K over 1,024 */
#define COT_REFUSED_WEIGHT 2  /* read or update: weight over 65,535; update: weight 0 */
#define COT_REFUSED_ORDER 3   /* the table is not in order; resize: the source's */
#define COT_REFUSED_PICTURE 4 /* fill: the picture has not 64 bytes */
#define COT_REFUSED_NO_LINE 5 /* fill: the key is not tracked, or has no line */
#define COT_REFUSED_FILLED 6  /* fill: the key's line is filled already */
#define COT_REFUSED_FORM 7    /* replay: a journal record of unknown form */
#define COT_REFUSED_SHORT 8   /* replay: 1 to 87 bytes left at the journal's end */
#define COT_REFUSED_TICKET 9  /* fill: the ticket is not the one that the key has now */
#define COT_REFUSED_SERIAL 10 /* read of a weight over 0, update, fill, withdraw or resize:
                                 COT_MOST_SERIAL reached */
#define COT_REFUSED_DOUBLED 11 /* store: two points of the ring at one position */
#define COT_REFUSED_RING 12    /* store: a ring of no point, over 1,024, or not whole points */
#define COT_REFUSED_EPOCH 13   /* scale: lookups not whole numbers, or not of 1 to 64 stores;
                                  lookups to a store, hits or a part of a fraction over
                                  COT_MOST_COUNT; a denominator of 0; an imbalance below 1; a
                                  tolerance over 999 */

/* Returned by an accepted call. */
#define COT_DONE 0        /* fresh, levelled sum, store, resize */
#define COT_AGED 100      /* age */
#define COT_CHANGED 101   /* update: the key is tracked; a line it had is empty or another's now */
#define COT_UNKNOWN 102   /* update, withdraw: the key is not tracked; nothing has changed */
#define COT_STORED 103    /* fill: the picture is in the key's line */
#define COT_PASSED 104    /* read: the key has no line */
#define COT_WITHDRAWN 105 /* withdraw: the key is not tracked any more */
#define COT_GROW 106      /* scale: twice the lines and records, see cot_resize, and a new target */
#define COT_SHRINK 107    /* scale: half the lines and records, see cot_resize */
#define COT_AGE 108       /* scale: the heats should be halved, see cot_age */
#define COT_STAY 109      /* scale: nothing is to be done */
#define COT_HIT 2000      /* read: COT_HIT + n, the key's picture is in line n */
#define COT_WANTED 4000   /* read: COT_WANTED + n, the key has line n, which is to be filled; tells a
                             ticket for it */

/* Starts a cache: every byte of the table and of the gauge becomes zero, whatever they held. The
 * lines keep their bytes.
 * Returns COT_DONE; refused: sizes. */
uint64_t cot_fresh(uint8_t *table, size_t table_len, uint8_t *gauge, size_t gauge_len,
                   const uint8_t *lines, size_t lines_len);

/* Asks for the picture of a key. The weight is the number of pieces waiting.
 * A key that is not tracked becomes so. If no record is free, it gets that of the coldest key
 * without a line, which is then not tracked any more; of equally cold ones that whose heat may be
 * too high by the most (its slack), then the first in the table.
 * The 8 bytes of ticket get the ticket if the answer is COT_WANTED + n, and else stay.
 * A weight of 0 is a look, say for a display: it tells how the key stands, COT_PASSED if it is not
 * tracked, and changes nothing but the ticket bytes of a wanted. It counts for nothing.
 * Returns COT_HIT + n, COT_WANTED + n or COT_PASSED; refused: sizes, weight, order, and serial
 * unless it is a look. */
uint64_t cot_read(uint8_t *table, size_t table_len, uint8_t *gauge, size_t gauge_len,
                  const uint8_t *lines, size_t lines_len, uint64_t key, uint64_t weight,
                  uint8_t *ticket, size_t ticket_len);

/* Says that the picture of a key has changed; call it after the change, so that no later fetch
 * finds the old one. The weight is 1 to COT_MOST_WEIGHT. Its heat falls by the weight, a line it
 * has becomes empty, and the tickets that were given for it are void. A refused update changes
 * nothing: the old picture stays in its line, and its tickets are what they were. Mend the cause and
 * make it again; after COT_REFUSED_ORDER or COT_REFUSED_SERIAL start fresh.
 * Returns COT_CHANGED or COT_UNKNOWN; refused: sizes, weight, order, serial. */
uint64_t cot_update(uint8_t *table, size_t table_len, uint8_t *gauge, size_t gauge_len,
                    const uint8_t *lines, size_t lines_len, uint64_t key, uint64_t weight);

/* Puts the picture of a key into the line that the key has. The ticket is that of the wanted for
 * which the picture was fetched, see cot_ticket.
 * Returns COT_STORED; refused: sizes, picture, order, serial, no line, filled, ticket. */
uint64_t cot_fill(uint8_t *table, size_t table_len, const uint8_t *gauge, size_t gauge_len,
                  uint8_t *lines, size_t lines_len, uint64_t key, const uint8_t *picture,
                  size_t picture_len, uint64_t ticket);

/* Strikes a key from the books: its record becomes free, and the tickets that were given for it are
 * void. A line it had becomes empty and goes, with a new ticket, to the hottest tracked key without
 * one, or is unused if there is none; a read or a look of that key then tells wanted. The total and
 * the ceiling stay. The key may be read again: it is then a new one, which begins at the ceiling. A
 * refused withdrawal changes nothing: the key and its picture stay. Mend the cause and make it
 * again; after COT_REFUSED_ORDER or COT_REFUSED_SERIAL start fresh.
 * Returns COT_WITHDRAWN or COT_UNKNOWN; refused: sizes, order, serial. */
uint64_t cot_withdraw(uint8_t *table, size_t table_len, uint8_t *gauge, size_t gauge_len,
                      const uint8_t *lines, size_t lines_len, uint64_t key);

/* Halves every heat, the total and the ceiling, rounded down, and every slack, rounded up. A read
 * does so first where the total would pass COT_MOST_TOTAL.
 * Returns COT_AGED; refused: sizes, order. */
uint64_t cot_age(uint8_t *table, size_t table_len, uint8_t *gauge, size_t gauge_len,
                 const uint8_t *lines, size_t lines_len);

/* Puts the levelled sum into the 8 bytes of sum: over all K records, the larger of heat and
 * ceiling. A refused call leaves them. From a fresh start on the sum is at most the total, if K is
 * the smallest record count F that the cache has had since then. Where a resize has made the table
 * larger than that, the sum over all K records may exceed the total. What is then at most the total
 * is the sum over any F of the records, and F times the ceiling.
 * Returns COT_DONE; refused: sizes, order. */
uint64_t cot_levelled_sum(const uint8_t *table, size_t table_len, const uint8_t *gauge,
                          size_t gauge_len, const uint8_t *lines, size_t lines_len, uint8_t *sum,
                          size_t sum_len);

/* Tells which of several stores a key's picture is fetched from.
 * Each point of the ring is a 64-bit position and then a 64-bit store number, as in the gauge; see
 * cot_put_point. The points may come in any order. A store may have several: that spreads the keys
 * more evenly. The position is the key's own, such as a hash of the key: all hosts that share
 * stores should make it in the same way. The key's point is the next one clockwise, be it at the
 * key's own position: that for which the point's position minus the key's, wrapped at 64 bits, is
 * the smallest. The 8 bytes of store get the number of that point's store; a refused call leaves
 * them.
 * If a point is added, a key keeps its point or now has the new one; if a point is taken out, only
 * keys that had it get another. The ring may be lent in another order or with other points at the
 * next call: nothing of it is kept.
 * Returns COT_DONE; refused: sizes, ring, doubled. */
uint64_t cot_store(const uint8_t *ring, size_t ring_len, uint64_t position, uint8_t *store,
                   size_t store_len);

/* Tells at the end of an epoch, a number of reads, whether the cache should grow, shrink, age or
 * stay as it is: Algorithm 3 of the CoT paper. Call it after each epoch of at least as many reads
 * as the table has records. What it tells is to be done by the host; see below.
 *   lookups    how many lookups went to each store in the epoch, a number of 8 bytes for each of 1
 *              to COT_MOST_STORES stores; see cot_put_number
 *   on, off    the hits of the epoch, on lines and off them: reads of a weight over 0 that were
 *              answered hit; and such reads of keys that were tracked without a line when they
 *              came, see cot_is_off_lines. A read of a key whose own line is empty is neither
 *   lines, records     C, at least 1, and K, over C
 *   imbalance_over / _under   the imbalance that is aimed at, 11 / 10 say, at least 1: the most
 *              lookups to one store may be so many times the fewest
 *   target_over / _under      the hits per line that are aimed at: 0 / 1 at first, and from a grow
 *              on what it told, which are those of the cache before it grew. A host may aim at
 *              others: docs/BENCH.md has such a run
 *   tolerance  so many thousandths of the target may be missed, 0 to 999
 * It returns
 *   COT_GROW   if the imbalance is over the one aimed at, and a line had, on the average, as many
 *              hits as a record without one, or more. Out gets the new C and K, twice each, and the
 *              new target, its over and its under: the hits per line of this epoch.
 *   COT_SHRINK else, if the hits per line, and those per record without one, are both below the
 *              target less what is tolerated. The first 16 bytes of out get the new C and K, half
 *              each, C rounded down and K up.
 *   COT_AGE    else, if the hits per line are below that, and those per record without one above.
 *   COT_STAY   else. And in place of a grow to over COT_MOST_RECORDS, or of a shrink with one line.
 * Where it writes nothing, and where it is refused, the bytes stay. Stores without lookups beside
 * one that has some are over any imbalance; if none has any, that is within it. An epoch of at most
 * COT_MOST_COUNT reads keeps all counts in bounds.
 * To grow or shrink, lend cot_resize a target with the new C lines and K records, and leave some
 * epochs out, until the lines and records that are new have filled; for an aging call cot_age. All
 * answers but a grow keep the target.
 * Refused: sizes, epoch. */
uint64_t cot_scale(const uint8_t *lookups, size_t lookups_len, uint64_t on, uint64_t off,
                   uint64_t lines, uint64_t records, uint64_t imbalance_over,
                   uint64_t imbalance_under, uint64_t target_over, uint64_t target_under,
                   uint64_t tolerance, uint8_t *out, size_t out_len);

/* Copies a cache into other buffers, of another K and C or of the same. The source is the table,
 * the gauge and the lines that the cache has now, and is only read. The target is to_table,
 * to_gauge and to_lines: their lengths tell the new K and C, they may hold any bytes, and they must
 * not overlap each other or the source.
 *   - If more keys are on lines than there will be lines, the coldest lose theirs, of equally cold
 *     ones the first in the table.
 *   - Then, if more keys are tracked than there will be records, the surplus is dropped, one after
 *     another, each time the one that cot_read would evict. The ceiling rises to the heat of the
 *     hottest of them, if that is higher. A dropped key is not tracked any more: a read tracks it
 *     anew.
 *   - The records that are kept come first in the target's table, in their old order; the rest are
 *     free. Each kept key on a line gets the next line number in that order, with the 64 bytes of
 *     its line, its ticket, and filled or empty as before. Line bytes beyond those stay.
 *   - The lines that are left, lowest first, go to the hottest tracked keys without one, of equally
 *     hot ones to the first in the table. They are empty and have new tickets: a read or a look of
 *     those keys tells wanted. If no such key is left, the other lines are unused.
 * Total and serial are those of the source, but each new ticket adds 1 to the serial: at most 1,023
 * in one call. If it comes to COT_MOST_SERIAL by that, later calls that need it are refused.
 * After COT_DONE lend the target, in the source's place, to every later call: what is promised then
 * holds for it, with all that came before the resize, and for the source no more. The source's
 * buffers may be freed, or be the target of a later resize.
 * A line number from before a resize is void, even where K and C stay: read or look again. A fetch
 * that is under way goes on: if its key keeps a line, cot_fill takes the ticket. If the key has
 * lost its line or was dropped, the fill is refused.
 * A refusal leaves source and target; after COT_REFUSED_ORDER or COT_REFUSED_SERIAL start fresh.
 * The call passes over the table up to some 2,000 times, which takes up to some 2 milliseconds at
 * 1,024 records, and takes less than 45 KiB of stack, for a copy of the table.
 * Returns COT_DONE; refused: sizes, order, serial. */
uint64_t cot_resize(const uint8_t *table, size_t table_len, const uint8_t *gauge, size_t gauge_len,
                    const uint8_t *lines, size_t lines_len, uint8_t *to_table, size_t to_table_len,
                    uint8_t *to_gauge, size_t to_gauge_len, uint8_t *to_lines, size_t to_lines_len);

/* 1 if the returned number is that of a refused call, else 0. */
static inline int cot_is_refused(uint64_t number)
{
    return number >= 1 && number < 100;
}

/* 1 if the returned number is COT_HIT + n, else 0. */
static inline int cot_is_hit(uint64_t number)
{
    return number >= COT_HIT && number < COT_HIT + COT_MOST_RECORDS;
}

/* 1 if the returned number is COT_WANTED + n, else 0. */
static inline int cot_is_wanted(uint64_t number)
{
    return number >= COT_WANTED && number < COT_WANTED + COT_MOST_RECORDS;
}

/* The line n of a hit or a wanted. Of no use for any other number. */
static inline size_t cot_line(uint64_t number)
{
    return (size_t)(number - (number >= COT_WANTED ? COT_WANTED : COT_HIT));
}

/* The number in 8 bytes, least significant byte first: a ticket, a sum or a store, or one of the
 * gauge's or of those that cot_scale gives. */
static inline uint64_t cot_number(const uint8_t bytes[8])
{
    uint64_t number = 0;
    for (int i = 7; i >= 0; i--)
        number = number << 8 | bytes[i];
    return number;
}

/* The number in the 8 bytes of a ticket. */
static inline uint64_t cot_ticket(const uint8_t ticket[COT_TICKET_BYTES])
{
    return cot_number(ticket);
}

/* Writes a number into 8 bytes, least significant byte first: one of the lookups of cot_scale. */
static inline void cot_put_number(uint8_t bytes[8], uint64_t number)
{
    for (int i = 0; i < 8; i++)
        bytes[i] = (uint8_t)(number >> 8 * i);
}

/* Writes the point at a place, counted from 0, of a ring that has room for it. */
static inline void cot_put_point(uint8_t *ring, size_t place, uint64_t position, uint64_t store)
{
    uint8_t *point = ring + COT_POINT_BYTES * place;
    cot_put_number(point, position);
    cot_put_number(point + 8, store);
}

/* 1 if the key is tracked in the table without a line, else 0. Asked before a read of a weight over
 * 0, it tells whether that is a hit off the lines, see cot_scale. It goes over the table. */
static inline int cot_is_off_lines(const uint8_t *table, size_t table_len, uint64_t key)
{
    uint8_t own[8];
    cot_put_number(own, key);
    for (size_t at = 0; at + COT_RECORD_BYTES <= table_len; at += COT_RECORD_BYTES)
        if (memcmp(table + at, own, 8) == 0 && cot_number(table + at + 24) != 0)
            return cot_number(table + at + 24) == 1;
    return 0;
}

#ifdef __cplusplus
}
#endif

#endif
