/* host.c: how a C host uses the cache.
 *
 *     gcc -std=c11 -O2 -Iinclude examples/host.c crates/cot/out/libcot.a -o host && ./host
 */
#include "cot.h"

#include <inttypes.h>
#include <stdio.h>
#include <string.h>

enum { K = 4, C = 1 };

static uint8_t table[K * COT_RECORD_BYTES];
static uint8_t gauge[COT_GAUGE_BYTES];
static uint8_t lines[C * COT_LINE_BYTES];

/* A stand-in for the slow store: the picture of a class depends on its key and its version. */
static unsigned version = 1;

static void fetch(uint64_t key, uint8_t picture[COT_LINE_BYTES])
{
    memset(picture, 0, COT_LINE_BYTES);
    snprintf((char *)picture, COT_LINE_BYTES, "picture of class %" PRIu64 ", version %u", key,
             version);
    printf("  fetched from the store\n");
}

/* Stops the host when a call is refused: it would be a fault of the host. */
static int checked(uint64_t number)
{
    if (cot_is_refused(number)) {
        printf("  refused: %" PRIu64 "\n", number);
        return 0;
    }
    return 1;
}

/* Some pieces of a class are waiting. A wanted tells a ticket. */
static uint64_t ask(uint64_t key, uint64_t pieces, uint8_t ticket[COT_TICKET_BYTES])
{
    printf("class %" PRIu64 ", pieces waiting: %" PRIu64 "\n", key, pieces);
    uint64_t number = cot_read(table, sizeof table, gauge, sizeof gauge, lines, sizeof lines, key,
                               pieces, ticket, COT_TICKET_BYTES);
    if (cot_is_hit(number))
        printf("  hit on line %zu\n", cot_line(number));
    else if (cot_is_wanted(number))
        printf("  wanted on line %zu, ticket %" PRIu64 "\n", cot_line(number), cot_ticket(ticket));
    else if (number == COT_PASSED)
        printf("  passed: not hot enough for a line\n");
    return number;
}

/* A picture that was wanted arrives, with the ticket that was given. If it comes too late (the line
 * is lost or filled, or the picture has changed), it is dropped: no fault of the host. */
static int fill(uint64_t key, const uint8_t picture[COT_LINE_BYTES], uint64_t ticket)
{
    uint64_t number = cot_fill(table, sizeof table, gauge, sizeof gauge, lines, sizeof lines, key,
                               picture, COT_LINE_BYTES, ticket);
    if (number == COT_REFUSED_NO_LINE || number == COT_REFUSED_FILLED ||
        number == COT_REFUSED_TICKET) {
        printf("  ticket %" PRIu64 " is refused with %" PRIu64 ": too late, dropped\n", ticket,
               number);
        return 1;
    }
    if (!checked(number))
        return 0;
    printf("  filled\n");
    return 1;
}

/* The picture of a class is used, from its line if it is there. */
static int sort(uint64_t key, uint64_t pieces)
{
    uint8_t picture[COT_LINE_BYTES], ticket[COT_TICKET_BYTES];
    const uint8_t *use = picture;

    uint64_t number = ask(key, pieces, ticket);
    if (!checked(number))
        return 0;
    if (cot_is_hit(number))
        use = lines + COT_LINE_BYTES * cot_line(number);
    else
        fetch(key, picture);
    if (cot_is_wanted(number) && !fill(key, picture, cot_ticket(ticket)))
        return 0;
    printf("  used: %s\n", (const char *)use);
    return 1;
}

/* The display shows a class before any piece falls: a read of weight 0 changes nothing. */
static int look(uint64_t key)
{
    uint8_t ticket[COT_TICKET_BYTES];

    printf("the display asks for class %" PRIu64 "\n", key);
    uint64_t number = cot_read(table, sizeof table, gauge, sizeof gauge, lines, sizeof lines, key,
                               0, ticket, sizeof ticket);
    if (!checked(number))
        return 0;
    if (cot_is_hit(number))
        printf("  shown: %s\n", (const char *)(lines + COT_LINE_BYTES * cot_line(number)));
    else
        printf("  not shown: %s\n", cot_is_wanted(number) ? "its line is empty" : "it has no line");
    return 1;
}

/* The picture of a class changes in the store; the cache is told so after that. */
static int change(uint64_t key)
{
    version++;
    printf("the picture of class %" PRIu64 " changes\n", key);
    uint64_t number = cot_update(table, sizeof table, gauge, sizeof gauge, lines, sizeof lines,
                                 key, 1);
    if (!checked(number))
        return 0;
    printf("  %s\n", number == COT_CHANGED ? "changed" : "unknown");
    return 1;
}

/* An update overtakes a fetch: the picture that arrives is the old one. */
static int overtaken(uint64_t key, uint64_t pieces)
{
    uint8_t picture[COT_LINE_BYTES], ticket[COT_TICKET_BYTES];

    uint64_t number = ask(key, pieces, ticket);
    if (!cot_is_wanted(number))
        return checked(number);
    fetch(key, picture);
    return change(key) && fill(key, picture, cot_ticket(ticket));
}

/* A class is struck from the books, and the cache forgets it. */
static int withdraw(uint64_t key)
{
    printf("class %" PRIu64 " is struck from the books\n", key);
    uint64_t number = cot_withdraw(table, sizeof table, gauge, sizeof gauge, lines, sizeof lines,
                                   key);
    if (!checked(number))
        return 0;
    printf("  %s\n", number == COT_WITHDRAWN ? "withdrawn" : "unknown");
    return 1;
}

static int age(void)
{
    printf("the heats age\n");
    uint64_t number = cot_age(table, sizeof table, gauge, sizeof gauge, lines, sizeof lines);
    if (!checked(number))
        return 0;
    printf("  aged\n");
    return 1;
}

/* A number that the library keeps: 8 bytes, least significant first. */
static uint64_t number_at(const uint8_t bytes[8])
{
    uint64_t number = 0;
    for (int i = 7; i >= 0; i--)
        number = number << 8 | bytes[i];
    return number;
}

/* The total, and the levelled sum, which never exceeds it. */
static int report(void)
{
    uint8_t sum[COT_SUM_BYTES];
    if (!checked(cot_levelled_sum(table, sizeof table, gauge, sizeof gauge, lines, sizeof lines,
                                  sum, sizeof sum)))
        return 0;
    printf("total %" PRIu64 ", levelled sum %" PRIu64 "\n", number_at(gauge), number_at(sum));
    return 1;
}

int main(void)
{
    /* Memory may come with any bytes in it. */
    memset(table, 0xee, sizeof table);
    memset(gauge, 0xee, sizeof gauge);
    memset(lines, 0xee, sizeof lines);
    if (!checked(cot_fresh(table, sizeof table, gauge, sizeof gauge, lines, sizeof lines)))
        return 1;

    int good = look(5)            /* passed: nothing is known of class 5, and a look leaves it so */
               && sort(5, 3)      /* wanted: the picture is fetched and filled */
               && look(5)         /* hit */
               && sort(5, 1)      /* hit */
               && sort(7, 2)      /* passed: class 5 is hotter and there is one line */
               && change(5)       /* the line of class 5 becomes empty */
               && look(5)         /* wanted, and the line stays empty */
               && overtaken(5, 1) /* wanted, but the picture changes before it arrives */
               && sort(5, 1)      /* wanted again, with another ticket */
               && sort(5, 1)      /* hit, with the new picture */
               && age()           /* every heat is halved; the picture stays */
               && sort(5, 1)      /* hit */
               && withdraw(5)     /* its line goes to class 7, empty and with a new ticket */
               && look(7)         /* wanted */
               && sort(7, 1)      /* wanted: the picture is fetched and filled */
               && report();
    return good ? 0 : 1;
}
