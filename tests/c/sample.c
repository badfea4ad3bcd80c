/* sample.c: document 01's thirteen sample calls, the edges for K = 3, C = 1, document 02's looks,
 * tickets, withdrawals, equals, stores, epochs and resizes, fresh, levelled sums and the helpers of
 * cot.h.
 *
 * Prints each returned number, with the line of a hit or a wanted and the ticket of a wanted, and
 * the gauge after the call. A refused call must leave all lent memory as it was, and a read that
 * is not wanted the ticket bytes. The output must equal sample.expected. */
#include "cot.h"

#include <inttypes.h>
#include <stdio.h>
#include <string.h>

enum { K = 3, C = 1, MOST = COT_LINE_BYTES * COT_MOST_RECORDS };

/* The lent buffers, each with room for lengths that are too large. */
static uint8_t table[MOST], gauge[MOST], lines[MOST], picture[MOST], ticket[MOST], sum[MOST];
static size_t table_len, gauge_len, lines_len, picture_len, ticket_len, sum_len;

/* "A length of 0 may come with any pointer, NULL too." */
static uint8_t *lent(uint8_t *bytes, size_t len)
{
    return len == 0 ? NULL : bytes;
}

static uint64_t number_at(const uint8_t *bytes)
{
    uint64_t number = 0;
    for (int i = 7; i >= 0; i--)
        number = number << 8 | bytes[i];
    return number;
}

static void put(uint8_t *bytes, uint64_t number)
{
    for (int i = 0; i < 8; i++)
        bytes[i] = (uint8_t)(number >> (8 * i));
}

/* A record with ticket 0. */
static void put_record(int place, uint64_t key, uint64_t heat, uint64_t slack, uint64_t state)
{
    uint8_t *record = table + COT_RECORD_BYTES * place;
    put(record, key);
    put(record + 8, heat);
    put(record + 16, slack);
    put(record + 24, state);
    put(record + 32, 0);
}

static void put_ticket(int place, uint64_t number)
{
    put(table + COT_RECORD_BYTES * place + 32, number);
}

static void put_gauge(uint64_t total, uint64_t ceiling)
{
    put(gauge, total);
    put(gauge + 8, ceiling);
}

static void put_serial(uint64_t serial)
{
    put(gauge + 16, serial);
}

/* A fresh table and gauge of the right lengths. */
static void fresh(void)
{
    memset(table, 0, sizeof table);
    memset(gauge, 0, sizeof gauge);
    memset(lines, 0xa5, sizeof lines);
    memset(sum, 0x5a, sizeof sum);
    for (int i = 0; i < MOST; i++)
        picture[i] = (uint8_t)i;
    table_len = COT_RECORD_BYTES * K;
    gauge_len = COT_GAUGE_BYTES;
    lines_len = COT_LINE_BYTES * C;
    picture_len = COT_LINE_BYTES;
    ticket_len = COT_TICKET_BYTES;
    sum_len = COT_SUM_BYTES;
}

/* Any bytes in the table and the gauge, of the right lengths. */
static void dirty(void)
{
    fresh();
    memset(table, 0xee, sizeof table);
    memset(gauge, 0xee, sizeof gauge);
}

/* The memory before a call. */
static uint8_t before[6][MOST];

static void keep(void)
{
    memcpy(before[0], table, MOST);
    memcpy(before[1], gauge, MOST);
    memcpy(before[2], lines, MOST);
    memcpy(before[3], picture, MOST);
    memcpy(before[4], sum, MOST);
    memset(ticket, 0x3c, MOST);
    memcpy(before[5], ticket, MOST);
}

/* 1 if the table, the gauge and the lines are as they were before the call. */
static int three_kept(void)
{
    return memcmp(before[0], table, MOST) == 0 && memcmp(before[1], gauge, MOST) == 0 &&
           memcmp(before[2], lines, MOST) == 0;
}

static int sum_kept(void)
{
    return memcmp(before[4], sum, MOST) == 0;
}

static int ticket_kept(void)
{
    return memcmp(before[5], ticket, MOST) == 0;
}

/* 1 if a line has the bytes of the picture. */
static int in_a_line(void)
{
    for (size_t at = 0; at < lines_len; at += COT_LINE_BYTES)
        if (memcmp(lines + at, picture, COT_LINE_BYTES) == 0)
            return 1;
    return 0;
}

/* Prints what a call came to, with what more there is to say of it. */
static void show(const char *name, uint64_t number, const char *more)
{
    printf("%s: %" PRIu64, name, number);
    if (cot_is_hit(number))
        printf(" (hit, line %zu)", cot_line(number));
    if (cot_is_wanted(number))
        printf(" (wanted, line %zu, ticket %" PRIu64 ")", cot_line(number), cot_ticket(ticket));
    else if (!ticket_kept())
        printf(", TICKET BYTES CHANGED");
    printf(", total %" PRIu64 ", ceiling %" PRIu64 ", serial %" PRIu64 "%s", number_at(gauge),
           number_at(gauge + 8), number_at(gauge + 16), more);
    if (cot_is_refused(number))
        printf(", memory %s", three_kept() && sum_kept() ? "as it was" : "CHANGED");
    if (number == COT_STORED && !in_a_line())
        printf(", LINE NOT FILLED");
    if (memcmp(before[3], picture, MOST) != 0)
        printf(", PICTURE CHANGED");
    if (memcmp(before[0] + table_len, table + table_len, MOST - table_len) != 0 ||
        memcmp(before[1] + gauge_len, gauge + gauge_len, MOST - gauge_len) != 0 ||
        memcmp(before[2] + lines_len, lines + lines_len, MOST - lines_len) != 0 ||
        memcmp(before[4] + sum_len, sum + sum_len, MOST - sum_len) != 0 ||
        memcmp(before[5] + ticket_len, ticket + ticket_len, MOST - ticket_len) != 0)
        printf(", BYTES PAST A LENGTH CHANGED");
    printf("\n");
}

/* The table, the gauge and the lines as each call is lent them. */
#define LENT                                                                                       \
    lent(table, table_len), table_len, lent(gauge, gauge_len), gauge_len, lent(lines, lines_len),  \
        lines_len

/* Where a read puts the ticket of a wanted. */
#define TICKET lent(ticket, ticket_len), ticket_len

static void call_read(const char *name, uint64_t key, uint64_t weight)
{
    keep();
    show(name, cot_read(LENT, key, weight, TICKET), "");
}

/* A look is a read of weight 0. */
static void call_look(const char *name, uint64_t key)
{
    const char *more = "";
    keep();
    uint64_t number = cot_read(LENT, key, 0, TICKET);
    if (!cot_is_refused(number))
        more = !three_kept() || !sum_kept() ? ", MEMORY CHANGED"
               : cot_is_wanted(number)      ? ", nothing else changed"
                                            : ", nothing changed";
    show(name, number, more);
}

static void call_update(const char *name, uint64_t key, uint64_t weight)
{
    keep();
    show(name, cot_update(LENT, key, weight), "");
}

static void call_fill(const char *name, uint64_t key, uint64_t brought)
{
    keep();
    show(name, cot_fill(LENT, key, lent(picture, picture_len), picture_len, brought), "");
}

static void call_withdraw(const char *name, uint64_t key)
{
    const char *more = "";
    keep();
    uint64_t number = cot_withdraw(LENT, key);
    if (number == COT_UNKNOWN)
        more = three_kept() && sum_kept() ? ", nothing changed" : ", MEMORY CHANGED";
    if (number == COT_WITHDRAWN && (memcmp(before[2], lines, MOST) != 0 || !sum_kept()))
        more = ", LINES OR SUM CHANGED";
    show(name, number, more);
}

static void call_age(const char *name)
{
    keep();
    show(name, cot_age(LENT), "");
}

static void call_fresh(const char *name)
{
    static const uint8_t zero[MOST];
    const char *more = "";
    keep();
    uint64_t number = cot_fresh(LENT);
    if (number == COT_DONE) {
        int good = memcmp(zero, table, table_len) == 0 && memcmp(zero, gauge, gauge_len) == 0 &&
                   memcmp(before[2], lines, MOST) == 0 && sum_kept();
        more = good ? ", table and gauge zero, lines as they were" : ", NOT FRESH";
    }
    show(name, number, more);
}

static void call_sum(const char *name)
{
    char more[64] = "";
    keep();
    uint64_t number = cot_levelled_sum(LENT, lent(sum, sum_len), sum_len);
    if (number == COT_DONE)
        snprintf(more, sizeof more, ", sum %" PRIu64 "%s", number_at(sum),
                 three_kept() ? "" : ", MEMORY CHANGED");
    show(name, number, more);
}

static void show_record(const uint8_t *of, size_t place)
{
    const uint8_t *record = of + COT_RECORD_BYTES * place;
    printf("record %zu: key %" PRIu64 ", heat %" PRIu64 ", slack %" PRIu64 ", state %" PRIu64
           ", ticket %" PRIu64 "\n",
           place, number_at(record), number_at(record + 8), number_at(record + 16),
           number_at(record + 24), number_at(record + 32));
}

static void show_records(void)
{
    for (size_t i = 0; i < K; i++)
        show_record(table, i);
}

static void thirteen_calls(void)
{
    fresh();
    call_read("1 read 5 w 3", 5, 3);
    call_fill("2 fill 5", 5, 1);
    call_read("3 read 5 w 1", 5, 1);
    call_read("4 read 7 w 4", 7, 4);
    call_read("5 read 7 w 1", 7, 1);
    call_read("6 read 9 w 2", 9, 2);
    call_read("7 read 11 w 1", 11, 1);
    call_update("8 update 7 w 3", 7, 3);
    call_update("9 update 9 w 1", 9, 1);
    call_fill("10 fill 7", 7, 2);
    call_age("11 age");
    call_read("12 read 9 w 1", 9, 1);
    call_read("13 read 9 w 1", 9, 1);
    show_records();
    call_sum("levelled sum after the thirteen");
}

/* A name of two parts, good until the next one. */
static const char *of(const char *name, const char *call)
{
    static char text[80];
    snprintf(text, sizeof text, "%s, %s", name, call);
    return text;
}

/* The seven calls, one after another. From fresh, the read takes a line with ticket 1 and the
 * update gives it ticket 2. */
static void all_seven(const char *name)
{
    call_read(of(name, "read"), 5, 1);
    call_update(of(name, "update"), 5, 1);
    call_fill(of(name, "fill"), 5, 2);
    call_withdraw(of(name, "withdraw"), 5);
    call_age(of(name, "age"));
    call_sum(of(name, "levelled sum"));
    call_fresh(of(name, "fresh"));
}

static void sizes(void)
{
    fresh();
    table_len = 0;
    all_seven("table of 0 bytes");
    fresh();
    table_len = 119;
    all_seven("table of 119 bytes");
    fresh();
    table_len = 121;
    all_seven("table of 121 bytes");
    fresh();
    table_len = 96;
    all_seven("table of 96 bytes");
    fresh();
    table_len = 40960;
    all_seven("table of 40960 bytes");
    fresh();
    table_len = 41000;
    all_seven("table of 41000 bytes");
    fresh();
    table_len = 40;
    all_seven("K = 1 with one line");
    fresh();
    lines_len = 63;
    all_seven("lines of 63 bytes");
    fresh();
    lines_len = 65;
    all_seven("lines of 65 bytes");
    fresh();
    lines_len = 192;
    all_seven("three lines");
    fresh();
    gauge_len = 0;
    all_seven("gauge of 0 bytes");
    fresh();
    gauge_len = 16;
    all_seven("gauge of 16 bytes");
    fresh();
    gauge_len = 23;
    all_seven("gauge of 23 bytes");
    fresh();
    gauge_len = 25;
    all_seven("gauge of 25 bytes");
    fresh();
    lines_len = 0;
    all_seven("no lines");
    fresh();
    lines_len = 128;
    all_seven("two lines");
}

static void fresh_on_any_bytes(void)
{
    dirty();
    table_len = 0;
    call_fresh("fresh, table of 0 bytes");
    table_len = 119;
    call_fresh("fresh, table of 119 bytes");
    table_len = 40;
    call_fresh("fresh, K = 1 with one line");
    dirty();
    lines_len = 63;
    call_fresh("fresh, lines of 63 bytes");
    lines_len = 192;
    call_fresh("fresh, three lines");
    dirty();
    gauge_len = 0;
    call_fresh("fresh, gauge of 0 bytes");
    gauge_len = 23;
    call_fresh("fresh, gauge of 23 bytes");
    gauge_len = 25;
    call_fresh("fresh, gauge of 25 bytes");
    gauge_len = 24;
    call_age("any bytes, age");
    call_fresh("fresh on any bytes");
    call_read("read after it", 5, 3);
    call_fill("fill after it", 5, 1);
    call_fresh("fresh again");
    call_update("update after it", 5, 3);
    dirty();
    table_len = 40;
    lines_len = 0;
    call_fresh("fresh, K = 1 with no lines");
}

/* K records with heats 1 to K, of a gauge, and no lines. */
static void heats_to(int k, uint64_t total, uint64_t ceiling)
{
    fresh();
    table_len = (size_t)COT_RECORD_BYTES * k;
    lines_len = 0;
    put_gauge(total, ceiling);
    for (int i = 0; i < k; i++)
        put_record(i, 10 + i, 1 + i, 9, 1);
}

static void levelled_sums(void)
{
    heats_to(1, 7, 0);
    call_sum("levelled sum, K = 1");
    put_gauge(7, 2);
    call_sum("levelled sum, K = 1, heat below the ceiling");
    put_record(0, 0, 0, 0, 0);
    call_sum("levelled sum, K = 1, free record");
    heats_to(3, 12, 2);
    call_sum("levelled sum, K = 3");
    heats_to(5, 20, 3);
    call_sum("levelled sum, K = 5");
    heats_to(8, 36, 0);
    call_sum("levelled sum, K = 8");

    /* Heats 4 on a line and 2, and a free record. */
    fresh();
    put_gauge(12, 3);
    put_record(0, 5, 4, 9, 3);
    put_record(1, 7, 2, 9, 1);
    call_sum("levelled sum, a free record");
    put_gauge(COT_MOST_TOTAL, COT_MOST_TOTAL);
    call_sum("levelled sum, ceiling 4294967295");

    put_gauge(12, 3);
    sum_len = 0;
    call_sum("sum of 0 bytes");
    sum_len = 7;
    call_sum("sum of 7 bytes");
    sum_len = 9;
    call_sum("sum of 9 bytes");
    sum_len = 16;
    call_sum("sum of 16 bytes");
    sum_len = COT_SUM_BYTES;
    table_len = 119;
    call_sum("levelled sum, table of 119 bytes");
    table_len = 80;
    lines_len = 128;
    call_sum("levelled sum, K = 2 with two lines");
    table_len = 120;
    lines_len = 63;
    call_sum("levelled sum, lines of 63 bytes");
    lines_len = 64;
    gauge_len = 23;
    call_sum("levelled sum, gauge of 23 bytes");
    gauge_len = 24;
    put_record(0, 5, 13, 9, 3);
    call_sum("levelled sum, heat over total");
}

static void weights_and_pictures(void)
{
    fresh();
    call_read("weight 65536, read", 5, 65536);
    call_read("weight 2^64 - 1, read", 5, UINT64_MAX);
    call_read("weight 65535, read", 5, 65535);
    call_update("weight 0, update", 5, 0);
    call_update("weight 65536, update", 5, 65536);
    call_update("weight 2^64 - 1, update", 5, UINT64_MAX);
    picture_len = 0;
    call_fill("picture of 0 bytes", 5, 1);
    picture_len = 63;
    call_fill("picture of 63 bytes", 5, 1);
    picture_len = 65;
    call_fill("picture of 65 bytes", 5, 1);
    picture_len = 64;
    call_fill("picture of 64 bytes", 5, 1);
    call_fill("line filled", 5, 1);
    call_update("weight 65535, update", 5, 65535);
    call_fill("fill after an update", 5, 2);
    call_fill("fill of an untracked key", 7, 2);
}

static void looks(void)
{
    fresh();
    call_look("look, fresh table", 5);
    call_read("a read of it", 5, 1);
    call_look("look, line empty", 5);
    call_fill("its fill", 5, 1);
    call_look("look, line filled", 5);
    call_look("look, untracked with free records", 7);
    call_read("a read of that", 7, 1);
    call_look("look, without a line", 7);

    /* The one line is unused, and the total is at its limit. */
    fresh();
    put_gauge(4294967295u, 5);
    put_record(1, 5, 4, 3, 1);
    call_look("look, a line unused, total 4294967295", 5);
    call_look("look, untracked, total 4294967295", 7);
    call_read("a read of 1 there", 5, 1);

    put_record(1, 5, 4, 3, 4);
    call_look("look, state 4", 5);
    gauge_len = 23;
    call_look("look, gauge of 23 bytes and state 4", 5);
}

static void tickets(void)
{
    /* An update overtakes a fetch. */
    fresh();
    call_read("a line taken", 5, 6);
    call_read("wanted again", 5, 1);
    call_update("update, the line kept", 5, 1);
    call_fill("fill with the ticket from before", 5, 1);
    call_fill("fill with ticket 0", 5, 0);
    call_fill("fill with a ticket to come", 5, 3);
    call_look("look for the ticket", 5);
    call_fill("fill with it", 5, 2);
    call_read("hit", 5, 1);
    call_update("update of a filled line", 5, 1);
    call_fill("fill with the ticket of that picture", 5, 2);
    call_age("age");
    call_fill("fill with the new one after the aging", 5, 3);
    show_records();

    /* A line is lost and taken back: each time with another ticket. */
    call_read("7 takes the line", 7, 9);
    show_records();
    call_fill("fill of 5, which lost it", 5, 3);
    call_update("update of 5, without a line", 5, 1);
    call_update("update of 11, untracked", 11, 1);
    call_update("update of 7, the line lost to 5", 7, 9);
    show_records();
    call_fill("fill of 5 with an old ticket", 5, 3);
    call_fill("fill of 5 with 7's ticket", 5, 4);
    call_fill("fill of 5 with its own", 5, 5);

    ticket_len = 0;
    call_read("ticket of 0 bytes", 5, 1);
    ticket_len = 7;
    call_read("ticket of 7 bytes", 5, 1);
    ticket_len = 9;
    call_read("ticket of 9 bytes", 5, 1);
    ticket_len = 16;
    call_look("look, ticket of 16 bytes", 5);

    /* The tickets of records on lines may be any numbers. */
    fresh();
    put_gauge(4, 0);
    put_record(0, 5, 4, 0, 2);
    call_read("ticket 0 on a line", 5, 1);
    call_fill("its fill", 5, 0);
    put_record(0, 5, 4, 0, 2);
    put_ticket(0, UINT64_MAX);
    call_read("ticket 2^64 - 1 on a line", 5, 1);
    call_fill("its fill", 5, UINT64_MAX);
}

static void withdrawals(void)
{
    /* The line goes to the hottest without one. */
    fresh();
    call_read("a line taken", 5, 9);
    call_fill("its fill", 5, 1);
    call_read("7 without a line", 7, 2);
    call_read("9 without a line", 9, 4);
    call_withdraw("withdraw 5, its line goes to 9", 5);
    show_records();
    call_look("look at 5", 5);
    call_fill("fill of 5", 5, 1);
    call_withdraw("withdraw 5 again", 5);
    call_fill("fill of 9 with the ticket of 5", 9, 1);
    call_look("look at 9", 9);
    call_fill("fill of 9 with its own", 9, 2);

    /* Nobody is left to take the line. */
    call_withdraw("withdraw 7, without a line", 7);
    show_records();
    call_withdraw("withdraw 9, the last one", 9);
    show_records();
    call_read("11 takes the unused line", 11, 1);

    /* "a withdrawal leaves the ceiling", and a class that comes back begins there. */
    fresh();
    call_read("5 takes the line", 5, 3);
    call_read("7 tracked", 7, 2);
    call_read("9 tracked", 9, 2);
    call_read("11 evicts 7", 11, 1);
    call_withdraw("withdraw 9, ceiling 2", 9);
    call_read("9 comes back", 9, 1);
    show_records();
    call_withdraw("withdraw 5, its line goes to the first among equals", 5);
    show_records();
    call_sum("levelled sum with a free record");

    /* A free record is not the hottest without a line, even where that has heat 0. */
    fresh();
    put_gauge(4, 0);
    put_record(0, 5, 4, 0, 3);
    put_record(2, 7, 0, 0, 1);
    call_withdraw("withdraw 5, its line goes to a heat of 0", 5);
    show_records();

    /* Line 1 of two. */
    fresh();
    lines_len = 128;
    call_read("5 takes line 0", 5, 9);
    call_read("7 takes line 1", 7, 5);
    call_read("9 tracked", 9, 1);
    call_withdraw("withdraw 7, line 1 goes to 9", 7);
    call_look("look at 9", 9);
    call_withdraw("withdraw 9", 9);
    call_read("11 takes line 1", 11, 1);

    /* Key 0 and a free record. */
    fresh();
    call_withdraw("withdraw of key 0 on a fresh table", 0);
    call_read("read of key 0", 0, 1);
    call_withdraw("withdraw of key 0", 0);
    call_withdraw("withdraw of key 0 again", 0);
}

static void equals(void)
{
    /* "Among equally cold records without a line, the victim is now the one with the largest
     * slack, then the first." */
    fresh();
    lines_len = 0;
    put_gauge(20, 3);
    put_record(0, 12, 5, 1, 1);
    put_record(1, 11, 5, 3, 1);
    put_record(2, 13, 5, 3, 1);
    call_read("24 evicts 11", 24, 9);
    call_read("25 evicts 13", 25, 9);
    call_read("26 evicts 12", 26, 9);
    show_records();

    /* A colder one leaves before them, and slacks are compared in all of their bits. */
    fresh();
    lines_len = 0;
    put_gauge(20, 3);
    put_record(0, 12, 5, 4294967295, 1);
    put_record(1, 11, 5, UINT64_MAX, 1);
    put_record(2, 13, 4, 0, 1);
    call_read("24 evicts 13", 24, 9);
    call_read("25 evicts 11", 25, 9);
    show_records();

    /* "The coldest on the lines is still chosen as before": the first. */
    fresh();
    lines_len = 128;
    put_gauge(20, 3);
    put_record(0, 12, 5, 1, 3);
    put_record(1, 11, 5, 3, 5);
    put_record(2, 13, 5, 2, 1);
    call_read("13 takes the line of 12", 13, 1);
    show_records();
}

static void serials(void)
{
    /* The last ticket that is given. */
    fresh();
    put_serial(COT_MOST_SERIAL - 1);
    call_read("serial 2^63 - 1, a line taken", 5, 1);
    call_look("serial 2^63, look", 5);
    call_look("serial 2^63, look at an untracked key", 7);
    all_seven("serial 2^63");
    fresh();
    put_serial(UINT64_MAX);
    all_seven("serial 2^64 - 1");
}

static void limits(void)
{
    /* "Total 4,294,967,294 and a read of 1" */
    fresh();
    put_gauge(4294967294u, 0);
    call_read("total 4294967294, read of 1", 5, 1);
    call_read("one more such read", 5, 1);

    /* "With C = 1, state 3 is in order and 4 is not." */
    fresh();
    put_gauge(4, 0);
    put_record(0, 5, 4, 0, 3);
    call_read("state 3", 5, 1);
    put_record(0, 5, 4, 0, 4);
    all_seven("state 4");

    /* Key 0 is a class like any other, and a free record is not its record. */
    fresh();
    call_update("update of key 0 on a fresh table", 0, 1);
    call_read("read of key 0", 0, 1);
    call_read("read of key 2^64 - 1", UINT64_MAX, 2);
}

static void not_in_order(void)
{
    fresh();
    put_gauge(4294967296u, 0);
    all_seven("total 4294967296");
    fresh();
    put_gauge(4, 5);
    all_seven("ceiling over total");
    fresh();
    put_gauge(4, 0);
    put_record(2, 5, 5, 0, 1);
    all_seven("heat over total");
    fresh();
    put_record(1, 0, 0, 1, 0);
    all_seven("free record with a slack");
    fresh();
    put_ticket(1, 1);
    all_seven("free record with a ticket");
    fresh();
    put_gauge(4, 0);
    put_record(1, 5, 4, 0, 1);
    put_ticket(1, 1);
    all_seven("ticket without a line");
    fresh();
    put_gauge(4, 0);
    put_record(0, 5, 1, 0, 2);
    put_record(1, 7, 1, 0, 3);
    all_seven("two records on one line");
}

static void order_of_tests(void)
{
    fresh();
    put_gauge(4, 5);
    gauge_len = 23;
    call_read("sizes before weight", 5, 65536);
    picture_len = 63;
    call_fill("sizes before picture", 5, 1);
    call_withdraw("sizes before order, withdraw", 5);
    gauge_len = 24;
    ticket_len = 7;
    call_read("ticket bytes before weight", 5, 65536);
    call_read("ticket bytes before order, look", 5, 0);
    ticket_len = 8;
    sum_len = 7;
    call_sum("sum bytes before order");
    sum_len = 8;
    put_serial(COT_MOST_SERIAL);
    call_read("weight before order, read", 5, 65536);
    call_update("weight before order, update", 5, 0);
    call_fill("picture before order", 5, 1);
    picture_len = 64;
    call_read("order before serial, read", 5, 1);
    call_update("order before serial, update", 5, 1);
    call_fill("order before serial, fill", 5, 1);
    call_withdraw("order before serial, withdraw", 5);
    put_serial(0);
    call_fill("order before no line", 5, 1);
    put_record(0, 5, 1, 0, 3);
    call_fill("order before filled", 5, 1);
    put_record(0, 5, 1, 0, 2);
    call_fill("order before ticket", 5, 1);

    put_gauge(5, 5);
    put_serial(COT_MOST_SERIAL);
    ticket_len = 7;
    call_read("ticket bytes before serial", 5, 1);
    ticket_len = 8;
    call_read("weight before serial, read", 5, 65536);
    call_update("weight before serial, update", 5, 0);
    picture_len = 63;
    call_fill("picture before serial", 5, 1);
    picture_len = 64;
    call_update("serial before unknown", 7, 1);
    call_withdraw("serial before unknown, withdraw", 7);
    call_fill("serial before no line", 7, 1);
    call_fill("serial before ticket", 5, 1);
    put_record(0, 5, 1, 0, 3);
    call_fill("serial before filled", 5, 0);
    put_serial(0);
    call_fill("no line before ticket", 7, 1);
    call_fill("filled before ticket", 5, 1);
}

static uint8_t ring[COT_POINT_BYTES * (COT_MOST_POINTS + 1)], store[16];
static size_t ring_len, store_len;

/* Prints what is returned, the store if there is one, and what has become of the lent bytes. */
static void call_store(const char *name, uint64_t position)
{
    static uint8_t ring_before[sizeof ring], store_before[sizeof store];

    memset(store, 0x5a, sizeof store);
    memcpy(ring_before, ring, sizeof ring);
    memcpy(store_before, store, sizeof store);
    uint64_t number = cot_store(lent(ring, ring_len), ring_len, position, lent(store, store_len),
                                store_len);
    printf("%s: %" PRIu64, name, number);
    if (number == COT_DONE)
        printf(", store %" PRIu64, cot_number(store));
    size_t written = number == COT_DONE ? COT_STORE_BYTES : 0;
    int kept = memcmp(ring, ring_before, sizeof ring) == 0 &&
               memcmp(store + written, store_before + written, sizeof store - written) == 0;
    printf(", %s\n", kept ? "all else as it was" : "MEMORY CHANGED");
}

static void put_points(size_t n, const uint64_t points[][2])
{
    for (size_t i = 0; i < n; i++)
        cot_put_point(ring, i, points[i][0], points[i][1]);
    ring_len = n * COT_POINT_BYTES;
    store_len = COT_STORE_BYTES;
}

/* The next point clockwise, past the largest position to 0, whatever the order of the list. */
static void stores(void)
{
    static const uint64_t three[][2] = {{20, 2}, {10, 1}, {4000, 3}};
    static const uint64_t ends[][2] = {{5, 50}, {0, 7}, {UINT64_MAX, UINT64_MAX - 1}};
    static const uint64_t doubled[][2] = {{10, 1}, {20, 2}, {10, 1}};

    put_points(3, three);
    call_store("store, on a point", 10);
    call_store("store, just behind a point", 9);
    call_store("store, just past a point", 11);
    call_store("store, far from the next point", 21);
    call_store("store, past the last point", 4001);
    put_points(1, three);
    call_store("store, one point", 21);
    put_points(3, ends);
    call_store("store, at 0", 0);
    call_store("store, past 0", 1);
    call_store("store, at the largest position", UINT64_MAX);
    call_store("store, before the largest position", UINT64_MAX - 1);
    put_points(2, ends);
    call_store("store, from the largest position to 0", UINT64_MAX);
    put_points(3, doubled);
    call_store("store, two points at one position", 15);
    ring_len -= 1;
    call_store("store, two points and 15 bytes", 15);
    store_len = 7;
    call_store("store bytes before ring", 15);
    ring_len += 1;
    call_store("store bytes before doubled", 15);
    store_len = 9;
    call_store("9 store bytes", 15);
    store_len = 0;
    call_store("no store bytes", 15);
    store_len = 8;
    ring_len = 0;
    call_store("store, no point", 15);
    for (size_t i = 0; i < COT_MOST_POINTS + 1; i++)
        cot_put_point(ring, i, 1000 * i, i);
    ring_len = COT_MOST_POINTS * COT_POINT_BYTES;
    call_store("store, 1,024 points", 1022001);
    call_store("store, 1,024 points, past the last", 1023001);
    ring_len += COT_POINT_BYTES;
    call_store("store, 1,025 points", 15);
    cot_put_point(ring, 1023, 0, 9);
    call_store("store, ring before doubled", 15);
    ring_len -= COT_POINT_BYTES;
    call_store("store, the first and the last of 1,024 at one position", 15);
}

/* What an epoch is: on, off, C, K, the imbalance and the target that are aimed at, the tolerance. */
enum { ON, OFF, LINES, RECORDS, OVER, UNDER, HITS, PER, TOLERANCE, NUMBERS };

static uint8_t lookups[8 * (COT_MOST_STORES + 1)], out[COT_SCALE_BYTES + 8];
static size_t lookups_len, out_len;
static uint64_t epoch[NUMBERS];

/* Prints what is returned, the numbers that come with it, and what has become of the lent bytes. */
static void call_scale(const char *name)
{
    static uint8_t lookups_before[sizeof lookups], out_before[sizeof out];

    memset(out, 0x5a, sizeof out);
    memcpy(lookups_before, lookups, sizeof lookups);
    memcpy(out_before, out, sizeof out);
    uint64_t number = cot_scale(lent(lookups, lookups_len), lookups_len, epoch[ON], epoch[OFF],
                                epoch[LINES], epoch[RECORDS], epoch[OVER], epoch[UNDER],
                                epoch[HITS], epoch[PER], epoch[TOLERANCE], lent(out, out_len),
                                out_len);
    printf("%s: %" PRIu64, name, number);
    size_t written = number == COT_GROW ? 32 : number == COT_SHRINK ? 16 : 0;
    for (size_t at = 0; at < written; at += 8)
        printf("%s %" PRIu64, at == 0 ? "," : at == 24 ? " /" : "", cot_number(out + at));
    int kept = memcmp(lookups, lookups_before, sizeof lookups) == 0 &&
               memcmp(out + written, out_before + written, sizeof out - written) == 0;
    printf(", %s\n", kept ? "all else as it was" : "MEMORY CHANGED");
}

/* An epoch of so many hits: 2 lines, 8 records, imbalance 1.1, target 50, a tenth tolerated. */
static void epoch_of(uint64_t on, uint64_t off)
{
    static const uint64_t numbers[NUMBERS] = {0, 0, 2, 8, 11, 10, 50, 1, 100};

    memcpy(epoch, numbers, sizeof epoch);
    epoch[ON] = on;
    epoch[OFF] = off;
    out_len = COT_SCALE_BYTES;
}

/* As many lookups to one store and to the other as these. */
static void lookups_of(uint64_t one, uint64_t other)
{
    cot_put_number(lookups, one);
    cot_put_number(lookups + 8, other);
    lookups_len = 16;
}

/* One number of an epoch changed, which is put back. */
static void call_with(const char *name, int which, uint64_t number)
{
    uint64_t own = epoch[which];

    epoch[which] = number;
    call_scale(name);
    epoch[which] = own;
}

static void epochs(void)
{
    lookups_of(111, 100);
    epoch_of(100, 300);
    call_scale("grow, a line has as many hits");
    call_with("grow, 512 records", RECORDS, 512);
    epoch_of(100, 301);
    call_scale("stay, a line has fewer hits");
    epoch_of(0, 0);
    call_with("stay, no room for a grow, and no shrink", RECORDS, 513);
    lookups_of(110, 100);
    epoch_of(100, 300);
    call_scale("stay, imbalance as aimed at");
    epoch_of(89, 269);
    call_scale("shrink, both below");
    call_with("stay, one line", LINES, 1);
    epoch_of(89, 270);
    call_scale("stay, off the lines exactly as tolerated");
    epoch_of(89, 271);
    call_scale("age, more off the lines");
    epoch_of(90, 271);
    call_scale("stay, on the lines exactly as tolerated");
    call_with("stay, a target of 0", HITS, 0);
    epoch_of(0, 0);
    lookups_of(0, 1);
    call_scale("grow, a store without lookups");
    lookups_of(0, 0);
    call_scale("shrink, no lookups");
    call_with("shrink, K halved up", RECORDS, 7);
    call_with("shrink, C halved down", LINES, 3);
    lookups_len = 8;
    call_scale("shrink, one store");
    lookups_len = 8 * COT_MOST_STORES;
    call_scale("shrink, 64 stores");
    lookups_len += 8;
    call_scale("65 stores");
    lookups_len = 15;
    call_scale("a store and 7 bytes");
    lookups_len = 0;
    call_scale("no store");
    call_with("no line before no store", LINES, 0);
    out_len = 31;
    call_scale("31 out bytes before no store");
    lookups_of(0, 0);
    call_scale("31 out bytes");
    out_len = 33;
    call_scale("33 out bytes");
    out_len = 0;
    call_scale("no out bytes");
    out_len = COT_SCALE_BYTES;
    call_with("no line", LINES, 0);
    call_with("as many lines as records", LINES, 8);
    call_with("1,025 records", RECORDS, 1025);
    call_with("1,048,576 hits on lines", ON, COT_MOST_COUNT);
    call_with("1,048,577 hits on lines", ON, COT_MOST_COUNT + 1);
    call_with("1,048,577 hits off lines", OFF, COT_MOST_COUNT + 1);
    call_with("imbalance over 1,048,577", OVER, COT_MOST_COUNT + 1);
    call_with("imbalance under 0", UNDER, 0);
    call_with("imbalance below 1", UNDER, 12);
    call_with("target over 1,048,577", HITS, COT_MOST_COUNT + 1);
    call_with("target under 1,048,577", PER, COT_MOST_COUNT + 1);
    call_with("target under 0", PER, 0);
    call_with("tolerance 999", TOLERANCE, 999);
    call_with("tolerance 1,000", TOLERANCE, 1000);
    lookups_of(COT_MOST_COUNT, COT_MOST_COUNT);
    call_scale("1,048,576 lookups");
    lookups_of(0, COT_MOST_COUNT + 1);
    call_scale("1,048,577 lookups");
}

/* The target of a resize. */
static uint8_t to_table[MOST], to_gauge[MOST], to_lines[MOST];
static size_t to_table_len, to_gauge_len, to_lines_len;

/* Other bytes in each line, none of them the picture's. */
static void mark_lines(void)
{
    for (size_t i = 0; i < lines_len; i++) {
        size_t n = i / COT_LINE_BYTES, at = i % COT_LINE_BYTES;
        lines[i] = (uint8_t)(at == 0 ? n / 256 + 0x80 : n + at);
    }
}

/* A source of so many records and lines, fresh. */
static void source(size_t k, size_t c)
{
    fresh();
    table_len = COT_RECORD_BYTES * k;
    lines_len = COT_LINE_BYTES * c;
    mark_lines();
}

static void target(size_t k, size_t c)
{
    to_table_len = COT_RECORD_BYTES * k;
    to_gauge_len = COT_GAUGE_BYTES;
    to_lines_len = COT_LINE_BYTES * c;
}

/* 1 if the target's bytes from these on are those that it had before. */
static int target_kept(size_t table_from, size_t gauge_from, size_t lines_from)
{
    int kept = 1;
    for (size_t i = 0; i < MOST; i++)
        kept &= (i < table_from || to_table[i] == 0xc1) &&
                (i < gauge_from || to_gauge[i] == 0xc2) && (i < lines_from || to_lines[i] == 0xc3);
    return kept;
}

/* Prints which of the source's lines a line of the target is like. */
static void show_line(size_t n)
{
    const uint8_t *line = to_lines + COT_LINE_BYTES * n;
    for (size_t at = 0; at < lines_len; at += COT_LINE_BYTES)
        if (memcmp(lines + at, line, COT_LINE_BYTES) == 0) {
            printf("line %zu: as line %zu was\n", n, at / COT_LINE_BYTES);
            return;
        }
    printf("line %zu: %s\n", n,
           target_kept(MOST, MOST, COT_LINE_BYTES * n) ? "untouched" : "OTHER BYTES");
}

/* Prints what is returned, the target's gauge, its first records and lines if there are some, and
 * what has become of the lent bytes. */
static void call_resize(const char *name)
{
    enum { SHOWN = 4 };
    keep();
    memset(to_table, 0xc1, MOST);
    memset(to_gauge, 0xc2, MOST);
    memset(to_lines, 0xc3, MOST);
    uint64_t number = cot_resize(LENT, lent(to_table, to_table_len), to_table_len,
                                 lent(to_gauge, to_gauge_len), to_gauge_len,
                                 lent(to_lines, to_lines_len), to_lines_len);
    int done = number == COT_DONE;
    printf("%s: %" PRIu64, name, number);
    if (done)
        printf(", total %" PRIu64 ", ceiling %" PRIu64 ", serial %" PRIu64, number_at(to_gauge),
               number_at(to_gauge + 8), number_at(to_gauge + 16));
    printf(", source %s", three_kept() && sum_kept() ? "as it was" : "CHANGED");
    if (done)
        printf("%s\n", target_kept(to_table_len, to_gauge_len, to_lines_len)
                           ? ""
                           : ", BYTES PAST A LENGTH CHANGED");
    else
        printf(", target %s\n", target_kept(0, 0, 0) ? "as it was" : "CHANGED");
    for (size_t i = 0; done && i < to_table_len / COT_RECORD_BYTES && i < SHOWN; i++)
        show_record(to_table, i);
    for (size_t i = 0; done && i < to_lines_len / COT_LINE_BYTES && i < SHOWN; i++)
        show_line(i);
}

/* From now on the target is lent in the source's place. */
static void move(void)
{
    memcpy(table, to_table, MOST);
    memcpy(gauge, to_gauge, MOST);
    memcpy(lines, to_lines, MOST);
    table_len = to_table_len;
    lines_len = to_lines_len;
}

static void resizes(void)
{
    /* Grow: the picture stays, and the new line goes to the hottest without one. */
    source(3, 1);
    call_read("a line taken", 5, 9);
    call_fill("its fill", 5, 1);
    call_read("7 without a line", 7, 4);
    call_read("9 without a line", 9, 6);
    target(4, 2);
    call_resize("grow to K = 4, C = 2");
    move();
    call_read("5 is a hit", 5, 1);
    call_look("9 is wanted", 9);
    call_fill("its fill", 9, 2);
    call_read("11 tracked", 11, 1);

    /* Shrink: the colder loses its line, the coldest two are dropped, and the ceiling rises. */
    target(2, 1);
    call_resize("shrink to K = 2, C = 1");
    move();
    call_look("5 is a hit", 5);
    call_fill("fill of 9, without a line", 9, 2);
    call_look("look at 7, dropped", 7);
    call_read("11 is tracked anew, 9 evicted", 11, 1);

    /* "the sum over any that many records": over all of more it may exceed the total. */
    call_sum("levelled sum before a grow");
    target(4, 2);
    call_resize("grow to K = 4, C = 2 again");
    move();
    call_sum("levelled sum after it, over the total");

    /* The same sizes: what is kept is packed, with the next line numbers. */
    source(3, 2);
    put_gauge(9, 0);
    put_serial(9);
    put_record(0, 5, 4, 0, 5);
    put_ticket(0, 8);
    put_record(2, 7, 3, 0, 2);
    put_ticket(2, 9);
    target(3, 2);
    call_resize("the same sizes");
    move();
    call_look("5 is on line 0 now", 5);
    call_look("7 on line 1, still empty", 7);
    call_fill("the fetch of 7 that is under way", 7, 9);

    /* A fetch under way of a class that loses its line, and then its record. */
    source(3, 2);
    call_read("5 takes line 0", 5, 3);
    call_read("7 takes line 1", 7, 4);
    target(2, 1);
    call_resize("5 loses its line");
    move();
    call_fill("the fetch of 5", 5, 1);
    call_fill("the fetch of 7", 7, 2);
    target(1, 0);
    call_resize("no lines, 5 is dropped");
    move();
    call_fill("the fetch of 5 again", 5, 1);
    call_read("5 tracked anew, 7 evicted", 5, 1);

    /* "the coldest lose them, first among equals" */
    source(4, 3);
    put_gauge(12, 0);
    put_record(0, 5, 4, 0, 7);
    put_record(1, 7, 3, 0, 3);
    put_record(2, 9, 3, 0, 5);
    target(3, 2);
    call_resize("one line less, 7 loses it");
    target(2, 1);
    call_resize("two lines less, 7 and 9 lose them, 7 is dropped");
    target(1, 0);
    call_resize("no lines, 5 is left");

    /* "victims of the Ask 5 order go": the coldest, then the largest slack, then the first. */
    source(4, 0);
    put_gauge(20, 3);
    put_record(0, 12, 5, 1, 1);
    put_record(1, 11, 5, 3, 1);
    put_record(2, 13, 5, 3, 1);
    put_record(3, 14, 4, 0, 1);
    target(3, 0);
    call_resize("14 is dropped");
    target(2, 0);
    call_resize("14 and 11 are dropped, ceiling 5");
    target(1, 0);
    call_resize("14, 11 and 13 are dropped");
    put_gauge(20, 7);
    call_resize("ceiling 7 is higher");

    /* Lines lowest first, to the hottest, first among equals; a line is left. */
    source(4, 0);
    put_gauge(20, 0);
    put_serial(7);
    put_record(1, 5, 4, 0, 1);
    put_record(2, 7, 6, 2, 1);
    put_record(3, 9, 6, 0, 1);
    target(5, 2);
    call_resize("two spare lines");
    target(5, 4);
    call_resize("four spare lines");
    move();
    call_read("11 takes the line that is left", 11, 1);

    /* The serial passes its limit on the way. */
    put_serial(COT_MOST_SERIAL - 1);
    lines_len = 0;
    for (int i = 0; i < 4; i++) {
        put(table + COT_RECORD_BYTES * i + 24, 1);
        put_ticket(i, 0);
    }
    target(5, 2);
    call_resize("serial 2^63 - 1, two spare lines");
    move();
    call_look("look", 7);
    call_read("read", 7, 1);
    call_fill("fill", 7, COT_MOST_SERIAL);
    call_resize("serial 2^63 + 1, resize");
    put_serial(UINT64_MAX);
    call_resize("serial 2^64 - 1, resize");
    put_serial(COT_MOST_SERIAL);
    call_resize("serial 2^63, resize");
    put_serial(COT_MOST_SERIAL - 1);
    mark_lines();
    call_resize("serial 2^63 - 1, no spare line");

    /* The largest. */
    source(1024, 1023);
    put_gauge(2000, 0);
    for (int i = 0; i < 1024; i++)
        put_record(i, 1 + i, 1 + i, 0, i < 1023 ? 3 + 2 * i : 1);
    target(1, 0);
    call_resize("K = 1,024, C = 1,023 to K = 1");
    target(1024, 1);
    call_resize("to C = 1");
    source(1, 0);
    target(1024, 1023);
    call_resize("a fresh K = 1 to K = 1,024, C = 1,023");
}

/* A source in order, with a serial that is spent or not, and a good target. */
static void good(uint64_t serial)
{
    source(3, 1);
    put_gauge(4, 0);
    put_serial(serial);
    put_record(0, 5, 4, 0, 3);
    target(4, 2);
}

/* Each wrong length of a resize, one at a time. */
static void wrong_lengths(const char *name)
{
    static const struct {
        const char *what;
        size_t *len, wrong;
    } lengths[] = {
        {"source, table of 0 bytes", &table_len, 0},
        {"source, table of 119 bytes", &table_len, 119},
        {"source, table of 41000 bytes", &table_len, 41000},
        {"source, K = 1 with one line", &table_len, 40},
        {"source, gauge of 0 bytes", &gauge_len, 0},
        {"source, gauge of 23 bytes", &gauge_len, 23},
        {"source, lines of 63 bytes", &lines_len, 63},
        {"source, three lines", &lines_len, 192},
        {"target, table of 0 bytes", &to_table_len, 0},
        {"target, table of 159 bytes", &to_table_len, 159},
        {"target, table of 41000 bytes", &to_table_len, 41000},
        {"target, K = 2 with two lines", &to_table_len, 80},
        {"target, gauge of 0 bytes", &to_gauge_len, 0},
        {"target, gauge of 25 bytes", &to_gauge_len, 25},
        {"target, lines of 65 bytes", &to_lines_len, 65},
        {"target, four lines", &to_lines_len, 256},
    };
    for (size_t i = 0; i < sizeof lengths / sizeof *lengths; i++) {
        size_t own = *lengths[i].len;
        *lengths[i].len = lengths[i].wrong;
        call_resize(of(name, lengths[i].what));
        *lengths[i].len = own;
    }
}

static void refused_resizes(void)
{
    good(0);
    wrong_lengths("resize");
    put_gauge(4, 5);
    call_resize("resize, ceiling over total");
    put_gauge(COT_MOST_TOTAL + UINT64_C(1), 0);
    call_resize("resize, total 4294967296");
    put_gauge(4, 0);
    put_record(1, 7, 4, 0, 5);
    call_resize("resize, a line that only the target has");
    put_record(1, 7, 4, 0, 3);
    call_resize("resize, two records on one line");
    put_record(1, 7, 4, 0, 1);
    put_ticket(1, 1);
    call_resize("resize, ticket without a line");
    good(COT_MOST_SERIAL);
    call_resize("resize, serial spent");

    /* The order of the tests. */
    put_gauge(4, 5);
    wrong_lengths("resize, not in order, serial spent");
    call_resize("resize, order before serial");
}

/* What the helpers of cot.h say of a number. */
static void helpers(void)
{
    static const uint64_t numbers[] = {0,    1,    6,    10,   99,   100,  105,  1999,
                                       2000, 3022, 3999, 4000, 4001, 5022, 6000, UINT64_MAX};
    for (size_t i = 0; i < sizeof numbers / sizeof numbers[0]; i++) {
        uint64_t number = numbers[i];
        printf("number %" PRIu64 ": refused %d, hit %d, wanted %d", number, cot_is_refused(number),
               cot_is_hit(number), cot_is_wanted(number));
        if (cot_is_hit(number) || cot_is_wanted(number))
            printf(", line %zu", cot_line(number));
        printf("\n");
    }
    int refused = 0;
    for (uint64_t number = 1; number < 100; number++)
        refused += cot_is_refused(number);
    printf("numbers 1 to 99: %d refused\n", refused);
    for (int i = 0; i < COT_TICKET_BYTES; i++)
        ticket[i] = (uint8_t)(0xf8 + i);
    printf("ticket of bytes f8 to ff: %" PRIx64 "\n", cot_ticket(ticket));
    cot_put_point(ring, 1, UINT64_C(0x0102030405060708), UINT64_C(0x1112131415161718));
    printf("point in bytes 16 to 31:");
    for (int i = 16; i < 32; i++)
        printf(" %02x", ring[i]);
    printf("\nits numbers: %" PRIx64 " %" PRIx64 "\n", cot_number(ring + 16),
           cot_number(ring + 24));
    fresh();
    put_record(1, 5, 3, 0, 3);
    put_record(2, 7, 1, 0, 1);
    static const uint64_t keys[] = {5, 7, 0, 3};
    for (size_t i = 0; i < sizeof keys / sizeof keys[0]; i++)
        printf("class %" PRIu64 ": off the lines %d\n", keys[i],
               cot_is_off_lines(table, table_len, keys[i]));
    put_record(1, 7, 3, 0, 2);
    printf("class 7, first on a line: off the lines %d\n", cot_is_off_lines(table, table_len, 7));
    put_record(1, 0, 0, 0, 0);
    printf("class 7, after a free record: off the lines %d\n",
           cot_is_off_lines(table, table_len, 7));
    printf("class 7, a byte short: off the lines %d\n",
           cot_is_off_lines(table, table_len - 1, 7));
}

int main(void)
{
    thirteen_calls();
    sizes();
    fresh_on_any_bytes();
    levelled_sums();
    weights_and_pictures();
    looks();
    tickets();
    withdrawals();
    equals();
    serials();
    limits();
    not_in_order();
    order_of_tests();
    stores();
    epochs();
    resizes();
    refused_resizes();
    helpers();
    return 0;
}
