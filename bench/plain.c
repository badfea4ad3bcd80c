/* The exported calls of the cache in plain C, written from documents 01 and 02.
 * The lent bytes are the only state, so each call tests the whole table. */
#include "plain.h"

#include <stdbool.h>
#include <string.h>

#if !defined __BYTE_ORDER__ || __BYTE_ORDER__ != __ORDER_LITTLE_ENDIAN__
#error "get and put load and store the lent numbers as they are"
#endif

enum { RECORD_BYTES = 40, GAUGE_BYTES = 24, LINE_BYTES = 64, TICKET_BYTES = 8 };
enum { MAX_RECORDS = 1024, MAX_WEIGHT = 65535 };
enum { KEY = 0, HEAT = 8, SLACK = 16, STATE = 24, TICKET = 32 }; /* places in a record */
enum { TOTAL = 0, CEILING = 8, SERIAL = 16 };                    /* places in the gauge */
enum { FREE = 0, TRACKED = 1 };                                  /* states without a line */

enum {
    BAD_SIZE = 1, BAD_WEIGHT = 2, BAD_ORDER = 3,
    BAD_PICTURE = 4, NO_LINE = 5, LINE_FILLED = 6,
    OTHER_TICKET = 9, NO_SERIAL = 10,
    DONE = 0, AGED = 100, CHANGED = 101, UNKNOWN = 102, STORED = 103, PASSED = 104,
    WITHDRAWN = 105, HIT = 2000, WANTED = 4000
};

static const uint64_t MAX_TOTAL = 4294967295; /* L */
static const uint64_t MAX_SERIAL = UINT64_C(9223372036854775808);

static inline uint64_t get(const uint8_t *p)
{
    uint64_t n;
    memcpy(&n, p, sizeof n);
    return n;
}

static inline void put(uint8_t *p, uint64_t n)
{
    memcpy(p, &n, sizeof n);
}

/* The states of line n are 2 + 2n (empty) and 3 + 2n (filled). */
static inline bool on_line(uint64_t state) { return state > TRACKED; }
static inline bool is_filled(uint64_t state) { return state & 1; }
static inline uint64_t line_of(uint64_t state) { return state / 2 - 1; }
static inline uint64_t empty_line(uint64_t line) { return 2 + 2 * line; }

static bool sizes_fit(size_t table_len, size_t gauge_len, size_t lines_len)
{
    return table_len % RECORD_BYTES == 0 && lines_len % LINE_BYTES == 0 &&
           table_len >= RECORD_BYTES && table_len <= MAX_RECORDS * RECORD_BYTES &&
           lines_len / LINE_BYTES < table_len / RECORD_BYTES &&
           gauge_len == GAUGE_BYTES;
}

static bool in_order(const uint8_t *table, size_t table_len,
                     const uint8_t *gauge, size_t lines_len)
{
    const uint8_t *end = table + table_len;
    uint64_t lines = lines_len / LINE_BYTES;
    uint64_t total = get(gauge + TOTAL);
    uint64_t used = 0;

    if (total > MAX_TOTAL || get(gauge + CEILING) > total)
        return false;
    for (const uint8_t *r = table; r < end; r += RECORD_BYTES) {
        uint64_t heat = get(r + HEAT);
        uint64_t state = get(r + STATE);
        if (heat > total)
            return false;
        if (state == TRACKED) {
            if (get(r + TICKET) != 0)
                return false;
        } else if (state - 2 < 2 * lines) { /* on a line that is there */
            used++;
        } else if ((get(r + KEY) | heat | get(r + SLACK) | state | get(r + TICKET)) != 0) {
            return false;
        }
    }
    return used <= lines;
}

/* True where no serial is left. A table in order may have any. */
static bool used_up(const uint8_t *gauge)
{
    return get(gauge + SERIAL) >= MAX_SERIAL;
}

/* The key's record, or NULL where the key is untracked. */
static uint8_t *find(uint8_t *table, size_t table_len, uint64_t key)
{
    uint8_t *end = table + table_len;

    for (uint8_t *r = table; r < end; r += RECORD_BYTES)
        if (get(r + KEY) == key && get(r + STATE) != FREE)
            return r;
    return NULL;
}

/* What a walk over the table holds: the key's record, at which it stops, the
 * first free record, and the victim; NULL where there is none. */
struct walk { uint8_t *own, *free_one, *victim; };

static struct walk walk(uint8_t *table, size_t table_len, uint64_t key)
{
    uint8_t *end = table + table_len;
    struct walk held = { NULL, NULL, NULL };
    uint64_t least = UINT64_MAX, most = 0; /* the victim's heat and slack */

    for (uint8_t *r = table; r < end; r += RECORD_BYTES) {
        uint64_t heat = get(r + HEAT);
        uint64_t slack = get(r + SLACK);
        uint64_t state = get(r + STATE);
        if (state == FREE) {
            if (!held.free_one)
                held.free_one = r;
            continue;
        }
        /* colder than the victim, or as cold with more slack */
        if (heat + (slack <= most) <= least && state == TRACKED) {
            least = heat;
            most = slack;
            held.victim = r;
        }
        if (get(r + KEY) == key) {
            held.own = r;
            break;
        }
    }
    return held;
}

/* The hottest record without a line, or NULL where there is none. */
static uint8_t *hottest_without_line(uint8_t *table, size_t table_len)
{
    uint8_t *end = table + table_len;
    uint8_t *hottest = NULL;
    uint64_t most = 0;

    for (uint8_t *r = table; r < end; r += RECORD_BYTES)
        if (get(r + STATE) == TRACKED && (!hottest || get(r + HEAT) > most)) {
            most = get(r + HEAT);
            hottest = r;
        }
    return hottest;
}

/* Gives record r a line, empty, and the next serial as its ticket. */
static void give_line(uint8_t *gauge, uint8_t *r, uint64_t line)
{
    uint64_t serial = get(gauge + SERIAL) + 1;

    put(r + STATE, empty_line(line));
    put(gauge + SERIAL, serial);
    put(r + TICKET, serial);
}

/* Moves the line of record `from`, empty and with a new ticket, to record `to`. */
static void hand_over(uint8_t *gauge, uint8_t *from, uint8_t *to)
{
    give_line(gauge, to, line_of(get(from + STATE)));
    put(from + STATE, TRACKED);
    put(from + TICKET, 0);
}

/* Gives record r, which has no line, the lowest unused line, or else the line
 * of the coldest record on one where r is hotter. */
static void claim_line(uint8_t *table, size_t table_len, uint8_t *gauge,
                       size_t lines, uint8_t *r)
{
    uint8_t *end = table + table_len;
    uint8_t *coldest = NULL;
    uint64_t least = UINT64_MAX;
    uint8_t used[1 + MAX_RECORDS]; /* line n at n + 1; place 0 is for no line */
    const uint8_t *unused;

    memset(used, 0, 1 + lines);
    for (uint8_t *s = table; s < end; s += RECORD_BYTES) {
        uint64_t other = get(s + STATE);
        uint64_t heat = on_line(other) ? get(s + HEAT) : UINT64_MAX;
        used[other / 2] = 1;
        if (heat < least) {
            least = heat;
            coldest = s;
        }
    }
    unused = memchr(used + 1, 0, lines);
    if (unused)
        give_line(gauge, r, (uint64_t)(unused - (used + 1)));
    else if (coldest && get(r + HEAT) > least)
        hand_over(gauge, coldest, r);
}

static void halve(uint8_t *table, size_t table_len, uint8_t *gauge)
{
    uint8_t *end = table + table_len;

    for (uint8_t *r = table; r < end; r += RECORD_BYTES) {
        uint64_t slack = get(r + SLACK);
        put(r + HEAT, get(r + HEAT) / 2);
        put(r + SLACK, slack / 2 + slack % 2);
    }
    put(gauge + TOTAL, get(gauge + TOTAL) / 2);
    put(gauge + CEILING, get(gauge + CEILING) / 2);
}

/* Record r, which is free or the victim, becomes an untracked key's. It has no
 * line, so its ticket is 0 already. */
static void track(uint8_t *r, uint8_t *gauge, uint64_t key, uint64_t weight)
{
    uint64_t ceiling = get(gauge + CEILING);

    if (get(r + HEAT) > ceiling) { /* a free record has heat 0 */
        ceiling = get(r + HEAT);
        put(gauge + CEILING, ceiling);
    }
    put(r + KEY, key);
    put(r + HEAT, ceiling + weight);
    put(r + SLACK, ceiling);
    put(r + STATE, TRACKED);
}

/* What a read answers of record r. A wanted gives its ticket. */
static uint64_t standing(const uint8_t *r, uint8_t *ticket)
{
    uint64_t state = get(r + STATE);

    if (!on_line(state))
        return PASSED;
    if (is_filled(state))
        return HIT + line_of(state);
    put(ticket, get(r + TICKET));
    return WANTED + line_of(state);
}

static uint64_t look(uint8_t *table, size_t table_len, uint64_t key, uint8_t *ticket)
{
    const uint8_t *r = find(table, table_len, key);

    return r ? standing(r, ticket) : PASSED;
}

uint64_t plain_read(uint8_t *table, size_t table_len,
                    uint8_t *gauge, size_t gauge_len,
                    const uint8_t *lines, size_t lines_len,
                    uint64_t key, uint64_t weight,
                    uint8_t *ticket, size_t ticket_len)
{
    struct walk held;
    uint8_t *r;

    (void)lines;
    if (!sizes_fit(table_len, gauge_len, lines_len) || ticket_len != TICKET_BYTES)
        return BAD_SIZE;
    if (weight > MAX_WEIGHT)
        return BAD_WEIGHT;
    if (!in_order(table, table_len, gauge, lines_len))
        return BAD_ORDER;

    if (weight == 0)
        return look(table, table_len, key, ticket);
    if (used_up(gauge))
        return NO_SERIAL;

    if (get(gauge + TOTAL) + weight > MAX_TOTAL)
        halve(table, table_len, gauge);
    put(gauge + TOTAL, get(gauge + TOTAL) + weight);

    held = walk(table, table_len, key);
    r = held.own;
    if (r) {
        put(r + HEAT, get(r + HEAT) + weight);
    } else {
        r = held.free_one ? held.free_one : held.victim; /* one is there, since C is under K */
        track(r, gauge, key, weight);
    }

    if (!on_line(get(r + STATE)))
        claim_line(table, table_len, gauge, lines_len / LINE_BYTES, r);
    return standing(r, ticket);
}

uint64_t plain_update(uint8_t *table, size_t table_len,
                      uint8_t *gauge, size_t gauge_len,
                      const uint8_t *lines, size_t lines_len,
                      uint64_t key, uint64_t weight)
{
    uint8_t *r, *hottest;
    uint64_t heat, state;

    (void)lines;
    if (!sizes_fit(table_len, gauge_len, lines_len))
        return BAD_SIZE;
    if (weight == 0 || weight > MAX_WEIGHT)
        return BAD_WEIGHT;
    if (!in_order(table, table_len, gauge, lines_len))
        return BAD_ORDER;
    if (used_up(gauge))
        return NO_SERIAL;

    r = find(table, table_len, key);
    if (!r)
        return UNKNOWN;
    heat = get(r + HEAT);
    heat = heat > weight ? heat - weight : 0;
    put(r + HEAT, heat);

    state = get(r + STATE);
    if (!on_line(state))
        return CHANGED;
    hottest = hottest_without_line(table, table_len);
    if (hottest && get(hottest + HEAT) > heat)
        hand_over(gauge, r, hottest);
    else
        give_line(gauge, r, line_of(state));
    return CHANGED;
}

uint64_t plain_fill(uint8_t *table, size_t table_len,
                    const uint8_t *gauge, size_t gauge_len,
                    uint8_t *lines, size_t lines_len,
                    uint64_t key,
                    const uint8_t *picture, size_t picture_len,
                    uint64_t ticket)
{
    uint8_t *r;
    uint64_t state;

    if (!sizes_fit(table_len, gauge_len, lines_len))
        return BAD_SIZE;
    if (picture_len != LINE_BYTES)
        return BAD_PICTURE;
    if (!in_order(table, table_len, gauge, lines_len))
        return BAD_ORDER;
    if (used_up(gauge))
        return NO_SERIAL;

    r = find(table, table_len, key);
    if (!r || !on_line(get(r + STATE)))
        return NO_LINE;
    state = get(r + STATE);
    if (is_filled(state))
        return LINE_FILLED;
    if (get(r + TICKET) != ticket)
        return OTHER_TICKET;
    memcpy(lines + LINE_BYTES * line_of(state), picture, LINE_BYTES);
    put(r + STATE, state + 1);
    return STORED;
}

uint64_t plain_withdraw(uint8_t *table, size_t table_len,
                        uint8_t *gauge, size_t gauge_len,
                        const uint8_t *lines, size_t lines_len,
                        uint64_t key)
{
    uint8_t *r, *hottest;
    uint64_t state;

    (void)lines;
    if (!sizes_fit(table_len, gauge_len, lines_len))
        return BAD_SIZE;
    if (!in_order(table, table_len, gauge, lines_len))
        return BAD_ORDER;
    if (used_up(gauge))
        return NO_SERIAL;

    r = find(table, table_len, key);
    if (!r)
        return UNKNOWN;
    state = get(r + STATE);
    memset(r, 0, RECORD_BYTES);
    hottest = on_line(state) ? hottest_without_line(table, table_len) : NULL;
    if (hottest)
        give_line(gauge, hottest, line_of(state));
    return WITHDRAWN;
}

uint64_t plain_age(uint8_t *table, size_t table_len,
                   uint8_t *gauge, size_t gauge_len,
                   const uint8_t *lines, size_t lines_len)
{
    (void)lines;
    if (!sizes_fit(table_len, gauge_len, lines_len))
        return BAD_SIZE;
    if (!in_order(table, table_len, gauge, lines_len))
        return BAD_ORDER;
    halve(table, table_len, gauge);
    return AGED;
}

uint64_t plain_fresh(uint8_t *table, size_t table_len,
                     uint8_t *gauge, size_t gauge_len,
                     const uint8_t *lines, size_t lines_len)
{
    (void)lines;
    if (!sizes_fit(table_len, gauge_len, lines_len))
        return BAD_SIZE;
    memset(table, 0, table_len);
    memset(gauge, 0, gauge_len);
    return DONE;
}

uint64_t plain_levelled_sum(const uint8_t *table, size_t table_len,
                            const uint8_t *gauge, size_t gauge_len,
                            const uint8_t *lines, size_t lines_len,
                            uint8_t *sum, size_t sum_len)
{
    uint64_t ceiling, all = 0;

    (void)lines;
    if (!sizes_fit(table_len, gauge_len, lines_len) || sum_len != sizeof all)
        return BAD_SIZE;
    if (!in_order(table, table_len, gauge, lines_len))
        return BAD_ORDER;
    ceiling = get(gauge + CEILING);
    for (const uint8_t *r = table; r < table + table_len; r += RECORD_BYTES)
        all += get(r + HEAT) > ceiling ? get(r + HEAT) : ceiling;
    put(sum, all);
    return DONE;
}

/* ---- resize */

static bool any(uint64_t state) { return state != FREE; }

/* How many records are in such a state. */
static size_t count(const uint8_t *table, size_t table_len, bool wanted(uint64_t state))
{
    size_t n = 0;

    for (const uint8_t *r = table; r < table + table_len; r += RECORD_BYTES)
        n += wanted(get(r + STATE));
    return n;
}

/* The coldest record on a line. */
static uint8_t *coldest_on_line(uint8_t *table, size_t table_len)
{
    uint8_t *end = table + table_len;
    uint8_t *coldest = NULL;
    uint64_t least = UINT64_MAX;

    for (uint8_t *r = table; r < end; r += RECORD_BYTES)
        if (get(r + HEAT) < least && on_line(get(r + STATE))) {
            least = get(r + HEAT);
            coldest = r;
        }
    return coldest;
}

/* The coldest record without a line, of equally cold ones that with the most slack. */
static uint8_t *victim(uint8_t *table, size_t table_len)
{
    uint8_t *end = table + table_len;
    uint8_t *victim = NULL;
    uint64_t least = UINT64_MAX, most = 0; /* its heat and slack */

    for (uint8_t *r = table; r < end; r += RECORD_BYTES) {
        uint64_t heat = get(r + HEAT), slack = get(r + SLACK);
        if (heat + (slack <= most) <= least && get(r + STATE) == TRACKED) {
            least = heat;
            most = slack;
            victim = r;
        }
    }
    return victim;
}

/* The tracked records come to the target, in their order, with new line numbers. */
static size_t pack(const uint8_t *table, size_t table_len, const uint8_t *lines,
                   uint8_t *to_table, uint8_t *to_lines)
{
    uint8_t *to = to_table;
    size_t line = 0;

    for (const uint8_t *r = table; r < table + table_len; r += RECORD_BYTES) {
        uint64_t state = get(r + STATE);
        if (state == FREE)
            continue;
        memcpy(to, r, RECORD_BYTES);
        if (on_line(state)) {
            put(to + STATE, empty_line(line) + is_filled(state));
            memcpy(to_lines + LINE_BYTES * line, lines + LINE_BYTES * line_of(state), LINE_BYTES);
            line++;
        }
        to += RECORD_BYTES;
    }
    return line;
}

uint64_t plain_resize(const uint8_t *table, size_t table_len,
                      const uint8_t *gauge, size_t gauge_len,
                      const uint8_t *lines, size_t lines_len,
                      uint8_t *to_table, size_t to_table_len,
                      uint8_t *to_gauge, size_t to_gauge_len,
                      uint8_t *to_lines, size_t to_lines_len)
{
    uint8_t kept[MAX_RECORDS * RECORD_BYTES];
    size_t records = to_table_len / RECORD_BYTES, places = to_lines_len / LINE_BYTES;
    uint8_t *r;

    if (!sizes_fit(table_len, gauge_len, lines_len) ||
        !sizes_fit(to_table_len, to_gauge_len, to_lines_len))
        return BAD_SIZE;
    if (!in_order(table, table_len, gauge, lines_len))
        return BAD_ORDER;
    if (used_up(gauge))
        return NO_SERIAL;

    memcpy(kept, table, table_len);
    memcpy(to_gauge, gauge, GAUGE_BYTES);
    for (size_t n = count(kept, table_len, on_line); n > places; n--) {
        r = coldest_on_line(kept, table_len);
        put(r + STATE, TRACKED);
        put(r + TICKET, 0);
    }
    for (size_t n = count(kept, table_len, any); n > records; n--) {
        r = victim(kept, table_len); /* one is there, since C is under K */
        if (get(r + HEAT) > get(to_gauge + CEILING))
            put(to_gauge + CEILING, get(r + HEAT));
        memset(r, 0, RECORD_BYTES);
    }
    memset(to_table, 0, to_table_len);
    for (size_t n = pack(kept, table_len, lines, to_table, to_lines); n < places; n++) {
        r = hottest_without_line(to_table, to_table_len);
        if (!r)
            break;
        give_line(to_gauge, r, n);
    }
    return DONE;
}
