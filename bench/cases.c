/* Times single reads, looks, updates and withdrawals by what they find in the
 * table: the library beside plain C, as the compiler lays it out and with padded
 * jumps, and beside an older library where -DOLDER links one.
 *
 * Prints a line for each case and K: case, K and nanoseconds a call of each
 * side, '-' where it has no such call, parted by '|'; exit 1 where two sides
 * differ, the older one in an answer, the others in an answer or a byte. */
#include "clock.h"
#include "cot.h"

#include <math.h>
#include <stdbool.h>
#include <stdio.h>
#include <string.h>

enum { MOST_CALLS = 64, ROUNDS = 400 };
enum { HEAT = 8, SLACK = 16, STATE = 24, TICKET = 32 }; /* places in a record */
enum { CEILING = 8, SERIAL = 16 };                      /* places in the gauge */

typedef uint64_t read_call(uint8_t *, size_t, uint8_t *, size_t, const uint8_t *, size_t,
                           uint64_t, uint64_t, uint8_t *, size_t);
typedef uint64_t update_call(uint8_t *, size_t, uint8_t *, size_t, const uint8_t *, size_t,
                             uint64_t, uint64_t);
typedef uint64_t withdraw_call(uint8_t *, size_t, uint8_t *, size_t, const uint8_t *, size_t,
                               uint64_t);

extern read_call plain_read, padded_read, older_read;
extern update_call plain_update, padded_update, older_update;
extern withdraw_call plain_withdraw, padded_withdraw;
extern withdraw_call older_withdraw __attribute__((weak)); /* NULL where it has none */

static const struct side {
    read_call *read;
    update_call *update;
    withdraw_call *withdraw;
} sides[] = {
    { cot_read, cot_update, cot_withdraw },
    { plain_read, plain_update, plain_withdraw },
    { padded_read, padded_update, padded_withdraw },
#ifdef OLDER
    { older_read, older_update, older_withdraw },
#endif
};
enum { SIDES = sizeof sides / sizeof *sides, OLDER_SIDE = 3 }; /* the last, where it is linked */

struct memory {
    size_t table_len, lines_len;
    size_t hottest; /* the place of the hottest without a line */
    uint8_t table[COT_MOST_RECORDS * COT_RECORD_BYTES];
    uint8_t gauge[COT_GAUGE_BYTES];
    uint8_t lines[COT_MOST_RECORDS * COT_LINE_BYTES];
    uint8_t ticket[COT_TICKET_BYTES];
};

enum table { FULL, HALF_FREE, EQUALS };
enum kind { READ, UPDATE, WITHDRAW };
enum key { NEW_KEYS, FIRST_ON_LINE, LAST_ON_LINE, HALF_WAY, LAST, NOWHERE };

static const struct test {
    const char *name;
    enum table table;
    enum kind kind;
    uint64_t weight; /* of a withdrawal none */
    enum key key;
} tests[] = {
    { "read, untracked, none free", FULL, READ, 1, NEW_KEYS },
    { "read, untracked, equals", EQUALS, READ, 1, NEW_KEYS },
    { "read, untracked, half free", HALF_FREE, READ, 1, NEW_KEYS },
    { "read, first on a line", FULL, READ, 1, FIRST_ON_LINE },
    { "read, last on a line", FULL, READ, 1, LAST_ON_LINE },
    { "read, half-way, no line", FULL, READ, 1, HALF_WAY },
    { "read, last, no line", FULL, READ, 1, LAST },
    { "look, untracked", FULL, READ, 0, NOWHERE },
    { "look, untracked, half free", HALF_FREE, READ, 0, NOWHERE },
    { "update, untracked", FULL, UPDATE, 1, NOWHERE },
    { "update, first on a line", FULL, UPDATE, 1, FIRST_ON_LINE },
    { "withdraw, untracked", FULL, WITHDRAW, 0, NOWHERE },
    { "withdraw, first on a line", FULL, WITHDRAW, 0, FIRST_ON_LINE },
    { "withdraw, last on a line", FULL, WITHDRAW, 0, LAST_ON_LINE },
    { "withdraw, last, no line", FULL, WITHDRAW, 0, LAST },
};
enum { TESTS = sizeof tests / sizeof *tests };

static uint64_t random_state;

static uint64_t next_random(void)
{
    random_state ^= random_state << 13;
    random_state ^= random_state >> 7;
    return random_state ^= random_state << 17;
}

static void put(uint8_t *p, uint64_t n)
{
    for (int i = 0; i < 8; i++)
        p[i] = (uint8_t)(n >> 8 * i);
}

/* K records, or half as many and the rest free, with key n at place n; a
 * quarter of those that are taken, at random places and not the last, are the
 * hottest and on filled lines. Of equals heats and slacks are few. */
static void fill(struct memory *m, size_t k, enum table table)
{
    size_t taken = table == HALF_FREE ? k / 2 : k, lined = 0;
    uint64_t total = 0, most = 0;

    random_state = 88172645463325252u; /* the same table in each case of its kind */
    memset(m, 0, sizeof *m);
    m->table_len = k * COT_RECORD_BYTES;
    m->lines_len = taken / 4 * COT_LINE_BYTES;
    for (size_t n = 0; n < taken; n++) {
        uint8_t *r = m->table + n * COT_RECORD_BYTES;
        uint64_t heat = 50 + next_random() % (table == EQUALS ? 4 : 1000);
        uint64_t slack = table == EQUALS ? next_random() % 8 : 3;
        size_t rest = taken - 1 - n;
        bool on_line = rest > 0 && lined < taken / 4 &&
                       (rest <= taken / 4 - lined || next_random() % 4 == 0);

        if (on_line) {
            heat += 100000;
        } else if (heat > most) {
            most = heat;
            m->hottest = n;
        }
        total += heat;
        put(r, n);
        put(r + HEAT, heat);
        put(r + SLACK, slack);
        put(r + STATE, on_line ? 3 + 2 * lined : 1);
        put(r + TICKET, on_line ? lined + 1 : 0);
        lined += on_line;
    }
    put(m->gauge, total);
    put(m->gauge + CEILING, 40);
    put(m->gauge + SERIAL, lined);
}

static bool on_line(const struct memory *m, uint64_t n)
{
    const uint8_t *state = m->table + n * COT_RECORD_BYTES + STATE;

    return state[0] > 1 || state[1] > 0;
}

/* The key of call i. */
static uint64_t key_of(enum key key, const struct memory *m, uint64_t i)
{
    uint64_t k = m->table_len / COT_RECORD_BYTES, n = key == HALF_WAY ? k / 2 : 0;

    switch (key) {
    case NEW_KEYS:
        return COT_MOST_RECORDS + i;
    case NOWHERE:
        return UINT64_MAX;
    case LAST:
        return k - 1;
    case LAST_ON_LINE:
        n = k - 1;
        while (!on_line(m, n))
            n--;
        return n;
    default:
        while (on_line(m, n) != (key == FIRST_ON_LINE))
            n++;
        return n;
    }
}

static uint64_t call(const struct side *side, const struct test *test, struct memory *m, uint64_t key)
{
    switch (test->kind) {
    case UPDATE:
        return side->update(m->table, m->table_len, m->gauge, COT_GAUGE_BYTES,
                            m->lines, m->lines_len, key, test->weight);
    case WITHDRAW:
        return side->withdraw(m->table, m->table_len, m->gauge, COT_GAUGE_BYTES,
                              m->lines, m->lines_len, key);
    default:
        return side->read(m->table, m->table_len, m->gauge, COT_GAUGE_BYTES,
                          m->lines, m->lines_len, key, test->weight,
                          m->ticket, COT_TICKET_BYTES);
    }
}

/* Puts the record at place n back as it was. */
static void put_back(const struct memory *start, struct memory *m, uint64_t n)
{
    memcpy(m->table + n * COT_RECORD_BYTES, start->table + n * COT_RECORD_BYTES, COT_RECORD_BYTES);
}

/* Before each withdrawal of a key the one before is undone: its own record and the one
 * that may have got its line are put back. It counts with the call, on each side. */
static double batch(const struct side *side, const struct test *test, const struct memory *start,
                    struct memory *m, int calls, const uint64_t *keys, uint64_t *answers)
{
    bool undo = test->kind == WITHDRAW && test->key != NOWHERE;
    double began;

    *m = *start;
    began = now();
    for (int i = 0; i < calls; i++) {
        if (undo) {
            put_back(start, m, keys[i]); /* key n is at place n */
            put_back(start, m, start->hottest);
        }
        answers[i] = call(side, test, m, keys[i]);
    }
    return (now() - began) / calls;
}

/* False where a byte or an answer differs. */
static bool run(const struct test *test, size_t k)
{
    static struct memory start, m[SIDES];
    uint64_t keys[MOST_CALLS], answers[SIDES][MOST_CALLS];
    /* Of the free records of a table half free, no more than half are taken. */
    int calls = test->table == HALF_FREE && k / 4 < MOST_CALLS ? (int)k / 4 : MOST_CALLS;
    /* The older side comes last, and may not have the call. */
    int count = test->kind == WITHDRAW && !sides[SIDES - 1].withdraw ? SIDES - 1 : SIDES;
    double best[SIDES];

    fill(&start, k, test->table);
    for (int i = 0; i < calls; i++)
        keys[i] = key_of(test->key, &start, (uint64_t)i);
    for (int s = 0; s < count; s++)
        best[s] = INFINITY;
    for (int round = 0; round < ROUNDS; round++)
        for (int s = 0; s < count; s++) {
            int turn = (s + round) % count;
            best[turn] = fmin(best[turn], batch(&sides[turn], test, &start, &m[turn], calls, keys, answers[turn]));
        }
    printf("%s|%zu", test->name, k);
    for (int s = 0; s < count; s++) {
        if ((s < OLDER_SIDE && memcmp(&m[s], &m[0], sizeof *m) != 0) ||
            memcmp(answers[s], answers[0], (size_t)calls * sizeof **answers) != 0) {
            fprintf(stderr, "two sides differ: %s at K = %zu\n", test->name, k);
            return false;
        }
        printf("|%.1f", best[s]);
    }
    puts(count < SIDES ? "|-" : "");
    return true;
}

int main(void)
{
    static const size_t sizes[] = { 16, 128, 1024 };

    for (size_t i = 0; i < sizeof sizes / sizeof *sizes; i++)
        for (int t = 0; t < TESTS; t++)
            if (!run(&tests[t], sizes[i]))
                return 1;
    return 0;
}
