/* Times the library's exported calls beside the plain C version.
 *
 *   speed [--calls N]
 *       a Markdown table of nanoseconds a call; exit 1 where the two differ
 *   speed --only library|plain --k K --zipf S [--calls N]
 *       runs one of the two without timing and prints how many calls it made,
 *       for an instruction counter
 *
 * Of the requests, 5 in 100 are updates and the rest reads, of weight 1, on
 * Zipf keys; a read that answers wanted is followed by a fill. N counts
 * requests, in the table rounded up to hundreds; times are per call, and a fill
 * is a call of its own. */
#include "clock.h"
#include "plain.h"

#include <math.h>
#include <stdbool.h>
#include <stdio.h>
#include <stdlib.h>
#include <string.h>

uint64_t cot_read(uint8_t *table, size_t table_len, uint8_t *gauge, size_t gauge_len,
                  const uint8_t *lines, size_t lines_len, uint64_t key, uint64_t weight,
                  uint8_t *ticket, size_t ticket_len);
uint64_t cot_update(uint8_t *table, size_t table_len, uint8_t *gauge, size_t gauge_len,
                    const uint8_t *lines, size_t lines_len, uint64_t key, uint64_t weight);
uint64_t cot_fill(uint8_t *table, size_t table_len, const uint8_t *gauge, size_t gauge_len,
                  uint8_t *lines, size_t lines_len, uint64_t key,
                  const uint8_t *picture, size_t picture_len, uint64_t ticket);

enum { RECORD_BYTES = 40, GAUGE_BYTES = 24, LINE_BYTES = 64, TICKET_BYTES = 8 };
enum { MAX_RECORDS = 1024 };
enum { HIT = 2000, WANTED = 4000 };
enum { KEYS = 100000, UPDATES_IN_100 = 5 };
/* The sequence has this length whatever N is, so that its making cancels in
 * the difference of two instruction counts. A longer run begins it again. */
enum { SEQUENCE = 131072 };
enum { WARM_UP = 20000, DEFAULT_CALLS = 50000, ROUNDS = 5, SLICES = 100 };

struct implementation {
    const char *name;
    uint64_t (*read)(uint8_t *, size_t, uint8_t *, size_t,
                     const uint8_t *, size_t, uint64_t, uint64_t,
                     uint8_t *, size_t);
    uint64_t (*update)(uint8_t *, size_t, uint8_t *, size_t,
                       const uint8_t *, size_t, uint64_t, uint64_t);
    uint64_t (*fill)(uint8_t *, size_t, const uint8_t *, size_t,
                     uint8_t *, size_t, uint64_t, const uint8_t *, size_t,
                     uint64_t);
};

static const struct implementation LIBRARY = { "library", cot_read, cot_update, cot_fill };
static const struct implementation PLAIN = { "plain", plain_read, plain_update, plain_fill };

struct request {
    uint64_t key;
    bool update;
};

static struct request sequence[SEQUENCE];

struct memory {
    size_t table_len, lines_len;
    uint8_t table[MAX_RECORDS * RECORD_BYTES];
    uint8_t gauge[GAUGE_BYTES];
    uint8_t lines[MAX_RECORDS * LINE_BYTES];
    uint8_t ticket[TICKET_BYTES];
};

struct counts {
    uint64_t calls, reads, hits;
};

struct answers {
    uint64_t request, fill; /* fill is 0 where none was asked for */
};

static struct answers serve(const struct implementation *im, struct memory *m,
                            const struct request *q, struct counts *c)
{
    struct answers a = { 0, 0 };

    c->calls++;
    if (q->update) {
        a.request = im->update(m->table, m->table_len, m->gauge, GAUGE_BYTES,
                               m->lines, m->lines_len, q->key, 1);
        return a;
    }
    c->reads++;
    a.request = im->read(m->table, m->table_len, m->gauge, GAUGE_BYTES,
                         m->lines, m->lines_len, q->key, 1, m->ticket, TICKET_BYTES);
    if (a.request >= WANTED) {
        uint8_t picture[LINE_BYTES] = { 0 };
        uint64_t ticket;
        memcpy(picture, &q->key, sizeof q->key);
        memcpy(&ticket, m->ticket, sizeof ticket);
        c->calls++;
        a.fill = im->fill(m->table, m->table_len, m->gauge, GAUGE_BYTES,
                          m->lines, m->lines_len, q->key, picture, LINE_BYTES, ticket);
    } else if (a.request >= HIT) {
        c->hits++;
    }
    return a;
}

static void run(const struct implementation *im, struct memory *m,
                size_t first, size_t requests, struct counts *c)
{
    for (size_t i = first; i < first + requests; i++)
        serve(im, m, &sequence[i % SEQUENCE], c);
}

static void fresh(struct memory *m, size_t k)
{
    memset(m, 0, sizeof *m);
    m->table_len = k * RECORD_BYTES;
    m->lines_len = k / 4 * LINE_BYTES;
}

/* The mixing step of splitmix64, which maps numbers one to one. */
static uint64_t mix(uint64_t z)
{
    z = (z ^ (z >> 30)) * 0xbf58476d1ce4e5b9u;
    z = (z ^ (z >> 27)) * 0x94d049bb133111ebu;
    return z ^ (z >> 31);
}

static uint64_t next_random(uint64_t *seed)
{
    *seed += 0x9e3779b97f4a7c15u;
    return mix(*seed);
}

/* The least n under KEYS with cumulative[n] over u, or the last. */
static size_t rank_of(const double *cumulative, double u)
{
    size_t low = 0, high = KEYS - 1;

    while (low < high) {
        size_t middle = (low + high) / 2;
        if (cumulative[middle] > u)
            high = middle;
        else
            low = middle + 1;
    }
    return low;
}

/* The key of rank n, from 0, comes with a likelihood of 1 / (n + 1)^zipf. */
static void make_sequence(double zipf)
{
    static double cumulative[KEYS];
    uint64_t seed = 1;
    double sum = 0;

    for (size_t n = 0; n < KEYS; n++) {
        sum += pow((double)(n + 1), -zipf);
        cumulative[n] = sum;
    }
    for (size_t i = 0; i < SEQUENCE; i++) {
        double u = ldexp((double)(next_random(&seed) >> 11), -53) * sum;
        sequence[i].key = mix(rank_of(cumulative, u) + 1);
        sequence[i].update = next_random(&seed) % 100 < UPDATES_IN_100;
    }
}

/* Runs both from fresh over the warm-up. False where an answer or a lent byte
 * differs. */
static bool warm_up(struct memory *a, struct memory *b)
{
    struct counts c = { 0, 0, 0 };

    for (size_t i = 0; i < WARM_UP; i++) {
        const struct request *q = &sequence[i];
        struct answers x = serve(&LIBRARY, a, q, &c);
        struct answers y = serve(&PLAIN, b, q, &c);
        if (x.request != y.request || x.fill != y.fill || memcmp(a, b, sizeof *a) != 0) {
            fprintf(stderr, "request %zu, %s of key %llu: library answers %llu %llu, "
                    "plain %llu %llu, lent bytes %s\n",
                    i + 1, q->update ? "update" : "read", (unsigned long long)q->key,
                    (unsigned long long)x.request, (unsigned long long)x.fill,
                    (unsigned long long)y.request, (unsigned long long)y.fill,
                    memcmp(a, b, sizeof *a) == 0 ? "agree" : "differ");
            return false;
        }
    }
    return true;
}

/* The best times of an implementation, slice by slice of the timed run. */
struct times {
    double slice[SLICES];
    struct counts counts;
};

/* Times a run from the memory as the warm-up left it. Every run does the same,
 * so the best time of each slice is kept. */
static void time_run(const struct implementation *im, const struct memory *start,
                     size_t slice, struct times *t)
{
    static struct memory m;

    m = *start;
    memset(&t->counts, 0, sizeof t->counts);
    for (size_t s = 0; s < SLICES; s++) {
        double began = now();
        run(im, &m, WARM_UP + s * slice, slice, &t->counts);
        t->slice[s] = fmin(t->slice[s], now() - began);
    }
}

static double time_of_call(const struct times *t)
{
    double sum = 0;

    for (size_t s = 0; s < SLICES; s++)
        sum += t->slice[s];
    return sum / (double)t->counts.calls;
}

/* Prints one row of the table. False where the two differ. */
static bool compare(size_t k, double zipf, size_t slice)
{
    static struct memory a, b;
    struct times library, plain;
    double x, y;

    fresh(&a, k);
    fresh(&b, k);
    if (!warm_up(&a, &b)) {
        fprintf(stderr, "the two differ at K = %zu, Zipf %.1f\n", k, zipf);
        return false;
    }
    for (size_t s = 0; s < SLICES; s++)
        library.slice[s] = plain.slice[s] = INFINITY;
    for (int round = 0; round < ROUNDS; round++) {
        time_run(&LIBRARY, &a, slice, &library);
        time_run(&PLAIN, &b, slice, &plain);
    }
    if (memcmp(&library.counts, &plain.counts, sizeof plain.counts) != 0) {
        fprintf(stderr, "the two count differently at K = %zu, Zipf %.1f\n", k, zipf);
        return false;
    }
    x = time_of_call(&library);
    y = time_of_call(&plain);
    printf("| %4zu | %3zu | %4.1f | %10.1f | %8.1f | %5.2f | %9.3f |\n", k, k / 4, zipf,
           x, y, x / y, (double)plain.counts.hits / (double)plain.counts.reads);
    fflush(stdout);
    return true;
}

static bool compare_all(size_t requests)
{
    static const size_t sizes[] = { 16, 128, 1024 };
    static const double skews[] = { 0.9, 1.2 };

    puts("|    K |   C | Zipf | library ns | plain ns | ratio | hit ratio |\n"
         "|-----:|----:|-----:|-----------:|---------:|------:|----------:|");
    for (size_t s = 0; s < sizeof skews / sizeof *skews; s++) {
        make_sequence(skews[s]);
        for (size_t i = 0; i < sizeof sizes / sizeof *sizes; i++)
            if (!compare(sizes[i], skews[s], (requests + SLICES - 1) / SLICES))
                return false;
    }
    return true;
}

struct options {
    size_t calls, k;
    double zipf;
    const struct implementation *only;
};

/* False where the arguments make no sense. */
static bool parse(int argc, char **argv, struct options *o)
{
    for (int i = 1; i < argc; i += 2) {
        const char *name = argv[i], *value = argv[i + 1];
        if (!value)
            return false;
        if (strcmp(name, "--calls") == 0)
            o->calls = strtoul(value, NULL, 10);
        else if (strcmp(name, "--k") == 0)
            o->k = strtoul(value, NULL, 10);
        else if (strcmp(name, "--zipf") == 0)
            o->zipf = strtod(value, NULL);
        else if (strcmp(name, "--only") == 0 && strcmp(value, LIBRARY.name) == 0)
            o->only = &LIBRARY;
        else if (strcmp(name, "--only") == 0 && strcmp(value, PLAIN.name) == 0)
            o->only = &PLAIN;
        else
            return false;
    }
    if (o->only)
        return o->calls > 0 && o->k > 0 && o->k <= MAX_RECORDS && o->zipf > 0;
    return o->calls > 0 && o->k == 0 && o->zipf == 0;
}

int main(int argc, char **argv)
{
    static struct memory m;
    struct counts c = { 0, 0, 0 };
    struct options o = { DEFAULT_CALLS, 0, 0, NULL };

    if (!parse(argc, argv, &o)) {
        fputs("usage: speed [--calls N]\n"
              "       speed --only library|plain --k K --zipf S [--calls N]\n", stderr);
        return 2;
    }
    if (!o.only)
        return compare_all(o.calls) ? 0 : 1;
    make_sequence(o.zipf);
    fresh(&m, o.k);
    run(o.only, &m, 0, o.calls, &c);
    printf("%llu\n", (unsigned long long)c.calls);
    return 0;
}
