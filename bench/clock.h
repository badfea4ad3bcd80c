/* A clock for the benches. Include it first: it asks for POSIX's functions. */
#ifndef CLOCK_H
#define CLOCK_H

#define _POSIX_C_SOURCE 200809L

#include <time.h>

/* Processor time in nanoseconds, so that other programs on the machine weigh less. */
static inline double now(void)
{
    struct timespec t;

    clock_gettime(CLOCK_PROCESS_CPUTIME_ID, &t);
    return (double)t.tv_sec * 1e9 + (double)t.tv_nsec;
}

#endif
